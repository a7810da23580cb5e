"""An answer of the proved programs in a person's words. Not proved."""
from . import brackets, place, records, tree
from .lexer import END, KIND, NAME, STRING, WORDS, LexingFault, lex
from .outline import Outline
from .pieces import both_readings
from .program import MOST_RECORDS, MOST_TOKENS, CannotRun
from .source import MARGIN, Source

ACCEPTED, GOES_BACK = range(2)
WIDEST_READING = 90
LONGEST_STRING = 24
QUARREL = "the floor and the office read this `~=` differently"
EXPECTED = {
    60: "a name", 61: "a name or an expression in brackets", 62: "the arguments of a call", 63: "a parameter's name or `...`",
    64: "`=` or `in`",
}  # fmt: skip
REFUSED = {
    3: "what this assigns to is no variable",
    4: "before this stands an expression where a statement is expected: only a call or an assignment can stand alone",
    5: "too many levels: at most 199 statements and expressions can be open at once",
}
NOT_CLOSED = {b"end": (b"function", b"if", b"do"), b"until": (b"repeat",), b")": (b"(",), b"]": (b"[",), b"}": (b"{",)}
OPENS = {KIND[word] for words in NOT_CLOSED.values() for word in words}
CLOSES = {KIND[word]: {KIND[opening] for opening in words} for word, words in NOT_CLOSED.items()}
BELONGS = {KIND[word] for word in (b"end", b"else", b"elseif", b"until")}
INNER = [tree.GROUPED, tree.INDEX, tree.CALL, tree.METHOD_CALL, tree.TABLE]


def expected_words(expected):
    """What was expected, by its number (docs/FORMAT.md)."""
    return EXPECTED.get(expected) or f"`{WORDS[expected - 1]}`"


def too_large(part, number, things, most):
    return CannotRun(f"the script{part} has {number:,} {things} and the program takes at most {most:,}: that is no fault of the script")


class Script:
    """One script: its text, its tokens, its records, and what is told of it."""

    def __init__(self, label, text, programs):
        self.label, self.source, self.programs = label, Source(text), programs
        self.ids = records.Ids()
        self.tokens = self.lines = None

    def told(self, with_tree=False):
        """The verdict (ACCEPTED or GOES_BACK) and the lines that tell it; raises CannotRun where there is none."""
        try:
            self.tokens = lex(self.source.text)
        except LexingFault as fault:
            return GOES_BACK, self.marked(fault.what, fault.line, fault.start, fault.end)
        if len(self.tokens) - 1 > MOST_TOKENS:
            raise too_large("", len(self.tokens) - 1, "tokens", MOST_TOKENS)
        self.lines = records.lines(self.tokens, self.ids)
        answer, flat = self.programs.intake(self.lines)
        if answer.number == 0:
            return ACCEPTED, [f"{self.label}: accepted"] + (self.tree_lines(flat) if with_tree else [])
        if answer.number == 6:
            raise CannotRun(f"the program calls record {answer.found} malformed: that is a fault of tools/read, not of the script")
        if answer.number == 7:
            raise too_large("'s tree", answer.count // 4, "records", MOST_RECORDS)
        return GOES_BACK, self.quarrel(answer) if answer.number == 8 else self.refusal(answer)

    def marked(self, what, line, start, end):
        return [f"{self.label}:{line}:{self.source.column(start)}: {what}"] + self.source.underlined(start, end)

    def marked_token(self, what, index):
        token = self.tokens[index]
        return self.marked(what, token.line, token.start, token.end)

    def marked_end(self, what):
        """At the end of the last token: the end of the text may be many empty lines further on."""
        if len(self.tokens) == 1:
            return self.marked_token(what, 0)
        last = self.tokens[-2]
        return self.marked(what, last.after_line, last.end, last.end)

    def shown(self, index):
        """A token as it is in the source, a long string cut."""
        token = self.tokens[index]
        text = self.source.shown(token.start, token.end)
        if token.kind == STRING and len(text) > LONGEST_STRING:
            return text[: LONGEST_STRING - 4] + "..." + text[-1]
        return text

    # refusals

    def refusal(self, answer):
        if answer.number == 1:
            what = f"{self.expected(answer, answer.found)}, but `{self.shown(answer.found)}` stands here"
            return self.marked_token(what, answer.found) + self.attrib(answer.found)
        if answer.number == 2 and answer.expected:
            return self.marked_end(f"{self.expected(answer, len(self.tokens) - 1)}, but the script ends here")
        index = place.at_fault(self.programs, self.lines, answer)
        if answer.number == 2:
            return self.marked_end("the script ends here, in the middle of a statement") if index is None else self.left_over(index)
        if index is None:
            return self.marked_end(REFUSED[answer.number])
        return self.marked_token(REFUSED[answer.number], index)

    def expected(self, answer, before):
        verb = "are" if answer.expected == 62 else "is"
        return f"{expected_words(answer.expected)} {verb} expected{self.to_close(answer.expected, before)}"

    def left_over(self, index):
        if self.tokens[index].kind in BELONGS:
            return self.marked_token(f"`{self.shown(index)}` stands here, but nothing is open that it could belong to", index)
        return self.marked_token("the script is over after its `return`, but more stands here", index)

    def to_close(self, expected, before):
        """Which opening the expected token would close, where that is in another line."""
        if expected - 1 not in CLOSES:
            return ""
        opened = []
        for token in self.tokens[:before]:
            if token.kind in OPENS:
                opened.append(token)
            elif token.kind in CLOSES and opened and opened[-1].kind in CLOSES[token.kind]:
                opened.pop()
        here = self.tokens[before - (self.tokens[before].kind == END)].line
        if not opened or opened[-1].kind not in CLOSES[expected - 1] or opened[-1].line == here:
            return ""
        return f" to close the `{WORDS[opened[-1].kind]}` of line {opened[-1].line}"

    def attrib(self, found):
        around = [(token.kind, token.value) for token in self.tokens[found - 1 : found + 3]]
        if [kind for kind, _ in around] == [NAME, KIND[b"<"], NAME, KIND[b">"]] and around[2][1] in (b"const", b"close"):
            return [MARGIN + "(the terminal reads no attribs, such as <const> and <close>)"]
        return []

    # quarrels

    def quarrel(self, answer):
        floor, office = {}, {}
        for first, last, crate, manual in both_readings(self.programs, self.tokens, self.lines):
            for operations, reading in ((floor, crate), (office, manual)):
                if reading.records:
                    operations.update(brackets.operations(tree.placed(reading.records, self.tokens, first, last)))
        found = brackets.quarrels(floor, office)
        told, last = [], None
        if answer.found not in floor:
            told = self.marked_token(QUARREL, answer.found) + ["  (the statement is too large for both readings to be spelled out)"]
        elif found[0] != answer.found:
            raise CannotRun("the two readings do not fit the verdict: that is a fault of tools/read, not of the script")
        for at in found:
            whole = floor[at].whole
            told += self.marked_token(QUARREL, at)
            told += ["  (in the same expression)"] if whole is last else self.readings(floor, office, at, found)
            last = whole
        return told + ["  Write the brackets of the reading that is meant, and both read it alike."]

    def readings(self, floor, office, at, found):
        """Both readings with brackets; as much is left out, the longest first, as makes them fit."""
        whole = floor[at].whole
        hidden = brackets.inner_parts(whole, [tree.DEFINITION])
        inner = sorted(brackets.inner_parts(whole, INNER).items(), key=lambda part: self.length(*part), reverse=True)
        for more in [{}] + [dict([part]) for part in inner] + [brackets.shared(floor, office, whole, found)]:
            hidden = {**hidden, **more}
            texts = [brackets.spelled_out(reading, at, hidden, self.space_before, self.shown) for reading in (floor, office)]
            if max(map(len, texts)) <= WIDEST_READING:
                break
        return [f"  floor: {self.cut(texts[0])}", f"  office: {self.cut(texts[1])}"]

    def length(self, first, last):
        return self.tokens[last - 1].end - self.tokens[first].start

    def cut(self, text):
        return text if len(text) <= 2 * WIDEST_READING else text[: 2 * WIDEST_READING] + " ..."

    def space_before(self, index):
        return self.tokens[index - 1].end < self.tokens[index].start

    # the tree

    def tree_lines(self, flat):
        return ["  " + line for line in Outline(self.name, self.string).lines(tree.nested(flat))]

    def name(self, number):
        return self.ids.bytes[number].decode()

    def string(self, number):
        return '"' + "".join(chr(b) if 32 <= b < 127 and b not in b'"\\' else f"\\{b:03d}" for b in self.ids.bytes[number]) + '"'
