"""A Lua script's bytes to tokens, by section 3.1 of the Lua 5.4 manual. Not proved."""
import re
import struct

WORDS = """break do else elseif end false for function goto if in local nil not and or repeat return then true until while
    - + * / // ^ % # ~ & | >> << .. ... = < <= > >= == ~= . ; : :: , ( ) [ ] { }""".split()
KIND = {word.encode(): kind for kind, word in enumerate(WORDS)}
INTEGER, FLOAT, STRING, NAME, END = 55, 56, 57, 58, 59


class Token:
    """A token: its kind, its value (64 bits for a number, bytes for a string or a name), lines, and its place in the text."""

    __slots__ = ("kind", "value", "line", "after_line", "start", "end")

    def __init__(self, kind, value, line, after_line, start, end):
        self.kind, self.value, self.line, self.after_line, self.start, self.end = kind, value, line, after_line, start, end


class LexingFault(Exception):
    """Bytes that are no token: what is wrong, and where."""

    def __init__(self, what, line, start, end):
        super().__init__(what)
        self.what, self.line, self.start, self.end = what, line, start, end


NEWLINE = rb"\r\n|\n\r|\n|\r"
BREAK = re.compile(NEWLINE)
BLANK = re.compile(rb"[ \t\v\f]+")
LONG_OPENING = re.compile(rb"\[(=*)\[")
REST_OF_LINE = re.compile(rb"[^\r\n]*")
NAME_FORM = re.compile(rb"[A-Za-z_][A-Za-z0-9_]*")
SYMBOL = re.compile(b"|".join(re.escape(word.encode()) for word in sorted(WORDS[22:], key=len, reverse=True)))
# what the lexer takes for a numeral, well formed or not: as far as it goes, and a letter that touches it
NUMERAL_REACH = re.compile(rb"(?:0[xX](?:[pP][+-]?|[0-9A-Fa-f.])*|(?:[eE][+-]?|[0-9A-Fa-f.])*)[A-Za-z_]?")
DECIMAL = re.compile(rb"([0-9]+)|(?:[0-9]+\.?[0-9]*|\.[0-9]+)(?:[eE][+-]?[0-9]+)?")
HEXADECIMAL = re.compile(rb"0[xX](?:([0-9A-Fa-f]+)|(?:[0-9A-Fa-f]+\.?[0-9A-Fa-f]*|\.[0-9A-Fa-f]+)(?:[pP][+-]?[0-9]+)?)")
PLAIN = re.compile(rb"[^\\\r\n\"']+")
SKIPPED = re.compile(rb"(?:[ \t\v\f]+|" + NEWLINE + rb")*")
HEX_ESCAPE = re.compile(rb"x([0-9A-Fa-f]{2})")
DECIMAL_ESCAPE = re.compile(rb"[0-9]{1,3}")
CODE_ESCAPE = re.compile(rb"u\{([0-9A-Fa-f]+)\}")
SIMPLE_ESCAPE = {
    ord("a"): b"\a", ord("b"): b"\b", ord("f"): b"\f", ord("n"): b"\n", ord("r"): b"\r", ord("t"): b"\t", ord("v"): b"\v",
    ord("\\"): b"\\", ord('"'): b'"', ord("'"): b"'",
}


def breaks(text, start, end):
    """How many line breaks stand from start to end; CR LF and LF CR are one."""
    return sum(1 for _ in BREAK.finditer(text, start, end))


def numeral(text):
    """The kind and the 64 bits of a numeral, or None where it is malformed."""
    form = HEXADECIMAL.fullmatch(text)
    if form:
        if form.group(1):
            return INTEGER, int(form.group(1), 16) % 2**64  # wraps around
        return FLOAT, bits(hexadecimal_float(text.decode()))
    form = DECIMAL.fullmatch(text)
    if not form:
        return None
    if form.group(1):
        digits = text.lstrip(b"0")
        if len(digits) <= 19 and int(digits or b"0") < 2**63:  # else a float
            return INTEGER, int(digits or b"0")
    return FLOAT, bits(float(text))


def hexadecimal_float(text):
    try:
        return float.fromhex(text)
    except OverflowError:
        return float("inf")


def bits(number):
    return struct.unpack("<Q", struct.pack("<d", number))[0]


def stray(text, at):
    """What is told of bytes that begin no token, and where they stand: a whole character, where there is one."""
    for length in (1, 2, 3, 4):
        try:
            character = text[at : at + length].decode()
        except UnicodeDecodeError:
            continue
        if character.isprintable():
            return f"`{character}` has no place in a script", at, at + length
        break
    return f"the byte {text[at]} has no place in a script", at, at + 1


def utf8(code):
    """The bytes of a code below 2^31, by UTF-8 as it was first defined."""
    if code < 0x80:
        return bytes([code])
    tail, room = [], 0x3F
    while code > room:
        tail.append(0x80 | code & 0x3F)
        code >>= 6
        room >>= 1
    return bytes([(~room << 1) & 0xFF | code] + tail[::-1])


class Lexer:
    """One pass over a script."""

    def __init__(self, text):
        self.text, self.at, self.line = text, 0, 1
        self.skip_opening()

    def skip_opening(self):
        """Past a byte order mark, and past a first line that begins with #, as Lua's own loader goes."""
        if self.text.startswith(b"\xef\xbb\xbf"):
            self.at = 3
        if self.text.startswith(b"#", self.at):
            self.at = REST_OF_LINE.match(self.text, self.at).end()

    def fault(self, what, start, end, line=None):
        return LexingFault(what, self.line if line is None else line, start, end)

    def tokens(self):
        """The tokens in order, and then one of kind END; or a LexingFault."""
        found = []
        while True:
            self.skip_blanks()
            token = self.token()
            found.append(token)
            if token.kind == END:
                return found

    def skip_blanks(self):
        """Past blanks, line breaks and comments."""
        text = self.text
        while True:
            blank = BLANK.match(text, self.at)
            if blank:
                self.at = blank.end()
            newline = BREAK.match(text, self.at)
            if newline:
                self.at, self.line = newline.end(), self.line + 1
            elif text.startswith(b"--", self.at):
                self.skip_comment()
            elif not blank:
                return

    def skip_comment(self):
        start = self.at
        opening = LONG_OPENING.match(self.text, start + 2)
        if opening:
            self.long_bracket(opening, start, "this comment is not finished: {} is missing")
        else:
            self.at = REST_OF_LINE.match(self.text, start).end()

    def long_bracket(self, opening, start, unfinished):
        """Past a long bracket; what stands in it."""
        closing = b"]" + opening.group(1) + b"]"
        inside, end = opening.end(), self.text.find(closing, opening.end())
        if end < 0:
            raise self.fault(unfinished.format(f"`{closing.decode()}`"), start, opening.end())
        self.at = end + len(closing)
        self.line += breaks(self.text, inside, end)
        return self.text[inside:end]

    def token(self):
        text, start, line = self.text, self.at, self.line
        if start == len(text):
            return Token(END, 0, line, line, start, start)
        name = NAME_FORM.match(text, start)
        if name:
            self.at = name.end()
            kind = KIND.get(name.group())
            return self.made(NAME if kind is None else kind, name.group() if kind is None else 0, start, line)
        byte = text[start]
        if byte in b"0123456789" or byte == 0x2E and text[start + 1 : start + 2].isdigit():
            return self.made(*self.number(), start, line)
        if byte in b"\"'":
            return self.made(STRING, self.short_string(), start, line)
        if byte == 0x5B:
            opening = LONG_OPENING.match(text, start)
            if opening:
                inside = self.long_bracket(opening, start, "this string is not finished: {} is missing")
                first = BREAK.match(inside)  # a line break that comes first is not part of the string
                return self.made(STRING, BREAK.sub(b"\n", inside[first.end() if first else 0 :]), start, line)
            if text[start + 1 : start + 2] == b"=":
                raise self.fault("this long bracket is malformed", start, re.compile(rb"\[=+").match(text, start).end())
        symbol = SYMBOL.match(text, start)
        if not symbol:
            raise self.fault(*stray(text, start))
        self.at = symbol.end()
        return self.made(KIND[symbol.group()], 0, start, line)

    def made(self, kind, value, start, line):
        return Token(kind, value, line, self.line, start, self.at)

    def number(self):
        reach = NUMERAL_REACH.match(self.text, self.at)
        value = numeral(reach.group())
        if value is None:
            raise self.fault("this number is malformed", self.at, reach.end())
        self.at = reach.end()
        return value

    def short_string(self):
        text, start, line = self.text, self.at, self.line
        quote = text[start : start + 1]
        at, parts = start + 1, []
        while True:
            plain = PLAIN.match(text, at)
            if plain:
                parts.append(plain.group())
                at = plain.end()
            here = text[at : at + 1]
            if here == quote:
                self.at = at + 1
                return b"".join(parts)
            if here == b"\\":
                part, at = self.escape(at)
                parts.append(part)
            elif here in (b"", b"\r", b"\n"):
                if self.line == line:
                    raise self.fault(f"this string is not finished: {quote.decode()} is missing", start, at)
                raise self.fault(f"the string that begins in line {line} is not finished: {quote.decode()} is missing", at, at)
            else:
                parts.append(here)  # the other quote
                at += 1

    def escape(self, at):
        """The bytes of the escape sequence at a backslash, and where it ends."""
        text = self.text
        letter = text[at + 1 : at + 2]
        if letter and letter[0] in SIMPLE_ESCAPE:
            return SIMPLE_ESCAPE[letter[0]], at + 2
        newline = BREAK.match(text, at + 1)
        if newline:
            self.line += 1
            return b"\n", newline.end()
        if letter == b"z":
            skipped = SKIPPED.match(text, at + 2)
            self.line += breaks(text, at + 2, skipped.end())
            return b"", skipped.end()
        for form, meaning, what in (
            (DECIMAL_ESCAPE, decimal_byte, "this escape sequence is above 255"),
            (HEX_ESCAPE, lambda m: bytes([int(m.group(1), 16)]), ""),
            (CODE_ESCAPE, code_bytes, "this escape sequence is above 7FFFFFFF"),
        ):
            escape = form.match(text, at + 1)
            if escape:
                part = meaning(escape)
                if part is None:
                    raise self.fault(what, at, escape.end())
                return part, escape.end()
        # not into the next line
        raise self.fault("this escape sequence is none that Lua has", at, at + (2 if letter else 1))


def decimal_byte(escape):
    value = int(escape.group())
    return bytes([value]) if value <= 255 else None


def code_bytes(escape):
    digits = escape.group(1).lstrip(b"0")
    return utf8(int(digits or b"0", 16)) if len(digits) <= 8 and int(digits or b"0", 16) < 2**31 else None


def lex(text):
    """The tokens of a script's bytes, the END token last."""
    return Lexer(text).tokens()
