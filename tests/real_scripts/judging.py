"""One script: its readings compared, and its manual tree held to luac5.4."""
import hashlib
import subprocess

from bracketed import bracketed, operations
from readers import Difference, stream
from script_reader import brackets, tree
from script_reader.lexer import KIND, LexingFault, lex
from script_reader.telling import QUARREL, REFUSED, Script

MOST_TOKENS = 1_048_576
MOST_PARTS = 256
TOO_DEEP = b"C stack overflow"
OPERATORS = {KIND[word.encode()] for word in tree.UNARY + tree.BINARY}


def compiled(text):
    """The bytecode without names and lines (but for those where functions begin and end), or luac's message."""
    ended = subprocess.run(["luac5.4", "-s", "-o", "/dev/stdout", "-"], input=text, stdout=subprocess.PIPE, stderr=subprocess.PIPE)
    return (ended.stdout, None) if ended.returncode == 0 else (None, ended.stderr)


def same_bytecode(text, tokens, top, bytecode):
    """Whether the text with every operation of the tree bracketed compiles alike, and in how many parts that was tried.

    Lua takes 200 levels. Where brackets round all operations are more than that, every second one has them, and then the others; and so on.
    """
    found, parts = operations(top), 1
    while True:
        same = True
        for part in range(parts):
            anew, message = compiled(bracketed(text, tokens, [operation for operation in found if operation[2] % parts == part]))
            if message is not None and TOO_DEEP in message and parts < MOST_PARTS:
                break
            same = same and anew == bytecode
        else:
            return same, parts
        parts *= 2


class Judged:
    """What came out of a script."""

    def __init__(self, label, text):
        self.label, self.sum = label, hashlib.sha256(text).digest()
        self.luac = None  # its message, where luac5.4 refuses the script
        self.difference = None
        self.answers = None  # of the three readings
        self.tokens = self.not_equal = self.operations = self.parts = 0
        self.refusal, self.attrib = None, False
        self.quarrels, self.floor_same = [], None


def judged(path, label, readers):
    with open(path, "rb") as opened:
        text = opened.read()
    told = Judged(label, text)
    bytecode, message = compiled(text)
    if message is not None:
        told.luac = message.decode(errors="replace").strip().removeprefix("luac5.4: ")
    else:
        try:
            judge(told, text, bytecode, readers)
        except (Difference, LexingFault, ValueError) as difference:
            told.difference = str(difference)
    return told


def judge(told, text, bytecode, readers):
    script = Script(told.label, text, None)
    tokens = script.tokens = lex(text)
    told.tokens = len(tokens) - 1
    if told.tokens > MOST_TOKENS:
        return
    readings = readers.readings(stream(tokens, script.ids))
    told.answers = [answer for answer, _ in readings]
    told.not_equal = sum(token.kind == KIND[b"~="] for token in tokens)
    floor, office = (tree.placed(flat, tokens, 0, told.tokens) if flat else None for _, flat in readings[:2])
    if office:
        told.operations = len(operations(office))
        if told.operations != sum(token.kind in OPERATORS for token in tokens):
            raise Difference("the manual tree has not every operator")
        same, told.parts = same_bytecode(text, tokens, office, bytecode)
        if not same:
            raise Difference("luac5.4 gives other bytecode with every operation of the manual tree bracketed")
    agreed = told.answers[2]
    if agreed.number == 8:
        told.quarrels = quarrels(script, brackets.operations(floor), brackets.operations(office), agreed.found)
        told.floor_same, _ = same_bytecode(text, tokens, floor, bytecode)
    elif agreed.number != 0:
        told.refusal, told.attrib = refusal(script, agreed)


def quarrels(script, floor, office, first):
    """The lines that tell each quarrel."""
    found = brackets.quarrels(floor, office)
    if found[:1] != [first]:
        raise Difference("the two trees part at another ~= than the agreed reading names")
    return [script.marked_token(QUARREL, at) + script.readings(floor, office, at, found) for at in found]


def refusal(script, answer):
    """The lines that tell it, and whether an attrib is at fault."""
    if answer.number == 1:
        return script.refusal(answer), bool(script.attrib(answer.found))
    what = REFUSED.get(answer.number, f"refused with {answer.number}")
    return [f"{script.label}:{answer.line}: {what}"], False
