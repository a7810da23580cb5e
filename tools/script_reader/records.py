"""Tokens to the records that the proved programs read, one a line (docs/FORMAT.md). Not proved."""
from .lexer import END, FLOAT, INTEGER, NAME, STRING


class Ids:
    """Ids of strings and names, in order of first appearance, from 1; equal bytes have one id."""

    def __init__(self):
        self.of, self.bytes = {}, {}

    def id(self, value):
        if value not in self.of:
            number = len(self.of) + 1
            self.of[value], self.bytes[number] = number, value
        return self.of[value]


def payload(token, ids):
    if token.kind in (INTEGER, FLOAT):
        return token.value
    if token.kind in (STRING, NAME):
        return ids.id(token.value)
    return 0


def line(kind, payload, line, after_line):
    return f"{kind:02x} {payload:016x} {line:08x} {after_line:08x}\n"


def end(number):
    return line(END, 0, number, number)


def lines(tokens, ids):
    """A line for each token, the end included."""
    return [line(token.kind, payload(token, ids), token.line, token.after_line) for token in tokens]
