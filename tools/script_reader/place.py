"""Where a refusal stands that names no token (docs/FORMAT.md: 2 to 5 tell a line only). Not proved.

The programs are asked again, on the script's beginnings: a beginning is lost if it is refused so whatever comes next. The last token of the
shortest lost beginning is the one at fault; where no beginning is lost, the script's end is.
"""
from . import records
from .lexer import KIND, NAME
from .program import MOST_TOKENS

# What may come next. A beginning that can go on is told otherwise with one of these: where it wants more after `=` too, as after `for i`,
# a name is unexpected; and after `a, f()` a `.` may make it a variable yet.
NEXT = [[]] + [[records.line(kind, int(kind == NAME), 1, 1)] for kind in (NAME, KIND[b"="], KIND[b"."])]


def at_fault(programs, lines, answer):
    """The index of the token at fault, or None for the script's end; `lines` are those of the stream, the end included."""
    tokens, end = lines[:-1], lines[-1:]

    def as_before(reading):
        return (reading.answer.number, reading.answer.expected) == (answer.number, answer.expected)

    def lost(length):
        if length == MOST_TOKENS:  # there is no room for what comes next
            return answer.number != 2
        return all(any(map(as_before, told)) for told in programs.both([tokens[:length] + way + end for way in NEXT]))

    if not lost(len(tokens)):
        return None
    low, high = 0, len(tokens)  # the empty beginning is not lost
    while high - low > 1:
        middle = (low + high) // 2
        if lost(middle):
            high = middle
        else:
            low = middle
    return high - 1
