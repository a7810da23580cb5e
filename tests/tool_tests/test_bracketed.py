"""The brackets that tests/real writes into a script."""
import os
import sys
import unittest

from support import PROGRAMS, ROOT

sys.path.insert(0, os.path.join(ROOT, "tests", "real_scripts"))

from bracketed import bracketed, operations  # noqa: E402
from script_reader import tree  # noqa: E402
from script_reader.lexer import lex  # noqa: E402
from script_reader.program import Programs  # noqa: E402
from script_reader.records import Ids, lines  # noqa: E402

RUN = Programs(PROGRAMS)


def both(text):
    """The text with the brackets of the crate tree, and with those of the manual tree."""
    tokens = lex(text)
    trees = [tree.placed(reading.records, tokens, 0, len(tokens) - 1) for reading in RUN.both([lines(tokens, Ids())])[0]]
    return [bracketed(text, tokens, operations(top)) for top in trees]


class Bracketed(unittest.TestCase):
    def test_every_operation_and_nothing_else(self):
        for text, anew in (
            (b"return -x^2", b"return (-(x^2))"),
            (b"return a-b-c, a..b..c", b"return ((a-b)-c), (a..(b..c))"),
            (b"return not not a == b", b"return ((not (not a)) == b)"),
            (b"f(-1, ...) g{1+2, [3*4]=#t}", b"f((-1), ...) g{(1+2), [(3*4)]=(#t)}"),
            (b"x = f() or (...) -- or\n\tand y.z", b"x = (f() or ((...) -- or\n\tand y.z))"),
            (b"#! x\nx = (a) < 2 and function() return 1 + 1 end", b"#! x\nx = (((a) < 2) and function() return (1 + 1) end)"),
        ):
            self.assertEqual(both(text), [anew, anew])

    def test_both_rankings(self):
        self.assertEqual(both(b"return a ~= b + c"), [b"return ((a ~= b) + c)", b"return (a ~= (b + c))"])

    def test_how_many_operations_it_is_part_of(self):
        tokens = lex(b"x = a + b + -c * d")
        top = tree.placed(RUN.both([lines(tokens, Ids())])[0][1].records, tokens, 0, len(tokens) - 1)
        self.assertEqual(sorted(operations(top)), [(2, 5, 1), (2, 10, 0), (6, 8, 2), (6, 10, 1)])


if __name__ == "__main__":
    unittest.main()
