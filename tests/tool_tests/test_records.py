import unittest

import support  # noqa: F401

from script_reader.lexer import lex
from script_reader.program import Answer, CannotRun, Reading, readings
from script_reader.records import Ids, lines


def stream(text):
    return lines(lex(text), Ids())


class Records(unittest.TestCase):
    def test_a_script(self):
        self.assertEqual(
            stream(b"return -x^2"),
            [
                "11 0000000000000000 00000001 00000001\n",
                "16 0000000000000000 00000001 00000001\n",
                "3a 0000000000000001 00000001 00000001\n",
                "1b 0000000000000000 00000001 00000001\n",
                "37 0000000000000002 00000001 00000001\n",
                "3b 0000000000000000 00000001 00000001\n",
            ],
        )

    def test_empty(self):
        self.assertEqual(stream(b""), ["3b 0000000000000000 00000001 00000001\n"])

    def test_payloads_and_lines(self):
        self.assertEqual(
            stream(b"x = 1.5\n\ny = 0xffffffffffffffff .. [[\n\n]]\n")[2:],
            [
                "38 3ff8000000000000 00000001 00000001\n",
                "3a 0000000000000002 00000003 00000003\n",
                "25 0000000000000000 00000003 00000003\n",
                "37 ffffffffffffffff 00000003 00000003\n",
                "23 0000000000000000 00000003 00000003\n",
                "39 0000000000000003 00000003 00000005\n",
                "3b 0000000000000000 00000006 00000006\n",
            ],
        )

    def test_ids_in_order_of_first_appearance(self):
        ids = Ids()
        lines(lex(b"b(a, b, 'a', \"c\", a)"), ids)
        self.assertEqual(ids.bytes, {1: b"b", 2: b"a", 3: b"c"})


class Written(unittest.TestCase):
    """What the programs write, taken apart."""

    def test_intake(self):
        record = "01 0000000000000000 00000004 00000001\n"
        self.assertEqual(readings(record), [Reading(Answer(0, 0, 0, 0, 4), [(1, 0, 4, 1)])])
        self.assertEqual(readings("00000008 00000001 00000002 00000000 00000000\n"), [Reading(Answer(8, 1, 2, 0, 0), [])])

    def test_batch(self):
        tree = "01 0000000000000000 00000004 00000001\n00000000 00000000 00000000 00000000 00000004\n"
        refusal = "00000001 00000001 00000002 0000003d 00000000\n"
        self.assertEqual([reading.answer.number for reading in readings(tree + refusal + tree)], [0, 1, 0])
        self.assertEqual([len(reading.records) for reading in readings(tree + refusal + tree)], [1, 0, 1])

    def test_something_else(self):
        with self.assertRaises(CannotRun):
            readings("A STREAM HAS NO END\n")


if __name__ == "__main__":
    unittest.main()
