"""Streams to the program of src/main.rs, and the readings back."""
import struct
import subprocess
import sys
from array import array

from script_reader import records
from script_reader.program import Answer

READINGS = ("crate", "manual", "agreed")


class Difference(Exception):
    """What differs, of a script."""


def stream(tokens, ids):
    """The words of a stream, little-endian."""
    words = array("Q")
    for token in tokens:
        words.extend((token.kind, records.payload(token, ids), token.line, token.after_line))
    if sys.byteorder != "little":
        words.byteswap()
    return words


class Readers:
    """The program that makes the proved readings and holds them to the array reader's and to piccolo's parser."""

    def __init__(self, program):
        self.process = subprocess.Popen([program], stdin=subprocess.PIPE, stdout=subprocess.PIPE)

    def words(self, many):
        data = self.process.stdout.read(8 * many)
        if len(data) < 8 * many:
            raise RuntimeError(f"the readers ended with status {self.process.wait()}")
        return struct.unpack(f"<{many}Q", data)

    def readings(self, words):
        """For each reading the answer, and the records of its tree."""
        self.process.stdin.write(struct.pack("<Q", len(words)) + words.tobytes())
        self.process.stdin.flush()
        if self.words(1)[0]:
            raise Difference("the readers differ\n" + self.process.stdout.read(self.words(1)[0]).decode())
        found = []
        for _ in READINGS:
            *numbers, many = self.words(6)
            tree = iter(self.words(many))
            found.append((Answer(*numbers), list(zip(tree, tree, tree, tree))))
        return found
