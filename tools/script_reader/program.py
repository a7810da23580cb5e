"""Runs the proved programs: `intake` for the verdict, `batch` for the two readings. Not proved itself."""
import os
import shutil
import subprocess
import sys
from collections import namedtuple

ROOT = os.path.dirname(os.path.dirname(os.path.dirname(os.path.abspath(__file__))))
MOST_TOKENS, MOST_RECORDS = 1024, 2048
RECORD_WIDTH, ANSWER_WIDTH = 37, 44

Answer = namedtuple("Answer", "number line found expected count")
Reading = namedtuple("Reading", "answer records")  # records: (tag, value, line, size) each; none unless accepted


class CannotRun(Exception):
    """Why there is no answer for a script."""


class NoProgram(CannotRun):
    """Why there is none for any script."""


def numbers(line):
    return tuple(int(word, 16) for word in line.split(" "))


def readings(written):
    """What a program wrote, reading by reading: lines of records, and a line of five numbers after each that has one."""
    found, records = [], []
    for line in written.splitlines():
        if len(line) == RECORD_WIDTH:
            records.append(numbers(line))
        elif len(line) == ANSWER_WIDTH:
            found.append(Reading(Answer(*numbers(line)), records))
            records = []
        else:
            raise CannotRun(f"a program wrote a line that is no record and no answer: {line}")
    if records:  # intake tells no numbers where it gives a tree
        found.append(Reading(Answer(0, 0, 0, 0, 4 * len(records)), records))
    return found


class Programs:
    """The two programs, found at first use; proved and built first where they are missing."""

    def __init__(self, folder=None):
        self.folder, self.is_ready = folder, False

    def intake(self, lines):
        """The agreed reading of one stream."""
        found = readings(self.run("intake", "".join(lines)))
        if len(found) != 1:
            raise CannotRun("intake wrote no answer")
        return found[0]

    def both(self, streams):
        """The crate reading and the manual reading of each stream."""
        if not streams:
            return []
        found = readings(self.run("batch", "".join("".join(lines) for lines in streams)))
        each = len(found) // len(streams)  # batch may tell the agreed reading as well
        if each < 2 or each * len(streams) != len(found):
            raise CannotRun("batch wrote fewer answers than there are streams")
        return [(found[i], found[i + 1]) for i in range(0, len(found), each)]

    def run(self, name, text):
        if not self.is_ready:
            self.prepare()
            self.is_ready = True
        try:
            ended = subprocess.run([self.file(name)], input=text.encode(), stdout=subprocess.PIPE, stderr=subprocess.PIPE)
        except OSError as error:
            raise NoProgram(f"{name} could not be started: {error.strerror}") from error
        if ended.returncode != 0:
            raise CannotRun(f"{name} ended with status {ended.returncode}: {ended.stderr.decode(errors='replace').strip()}")
        return ended.stdout.decode("ascii", "replace")

    def file(self, name):
        """Where a program lies: where `rt run` builds it, or in the folder that was given."""
        return os.path.join(ROOT, "crates", name, "out", name) if self.folder is None else os.path.join(self.folder, name)

    def missing(self):
        return [name for name in ("intake", "batch") if not os.path.isfile(self.file(name))]

    def prepare(self):
        """Has the programs proved and built where they are missing; raises NoProgram where there is none then."""
        missing = self.missing()
        if not missing:
            return
        if self.folder is not None:
            raise NoProgram(f"{self.folder} has no program {missing[0]}")
        if shutil.which("rt") is None:
            raise NoProgram("the Rattle toolchain (rt) is missing, and the proved programs need it to be built")
        prove()
        if self.missing():
            raise NoProgram(f"tools/build left no program {self.missing()[0]} in crates/*/out")


def prove():
    print(
        "The proved programs are not built yet. Everything is being proved first (tools/build intake batch): six to fifteen minutes.",
        file=sys.stderr,
        flush=True,
    )
    build = [os.path.join(ROOT, "tools", "build"), "intake", "batch"]
    if subprocess.run(build, stdin=subprocess.DEVNULL, stdout=sys.stderr).returncode != 0:
        raise NoProgram("tools/build intake batch failed, so there is no proved program to run")
