"""The command tools/read. Not proved."""
import argparse
import os
import sys

from .program import CannotRun, NoProgram, Programs
from .telling import ACCEPTED, Script

CANNOT_RUN = 2
ABOUT = """Reads Lua scripts as the floor's terminal and as the office read them, and says whether both read them alike.

The verdict is that of the proved program `intake`, and the two readings of a quarrel are those of the proved program `batch`
(run from crates/*/out; where they are missing, everything is proved and built first). This command itself is outside the
proved core: its lexer, which turns the text into tokens, and the words in which it tells the answer are ordinary Python."""
AFTER = """exit status: 0 every script is accepted; 1 at least one goes back; 2 at least one could not be read (no such file, a
folder, no program, a script that is too large for the program)."""


def arguments(words):
    parser = argparse.ArgumentParser(
        prog="tools/read", description=ABOUT, epilog=AFTER, formatter_class=argparse.RawDescriptionHelpFormatter
    )
    parser.add_argument("files", metavar="FILE", nargs="+", help="a Lua script; - for standard input")
    parser.add_argument("--tree", action="store_true", help="print the tree of each script that is accepted")
    parser.add_argument("--programs", metavar="DIR", help="run DIR/intake and DIR/batch as they are, instead of those in crates/*/out")
    return parser.parse_args(words)


def text_of(file):
    if file == "-":
        return sys.stdin.buffer.read()
    if os.path.isdir(file):
        raise CannotRun("it is a folder, not a script")
    try:
        with open(file, "rb") as opened:
            return opened.read()
    except FileNotFoundError:
        raise CannotRun("there is no such file") from None
    except OSError as error:
        raise CannotRun(f"it could not be opened: {error.strerror}") from None


def read(file, programs, with_tree):
    """Tells of one script; 0, 1 or 2, as for the exit status."""
    label = "standard input" if file == "-" else file
    try:
        verdict, lines = Script(label, text_of(file), programs).told(with_tree)
    except NoProgram:
        raise
    except CannotRun as why:
        print(f"{label}: not read: {why}", file=sys.stderr, flush=True)
        return CANNOT_RUN
    print("\n".join(lines), flush=True)
    return 0 if verdict == ACCEPTED else 1


def summary(statuses):
    counts = [statuses.count(status) for status in (0, 1, CANNOT_RUN)]
    parts = [f"{counts[0]} accepted", f"{counts[1]} {'goes' if counts[1] == 1 else 'go'} back"]
    return f"{len(statuses)} scripts: " + ", ".join(parts + [f"{counts[2]} not read"] * bool(counts[2]))


def main(words):
    sys.setrecursionlimit(20000)  # a tree may be 199 levels deep
    for stream in (sys.stdout, sys.stderr):
        stream.reconfigure(errors="backslashreplace")
    chosen = arguments(words)
    programs = Programs(chosen.programs)
    try:
        statuses = [read(file, programs, chosen.tree) for file in chosen.files]
    except NoProgram as why:
        print(f"tools/read: {why}", file=sys.stderr)
        return CANNOT_RUN
    if len(statuses) > 1:
        print(summary(statuses))
    return max(statuses)
