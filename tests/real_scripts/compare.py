"""What tests/real runs: `compare.py PROGRAM DIR`, PROGRAM being that of src/main.rs."""
import os
import sys
from concurrent.futures import ProcessPoolExecutor

TESTS = os.path.dirname(os.path.dirname(os.path.abspath(__file__)))
sys.path.insert(0, os.path.join(os.path.dirname(TESTS), "tools"))

from judging import judged  # noqa: E402
from readers import Readers  # noqa: E402
from report import report  # noqa: E402


def lua_files(folder):
    for at, folders, names in os.walk(folder):
        folders.sort()
        for name in sorted(names):
            path = os.path.join(at, name)
            if name.endswith(".lua") and os.path.isfile(path) and not os.path.islink(path):
                yield path


def start(program):
    global readers
    sys.setrecursionlimit(20000)  # a tree may be 199 levels deep
    readers = Readers(program)


def work(job):
    return judged(*job, readers)


def main(program, folder):
    for stream in (sys.stdout, sys.stderr):
        stream.reconfigure(errors="backslashreplace")
    jobs = [(path, os.path.relpath(path, folder)) for path in lua_files(folder)]
    all_told = []
    with ProcessPoolExecutor(min(2, os.cpu_count() or 1), initializer=start, initargs=(program,)) as pool:
        for told in pool.map(work, jobs, chunksize=4):
            all_told.append(told)
            if len(all_told) % 500 == 0:
                print(f"{len(all_told)} of {len(jobs)} files", file=sys.stderr, flush=True)
    if not any(told.answers for told in all_told):
        print(f"{folder} has no .lua file that luac5.4 accepts", file=sys.stderr)
        return 2
    return 1 if report(all_told) else 0


if __name__ == "__main__":
    sys.exit(main(*sys.argv[1:]))
