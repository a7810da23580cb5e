#!/usr/bin/env python3
"""Brings the repository's own definitions and lemmas to snake case: `endWords` and `end-words` become `end_words`.

usage: tools/respell.py            at the top of the repository, once, after the kit's port.py

It takes the names that specs/ and the lemma files of proofs/ declare, and turns them there, in clauses, in proofs, in answers and in
must-fail edits. Types and modules keep their capitals, and functions of src/ their names. A name that would meet another is given by hand, in APART.
"""

import glob
import re
import sys

sys.dont_write_bytecode = True

# A character of a name in antt.
LETTER = r"[^\s(){}.;,@\"«»:\[\]|`]"
# Names whose plain spelling another definition or a function has already.
APART = {"at-end": "only_at_end", "put-answer": "put_answer_lem", "put-tree": "put_tree_lem"}
# Names that may be spelled as another: a definition that says what the function of that name answers; a field in another file.
SAME = {"atEnd", "field-name", "checkAhead", "expectName", "expectNext", "getNext", "lookAhead", "readAhead", "rightOf", "takeNext", "tokenAfter", "tokenAt"}
TOP = re.compile(r"^(?:(?:abbrev|unfoldable|pub) )*(?:(?:data|record) )?(\S+(?: [^\s(){}:=]+)*?)(?: (?:\([^()]*\)|\{[^{}]*\}))* :(?= |$)")
INSIDE = re.compile(r"^ {2,}(?:(?:abbrev|unfoldable|pub|data|record) )*([^\s(){}:=]+(?: [^\s(){}:=]+)*?)(?: (?:\([^()]*\)|\{[^{}]*\}))* : ")
KIT = re.compile(r"^(?:ghost )?use (?:Rattle\.std|borrow|denote|lib|native|Prim|mathlib|seplogic)\..*$", re.M)
NOT_DECLARING = ("--", "use ", "pub use ", "mod ", "pub mod ", "infix", "module ")


def in_snake_case(name):
    words = re.sub(r"(?<=[a-z0-9])[A-Z]", lambda m: "_" + m[0].lower(), name)
    return words.replace("-", "_").replace("′", "'")


def declared(path):
    found = set()
    with open(path, encoding="utf-8") as f:
        for line in f:
            if line.startswith(NOT_DECLARING):
                continue
            m = TOP.match(line) if not line.startswith(" ") else INSIDE.match(line)
            if m and m[1].split()[0] not in ("let", "elim", "in"):
                found |= set(m[1].split())
    return found


def turned(name):
    return APART.get(name, in_snake_case(name))


def main():
    words = sorted(glob.glob("crates/*/specs/**/*.antt", recursive=True) + glob.glob("crates/*/proofs/*.antt"))
    own = set().union(*map(declared, words))
    names = {n for n in own if re.match(r"[a-z]", n) and turned(n) != n}
    texts = sorted(
        set(words)
        | set(glob.glob("crates/*/proofs/**/*.antt", recursive=True))
        | set(glob.glob("crates/*/src/**/*.rt", recursive=True))
        | set(glob.glob("crates/*/answers/**/*.txt", recursive=True))
        | set(glob.glob("crates/*/must-fail/*.edit"))
        | set(glob.glob("tests/edits/**/*.edit", recursive=True))
    )
    held = {p: open(p, encoding="utf-8").read() for p in texts}
    used = set()
    for t in held.values():
        used |= set(re.findall(LETTER + "+", t))
    meets = sorted(n for n in names - SAME if turned(n) in used | own or sum(turned(n) == turned(m) for m in names) > 1)
    if meets:
        print("these would meet another name: " + " ".join(f"{n}({turned(n)})" for n in meets))
        return 1
    pattern = re.compile(rf"(?<!{LETTER})(" + "|".join(map(re.escape, sorted(names, key=len, reverse=True))) + rf")(?!{LETTER})")
    for p, t in held.items():
        # A file that has the name from a library of the kit keeps it.
        lent = {n for line in KIT.findall(t) for n in re.findall(LETTER + "+", line)}
        new = pattern.sub(lambda m: m[1] if m[1] in lent else turned(m[1]), t)
        if new != t:
            with open(p, "w", encoding="utf-8") as f:
                f.write(new)
    print(f"{len(names)} names turned")
    return 0


if __name__ == "__main__":
    raise SystemExit(main())
