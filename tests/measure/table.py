"""table.py COUNTS DOCS VERSIONS..: writes speed.md and speed.png in the folder DOCS from a file of lines

    INPUT STREAMS TOKENS READER CLEARING INSTRUCTIONS STACK

where CLEARING is `as-is` or `clearing`, and STACK the bytes of stack of the deepest stream.
"""

import sys

import matplotlib

matplotlib.use("Agg")
import matplotlib.pyplot as plot

READERS = [
    ("proved-crate", "proved, crate reading"),
    ("proved-agreed", "proved, agreed reading"),
    ("array-crate", "array reader, crate reading"),
    ("array-agreed", "array reader, agreed reading"),
    ("piccolo", "piccolo, its own tree"),
    ("piccolo-flat", "piccolo, and the flat tree"),
]
COLOURS = {
    "proved-crate": "#b02a2a",
    "proved-agreed": "#e08a3c",
    "array-crate": "#1f5fa8",
    "array-agreed": "#6fa8dc",
    "piccolo": "#3b7d3b",
    "piccolo-flat": "#93c47d",
}
SAME = {"proved-crate": "array-crate", "proved-agreed": "array-agreed"}


def table(head, rows):
    lines = ["| " + " | ".join(head) + " |", "|" + "---|" * len(head)]
    return "\n".join(lines + ["| " + " | ".join(row) + " |" for row in rows]) + "\n"


def grouped(number):
    return f"{number:,}"


def main(counts, docs, versions):
    tokens, streams, per, stack = {}, {}, {}, {}
    order = []
    for line in open(counts):
        name, many, of, reader, clearing, instructions, bytes_ = line.split()
        if name not in tokens:
            order.append(name)
        tokens[name], streams[name] = int(of), int(many)
        per[name, reader, clearing] = int(instructions) / int(of)
        stack[name, reader] = int(bytes_)

    def row(name, clearing):
        cells = [f"{per[name, reader, clearing]:.1f}" for reader, _ in READERS]
        return cells + [f"{per[name, a, clearing] / per[name, b, clearing]:.2f}" for a, b in SAME.items()]

    head = [text for _, text in READERS] + ["crate: proved / array", "agreed: proved / array"]
    sizes = sorted((name for name in order if name.startswith("long-")), key=tokens.get)
    deep = [name for name in order if name.startswith("deep-")]
    plain = ["small"] + sizes + [name for name in order if name.startswith("refused-")]
    titles = {"small": f"{streams['small']} small scripts"}
    titles.update((name, f"one script of {grouped(tokens[name])}") for name in sizes)
    titles.update((name, f"the longest, and an `end` too many: refused") for name in plain if name.startswith("refused-"))
    titles.update((name, name[5:].replace("-", " ")) for name in deep)

    def ratios(names, a):
        found = [per[name, a, "as-is"] / per[name, SAME[a], "as-is"] for name in names]
        return f"{min(found):.2f} to {max(found):.2f}"

    deepest = {reader: max(stack[name, reader] for name in deep) for reader, _ in READERS}
    text = f"""# Speed

Made by `tests/speed`; not written by hand. Instructions are counted, not time taken: they do not depend on the machine, given the same compilers
(run on x86-64; the way for Arm, with a cross compiler, is written and has not been tried).

The proved crate reading takes {ratios(plain, 'proved-crate')} times the instructions of the array reader on scripts, {ratios(deep, 'proved-crate')} times on nests of
199 levels; the proved agreed reading {ratios(plain, 'proved-agreed')} and {ratios(deep, 'proved-agreed')} times. At its deepest it takes {grouped(deepest['proved-crate'])} bytes of stack.

![Instructions a token, by size](speed.png)

## Instructions a token

Random scripts of the grammar, without a `~=`, so that all readings accept them. The node array has room for four records a token and one more, and is full
of other words beforehand. The proved readings and the array reader check the stream's form and write the flat tree; piccolo's parser makes a tree
of boxes and vectors from a lexer that replays the records, and gives it back.

{table(["tokens"] + head, [[titles[name]] + row(name, "as-is") for name in plain])}
### With the node array cleared first

The same, and the caller's clearing of all the room beforehand is counted too.

{table(["tokens"] + head, [[titles[name]] + row(name, "clearing") for name in plain])}
## As deep as the levels go

Each form in itself until all 199 levels are taken. Instructions a token:

{table(["form"] + head, [[titles[name]] + row(name, "as-is") for name in deep])}
Bytes of stack, from the call down to the lowest word stored to:

{table(["form"] + [text for _, text in READERS], [[titles[name]] + [grouped(stack[name, reader]) for reader, _ in READERS] for name in deep])}
## How it is counted

`tests/measure` has a program that links all readers, the proved ones from the archive that `tests/exported/build` makes. Each stream is read once to
warm up and once between two marks, no-ops that no compiler makes; Debian's `qemu-user` runs the program, and a plugin of some fifty lines of C
(`tests/measure/count.c`) counts the instructions executed between the marks and watches how far down the stack is stored to. A repeated string
instruction counts once for each repetition. The processor is qemu's `qemu64`, so that the C library takes the same `memset` everywhere.

Made with: {'; '.join(versions)}.
"""
    open(f"{docs}/speed.md", "w").write(text)

    figure, (left, right) = plot.subplots(1, 2, figsize=(11, 4.6))
    x = [tokens[name] for name in sizes]
    for reader, label in READERS:
        left.plot(x, [per[name, reader, "as-is"] for name in sizes], marker="o", markersize=3, color=COLOURS[reader], label=label)
    left.set_xscale("log")
    left.set_yscale("log")
    ticks = [50, 100, 200, 500, 1000, 2000]
    left.set_yticks(ticks, [str(tick) for tick in ticks])
    left.minorticks_off()
    left.set_xlabel("tokens in the script")
    left.set_ylabel("instructions a token")
    left.legend(fontsize=7)
    for reader, other in SAME.items():
        right.plot(x, [per[name, reader, "as-is"] / per[name, other, "as-is"] for name in sizes], marker="o", markersize=3, color=COLOURS[reader], label=dict(READERS)[reader])
    right.axhline(1.2, color="grey", linewidth=0.8, linestyle="--")
    right.axhline(2, color="grey", linewidth=0.8)
    right.set_xscale("log")
    right.set_ylim(bottom=0)
    right.set_xlabel("tokens in the script")
    right.set_ylabel("times the array reader's")
    right.legend(fontsize=7)
    for axes in (left, right):
        axes.grid(True, linewidth=0.3)
    figure.tight_layout()
    figure.savefig(f"{docs}/speed.png", dpi=110, metadata={"Software": None})


main(sys.argv[1], sys.argv[2], sys.argv[3:])
