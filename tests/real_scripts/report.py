"""What was compared, and what was found."""
from collections import Counter

from judging import MOST_TOKENS
from readers import READINGS


def show(lines):
    for line in lines:
        print("  " + line)


def report(all_told):
    """Prints it; how many differences there are."""
    read = [told for told in all_told if told.luac is None]
    compared = [told for told in read if told.answers]
    of_files(all_told, read, compared)
    of_bytecode([told for told in compared if told.parts])
    of_refusals([told for told in compared if told.refusal])
    of_quarrels([told for told in compared if told.quarrels], sum(told.not_equal for told in compared))
    found = [(told.label, told.difference) for told in read if told.difference]
    # attribs and levels are known (docs/DIFFERENCES.md)
    found += [
        (told.label, "luac5.4 accepts what all readers refuse")
        for told in compared
        if told.refusal and not told.attrib and told.answers[2].number != 5
    ]
    for label, difference in found:
        print(f"DIFFERENCE {label}: {difference}")
    print(f"{len(found):,} differences" if found else "no difference")
    return len(found)


def of_files(all_told, read, compared):
    texts = len({told.sum for told in read})
    print(f"{len(all_told):,} .lua files; luac5.4 accepts {len(read):,}, {texts:,} different texts, and refuses")
    show(f"{told.label}: {told.luac}" for told in all_told if told.luac is not None)
    largest = max(compared, key=lambda told: told.tokens)
    print(f"read by all readers: {len(compared):,} files, {sum(told.tokens for told in compared):,} tokens")
    show([f"the largest: {largest.tokens:,} tokens, {largest.label}"])
    show(f"not read, more than {MOST_TOKENS:,} tokens: {told.label}" for told in read if told.tokens > MOST_TOKENS)
    for i, name in enumerate(READINGS):
        counts = Counter(told.answers[i].number for told in compared)
        show([f"{name} reading: " + ", ".join(f"{many:,} with {number}" for number, many in sorted(counts.items()))])


def of_bytecode(tried):
    operations = sum(told.operations for told in tried)
    print(f"bytecode with every operation of the manual tree bracketed: {len(tried):,} files, {operations:,} operations")
    show(f"in {told.parts} parts, for Lua's 200 levels: {told.label}" for told in tried if told.parts > 1)


def of_refusals(refused):
    print(f"refused: {len(refused):,} files, for an attrib {sum(told.attrib for told in refused):,}")
    for told in refused:
        show(told.refusal)


def of_quarrels(quarrelling, not_equal):
    firsts = {}
    for told in quarrelling:
        firsts.setdefault(told.sum, told)
    many, different = (sum(len(told.quarrels) for told in those) for those in (quarrelling, firsts.values()))
    print(
        f"quarrels: {many:,} of {not_equal:,} ~=, in {len(quarrelling):,} files; without copies {different:,} in {len(firsts):,}\n"
        f"  other bytecode with the brackets of the crate tree: {sum(not told.floor_same for told in quarrelling):,} of these files"
    )
    show(f"the same bytecode: {told.label}" for told in quarrelling if told.floor_same)
    for told in quarrelling:
        if firsts[told.sum] is told:
            for lines in told.quarrels:
                show(lines)
        else:
            show([f"{told.label}: the same text as {firsts[told.sum].label}"])
