"""Both readings of a script, in pieces where its trees are too large for the program. Not proved."""
from .lexer import KIND, NAME

# what a statement may begin with, but for `(`, which may go on with the one before
BEGINNINGS = {NAME} | {KIND[word] for word in b"break do for function goto if local repeat return while ; ::".split()}


def both_readings(programs, tokens, lines):
    """For each piece its first token, the one after its last, its crate and its manual reading; the whole script, where it fits."""
    whole = programs.both([lines])[0]
    if was_read(whole) and whole[0].records:
        return [(0, len(tokens) - 1, *whole)]
    end = lines[-1:]
    places = [at for at in range(1, len(tokens) - 1) if tokens[at].kind in BEGINNINGS]
    told = programs.both([lines[:at] + end for at in places] + [lines[at:] for at in places])
    # between two statements: what stands before and what stands after are scripts
    cuts = [at for at, before, after in zip(places, told, told[len(places) :]) if was_read(before) and was_read(after)]
    spans = list(zip([0] + cuts, cuts + [len(tokens) - 1]))
    return [(*span, *pair) for span, pair in zip(spans, programs.both([lines[first:last] + end for first, last in spans]))]


def was_read(pair):
    """Whether there is a tree, with room or without."""
    return all(reading.answer.number in (0, 7) for reading in pair)
