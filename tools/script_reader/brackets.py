"""The binary operations of a tree, where two readings of them part, and an expression with its brackets. Not proved."""
from .tree import BINARY, DEFINITION, EXPRESSION, TAIL, UNARY_OPERATION


class Operation:
    """A binary operation: the token of its operator, its tokens from first up to last, and the whole expression it stands in."""

    __slots__ = ("operator", "at", "first", "last", "whole")

    def __init__(self, operator, at, first, last, whole):
        self.operator, self.at, self.first, self.last, self.whole = operator, at, first, last, whole


def operations(top):
    """All binary operations of a placed tree, by the token of the operator."""
    found = {}
    todo = [(top, None)]
    while todo:
        node, whole = todo.pop()
        if node.tag == EXPRESSION:
            whole = whole or node
            for tail in node.kids[1:]:
                found[tail.first] = Operation(BINARY[tail.value], tail.first, node.first, tail.last, whole)
        elif node.tag not in (TAIL, UNARY_OPERATION):
            whole = None
        todo.extend((kid, whole) for kid in node.kids)
    return found


def quarrels(floor, office):
    """The operators ~= whose operands are not the same in the two readings, in order."""
    return [
        at
        for at, operation in sorted(floor.items())
        if operation.operator == "~=" and (operation.first, operation.last) != (office[at].first, office[at].last)
    ]


def spelled_out(found, at, hidden, space_before, shown):
    """The whole expression in which the operator stands, with brackets round each binary operation that is part of another.

    `found` has the operations of one reading, `hidden` the first and last of tokens for which an ellipsis stands; `space_before` tells
    whether there is space before a token, `shown` its text.
    """
    whole = found[at].whole
    chain = {operation.at: operation for operation in found.values() if operation.whole is whole}
    outermost = whole.kids[-1].first if len(whole.kids) > 1 else None
    opening, closing = {}, {}
    for operation in chain.values():
        if operation.at != outermost and not any(a <= operation.first and operation.last <= b for a, b in hidden.items()):
            opening[operation.first] = opening.get(operation.first, 0) + 1
            closing[operation.last] = closing.get(operation.last, 0) + 1
    text, i = "", whole.first
    while i < whole.last:
        spaced = i > whole.first and (i in chain or i - 1 in chain or space_before(i))
        until = hidden.get(i, i + 1)
        text += (" " if spaced else "") + "(" * opening.get(i, 0) + ("..." if i in hidden else shown(i)) + ")" * closing.get(until, 0)
        i = until
    return text


def inner_parts(node, tags):
    """The first and last token of what stands between the brackets (for a function, its body) of nodes with such tags, the outer ones."""
    parts = node.kids[-1:] if node.tag == DEFINITION else node.kids
    # a lone string or table that is an argument has no brackets round it
    if node.tag in tags and parts and parts[-1].last < node.last:
        return {parts[0].first: node.last - 1} if parts[0].first < node.last - 1 else {}
    found = {}
    for kid in node.kids:
        found.update(inner_parts(kid, tags))
    return found


def shared(floor, office, whole, quarrelling):
    """The first and last token of the outermost operations of an expression that are the same in both readings and hold no ~= at fault."""
    same = [
        operation
        for at, operation in floor.items()
        if (operation.whole.first, operation.whole.last) == (whole.first, whole.last)
        and (operation.first, operation.last) == (office[at].first, office[at].last)
        and not any(operation.first <= place < operation.last for place in quarrelling)
    ]
    found, reach = {}, 0
    for operation in sorted(same, key=lambda operation: (operation.first, -operation.last)):
        if operation.first >= reach:
            found[operation.first] = reach = operation.last
    return found
