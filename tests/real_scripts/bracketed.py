"""A script written anew with brackets round every operation of its tree."""
from script_reader.tree import EXPRESSION, UNARY_OPERATION


def operations(top):
    """Every unary and binary operation of a placed tree: its first token, the one after its last, and how many operations it is part of."""
    found, todo = [], [(top, 0)]
    while todo:
        node, outer = todo.pop()
        if node.tag == EXPRESSION:
            # ((head tail) tail) tail: the last tail is the outermost
            outer += len(node.kids) - 1
            todo.append((node.kids[0], outer))
            for tail in node.kids[1:]:
                outer -= 1
                found.append((node.first, tail.last, outer))
                todo.extend((kid, outer + 1) for kid in tail.kids)
        elif node.tag == UNARY_OPERATION:
            found.append((node.first, node.last, outer))
            todo.extend((kid, outer + 1) for kid in node.kids)
        else:
            todo.extend((kid, outer) for kid in node.kids)
    return found


def bracketed(text, tokens, found):
    """The text with brackets round the operations found, and no other change: every token stays in its line."""
    opening, closing = {}, {}
    for first, last, _ in found:
        opening[first] = opening.get(first, 0) + 1
        closing[last - 1] = closing.get(last - 1, 0) + 1
    parts, end = [], 0
    for i, token in enumerate(tokens):
        parts += text[end : token.start], b"(" * opening.get(i, 0), text[token.start : token.end], b")" * closing.get(i, 0)
        end = token.end
    return b"".join(parts)
