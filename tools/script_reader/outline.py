"""A tree printed for a person. Not proved."""
import struct

from . import tree


# records whose value is an id
NAMED = (
    tree.NUMERIC_FOR, tree.LOCAL_FUNCTION, tree.LABEL, tree.GOTO, tree.NAME_RECORD, tree.FIELD, tree.METHOD_CALL, tree.NAMED_FIELD,
)  # fmt: skip


def plural(number, word):
    return f"{number} {word}{'' if number == 1 else 's'}"


def signed(pattern):
    return pattern - 2**64 if pattern >= 2**63 else pattern


class Outline:
    """A tree, a record a line, indented, in words; `name` tells the text of an id, `string` that of a string's id."""

    NAMES = """Block Return If While Do For For Repeat Function LocalFunction Local Label Break Goto CallStatement Assignment Expression
        Unary Tail Integer Float String nil true false ... Table Definition Suffixed Name Grouped Field Index Call MethodCall ArrayField
        NamedField IndexedField""".split()

    def __init__(self, name, string):
        self.name, self.string = name, string

    def lines(self, top):
        found, todo = [], [(top, 0)]
        while todo:
            node, depth = todo.pop()
            found.append("  " * depth + self.text(node))
            todo.extend((kid, depth + 1) for kid in reversed(node.kids))
        return found

    def text(self, node):
        text = " ".join(filter(None, (self.NAMES[node.tag - 1], self.detail(node.tag, node.value))))
        if node.tag == tree.BLOCK:
            return f"{text}, closed in line {node.line}"
        return f"{text}, line {node.line}" if node.tag <= tree.ASSIGNMENT else text

    def detail(self, tag, value):
        if tag in NAMED:
            return self.name(value)
        if tag == tree.BLOCK:
            return "with a return" if value else ""
        if tag == tree.IF:
            parts = [plural(value // 2, "else-if")] * (value > 1) + ["else"] * (value % 2)
            return "with " + " and ".join(parts) if parts else ""
        if tag in (tree.GENERIC_FOR, tree.LOCAL):
            return "of " + plural(value, "name")
        if tag == tree.ASSIGNMENT:
            return "to " + plural(value, "variable")
        if tag == tree.FUNCTION:
            return "a method" if value % 2 else ""
        if tag == tree.UNARY_OPERATION:
            return tree.UNARY[value]
        if tag == tree.TAIL:
            return tree.BINARY[value]
        if tag == tree.INTEGER:
            return str(signed(value))
        if tag == tree.FLOAT:
            return repr(struct.unpack("<d", struct.pack("<Q", value))[0])
        if tag == tree.STRING_LITERAL:
            return self.string(value)
        if tag == tree.DEFINITION:
            return "of " + plural(value // 2, "parameter") + (" and ..." if value % 2 else "")
        if tag == tree.TABLE:
            return "of " + plural(value, "field")
        if tag == tree.CALL:
            return "with " + plural(value, "argument")
        return ""
