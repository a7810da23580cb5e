"""The flat tree back to a nested one, and where its records stand among the tokens. Not proved."""
from .lexer import END, KIND

UNARY = "not - ~ #".split()
BINARY = "+ - * % ^ / // & | ~ << >> .. ~= == < <= > >= and or".split()
(BLOCK, RETURN, IF, WHILE, DO, NUMERIC_FOR, GENERIC_FOR, REPEAT, FUNCTION, LOCAL_FUNCTION, LOCAL, LABEL, BREAK, GOTO, CALL_STATEMENT,
 ASSIGNMENT, EXPRESSION, UNARY_OPERATION, TAIL, INTEGER, FLOAT, STRING_LITERAL, NIL, TRUE, FALSE, VARARGS, TABLE, DEFINITION, SUFFIXED,
 NAME_RECORD, GROUPED, FIELD, INDEX, CALL, METHOD_CALL, ARRAY_FIELD, NAMED_FIELD, INDEXED_FIELD) = range(1, 39)  # fmt: skip


class Node:
    """A record with its parts. Its tokens, once placed, are those from first up to last; a tail's first is its operator."""

    __slots__ = ("tag", "value", "line", "kids", "first", "last")

    def __init__(self, tag, value, line):
        self.tag, self.value, self.line, self.kids, self.first, self.last = tag, value, line, [], None, None


def nested(records):
    """The nested tree of flat records."""
    top, open_nodes = None, []  # open_nodes: a node, and the index after its subtree
    for index, (tag, value, line, size) in enumerate(records):
        node = Node(tag, value, line)
        while open_nodes and open_nodes[-1][1] <= index:
            open_nodes.pop()
        if open_nodes:
            open_nodes[-1][0].kids.append(node)
        else:
            top = node
        open_nodes.append((node, index + size))
    return top


class Walk:
    """Goes over a tree and the tokens it was read from, side by side, and notes where each record stands."""

    def __init__(self, tokens, first, last):
        self.kinds, self.at = [token.kind for token in tokens[:last]] + [END], first

    def place(self, node):
        node.first = self.at
        FORMS[node.tag](self, node)
        node.last = self.at

    def next_is(self, *words):
        return any(self.kinds[self.at] == KIND[word.encode()] for word in words)

    def take(self, *words):
        for word in words:
            if not self.next_is(word):
                raise ValueError(f"the tree and the tokens part at token {self.at}: {word} expected")
            self.at += 1

    def one(self, node):
        self.at += 1

    def all(self, nodes, between=None):
        for i, node in enumerate(nodes):
            if i and between:
                self.take(between)
            self.place(node)

    def semicolons(self):
        while self.next_is(";"):
            self.at += 1

    def block(self, node):
        for kid in node.kids:
            self.semicolons()
            self.place(kid)
        self.semicolons()

    def return_(self, node):
        self.take("return")
        self.all(node.kids, ",")

    def if_(self, node):
        pairs = 1 + node.value // 2
        for i in range(pairs):
            self.take("elseif" if i else "if")
            self.place(node.kids[2 * i])
            self.take("then")
            self.place(node.kids[2 * i + 1])
        if node.value % 2:
            self.take("else")
            self.place(node.kids[-1])
        self.take("end")

    def body(self, node):
        self.take("do")
        self.place(node)
        self.take("end")

    def while_(self, node):
        self.take("while")
        self.place(node.kids[0])
        self.body(node.kids[1])

    def do(self, node):
        self.body(node.kids[0])

    def numeric_for(self, node):
        self.take("for")
        self.at += 1
        self.take("=")
        self.all(node.kids[:-1], ",")
        self.body(node.kids[-1])

    def generic_for(self, node):
        self.take("for")
        self.all(node.kids[: node.value], ",")
        self.take("in")
        self.all(node.kids[node.value : -1], ",")
        self.body(node.kids[-1])

    def repeat(self, node):
        self.take("repeat")
        self.place(node.kids[0])
        self.take("until")
        self.place(node.kids[1])

    def function(self, node):
        self.take("function")
        for kid in node.kids[:-1]:
            if self.next_is(".", ":"):
                self.at += 1
            self.place(kid)
        self.place(node.kids[-1])

    def local_function(self, node):
        self.take("local", "function")
        self.at += 1
        self.place(node.kids[0])

    def local(self, node):
        self.take("local")
        self.all(node.kids[: node.value], ",")
        if node.kids[node.value :]:
            self.take("=")
            self.all(node.kids[node.value :], ",")

    def label(self, node):
        self.take("::")
        self.at += 1
        self.take("::")

    def goto(self, node):
        self.take("goto")
        self.at += 1

    def assignment(self, node):
        self.all(node.kids[: node.value], ",")
        self.take("=")
        self.all(node.kids[node.value :], ",")

    def parts(self, node):
        self.all(node.kids)

    def after_one(self, node):
        self.at += 1
        self.all(node.kids)

    def table(self, node):
        self.take("{")
        for kid in node.kids:
            self.place(kid)
            if self.next_is(",", ";"):
                self.at += 1
        self.take("}")

    def definition(self, node):
        if self.next_is("function"):
            self.at += 1
        self.take("(")
        self.all(node.kids[:-1], ",")
        if node.value % 2:
            if node.kids[:-1]:
                self.take(",")
            self.take("...")
        self.take(")")
        self.place(node.kids[-1])
        self.take("end")

    def grouped(self, node):
        self.take("(")
        self.place(node.kids[0])
        self.take(")")

    def field(self, node):
        self.take(".")
        self.at += 1

    def index(self, node):
        self.take("[")
        self.place(node.kids[0])
        self.take("]")

    def call(self, node):
        if not self.next_is("("):
            return self.all(node.kids)  # a lone string or table
        self.take("(")
        self.all(node.kids, ",")
        self.take(")")

    def method_call(self, node):
        self.take(":")
        self.at += 1
        self.call(node)

    def named_field(self, node):
        self.at += 1
        self.take("=")
        self.place(node.kids[0])

    def indexed_field(self, node):
        self.take("[")
        self.place(node.kids[0])
        self.take("]", "=")
        self.place(node.kids[1])


FORMS = {
    BLOCK: Walk.block, RETURN: Walk.return_, IF: Walk.if_, WHILE: Walk.while_, DO: Walk.do, NUMERIC_FOR: Walk.numeric_for,
    GENERIC_FOR: Walk.generic_for, REPEAT: Walk.repeat, FUNCTION: Walk.function, LOCAL_FUNCTION: Walk.local_function, LOCAL: Walk.local,
    LABEL: Walk.label, BREAK: Walk.one, GOTO: Walk.goto, CALL_STATEMENT: Walk.parts, ASSIGNMENT: Walk.assignment,
    EXPRESSION: Walk.parts, UNARY_OPERATION: Walk.after_one, TAIL: Walk.after_one, INTEGER: Walk.one, FLOAT: Walk.one,
    STRING_LITERAL: Walk.one, NIL: Walk.one, TRUE: Walk.one, FALSE: Walk.one, VARARGS: Walk.one, TABLE: Walk.table,
    DEFINITION: Walk.definition, SUFFIXED: Walk.parts, NAME_RECORD: Walk.one, GROUPED: Walk.grouped, FIELD: Walk.field,
    INDEX: Walk.index, CALL: Walk.call, METHOD_CALL: Walk.method_call, ARRAY_FIELD: Walk.parts, NAMED_FIELD: Walk.named_field,
    INDEXED_FIELD: Walk.indexed_field,
}  # fmt: skip


def placed(records, tokens, first, last):
    """The nested tree that was read from the tokens from first up to last, with the place of each record."""
    top = nested(records)
    walk = Walk(tokens, first, last)
    walk.place(top)
    if walk.at != last:
        raise ValueError(f"the tree ends at token {walk.at} of {last}")
    return top
