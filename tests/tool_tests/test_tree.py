import random
import unittest

from support import PROGRAMS

from script_reader import brackets, tree
from script_reader.lexer import KIND, lex
from script_reader.outline import Outline
from script_reader.place import at_fault
from script_reader.program import Programs
from script_reader.records import Ids, lines

RUN = Programs(PROGRAMS)
EVERYTHING = b"""
local a, b = 1, "two"; local c;; local function f(x, ...) return x, ... end
function t.u.v:w(p, q) if p then elseif q then elseif a then else return; end end
function g() end
for i = 1, 10 do break end for i = 10, 1, -1 do end for k, v in pairs(t), nil do goto on ::on:: end
while not a do do end end repeat local z until z
a.b[c], d = {1, x = 2, [3] = 4; function() end, nil, true, false, 1.5,}, -2 ^ -3
f{1} f"x" f'y'.z:m"w":n{}(1)(2, 3) (f)() ;
return (a + b) * c .. d .. #e, function(...) return ... end;
"""


def both(text):
    """The tokens and the operations of the crate reading and of the manual reading."""
    tokens = lex(text)
    crate, manual = RUN.both([lines(tokens, Ids())])[0]
    assert crate.answer.number == manual.answer.number == 0, (crate.answer, manual.answer)
    return tokens, *(brackets.operations(tree.placed(reading.records, tokens, 0, len(tokens) - 1)) for reading in (crate, manual))


def first_quarrel(text):
    answer = RUN.intake(lines(lex(text), Ids())).answer
    return answer.found if answer.number == 8 else None


class Placed(unittest.TestCase):
    def test_every_production_has_its_tokens(self):
        tokens = lex(EVERYTHING)
        reading = RUN.intake(lines(tokens, Ids()))
        self.assertEqual(reading.answer.number, 0)
        top = tree.placed(reading.records, tokens, 0, len(tokens) - 1)
        tags, todo = set(), [top]
        while todo:
            node = todo.pop()
            tags.add(node.tag)
            self.assertLessEqual(node.first, node.last)
            for left, right in zip(node.kids, node.kids[1:]):
                self.assertLessEqual(left.last, right.first)
            if 2 <= node.tag <= 16:
                self.assertEqual(node.line, tokens[node.first].line)
            todo += node.kids
        self.assertEqual(tags, set(range(1, 39)))
        self.assertEqual((top.first, top.last), (0, len(tokens) - 1))

    def test_a_tree_of_other_tokens_is_noticed(self):
        reading = RUN.intake(lines(lex(b"while a do end"), Ids()))
        for other in (b"repeat until a", b"while a do end x()", b"while a do"):
            with self.assertRaises((ValueError, IndexError)):
                tree.placed(reading.records, lex(other), 0, len(lex(other)) - 1)


class Quarrels(unittest.TestCase):
    OPERATORS = "or and == < <= > >= ~= ~= ~= ~= | ~ & << >> .. + - * / // % ^".split()

    def chain(self, chance, depth=2):
        parts = []
        for i in range(chance.randrange(1, 7)):
            if i:
                parts.append(chance.choice(self.OPERATORS))
            unary = chance.choice(["", "", "", "-", "not ", "#", "~"])
            inner = self.chain(chance, depth - 1) if depth and chance.random() < 0.3 else None
            forms = ["({})", "f({})", "t[{}]", "{{{}}}", "g(1, {})", "function() return {} end"]
            parts.append(unary + (chance.choice(forms).format(inner) if inner else chance.choice("abcd")))
        return " ".join(parts)

    def test_found_where_the_program_finds_the_first(self):
        chance, quarrelling = random.Random(3), 0
        for _ in range(400):
            text = b"return " + self.chain(chance).encode()
            found = brackets.quarrels(*both(text)[1:])
            self.assertEqual(found[:1], [at for at in [first_quarrel(text)] if at is not None], text)
            quarrelling += bool(found)
        self.assertGreater(quarrelling, 100)

    def test_readings_with_brackets_read_alike(self):
        """Each reading, spelled out with brackets, is a script without a quarrel, and its operations are those of that reading."""
        chance, tried = random.Random(4), 0
        for _ in range(300):
            text = b"return " + self.chain(chance, 0).encode()
            tokens, floor, office = both(text)
            at = first_quarrel(text)
            if at is None:
                continue
            tried += 1
            shown = lambda i: text[tokens[i].start : tokens[i].end].decode()
            spaced = lambda i: tokens[i - 1].end < tokens[i].start
            for reading in (floor, office):
                anew = b"return " + brackets.spelled_out(reading, at, {}, spaced, shown).encode()
                self.assertIsNone(first_quarrel(anew), anew)
                tokens_anew, operations = both(anew)[:2]
                plain = [i for i, token in enumerate(tokens_anew) if token.kind not in (KIND[b"("], KIND[b")"])]
                index = {place: i for i, place in enumerate(plain)}
                spans = {index[o.at]: span(o, index) for o in operations.values()}
                self.assertEqual(spans, {o.at: (o.first, o.last) for o in reading.values()}, anew)
        self.assertGreater(tried, 40)


def span(operation, index):
    """The operation's tokens, counted without brackets."""
    inside = [index[i] for i in range(operation.first, operation.last) if i in index]
    return inside[0], inside[-1] + 1


class AtFault(unittest.TestCase):
    def place(self, text):
        stream = lines(lex(text), Ids())
        answer = RUN.intake(stream).answer
        return answer.number, at_fault(RUN, stream, answer)

    def test_tokens_at_fault(self):
        for text, expected in (
            (b"return 1 2", (2, 2)),
            (b"x = 1 end y = 2", (2, 3)),
            (b"return; x = 1", (2, 2)),
            (b"f() = 1", (3, 3)),
            (b"a, f() = 1", (3, 5)),
            (b"a, (b), c = 1", (3, 5)),
            (b"x y", (4, 1)),
            (b"do f() a.b == 1 end", (4, 7)),
            (b"x", (4, None)),
            (b"x =", (2, None)),
            (b"for i", (2, None)),
            (b"f(", (2, None)),
            (b"x = {a", (2, None)),
            (b"function f(a,", (2, None)),
            (b"do " * 200 + b"end " * 200, (5, 199)),
            (b"x = " + b"(" * 198 + b"1" + b")" * 198, (5, 199)),
            (b"return " + b"(" * 197 + b"a ~= a + a" + b")" * 197, (5, 201)),
        ):
            self.assertEqual(self.place(text), expected, text)

    def test_a_beginning_of_a_good_script_is_never_lost(self):
        stream = lines(lex(EVERYTHING), Ids())
        for length in range(len(stream)):
            beginning = stream[:length] + stream[-1:]
            answer = RUN.intake(beginning).answer
            if answer.number in (3, 4, 5) or answer.number == 2 and answer.expected == 0:
                self.assertIsNone(at_fault(RUN, beginning, answer), length)

    def test_at_the_programs_limit(self):
        filled = b"x = 1 " * 341
        self.assertEqual(self.place(filled + b"end"), (2, None))  # 1,024 tokens: no room to ask what comes next
        self.assertEqual(self.place(b"x = 1 " * 340 + b"end x = "), (2, 1020))


class Printed(unittest.TestCase):
    def test_every_production(self):
        ids = Ids()
        reading = RUN.intake(lines(lex(b"local x = -y^2.5 if a.b[1] then t:f('\\n', {2, k = nil, [3] = ...}) else f() end"), ids))
        printed = Outline(lambda n: ids.bytes[n].decode(), lambda n: repr(ids.bytes[n])).lines(tree.nested(reading.records))
        self.assertEqual(
            printed,
            """Block, closed in line 1
  Local of 1 name, line 1
    Name x
    Expression
      Unary -
        Expression
          Suffixed
            Name y
          Tail ^
            Expression
              Float 2.5
  If with else, line 1
    Expression
      Suffixed
        Name a
        Field b
        Index
          Expression
            Integer 1
    Block, closed in line 1
      CallStatement, line 1
        Suffixed
          Name t
          MethodCall f
            Expression
              String b'\\n'
            Expression
              Table of 3 fields
                ArrayField
                  Expression
                    Integer 2
                NamedField k
                  Expression
                    nil
                IndexedField
                  Expression
                    Integer 3
                  Expression
                    ...
    Block, closed in line 1
      CallStatement, line 1
        Suffixed
          Name f
          Call with 0 arguments""".split("\n"),
        )


if __name__ == "__main__":
    unittest.main()
