"""The command, from text to words and exit status."""
import os
import shutil
import tempfile
import unittest

from support import command, on_text

QUARREL = "the floor and the office read this `~=` differently"
MEND = "  Write the brackets of the reading that is meant, and both read it alike."


class Examples(unittest.TestCase):
    maxDiff = None

    def test_all(self):
        names = sorted(os.listdir(os.path.join(os.path.dirname(__file__), "..", "..", "examples")))
        status, told, said = command(*(f"examples/{name}" for name in names))
        self.assertEqual((status, said), (1, ""))
        self.assertEqual(
            told,
            f"""\
examples/grade_on_slip.lua:8:29: {QUARREL}
    if drum.grade == slip.grade ~= true then
                                ^^
  floor: drum.grade == (slip.grade ~= true)
  office: (drum.grade == slip.grade) ~= true
{MEND}
examples/grade_on_slip_mended.lua: accepted
examples/grade_table.lua: accepted
examples/moisture_limit.lua:3:15: `then` is expected, but `=` stands here
    if drum.grade = "C" then
                  ^
examples/moisture_tariff.lua: accepted
examples/net_weight.lua:5:15: {QUARREL}
    if ticket.net ~= drum.gross - drum.tare then
                  ^^
  floor: (ticket.net ~= drum.gross) - drum.tare
  office: ticket.net ~= (drum.gross - drum.tare)
{MEND}
examples/scale_checks.lua:6:51: {QUARREL}
    rest = function(scale) return scale.flags & 4 ~= 0 end,
                                                  ^^
  floor: scale.flags & (4 ~= 0)
  office: (scale.flags & 4) ~= 0
examples/scale_checks.lua:7:51: {QUARREL}
    zero = function(scale) return scale.flags & 8 ~= 0 end,
                                                  ^^
  floor: scale.flags & (8 ~= 0)
  office: (scale.flags & 8) ~= 0
examples/scale_checks.lua:8:52: {QUARREL}
    display = function(scale) return scale.display ~= scale.gross .. " kg" end,
                                                   ^^
  floor: (scale.display ~= scale.gross) .. " kg"
  office: scale.display ~= (scale.gross .. " kg")
{MEND}
examples/seal_check.lua:6:26: {QUARREL}
    if drum.seal == "closed" ~= slip.closed then
                             ^^
  floor: drum.seal == ("closed" ~= slip.closed)
  office: (drum.seal == "closed") ~= slip.closed
{MEND}
examples/tare_check.lua: accepted
9 scripts: 4 accepted, 5 go back
""",
        )

    def test_one_accepted(self):
        self.assertEqual(command("examples/tare_check.lua"), (0, "examples/tare_check.lua: accepted\n", ""))

    def test_several_accepted(self):
        status, told, _ = command("examples/tare_check.lua", "examples/grade_table.lua")
        self.assertEqual((status, told.splitlines()[-1]), (0, "2 scripts: 2 accepted, 0 go back"))


class Files(unittest.TestCase):
    def setUp(self):
        self.folder = tempfile.mkdtemp()
        self.addCleanup(shutil.rmtree, self.folder)

    def file(self, name, text):
        with open(os.path.join(self.folder, name), "wb") as file:
            file.write(text)
        return name

    def read(self, *words):
        return command(*words, folder=self.folder)

    def test_missing(self):
        self.assertEqual(self.read("none.lua"), (2, "", "none.lua: not read: there is no such file\n"))

    def test_folder(self):
        os.mkdir(os.path.join(self.folder, "scripts"))
        self.assertEqual(self.read("scripts"), (2, "", "scripts: not read: it is a folder, not a script\n"))

    def test_others_are_read_all_the_same(self):
        self.file("good.lua", b"x = 1\n")
        self.file("bad.lua", b"x = = 1\n")
        status, told, said = self.read("none.lua", "good.lua", "bad.lua", ".")
        self.assertEqual(status, 2)
        self.assertEqual(told.splitlines()[0], "good.lua: accepted")
        self.assertEqual(told.splitlines()[-1], "4 scripts: 1 accepted, 1 goes back, 2 not read")
        self.assertEqual(said.count("not read"), 2)

    def test_empty(self):
        self.assertEqual(self.read(self.file("empty.lua", b"")), (0, "empty.lua: accepted\n", ""))

    def test_name_that_is_no_utf8(self):
        name = os.fsdecode(b"caf\xe9.lua")
        self.file(name, b"x =")
        status, told, said = self.read(name)
        self.assertEqual((status, said), (1, ""))
        self.assertTrue(told.startswith("caf\\udce9.lua:1:4: "), told)

    def test_no_file_named(self):
        status, told, said = self.read()
        self.assertEqual((status, told), (2, ""))
        self.assertIn("usage: tools/read", said)

    def test_no_program(self):
        status, told, said = command(self.file("a.lua", b""), "b.lua", folder=self.folder, options=["--programs", self.folder])
        self.assertEqual((status, told, said), (2, "", f"tools/read: {self.folder} has no program intake\n"))

    def test_help_says_what_is_proved(self):
        status, told, _ = self.read("--help")
        self.assertEqual(status, 0)
        self.assertIn("outside the\nproved core", told)


class Text(unittest.TestCase):
    maxDiff = None

    def test_crlf(self):
        self.assertEqual(
            on_text(b"local a\r\nif a == b ~= c then\r\nend\r\n"),
            (
                1,
                [
                    f"2:11: {QUARREL}",
                    "    if a == b ~= c then",
                    "              ^^",
                    "  floor: a == (b ~= c)",
                    "  office: (a == b) ~= c",
                    MEND,
                ],
            ),
        )

    def test_first_line(self):
        self.assertEqual(on_text(b"#!/usr/bin/lua ~=\nreturn 1\n"), (0, [" accepted"]))
        self.assertEqual(on_text(b"\xef\xbb\xbfx y")[1][0].split(":")[:2], ["1", "3"])

    def test_tabs(self):
        status, told = on_text(b"\tx =\t1\ty\t+ 2\n")
        self.assertEqual(told[0].split(": ")[0], "1:10")
        self.assertEqual(told[1:], ["    x =\t1\ty\t+ 2", "       \t \t \t^"])

    def test_bytes_that_are_no_utf8(self):
        self.assertEqual(on_text(b"x = 'caf\xe9' y"), (1, [
            "1:13: before this stands an expression where a statement is expected: only a call or an assignment can stand alone",
            "    x = 'caf?' y", "                ^"]))  # fmt: skip
        self.assertEqual(on_text(b"-- \xff\xfe\nx = '\xff'\n"), (0, [" accepted"]))
        self.assertEqual(on_text(b"x = \xff"), (1, ["1:5: the byte 255 has no place in a script", "    x = ?", "        ^"]))

    def test_wide_characters(self):
        status, told = on_text("x = '重さ' é".encode())
        self.assertEqual(told, ["1:10: `é` has no place in a script", "    x = '重さ' é", "               ^"])

    def test_nothing_is_done_to_the_screen(self):
        status, told = on_text(b"x = '\x1b[31m' y")
        self.assertEqual(told[1], "    x = '?[31m' y")

    def test_several_quarrels(self):
        self.assertEqual(
            on_text(b"return a == b ~= c ~= d,\n  x ~= y + 1 and z\n"),
            (
                1,
                [
                    f"1:15: {QUARREL}",
                    "    return a == b ~= c ~= d,",
                    "                  ^^",
                    "  floor: a == ((b ~= c) ~= d)",
                    "  office: ((a == b) ~= c) ~= d",
                    f"1:20: {QUARREL}",
                    "    return a == b ~= c ~= d,",
                    "                       ^^",
                    "  (in the same expression)",
                    f"2:5: {QUARREL}",
                    "    x ~= y + 1 and z",
                    "      ^^",
                    "  floor: ((x ~= y) + 1) and z",
                    "  office: (x ~= (y + 1)) and z",
                    MEND,
                ],
            ),
        )

    def test_quarrel_in_a_nested_function_in_a_table(self):
        status, told = on_text(b"t = {f = function(d)\n  local g = function() return {d.a==d.b~=d.c} end\nend}\n")
        self.assertEqual(status, 1)
        self.assertEqual(told[0].split(": ")[0], "2:40")
        self.assertEqual(told[3:5], ["  floor: d.a == (d.b ~= d.c)", "  office: (d.a == d.b) ~= d.c"])

    def test_what_stands_in_brackets_is_as_in_the_source(self):
        status, told = on_text(b"if f(a+b*c, 'x') == ( p  or q ) ~= -t[i + 1] ^ 2 then end")
        self.assertEqual(told[3], "  floor: f(a+b*c, 'x') == (( p or q ) ~= -(t[i + 1] ^ 2))")
        self.assertEqual(told[4], "  office: (f(a+b*c, 'x') == ( p or q )) ~= -(t[i + 1] ^ 2)")

    def test_an_expression_over_several_lines(self):
        status, told = on_text(b"x = a -- the first\n  == b\n  ~= c\n")
        self.assertEqual(told[:5], [f"3:3: {QUARREL}", "    ~= c", "    ^^", "  floor: a == (b ~= c)", "  office: (a == b) ~= c"])

    def test_long_expressions(self):
        inside = b", ".join(b"item%d" % i for i in range(40))
        status, told = on_text(b"x = f(" + inside + b") == g(1) ~= c")
        self.assertEqual(told[3:5], ["  floor: f(...) == (g(1) ~= c)", "  office: (f(...) == g(1)) ~= c"])
        status, told = on_text(b"x = function(a, b) return 1 end == c ~= d")
        self.assertEqual(told[3:5], ["  floor: function(a, b) ... end == (c ~= d)", "  office: (function(a, b) ... end == c) ~= d"])
        joined = b" .. ".join(b"part%d" % i for i in range(30))
        status, told = on_text(b"x = " + joined + b" == c ~= d")
        self.assertEqual(told[3:5], ["  floor: ... == (c ~= d)", "  office: (... == c) ~= d"])
        status, told = on_text(b"x = 'a string that is longer than anyone wants to see' == c ~= d")
        self.assertEqual(told[3], "  floor: 'a string that is lo...' == (c ~= d)")

    def test_a_very_long_line(self):
        status, told = on_text(b"x = 1 " * 150 + b"y = a == b ~= c " + b"z = 2 " * 100)
        self.assertEqual(status, 1)
        self.assertEqual(told[0].split(": ")[0], "1:912")
        self.assertLess(max(map(len, told)), 110)
        self.assertEqual(told[1][told[2].index("^") :][:2], "~=")
        self.assertEqual((told[1][:7], told[1][-3:]), ("    ...", "..."))

    def test_refusals(self):
        for text, place, what, marked in (
            (b"if a b then end", "1:6", "`then` is expected, but `b` stands here", "     ^"),
            (b"x = {,}", "1:6", "a name or an expression in brackets is expected, but `,` stands here", "     ^"),
            (b"goto\n1", "2:1", "a name is expected, but `1` stands here", "^"),
            (b"a:b = 1", "1:5", "the arguments of a call are expected, but `=` stands here", "    ^"),
            (b"function f(1) end", "1:12", "a parameter's name or `...` is expected, but `1` stands here", "           ^"),
            (b"for i do end", "1:7", "`=` or `in` is expected, but `do` stands here", "      ^^"),
            (b"f(\n1 2)", "2:3", "`)` is expected to close the `(` of line 1, but `2` stands here", "  ^"),
            (b"do\nf()\n\n\n", "2:4", "`end` is expected to close the `do` of line 1, but the script ends here", "   ^"),
            (b"local", "1:6", "a name is expected, but the script ends here", "     ^"),
            (b"x = 1 +", "1:8", "the script ends here, in the middle of a statement", "       ^"),
            (b"x = 1 end", "1:7", "`end` stands here, but nothing is open that it could belong to", "      ^^^"),
            (b"return 1 x = 2", "1:10", "the script is over after its `return`, but more stands here", "         ^"),
            (b"f() = 1", "1:5", "what this assigns to is no variable", "    ^"),
            (b"do " * 200, "1:598", "too many levels: at most 199 statements and expressions can be open at once", None),
            (b"x = 'a", "1:5", "this string is not finished: ' is missing", "    ^^"),
            (b"x = 3x4", "1:5", "this number is malformed", "    ^^"),
        ):
            status, told = on_text(text)
            self.assertEqual((status, told[0]), (1, f"{place}: {what}"), text)
            if marked is not None:
                self.assertEqual(told[2], "    " + marked, text)

    def test_attribs(self):
        self.assertEqual(on_text(b"local x <const> = 1")[1][3], "    (the terminal reads no attribs, such as <const> and <close>)")
        self.assertEqual(len(on_text(b"local x < y = 1")[1]), 3)

    def test_tree(self):
        self.assertEqual(
            on_text(b"return #'a\\0\"' -- x\n", "--tree"),
            (
                0,
                [
                    " accepted",
                    "  Block with a return, closed in line 2",
                    "    Return, line 1",
                    "      Expression",
                    "        Unary #",
                    "          Expression",
                    '            String "a\\000\\034"',
                ],
            ),
        )

    def test_no_tree_of_what_goes_back(self):
        self.assertEqual(on_text(b"return a == b ~= c", "--tree"), on_text(b"return a == b ~= c"))


class Limits(unittest.TestCase):
    def test_tokens(self):
        self.assertEqual(command("-", text=b"; " * 1024), (0, "standard input: accepted\n", ""))
        said = "standard input: not read: the script has 1,025 tokens and the program takes at most 1,024: that is no fault of the script\n"
        self.assertEqual(command("-", text=b"; " * 1025), (2, "", said))

    def test_tree_records(self):
        self.assertEqual(command("-", text=b"return {" + b"x," * 510 + b"x}"), (0, "standard input: accepted\n", ""))  # 2,048 records
        status, told, said = command("-", text=b"return {" + b"x," * 508 + b'f"",f""}')
        self.assertEqual((status, told), (2, ""))
        self.assertIn("the script's tree has 2,050 records and the program takes at most 2,048: that is no fault of the script", said)

    def test_a_fault_comes_before_a_limit(self):
        self.assertEqual(command("-", text=b"t = {" + b'f"",' * 320 + b"}}")[0], 1)
        self.assertEqual(command("-", text=b"; " * 2000 + b"$")[0], 1)

    def test_a_quarrel_in_a_tree_that_is_too_large(self):
        """The trees of the script's statements are small enough each."""
        status, told = on_text(b'f""\n' * 200 + b"x = f\n(a == b ~= c)\n" + b'f"";\n' * 200 + b"return a ~= b + c\n")
        self.assertEqual(status, 1)
        self.assertEqual([told[0], told[5]], [f"202:9: {QUARREL}", f"403:10: {QUARREL}"])
        self.assertEqual(told[3:5], ["  floor: a == (b ~= c)", "  office: (a == b) ~= c"])
        self.assertEqual(told[8:], ["  floor: (a ~= b) + c", "  office: a ~= (b + c)", MEND])

    def test_a_quarrel_in_a_statement_that_is_too_large(self):
        status, told = on_text(b"t = {" + b'f"",' * 320 + b"a == b ~= c} x = a ~= b + c")
        self.assertEqual(status, 1)
        self.assertEqual([told[0], told[4]], [f"1:1293: {QUARREL}", f"1:1305: {QUARREL}"])
        self.assertEqual(told[3], "  (the statement is too large for both readings to be spelled out)")
        self.assertEqual(told[7:], ["  floor: (a ~= b) + c", "  office: a ~= (b + c)", MEND])


if __name__ == "__main__":
    unittest.main()
