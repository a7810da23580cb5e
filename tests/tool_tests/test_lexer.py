import random
import struct
import unittest

from support import second_opinion

from script_reader.lexer import END, FLOAT, INTEGER, KIND, NAME, STRING, WORDS, LexingFault, lex, numeral


def kinds(text):
    return [token.kind for token in lex(text)]


def fault(text):
    try:
        lex(text)
    except LexingFault as found:
        return found.what, found.line, text[found.start : found.end]
    return None


def ours(literal):
    """What our lexer says of a literal, in the form of the second opinion."""
    try:
        tokens = lex(b"return " + literal + b" , line()")
    except LexingFault:
        return None
    token = tokens[1]
    if len(tokens) != 7 or token.kind not in (INTEGER, FLOAT, STRING):
        return "no single token"
    if token.kind == STRING:
        return "string", token.value, str(token.after_line)
    return "integer" if token.kind == INTEGER else "float", struct.pack("<Q", token.value), str(token.after_line)


class Symbols(unittest.TestCase):
    def test_every_word_has_its_kind(self):
        self.assertEqual(len(WORDS), 55)
        for kind, word in enumerate(WORDS):
            self.assertEqual(kinds(b" " + word.encode()), [kind, END], word)

    def test_kinds_of_the_format(self):
        named = {b"break": 0, b"while": 21, b"-": 22, b"=": 37, b"<": 38, b"~=": 43, b".": 44, b"}": 54}
        self.assertEqual({word: KIND[word] for word in named}, named)

    def test_longest_first(self):
        for parts in ("... ..", "<< =", ":: :", "~= =", "// /", ">> >", "<= =", "== ="):
            text = b"a" + parts.replace(" ", "").encode() + b"b"
            self.assertEqual(kinds(text)[1:-2], [WORDS.index(part) for part in parts.split()], text)

    def test_names_and_words(self):
        found = lex(b"_x9 End ende end\tx")
        self.assertEqual([(token.kind, token.value) for token in found[:3]], [(NAME, b"_x9"), (NAME, b"End"), (NAME, b"ende")])
        self.assertEqual(found[3].kind, KIND[b"end"])

    def test_places(self):
        self.assertEqual([(t.start, t.end) for t in lex(b"  ab ..'c'")], [(2, 4), (5, 7), (7, 10), (10, 10)])


class Lines(unittest.TestCase):
    def lines(self, text):
        return [(token.line, token.after_line) for token in lex(text)]

    def test_each_way_to_break_a_line(self):
        for newline in (b"\n", b"\r", b"\r\n", b"\n\r"):
            self.assertEqual(self.lines(newline.join([b"a", b"", b"b"])), [(1, 1), (3, 3), (3, 3)], newline)
        self.assertEqual(self.lines(b"a\n\n\r\rb")[1], (4, 4))

    def test_tokens_over_several_lines(self):
        self.assertEqual(self.lines(b"[[\n\n]] x"), [(1, 3), (3, 3), (3, 3)])
        self.assertEqual(self.lines(b"'a\\\nb\\z \n\n c' x"), [(1, 4), (4, 4), (4, 4)])

    def test_comments(self):
        self.assertEqual(self.lines(b"--[==[ \n ]] ]=] \n]==] a --[ b\nc --"), [(3, 3), (4, 4), (4, 4)])
        self.assertEqual(self.lines(b"--[=x\na"), [(2, 2), (2, 2)])

    def test_end(self):
        self.assertEqual(self.lines(b""), [(1, 1)])
        self.assertEqual(self.lines(b"\n\n\n"), [(4, 4)])

    def test_first_line(self):
        self.assertEqual(self.lines(b"#!/usr/bin/lua\na"), [(2, 2), (2, 2)])
        self.assertEqual(self.lines(b"\xef\xbb\xbf# x\r\na"), [(2, 2), (2, 2)])
        self.assertEqual(kinds(b"\xef\xbb\xbfa"), [NAME, END])
        self.assertEqual(kinds(b"#a\n#a"), [KIND[b"#"], NAME, END])


class Faults(unittest.TestCase):
    def test_faults(self):
        for text, expected in (
            (b"x = 'a\nb'", ("this string is not finished: ' is missing", 1, b"'a")),
            (b'\n"', ('this string is not finished: " is missing', 2, b'"')),
            (b"'a\\\nb", ("the string that begins in line 1 is not finished: ' is missing", 2, b"")),
            (b"\n[==[\n]=]", ("this string is not finished: `]==]` is missing", 2, b"[==[")),
            (b"--[[\n", ("this comment is not finished: `]]` is missing", 1, b"--[[")),
            (b"a[=b", ("this long bracket is malformed", 1, b"[=")),
            (b"3x", ("this number is malformed", 1, b"3x")),
            (b"0x", ("this number is malformed", 1, b"0x")),
            (b"1e+", ("this number is malformed", 1, b"1e+")),
            (b"3..2", ("this number is malformed", 1, b"3..2")),
            (b"'\\256'", ("this escape sequence is above 255", 1, b"\\256")),
            (b"'\\u{80000000}'", ("this escape sequence is above 7FFFFFFF", 1, b"\\u{80000000}")),
            (b"'\\xg0'", ("this escape sequence is none that Lua has", 1, b"\\x")),
            (b"'\\u{}'", ("this escape sequence is none that Lua has", 1, b"\\u")),
            (b"'\\q'", ("this escape sequence is none that Lua has", 1, b"\\q")),
            (b"'\\", ("this escape sequence is none that Lua has", 1, b"\\")),
            (b"a = $", ("`$` has no place in a script", 1, b"$")),
            (b"\xe2\x80\x9ca", ("`“` has no place in a script", 1, b"\xe2\x80\x9c")),
            (b"a\x00", ("the byte 0 has no place in a script", 1, b"\x00")),
            (b"\x80\x80", ("the byte 128 has no place in a script", 1, b"\x80")),
            (b"a != b", ("`!` has no place in a script", 1, b"!")),
        ):
            self.assertEqual(fault(text), expected, text)


def numerals(random):
    """Numerals, good and bad."""
    for n in [0, 1, 2**31, 2**32, 2**53, 2**53 + 1, 2**63 - 1, 2**63, 2**64 - 1, 2**64, 10**18, 10**19, 10**30]:
        yield from (f"{n}", f"{n:x}", f"0x{n:x}", f"0X{n:X}", f"{n}.", f"{n}e0", f"0x{n:x}p0", f"0x{n:x}.8", f"000{n}")
    yield from """0x 0x. 0x.p1 . .5 5. .5e1 5.e1 1e 1e+ 1e- 1ee1 1e1.5 1.2.3 1..2 0x1p 0x1p+ 0x1pa 0x.8p-3 0xA.8p+3 0xep1 0x1e1 1p1 3x 0b1
        1_0 1e308 1.7976931348623157e308 1.7976931348623159e308 1e309 4.9e-324 2.4e-324 2.5e-324 1e-400 1e99999 1e-99999 0e99999
        0x1p1023 0x1.fffffffffffffp1023 0x1.fffffffffffff8p1023 0x1p1024 0x1p-1074 0x1p-1075 0x1.8p-1075 0x1p-9999 0x0p9999
        0x1p99999999999999999999 0x1p-99999999999999999999 0x1.00000000000008 0x1.00000000000018 0x1.000000000000080000001
        0x123456789abcdef0123456789 0x123456789abcdef01.8""".split()
    for _ in range(4000):
        kind = random.randrange(6)
        digits = "".join(random.choice("0123456789") for _ in range(random.randrange(1, 26)))
        hexes = "".join(random.choice("0123456789abcdefABCDEF") for _ in range(random.randrange(1, 24)))
        cut = random.randrange(len(digits) + 1)
        hex_cut = random.randrange(len(hexes) + 1)
        sign = random.choice(["", "+", "-"])
        if kind == 0:
            yield digits
        elif kind == 1:
            yield "0x" + hexes
        elif kind == 2:
            yield f"{digits[:cut]}.{digits[cut:]}"
        elif kind == 3:
            yield f"{digits[:cut]}.{digits[cut:]}{random.choice('eE')}{sign}{random.randrange(330)}"
        elif kind == 4:
            yield f"0x{hexes[:hex_cut]}.{hexes[hex_cut:]}{random.choice('pP')}{sign}{random.randrange(1100)}"
        else:
            yield "".join(random.choice("0123456789abefx.pPeE") for _ in range(random.randrange(1, 9)))


def strings(random):
    """String literals, good and bad."""
    pieces = [b" ", b"'", b'"', b"\n", b"\xff", b"\xc3\xa9", b"\x00", b"\x7f", b"\\z \t\r\n\n  ", b"\\\n", b"\\\r", b"\\\r\n", b"\\\n\r"]
    pieces += rb"""a 0 9 -- [[ ]] \a \b \f \n \r \t \v \\ \" \' \0 \9 \65 \255 \2550 \256 \x00 \xfF \x1 \z \q \ \u41 \u{ \u{g} \u{0} \u{7f}
        \u{80} \u{7FF} \u{800} \u{FFFF} \u{10000} \u{10FFFF} \u{1FFFFF} \u{200000} \u{3FFFFFF} \u{4000000} \u{7fffffff} \u{80000000}
        \u{000000000000041}""".split()
    for piece in pieces:
        yield b"'" + piece + b"'"
        yield b'"x' + piece + b'1"'
    for _ in range(6000):
        quote = random.choice([b"'", b'"'])
        yield quote + b"".join(random.choice(pieces) for _ in range(random.randrange(6))) + quote
    inside = [b"]", b"]]", b"]=]", b"[[", b"\n", b"\r", b"\r\n", b"\n\r", b"\\n", b"a", b"--", b"\x00", b"\xff"]
    for _ in range(3000):
        level = b"=" * random.randrange(3)
        yield b"[" + level + b"[" + b"".join(random.choice(inside) for _ in range(random.randrange(7))) + b"]" + level + b"]"


class SecondOpinion(unittest.TestCase):
    """Values and lines of literals as lua5.4 has them."""

    def compare(self, literals):
        agreed = refused = 0
        for literal, theirs in zip(literals, second_opinion(literals)):
            mine = ours(literal)
            if mine == "no single token":  # as in 0xe+1, or a string that ends early
                continue
            self.assertEqual(mine, theirs, literal)
            agreed += mine is not None
            refused += mine is None
        return agreed, refused

    def test_numerals(self):
        agreed, refused = self.compare([text.encode() for text in numerals(random.Random(1))])
        self.assertGreater(agreed, 3000)
        self.assertGreater(refused, 200)

    def test_strings(self):
        agreed, refused = self.compare(list(strings(random.Random(2))))
        self.assertGreater(agreed, 3000)
        self.assertGreater(refused, 1000)

    def test_numerals_by_hand(self):
        self.assertEqual(numeral(b"9223372036854775807"), (INTEGER, 2**63 - 1))
        self.assertEqual(numeral(b"9223372036854775808"), (FLOAT, 0x43E0000000000000))
        self.assertEqual(numeral(b"0xffffffffffffffff"), (INTEGER, 2**64 - 1))
        self.assertEqual(numeral(b"0x10000000000000001"), (INTEGER, 1))
        self.assertEqual(numeral(b"0x.8"), (FLOAT, 0x3FE0000000000000))
        self.assertEqual(numeral(b"1e999"), (FLOAT, 0x7FF0000000000000))


if __name__ == "__main__":
    unittest.main()
