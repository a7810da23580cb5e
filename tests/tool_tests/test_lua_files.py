"""The lexer on every .lua file of a folder (tests/lua_files fetches one), against luac5.4. Run where LUA_FILES names the folder."""
import os
import re
import struct
import subprocess
import unittest
from concurrent.futures import ThreadPoolExecutor

import support  # noqa: F401

from script_reader.lexer import END, FLOAT, INTEGER, NAME, STRING, WORDS, LexingFault, lex

FOLDER = os.environ.get("LUA_FILES")
LEXING = re.compile(
    r"malformed number|unfinished|escape|invalid long string|digit expected|missing '[{}]'|UTF-8 value|unexpected symbol near '<\\[0-9]+>'"
)


def files():
    for folder, _, names in os.walk(FOLDER):
        for name in sorted(names):
            path = os.path.join(folder, name)
            if name.endswith(".lua") and os.path.isfile(path) and not os.path.islink(path):
                yield path


def compiled(text):
    """The bytecode, lines included, or luac's message."""
    ended = subprocess.run(["luac5.4", "-o", "/dev/stdout", "-"], input=text, capture_output=True)
    return (ended.stdout, None) if ended.returncode == 0 else (None, ended.stderr.decode(errors="replace").strip())


def literal(token):
    if token.kind == INTEGER:
        return b"0x%x" % token.value
    if token.kind == FLOAT:
        number = struct.unpack("<d", struct.pack("<Q", token.value))[0]
        return b"1e999" if number == float("inf") else number.hex().encode()
    if token.kind == STRING:
        breaks = b"\n" * (token.after_line - token.line)
        return b'"' + b"".join(b"\\%03d" % byte for byte in token.value) + (b"\\z" + breaks if breaks else b"") + b'"'
    return token.value if token.kind == NAME else WORDS[token.kind].encode()


def written_anew(tokens):
    """A text of the same tokens in the same lines, with no other literal than the plainest."""
    parts, line = [], 1
    for token in tokens:
        parts.append(b"\n" * (token.line - line) + b" ")
        if token.kind != END:
            parts.append(literal(token))
        line = token.after_line
    return b"".join(parts)


def judged(path):
    with open(path, "rb") as opened:
        text = opened.read()
    bytecode, message = compiled(text)
    try:
        tokens = lex(text)
    except LexingFault as fault:
        return path, message, f"{fault.line}: {fault.what}", None
    return path, message, None, bytecode is None or compiled(written_anew(tokens))[0] == bytecode


@unittest.skipUnless(FOLDER, "LUA_FILES names no folder")
class LuaFiles(unittest.TestCase):
    def test_as_luac_has_it(self):
        """What luac accepts is lexed, and the tokens written anew compile to the same bytecode; lexing faults of luac's are faults here."""
        accepted = refused = 0
        with ThreadPoolExecutor(2) as pool:
            for path, message, fault, same in pool.map(judged, files()):
                if message is None:
                    self.assertIsNone(fault, path)
                    self.assertTrue(same, f"{path}: another bytecode")
                    accepted += 1
                else:
                    if LEXING.search(message):
                        self.assertIsNotNone(fault, f"{path}: {message}")
                        self.assertIn(f":{fault.split(':')[0]}:", message, path)
                    refused += 1
        print(f"\n{accepted} files that luac5.4 accepts: the same bytecode from our tokens; {refused} that it refuses")
        self.assertGreater(accepted, 0)


if __name__ == "__main__":
    unittest.main()
