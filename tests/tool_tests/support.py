"""What the tests share: the command run on text or files, and Lua's own word on literals."""
import os
import subprocess
import sys
import tempfile

ROOT = os.path.dirname(os.path.dirname(os.path.dirname(os.path.abspath(__file__))))
TOOLS = os.path.join(ROOT, "tools")
sys.path.insert(0, TOOLS)
sys.dont_write_bytecode = True
sys.setrecursionlimit(20000)

# a folder of stand-ins, set by tests/tools; none: the proved programs of crates/*/out
PROGRAMS = os.environ.get("READ_PROGRAMS") or None


def command(*words, text=b"", folder=None, options=None, env=None):
    """Exit status, standard output and standard error of tools/read."""
    if options is None:
        options = ["--programs", PROGRAMS] if PROGRAMS else []
    ended = subprocess.run(
        [sys.executable, os.path.join(TOOLS, "read"), *options, *words], input=text, capture_output=True, cwd=folder or ROOT, env=env
    )
    return ended.returncode, ended.stdout.decode(), ended.stderr.decode()


def on_text(text, *words):
    """Exit status and lines told of a script on standard input, its name left out."""
    status, told, said = command(*words, "-", text=text)
    assert not said, said
    return status, [line.replace("standard input:", "", 1) for line in told.splitlines()]


SECOND_OPINION = rb"""
local function line() return debug.getinfo(2, "l").currentline end
local form = {integer = "<i8", float = "<d"}
for hex in io.lines() do
    local text = hex:gsub("..", function(two) return string.char(tonumber(two, 16)) end)
    local chunk = load("return " .. text .. " , line()", "=x", "t", {line = line})
    if chunk == nil then
        print("refused")
    else
        local ran, value, after = pcall(chunk)
        local kind = math.type(value) or type(value)
        local bytes = form[kind] and string.pack(form[kind], value) or tostring(value)
        print(kind, (bytes:gsub(".", function(c) return string.format("%02x", c:byte()) end)), after)
    end
end
"""


def second_opinion(literals):
    """For each literal what lua5.4 says of it: None where it refuses it, else (kind, bytes, text of the line after it)."""
    with tempfile.NamedTemporaryFile(suffix=".lua") as script:
        script.write(SECOND_OPINION)
        script.flush()
        lines = "".join(literal.hex() + "\n" for literal in literals)
        told = subprocess.run(["lua5.4", script.name], input=lines.encode(), capture_output=True, check=True).stdout.decode()
    answers = []
    for line in told.splitlines():
        parts = line.split("\t")
        answers.append(None if parts == ["refused"] else (parts[0], bytes.fromhex(parts[1]), parts[2]))
    assert len(answers) == len(literals)
    return answers
