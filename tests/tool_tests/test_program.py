"""How the programs are found, proved and built first where they are missing, and run: with a toolchain that is made up."""
import os
import shutil
import stat
import subprocess
import sys
import tempfile
import unittest

from support import TOOLS

RT = """#!/bin/sh
name=$(basename "$PWD")
case $1 in
run) echo "proving $name" >&2; {run} ;;
esac
"""
INTAKE = """#!/bin/sh
cat >/dev/null
echo '01 0000000000000000 00000001 00000001'
"""


def executable(path, text):
    os.makedirs(os.path.dirname(path), exist_ok=True)
    with open(path, "w") as file:
        file.write(text)
    os.chmod(path, os.stat(path).st_mode | stat.S_IXUSR)


class Found(unittest.TestCase):
    def setUp(self):
        self.folder = tempfile.mkdtemp()
        self.addCleanup(shutil.rmtree, self.folder)
        shutil.copytree(TOOLS, os.path.join(self.folder, "repo", "tools"))
        for name in ("intake", "batch"):
            os.makedirs(os.path.dirname(self.program(name)))

    def program(self, name):
        return os.path.join(self.folder, "repo", "crates", name, "out", name)

    def kit(self, run):
        executable(os.path.join(self.folder, "kit", "bin", "rt"), RT.format(run=run))

    def read(self, path, text=b""):
        command = [sys.executable, os.path.join(self.folder, "repo", "tools", "read"), "-"]
        ended = subprocess.run(command, input=text, capture_output=True, env={"PATH": path})
        return ended.returncode, ended.stdout.decode(), ended.stderr.decode()

    def with_kit(self):
        return os.path.join(self.folder, "kit", "bin") + ":/usr/bin:/bin"

    def test_no_toolchain(self):
        status, told, said = self.read("/nowhere")
        self.assertEqual((status, told), (2, ""))
        self.assertIn("the Rattle toolchain (rt) is missing", said)

    def test_programs_are_there(self):
        self.kit("exit 1")
        for name in ("intake", "batch"):
            executable(self.program(name), INTAKE)
        self.assertEqual(self.read(self.with_kit()), (0, "standard input: accepted\n", ""))

    def test_programs_are_proved_first(self):
        made = os.path.join(self.folder, "made")
        executable(made, INTAKE)
        self.kit(f"cp {made} out/$name")
        status, told, said = self.read(self.with_kit())
        self.assertEqual((status, told), (0, "standard input: accepted\n"))
        self.assertIn("Everything is being proved first (tools/build intake batch): six to fifteen minutes.", said)
        self.assertIn("proving intake\nproving batch\n", said)

    def test_the_proof_fails(self):
        self.kit("exit 1")
        status, told, said = self.read(self.with_kit())
        self.assertEqual((status, told), (2, ""))
        self.assertIn("tools/build intake batch failed", said)

    def test_the_proof_leaves_no_program(self):
        self.kit("exit 0")
        status, _, said = self.read(self.with_kit())
        self.assertEqual(status, 2)
        self.assertIn("tools/build left no program intake", said)

    def test_a_program_that_fails(self):
        self.kit("exit 1")
        for name in ("intake", "batch"):
            executable(self.program(name), "#!/bin/sh\necho broken >&2\nexit 3\n")
        status, told, said = self.read(self.with_kit())
        self.assertEqual((status, told), (2, ""))
        self.assertIn("intake ended with status 3: broken", said)

    def test_programs_that_do_not_fit_together(self):
        """A fault of the command's own is never told as a script that goes back."""
        self.kit("exit 1")
        executable(self.program("intake"), "#!/bin/sh\ncat >/dev/null\necho 00000008 00000001 00000002 00000000 00000000\n")
        batch = INTAKE + "echo 00000000 00000000 00000000 00000000 00000004\n"
        executable(self.program("batch"), batch + batch.split("\n", 2)[2])
        status, told, said = self.read(self.with_kit(), b"return a ~= b + c")
        self.assertEqual((status, told), (2, ""))
        self.assertIn("a fault of this command, and says nothing of the script", said)


if __name__ == "__main__":
    unittest.main()
