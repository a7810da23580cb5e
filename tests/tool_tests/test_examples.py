"""What the examples' comments say of money and weight, by running them with lua5.4 as the floor and as the office read them."""
import os
import re
import subprocess
import unittest

from support import ROOT, command

WORLD = """
price = 2.40
drum = {number = 7, gross = 212.5, tare = 12.5, moisture = 9, grade = "A", seal = "open"}
slip = {grade = "A", closed = true}
ticket = {net = 200}
scale = {gross = 212.5, flags = 0, display = "212.5 kg"}
tares = {[7] = 12.4}
function pay(money) return string.format("pays %.2f", money) end
function hold(why) return "holds: " .. why end
"""


def run(text, changes=""):
    """What a script returns, or that it stops."""
    whole = WORLD + changes + "\nlocal ran, told = pcall(load(io.read('a')))\nprint(ran and told or 'stops')"
    ended = subprocess.run(["lua5.4", "-e", whole], input=text.encode(), capture_output=True, check=True)
    return ended.stdout.decode().strip()


def readings(name):
    """The script as the floor reads it and as the office does: each expression at fault with the brackets that the command tells."""
    with open(os.path.join(ROOT, "examples", name)) as file:
        text = file.read()
    told = command(f"examples/{name}")[1]
    texts = []
    for who in ("floor", "office"):
        bracketed = text
        for reading in re.findall(rf"^  {who}: (.*)$", told, re.M):
            plain = re.sub(r"[()]", "", reading)
            assert plain in bracketed, plain
            bracketed = bracketed.replace(plain, reading)
        texts.append(bracketed)
    return texts


class Claims(unittest.TestCase):
    def both(self, name, changes=""):
        return tuple(run(text, changes) for text in readings(name))

    def test_the_office_reads_as_lua_does(self):
        for name in ("seal_check", "grade_on_slip", "net_weight", "scale_checks"):
            with open(os.path.join(ROOT, "examples", f"{name}.lua")) as file:
                self.assertEqual(run(file.read()), self.both(f"{name}.lua")[1])

    def test_seal_check(self):
        self.assertEqual(self.both("seal_check.lua", "drum.gross = 198.5"), ("pays 446.40", "holds: the seal is open"))  # 186 kg
        self.assertEqual(self.both("seal_check.lua", "drum.seal = 'closed'"), ("pays 480.00", "pays 480.00"))

    def test_grade_on_slip(self):
        self.assertEqual(self.both("grade_on_slip.lua", "drum.grade = 'B'"), ("pays 480.00", "pays 360.00"))
        self.assertEqual(self.both("grade_on_slip.lua"), ("pays 480.00", "pays 480.00"))

    def test_grade_on_slip_mended(self):
        self.assertEqual(self.both("grade_on_slip_mended.lua", "drum.grade = 'B'"), ("pays 360.00", "pays 360.00"))

    def test_net_weight(self):
        self.assertEqual(self.both("net_weight.lua", "drum.gross = 210.5 ticket.net = 198"), ("stops", "pays 475.20"))
        self.assertEqual(self.both("net_weight.lua", "ticket.net = 214"), ("stops", "holds: the ticket says 214 kg"))

    def test_scale_checks(self):
        self.assertEqual(self.both("scale_checks.lua"), ("stops", "pays 480.00"))
        self.assertEqual(self.both("scale_checks.lua", "scale.flags = 4"), ("stops", "holds: the scale failed its check: rest"))

    def test_those_that_agree(self):
        self.assertEqual(self.both("tare_check.lua")[0], "pays 480.00")
        self.assertEqual(self.both("tare_check.lua", "tares[7] = nil")[0], "holds: no tare on record for drum 7")
        self.assertTrue(self.both("tare_check.lua", "tares[7] = 12")[0].startswith("holds: tare is off by 0.5"))
        self.assertEqual(self.both("moisture_tariff.lua")[0], "pays 450.00")
        self.assertEqual(self.both("moisture_tariff.lua", "drum.moisture = 13")[0], "holds: moisture 13 % is above 12.5 %")
        self.assertEqual(self.both("grade_table.lua")[0], "pays 504.00")
        self.assertEqual(self.both("grade_table.lua", "drum.grade = 'C'")[0], "pays 480.00")


if __name__ == "__main__":
    unittest.main()
