"""Pieces that sound: the demo, and everything that the documents print for people to type."""
import os
import re
import struct

from front import panel, readme_picture

from .helpers import DEMO, ROOT, Folder, samples


def document(name):
    with open(os.path.join(ROOT, name), encoding="utf-8") as file:
        return file.read()


def checksum(wave):
    """That of the program `play`."""
    out = 0
    for sample in struct.unpack(f"<{(len(wave) - 44) // 2}H", wave[44:]):
        out = out % 67108864 * 61 + sample
    return out


class Sounding(Folder):
    """Commands with the panel itself."""

    def environment(self):
        return {**os.environ, "REPLAY": panel.program(), "LC_ALL": "C.UTF-8"}

    def demo(self, name):
        return os.path.join(DEMO, name)


class Pieces(Sounding):
    def test_the_tune_is_that_of_play(self):
        self.played(self.demo("tune.orc"), self.demo("tune.sasl"), "t.wav")
        cycles, total = re.search(r"(\d+) cycles, 0 notes missed, checksum (\w+)", document("crates/play/stdout")).groups()
        wave = self.get("t.wav")
        self.assertEqual((len(samples(wave)), f"{checksum(wave):08x}"), (int(cycles), total))

    def test_the_panels_own_text_and_bytes(self):
        data = os.path.join(ROOT, "crates", "play", "data")
        self.played(self.demo("tune.orc"), self.demo("tune.sasl"), "t.wav")
        self.played(os.path.join(data, "tune.orc.bin"), os.path.join(data, "tune.sasl"), "p.wav")
        self.assertEqual(self.get("p.wav"), self.get("t.wav"))

    def test_the_chaconne(self):
        said = self.played(self.demo("chaconne.orc"), self.demo("chaconne.sasl"), "c.wav")
        self.assertRegex(said, r"^c.wav: 2 minutes 35.8 seconds, 683 notes, peak [3-9][0-9] % of the ceiling 32,767, no samples at the "
                               r"ceiling, no notes missed\n$")
        said = self.played(self.demo("chaconne.orc"), self.demo("chaconne.sasl"), "c.wav", "--ceiling", "2000")
        self.assertRegex(said, r"peak 100 % of the ceiling 2,000, [0-9,]+ samples at the ceiling")
        self.assertEqual((max(samples(self.get("c.wav"))) <= 2000, min(samples(self.get("c.wav"))) >= -2000), (True, True))

    def test_keys(self):
        for options in ([], ["--instrument", "organ"]):
            said = self.played(self.demo("keys.orc"), self.demo("keys.mid"), "k.wav", *options)
            self.assertRegex(said, r"^k.wav: 17.8 seconds, 60 notes, peak [1-9][0-9] % of the ceiling 32,767, no samples at the ceiling, no "
                                   r"notes missed\n$")

    def test_a_key_of_an_instrument_with_more_values(self):
        said = self.played(self.demo("tune.orc"), self.demo("keys.mid"), "k.wav")
        self.assertIn("silent, no sample is other than 0: a key gives `lead` 2 of its 4 values, so held and bright are 0", said)

    def test_missed_notes(self):
        self.put("s.sasl", "0 lead 4 440 0.01 100 0\n" * 16 + "1.5 lead 1 440 0.01 100 0\n")
        said = self.played(self.demo("tune.orc"), "s.sasl", "m.wav")
        self.assertIn("1 note missed, the first at beat 1.5\n", said)

    def test_silence(self):
        self.put("s.sasl", "*4 lead 1 329.63 0.2\n")
        said = self.played(self.demo("tune.orc"), "s.sasl", "m.wav")
        self.assertIn("silent, no sample is other than 0: s.sasl: line 1: `lead` gets 2 of its 4 values, so held and bright are 0\n", said)


class Documents(Sounding):
    def block(self, name, mark):
        """The indented lines of a document around one that has a mark."""
        for found in re.finditer(r"(?:^    .*\n|^\n(?=    ))+", document(name), re.MULTILINE):
            if mark in found.group():
                return re.sub("^    ", "", found.group(), flags=re.MULTILINE).strip("\n") + "\n"
        raise AssertionError(f"{name}: no block with {mark}")

    def test_the_scores_that_are_printed_sound(self):
        for name in ("docs/TEACHERS.md", "README.md"):
            self.put("s.sasl", self.block(name, "0 tempo 120"))
            said = self.played(self.demo("tune.orc"), "s.sasl", "s.wav")
            self.assertNotIn("warning", said)
            self.assertRegex(said, r"peak [1-9][0-9]* %", name)

    def test_the_orchestra_that_is_printed_is_the_demo(self):
        with open(self.demo("first.orc"), encoding="utf-8") as file:
            self.assertEqual(self.block("docs/ORCHESTRAS.md", "instr bell"), file.read())
        self.assertRegex(self.played(self.demo("first.orc"), self.demo("first.sasl"), "f.wav"), r"peak [1-9][0-9] %")

    def test_the_picture(self):
        with open(readme_picture.PICTURE, encoding="utf-8") as file:
            self.assertEqual(file.read(), readme_picture.drawn())
