"""`bin/assemble`, and that the demo's pieces are what the programs have."""
import os

from front import orchestra, schedule, score_lines, score_text
from front.faults import Warnings
from front.score_lines import Kind

from . import keys_tune
from .helpers import DEMO, ORCHESTRA, ROOT, SCORE, Folder


def read(*path):
    with open(os.path.join(*path), "rb") as file:
        return file.read()


def piece(name):
    """The orchestra and the lines of a demo, which give no warning."""
    warnings = Warnings()
    made = orchestra.read(f"{name}.orc", read(DEMO, f"{name}.orc"), None, warnings)
    lines = score_text.read(f"{name}.sasl", read(DEMO, f"{name}.sasl"), made)
    score_text.warn_of_controls(lines, made, warnings)
    assert not warnings.told, warnings.told
    return made, lines


class Assemble(Folder):
    def test_an_orchestra(self):
        status, out, said = self.run_command("o.orc", command="assemble")
        self.assertEqual((status, said), (0, ""))
        self.assertEqual(out.decode(), "o.orc.bin: 84 bytes\no.orc.names: 38 bytes\ns0 lead\ns1 pitch\ns2 loud\ns3 held\ns4 bright\ns5 x\n"
                                       "s6 pad\ns7 swell\n")
        self.assertEqual(len(self.get("o.orc.bin")), 84)

    def test_an_orchestra_and_a_score(self):
        self.put("s.sasl", SCORE + "5 a control swell 1\n")
        status, out, said = self.run_command("o.orc", "s.sasl", command="assemble")
        self.assertEqual((status, out.decode().count(" bytes\n")), (0, 3))
        self.assertEqual(said, "assemble: s.sasl: line 5: warning: no note has the label `a`; the line changes nothing\n")
        self.assertEqual(self.names(), ["o.orc", "o.orc.bin", "o.orc.names", "s.sasl", "s.sasl.bin", "stand-in"])

    def test_warnings_of_a_stick(self):
        self.put("s.sasl", "0 lead 1\n" * 65)
        self.assertEqual(self.run_command("o.orc", "s.sasl", command="assemble")[2],
                         "assemble: s.sasl: warning: no end line: the piece goes on as long as anything waits or sounds\n"
                         "assemble: s.sasl: warning: 65 lines; of one stick the panel takes 64. bin/play takes any number\n")

    def test_wrong(self):
        self.put("bytes", bytes(range(100)))
        self.put("odd.orc", ORCHESTRA.replace("output(x)", "output(x\x1b)"))
        self.put("odd.sasl", "0 flute 1\n")
        for arguments, said, status in (
                ([], "ORCHESTRA, or ORCHESTRA and SCORE, are wanted\nassemble: assemble --help tells how it is used", 2),
                (["none"], "none: No such file or directory", 1),
                (["bytes"], "bytes: no text", 1),
                (["odd.orc"], r"odd.orc: line 4, column 13: no token begins with `\x1b`", 1),
                (["o.orc", "odd.sasl"], "odd.sasl: line 1, column 3: `flute`: the orchestra has `lead`, `pad`", 1)):
            self.refused(arguments, f"assemble: {said}", status, command="assemble")


class Demo(Folder):
    def test_the_tune_is_that_of_the_program(self):
        data = os.path.join(ROOT, "crates", "play", "data")
        made, lines = piece("tune")
        self.assertEqual(made.data, read(data, "tune.orc.bin"))
        strict = score_text.read("tune.sasl", read(data, "tune.sasl"), made)
        self.assertEqual([score_lines.fields(line) for line in lines], [score_lines.fields(line) for line in strict])

    def test_the_keys_are_those_that_were_written(self):
        self.assertEqual(read(DEMO, "keys.mid"), keys_tune.tune())
        self.assertEqual([item.name for item in orchestra.read("k", read(DEMO, "keys.orc"), None, Warnings()).instruments], ["piano", "organ"])

    def test_the_chaconne_is_whole(self):
        made, lines = piece("chaconne")
        self.assertEqual([item.name for item in made.instruments], ["voice", "ground", "veil"])
        self.assertGreater(len(lines), 500)
        timing = schedule.schedule_of(lines)
        self.assertEqual((timing.cycles, timing.is_closed, len(timing.unheard)), (15577, True, 0))
        self.assertEqual({line.kind for line in lines}, set(Kind))

    def test_the_first_piece(self):
        self.assertEqual(schedule.schedule_of(piece("first")[1]).cycles, 701)
