"""Scores as people type them: what is taken, and what is said of the rest."""
import unittest

from front import orchestra, score_lines, score_text, symbols
from front.faults import Fault, Warnings
from front.score_lines import Kind

from .helpers import ORCHESTRA

# Lines that are the same note for the orchestra's `lead`, symbol 0.
ALIKE = [
    "1.5 lead 2 440 0.2", "1.5 s0 2 440 0.2", "  1.5\tlead  2 440   0.2  ", "1.5 lead 2 440 0.2 // a note", "01.500 lead 2 440.0 0.200",
    "\t1.5 lead 2 440 0.2\t//", "1.5\u00a0lead 2 440 0.2",
]

# A line, and what is said of it behind the score's name.
WRONG = [
    ("0 lead 1 329,63", "column 10: write 329.63, not 329,63"),
    ("0 lead 1 440 0.0625", "column 14: `0.0625` has four decimals: the panel has three: write 0.062"),
    ("0 lead .5", "column 8: write 0.5, not .5"),
    ("0 Lead 1", "column 3: `Lead`: the orchestra has `lead`"),
    ("0 laed 1", "column 3: `laed`: the orchestra has `lead`"),
    ("0 flute 1", "column 3: `flute`: the orchestra has `lead`, `pad`"),
    ("0 s1 1", "column 3: `s1`: the orchestra has `lead`, `pad`"),
    ("lead 0 1", "column 1: a line begins with its time: write 0 lead, or the beat that is meant"),
    ("x 0 1", "column 1: a line begins with its time: write 0 x, or the beat that is meant"),
    ("0", "column 1: what is to happen at 0? The line is `time instrument duration values`"),
    ("*", "column 1: a line has a time and what is to happen then: `0 lead 1 440`"),
    ("0 lead", "column 3: behind `lead` stands how many beats it lasts, -1 for a note without end"),
    ("0 lead long", "column 8: the duration should be a number, not `long`"),
    ("0 lead -2", "column 8: the duration -2 is not from 0 to 16,384, nor -1 for a note without end"),
    ("0 lead 16385", "column 8: the duration 16385 is not from 0 to 16,384, nor -1 for a note without end"),
    ("-1 lead 1", "column 1: the time -1 is not from 0 to 16,384"),
    ("-0 lead 1", "column 1: the time -0 is not from 0 to 16,384"),
    ("16385 end", "column 1: the time 16385 is not from 0 to 16,384"),
    ("0 lead 1 2 3 4 5 6", "column 18: `lead` takes 4 values, pitch, loud, held, bright; here are 5"),
    ("0 lead 1 440 # an a", "column 14: a comment begins with //, not #"),
    ("0 lead 1 440 /* an a */", "column 14: a comment begins with //, not /*"),
    ("0 lead 1 440 loud", "column 14: a value should be a number, not `loud`"),
    ("0 tempo 961", "column 9: the tempo 961 is not from 1 to 960"),
    ("0 tempo 0.999", "column 9: the tempo 0.999 is not from 1 to 960"),
    ("0 tempo", "column 3: something is missing behind `tempo`: the line is `time tempo beats-a-minute`"),
    ("0 tempo 120 the tempo", "column 13: `the` is too much: the line is `time tempo beats-a-minute`; a comment begins with //"),
    ("4 end 5", "column 7: `5` is too much: the line is `time end`"),
    ("8 control swell 1", "column 3: a control line names the notes by their label: `time label control name value`"),
    ("8 pad control swell", "column 15: something is missing behind `swell`: the line is `time label control name value`"),
    ("8 pad control swell up", "column 21: the value should be a number, not `up`"),
    ("8 pad control end 1", "column 15: `end` is no name: it has letters, digits and _, and begins with a letter"),
    ("a: 4 end", "column 1: only a note has a label before the colon; the line is `time end`"),
    ("a b: 4 lead 1", "column 1: a line begins with its time: write 0 a, or the beat that is meant"),
    ("4: 4 lead 1", "column 1: `4` is no label: it has letters, digits and _, and begins with a letter"),
    (": 4 lead 1", "column 1: `` is no label: it has letters, digits and _, and begins with a letter"),
    ("s65536: 4 lead 1", "column 1: `s65536`: symbols are s0 to s65535, without leading zeros"),
    ("s07: 4 lead 1", "column 1: `s07`: symbols are s0 to s65535, without leading zeros"),
    ("0 table t data 1", "column 3: `table` lines are not carried by this panel"),
    ("0 " + "x" * 100 + " 1", "column 3: `" + "x" * 40 + "..`: the orchestra has `lead`, `pad`"),
    ("instr lead 1", "column 1: a line begins with its time: write 0 instr, or the beat that is meant"),
    ("9" * 5000 + " lead 1", "column 1: the time should be a number, not `" + "9" * 40 + "..`"),
]


def made() -> orchestra.Orchestra:
    return orchestra.read("o.orc", ORCHESTRA.encode(), None, Warnings())


def read(text: str) -> list:
    return score_text.read("s.sasl", text.encode(), made())


def said_of(text: str) -> str:
    try:
        read(text)
    except Fault as fault:
        return str(fault)
    return "nothing"


class ScoreText(unittest.TestCase):
    def test_dress_changes_nothing(self):
        first = score_lines.keypad_numbers(read(ALIKE[0])[0])
        self.assertEqual(first, [1, 0, 0x3FC00000, 0, 0, 0, 0, 0x40000000, 2, 0x43DC0000, 0x3E4CCCCD])
        for line in ALIKE:
            self.assertEqual(score_lines.keypad_numbers(read(line)[0]), first, line)
        text = "\ufeff// a piece\r\n\r\n  \t\r\n" + "\r\n".join(ALIKE)
        self.assertEqual([score_lines.keypad_numbers(line) for line in read(text)], [first] * len(ALIKE))
        self.assertEqual([line.where for line in read(text)][:2], ["s.sasl: line 4", "s.sasl: line 5"])

    def test_all_kinds(self):
        lines = read("*a: 0 pad -1 220\n* a :0 pad -1\n2 a control swell -0.5\n0 tempo 90\n*3 end")
        self.assertEqual([(line.kind, line.is_starred) for line in lines],
                         [(Kind.INSTR, True), (Kind.INSTR, True), (Kind.CONTROL, False), (Kind.TEMPO, False), (Kind.END, True)])
        self.assertEqual(lines[0].label, lines[2].label)
        self.assertEqual(made().symbols.names[lines[2].symbol], "swell")

    def test_the_bytes_of_the_paper(self):
        self.assertEqual(score_lines.to_bytes(read("1 end")).hex(" "), "00 00 18 fe 00 00 01 00")
        self.assertEqual(score_lines.to_bytes([]).hex(" "), "00 00 00")

    def test_new_names_keep_off_written_numbers(self):
        first = len(made().symbols.of)
        lines = read(f"new: 0 lead 1\ns{first}: 0 lead 1\nother: 0 lead 1\nnew: 1 lead 1")
        self.assertEqual([line.label for line in lines], [first + 1, first, first + 2, first + 1])

    def test_a_name_of_the_orchestra_goes_before_a_number(self):
        odd = orchestra.read("o.orc", b"instr a(s5) { } instr s1(x) { }", None, Warnings())
        self.assertEqual(score_text.read("s", b"0 s1 1", odd)[0].symbol, odd.symbols.of["s1"])

    def test_wrong(self):
        for line, expected in WRONG:
            self.assertEqual(said_of(f"// first\n{line}\n1 end\n"), f"s.sasl: line 2, {expected}")

    def test_all_faults_are_told(self):
        self.assertEqual(said_of("0 x 1\n0 lead 1\n0 y 1\n"), "s.sasl: line 1, column 3: `x`: the orchestra has `lead`, `pad`\n"
                                                             "s.sasl: line 3, column 3: `y`: the orchestra has `lead`, `pad`")
        said = said_of("0 x 1\n" * 50).split("\n")
        self.assertEqual((len(said), said[-1]), (21, "s.sasl: 30 more lines are wrong"))

    def test_an_orchestra_of_bytes(self):
        plain = orchestra.read("o.bin", made().data, None, Warnings())
        self.assertEqual(score_text.read("s", b"0 s6 1", plain)[0].symbol, 6)
        with self.assertRaises(Fault) as told:
            score_text.read("s", b"0 lead 1", plain)
        self.assertEqual(str(told.exception), "s: line 1, column 3: `lead`: o.bin is bytes without names: write s0 or s6, or give its "
                                              "symbol table by --names")
        named = orchestra.read("o.bin", made().data, symbols.symbols_in("n", symbols.table_of(made().symbols, Warnings())), Warnings())
        self.assertEqual(score_text.read("s", b"0 pad 1", named)[0].symbol, 6)


class Controls(unittest.TestCase):
    def test_those_that_reach_no_note(self):
        held, warnings = made(), Warnings()
        text = "a: 0 pad 1\nb: 0 lead 1\n0 a control swell 1\n0 b control swell 1\n0 c control swell 1\n0 a control pitch 1"
        score_text.warn_of_controls(score_text.read("s", text.encode(), held), held, warnings)
        self.assertEqual(warnings.told, [
            "s: line 4: warning: no instrument with the label `b` imports `swell`; the line changes nothing",
            "s: line 5: warning: no note has the label `c`; the line changes nothing",
            "s: line 6: warning: no instrument with the label `a` imports `pitch`; the line changes nothing"])
