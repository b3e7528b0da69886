"""Scores as the panel's bytes: what is read is what was written, and faults are told as the panel refuses them."""
import random
import unittest

from front import orchestra, score_bytes, score_lines
from front.bits import Bits
from front.faults import Fault, Warnings
from front.score_lines import WITHOUT_END, Kind, Line

from .helpers import ORCHESTRA
from .test_schedule import bits

MADE = orchestra.read("o.orc", ORCHESTRA.encode(), None, Warnings())


def packed(*fields):
    """Fields as (width, number), behind the count of one line."""
    out = Bits()
    for width, number in ((20, 1), *fields):
        out.put(width, number)
    return out.to_bytes()


AT_0 = ((2, 2), (32, 0), (1, 0))
# Bytes, and what is said of them behind the score's name.
WRONG = [
    (b"", "the bytes end inside the number of its lines (refusal 1)"),
    (packed()[:2], "the bytes end inside the number of its lines (refusal 1)"),
    (packed(), "line 1 of 1: the bytes end inside the kind of a line (refusal 1)"),
    (packed(*AT_0, (3, 2)), "line 1 of 1: a line of kind 2, which the panel does not carry (refusal 2)"),
    (packed(*AT_0, (3, 1), (1, 0)), "line 1 of 1: a control line without a label (refusal 2)"),
    (packed((2, 2), (32, 0x80000000)), "line 1 of 1: the time -0 is not from 0 to 16,384 (refusal 3)"),
    (packed((2, 2), (32, 0x46800001)), "line 1 of 1: the time 16384.002 is not from 0 to 16,384 (refusal 3)"),
    (packed((2, 2), (32, 0x7F800000)), "line 1 of 1: the time is not finite (refusal 3)"),
    (packed(*AT_0, (3, 5), (32, bits("961"))), "line 1 of 1: the tempo 961 is not from 1 to 960 (refusal 3)"),
    (packed(*AT_0, (3, 0), (1, 0), (16, 0), (32, 0), (8, 9)), "line 1 of 1: 9 values; a line has at most 8 (refusal 5)"),
    (packed((1, 0), (1, 0), (3, 4)), "line 1 of 1: a line without a time (refusal 6)"),
    (packed(*AT_0, (3, 4), (8, 0)), "bytes are left behind its lines (refusal 11)"),
    (packed(*AT_0, (3, 4), (1, 1)), "bytes are left behind its lines (refusal 11)"),
    (packed(*AT_0, (3, 0), (1, 0), (16, 9), (32, 0), (8, 0)), "line 1 of 1: no instrument `s9`: o.orc has `lead`, `pad` (refusal 4)"),
    (packed(*AT_0, (3, 0), (1, 0), (16, 6), (32, 0), (8, 2), (64, 0)), "line 1 of 1: 2 values, but `pad` has 1 (refusal 4)"),
]


def random_line(dice, number, count):
    kind, time = dice.choice(list(Kind)), bits(dice.choice(("0", "1.5", "16384")))
    where, starred, late = f"s: line {number} of {count}", dice.random() < 0.5, dice.random() < 0.5
    if kind is Kind.INSTR:
        values = tuple(dice.randrange(0x7F800000) for _ in range(dice.randint(0, 4)))
        return Line(where, kind, time, starred, dice.choice((None, 7)), 0, dice.choice((WITHOUT_END, 0, bits("2"))), values, late)
    if kind is Kind.CONTROL:
        return Line(where, kind, time, starred, 65535, 3, dice.randrange(0x7F800000), (), late)
    return Line(where, kind, time, starred, number=bits("90") if kind is Kind.TEMPO else 0, use_if_late=late)


class ScoreBytes(unittest.TestCase):
    def test_read_is_what_was_written(self):
        for seed in range(100):
            dice = random.Random(seed)
            count = dice.randint(1, 20)
            lines = [random_line(dice, number, count) for number in range(1, count + 1)]
            self.assertEqual(score_bytes.read("s", score_lines.to_bytes(lines), MADE), lines)

    def test_wrong(self):
        for data, expected in WRONG:
            with self.assertRaises(Fault) as told:
                score_bytes.read("s.bin", data, MADE)
            self.assertEqual(str(told.exception), f"s.bin: {expected}")
