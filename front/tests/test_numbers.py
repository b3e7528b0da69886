"""Floats, ticks and numbers as they are typed."""
import random
import struct
import unittest
from fractions import Fraction

from front import floats, numerals

# A word that is no number for the panel, and what is said of it.
CURES = [
    ("329,63", "write 329.63, not 329,63"),
    (".5", "write 0.5, not .5"),
    ("5.", "write 5, not 5."),
    ("+3", "write 3, not +3"),
    ("1e3", "write 1000, not 1e3"),
    ("1/2", "write 0.5, not 1/2"),
    ("\u22121", "write -1, not \u22121"),
    ("0.0625", "`0.0625` has four decimals: the panel has three: write 0.062"),
    ("1.000000001", "`1.000000001` has 9 decimals: the panel has three: write 1"),
    ("20000.125", "`20000.125` has too many digits: without the point they are below 16,777,216: write 20000.12"),
    ("16777216", "`16777216` is too large: the panel's numbers are below 16,777,216"),
    ("440Hz", None),
    ("1e999999", None),
    ("9" * 100, None),
    ("", None),
]


class Floats(unittest.TestCase):
    def test_every_float_is_nearest_to_itself(self):
        dice = random.Random(1)
        for bits in [0, 1, 2, 0x7FFFFF, 0x800000, 0x800001, 0x7F7FFFFF, *(dice.randrange(floats.INFINITY) for _ in range(2000))]:
            self.assertEqual(floats.nearest(floats.exact(bits)), bits)

    def test_ties_go_to_even(self):
        dice = random.Random(2)
        for bits in (dice.randrange(floats.INFINITY - 1) for _ in range(2000)):
            middle = (floats.exact(bits) + floats.exact(bits + 1)) / 2
            self.assertEqual(floats.nearest(middle), bits + bits % 2)
            self.assertEqual(floats.nearest(middle * (1 - Fraction(1, 10 ** 20))), bits)

    def test_too_large(self):
        self.assertLess(floats.nearest(Fraction(2 ** 128 - 2 ** 103) - 1), floats.INFINITY)
        self.assertGreaterEqual(floats.nearest(Fraction(2 ** 128 - 2 ** 103)), floats.INFINITY)

    def test_checked_values(self):
        for bits, ticks in ((0, 0), (0x3F000000, 3_072_000), (0x3F800000, 6_144_000), (0x46800000, 100_663_296_000),
                            (1, 0), (0x3DCCCCCD, 614_400)):
            self.assertEqual(floats.ticks(bits), ticks)
        for tempo, ticks in ((60, 61_440), (130, 133_120), (960, 983_040)):
            self.assertEqual(floats.ticks_a_cycle(floats.nearest(Fraction(tempo))), ticks)


class Numerals(unittest.TestCase):
    def test_words(self):
        for word in ("0", "-0", "007", "16777.215", "16777215", "-1.5"):
            self.assertTrue(numerals.fits(word), word)
            self.assertEqual(numerals.bits_of(word), struct.unpack(">I", struct.pack(">f", float(word)))[0])
        for word in ("16777.216", "1.", "--1", "1 ", "\u0661", "1\n"):
            self.assertFalse(numerals.fits(word), word)

    def test_cures(self):
        for word, cure in CURES:
            self.assertEqual(numerals.cure(word), cure, word)
