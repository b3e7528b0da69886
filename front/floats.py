"""32-bit floats by their bits, exactly: the nearest one to a number, its value, and document 01's ticks."""
from __future__ import annotations

import struct
from fractions import Fraction

MINUS = 0x80000000
INFINITY = 0x7F800000
TICKS_A_BEAT = 6_144_000
TICKS_A_CYCLE = 1_024  # for each beat a minute


def nearest(size: Fraction) -> int:
    """The bits of the float nearest to a number that is not below 0, ties to even; `INFINITY` or more where it is too large."""
    if size == 0:
        return 0
    above, below = size.numerator, size.denominator
    # A power of two that leaves 24 bits before the point, or 25; no float has a smaller one than the last bit of the smallest.
    power = max(above.bit_length() - below.bit_length() - 24, -149)
    while True:
        divisor = below << max(power, 0)
        whole, rest = divmod(above << max(-power, 0), divisor)
        if whole < 1 << 24:
            break
        power += 1
    if 2 * rest > divisor or (2 * rest == divisor and whole % 2):
        whole += 1
    # A whole of 2^24 carries into the exponent, and a subnormal one has none.
    return ((power + 149) << 23) + whole


def exact(bits: int) -> Fraction:
    """The value of a finite float."""
    return Fraction(struct.unpack(">f", struct.pack(">I", bits))[0])


def shown(bits: int) -> str:
    """A float in a message."""
    return f"{struct.unpack('>f', struct.pack('>I', bits))[0]:.9g}"


def is_finite(bits: int) -> bool:
    return bits & INFINITY != INFINITY


def ticks(bits: int) -> int:
    """The ticks of a time or duration: the nearest whole number, a half going up."""
    scaled = exact(bits) * TICKS_A_BEAT
    return (2 * scaled.numerator + scaled.denominator) // (2 * scaled.denominator)


def ticks_a_cycle(tempo: int) -> int:
    """How far a cycle goes at a tempo, given by its bits."""
    scaled = exact(tempo) * TICKS_A_CYCLE
    return scaled.numerator // scaled.denominator
