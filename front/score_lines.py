"""Score lines: their fields, in document 01's order, and how they are written as bits and as keypad numbers."""
from __future__ import annotations

import enum
from dataclasses import dataclass

from .bits import Bits

MOST_LINES, MOST_VALUES = 1_048_575, 8
COUNT_BITS = 20
# The panel's ranges, both ends included. A duration may also be -1, for a note without end.
MOST_BEATS = 16_384
LEAST_TEMPO, MOST_TEMPO = 1, 960
WITHOUT_END = 0xBF800000


class Kind(enum.IntEnum):
    """The type of a line, by its number."""
    INSTR = 0
    CONTROL = 1
    END = 4
    TEMPO = 5


@dataclass(frozen=True)
class Line:
    """A timed line. Floats are given by their bits, names by their symbols; `number` is its duration, value or tempo."""
    where: str
    kind: Kind
    time: int
    is_starred: bool = False
    label: int | None = None
    symbol: int = 0
    number: int = 0
    values: tuple[int, ...] = ()
    use_if_late: bool = False


def fields(line: Line) -> list[tuple[int, int]]:
    """The fields of a line, each as its width in bits and its number."""
    out = [(1, 1), (1, int(line.use_if_late)), (32, line.time), (1, int(line.is_starred)), (3, int(line.kind))]
    if line.kind in (Kind.INSTR, Kind.CONTROL):
        out.append((1, int(line.label is not None)))
        if line.label is not None:
            out.append((16, line.label))
        out.append((16, line.symbol))
    if line.kind is not Kind.END:
        out.append((32, line.number))
    if line.kind is Kind.INSTR:
        out.append((8, len(line.values)))
        out += [(32, value) for value in line.values]
    return out


def keypad_numbers(line: Line) -> list[int]:
    return [number for _, number in fields(line)]


def to_bytes(lines: list[Line]) -> bytes:
    """A score's bytes, as a stick has them."""
    bits = Bits()
    bits.put(COUNT_BITS, len(lines))
    for line in lines:
        for width, number in fields(line):
            bits.put(width, number)
    return bits.to_bytes()
