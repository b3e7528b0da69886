"""A score's bytes, read by document 01's rules, with a fault told as the panel would refuse it."""
from __future__ import annotations

from . import floats
from .bits import BitReader
from .faults import Fault
from .orchestra import Orchestra
from .score_lines import COUNT_BITS, LEAST_TEMPO, MOST_BEATS, MOST_TEMPO, MOST_VALUES, WITHOUT_END, Kind, Line

# Stands for the time of a line that has none, until all lines are read.
NO_TIME = -1


class Reader:
    """Reads the lines of one score."""

    def __init__(self, path: str, data: bytes) -> None:
        self.path, self.bits = path, BitReader(data)
        self.where = path

    def fault(self, text: str, refusal: int) -> Fault:
        return Fault(f"{self.where}: {text} (refusal {refusal})")

    def take(self, width: int, what: str) -> int:
        try:
            return self.bits.take(width)
        except EOFError:
            raise self.fault(f"the bytes end inside {what}", 1) from None

    def number(self, what: str, least: int | None = None, most: int = 0, also: int | None = None) -> int:
        """A float: any finite one, or one from a range, or the one that is lawful beside it."""
        bits = self.take(32, what)
        if bits == also:
            return bits
        if not floats.is_finite(bits):
            raise self.fault(f"{what} is not finite", 3)
        if least is not None and (bits & floats.MINUS or not least <= floats.exact(bits) <= most):
            raise self.fault(f"{what} {floats.shown(bits)} is not from {least:,} to {most:,}", 3)
        return bits

    def lines(self) -> list[Line]:
        count = self.take(COUNT_BITS, "the number of its lines")
        lines = []
        for number in range(1, count + 1):
            self.where = f"{self.path}: line {number} of {count:,}"
            lines.append(self.line())
        self.where = self.path
        if not self.bits.is_filling():
            raise self.fault("bytes are left behind its lines", 11)
        for line in lines:
            if line.time == NO_TIME:
                raise Fault(f"{line.where}: a line without a time (refusal 6)")
        return lines

    def line(self) -> Line:
        late, time = 0, NO_TIME
        if self.take(1, "a flag"):
            late = self.take(1, "a flag")
            time = self.number("the time", 0, MOST_BEATS)
        starred, kind = self.take(1, "a flag"), self.take(3, "the kind of a line")
        if kind not in list(Kind):
            raise self.fault(f"a line of kind {kind}, which the panel does not carry", 2)
        label, symbol, number, values = self.event(Kind(kind))
        return Line(self.where, Kind(kind), time, bool(starred), label, symbol, number, values, bool(late))

    def event(self, kind: Kind) -> tuple[int | None, int, int, tuple[int, ...]]:
        """The label, the symbol, the number and the values of a line."""
        if kind is Kind.END:
            return None, 0, 0, ()
        if kind is Kind.TEMPO:
            return None, 0, self.number("the tempo", LEAST_TEMPO, MOST_TEMPO), ()
        has_label = self.take(1, "a flag")
        if kind is Kind.CONTROL and not has_label:
            raise self.fault("a control line without a label", 2)
        label = self.take(16, "a label") if has_label else None
        symbol = self.take(16, "a name")
        if kind is Kind.CONTROL:
            return label, symbol, self.number("the value"), ()
        duration = self.number("the duration", 0, MOST_BEATS, WITHOUT_END)
        count = self.take(8, "the number of values")
        if count > MOST_VALUES:
            raise self.fault(f"{count} values; a line has at most {MOST_VALUES}", 5)
        return label, symbol, duration, tuple(self.number("a value") for _ in range(count))


def read(path: str, data: bytes, orchestra: Orchestra) -> list[Line]:
    """The lines of a score's bytes, each for an instrument that is there."""
    lines = Reader(path, data).lines()
    instruments = orchestra.by_symbol()
    for line in lines:
        if line.kind is not Kind.INSTR:
            continue
        if line.symbol not in instruments:
            raise Fault(f"{line.where}: no instrument `{orchestra.symbols.name(line.symbol)}`: "
                        f"{orchestra.path} has {orchestra.names()} (refusal 4)")
        names = instruments[line.symbol].fields
        if len(line.values) > len(names):
            raise Fault(f"{line.where}: {len(line.values)} values, but `{instruments[line.symbol].name}` has "
                        f"{len(names)} (refusal 4)")
    return lines
