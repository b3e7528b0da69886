"""When the lines of a score are due, by document 01's cycle, and when its piece is over.

The panel lets 64 lines wait. Lines are therefore handed over in the cycle in which they are due, so that a score may have any length.
Cycles in which nothing happens are jumped over: the time that this takes depends on the lines, not on the beats between them.
"""
from __future__ import annotations

from collections.abc import Sequence
from dataclasses import dataclass, field
from fractions import Fraction

from . import floats
from .faults import Fault
from .score_lines import WITHOUT_END, Kind, Line

MOST_WAITING, MOST_NOTES = 64, 16
CYCLES_A_SECOND = 100
STARTING_TEMPO = floats.nearest(Fraction(60))


def beat(position: int) -> str:
    """A position in beats, for people: three decimals at most."""
    return f"{position / floats.TICKS_A_BEAT:.3f}".rstrip("0").rstrip(".")


class Clock:
    """The cycle that comes next, its position, and the ticks that a cycle goes at the tempo in force."""

    def __init__(self) -> None:
        self.cycle, self.position = 0, 0
        self.step = floats.ticks_a_cycle(STARTING_TEMPO)

    def go_to(self, ticks: int) -> int:
        """Goes on to the first cycle that does not begin before these ticks; gives the position of the cycle before it, -1 for none."""
        if ticks > self.position:
            cycles = -(-(ticks - self.position) // self.step)
            self.cycle += cycles
            self.position += cycles * self.step
        return self.position - self.step if self.cycle else -1


@dataclass(frozen=True)
class Note:
    """A sounding note: when it ends, in ticks, None for never; and the line that started it."""
    end: int | None
    line: Line


@dataclass(frozen=True)
class Due:
    """The lines that are due in a cycle, in order."""
    cycle: int
    position: int
    lines: Sequence[Line]


@dataclass
class Schedule:
    """What is due when. `cycles` is the length of the piece, None where a note of it never ends: `endless` then. `is_closed` says that
    an end line ends it, which is the last that is due; `unheard` are the lines behind it."""
    due: list[Due] = field(default_factory=list)
    cycles: int | None = 0
    is_closed: bool = False
    endless: Line | None = None
    unheard: Sequence[Line] = ()


def sounding_after(notes: Sequence[Note], position: int) -> list[Note]:
    """The notes that a cycle at this position leaves sounding."""
    return [note for note in notes if note.end is None or note.end > position]


def started(notes: list[Note], line: Line, position: int) -> list[Note]:
    """The notes when an instr line has been carried out: with 16 sounding it starts none, unless a star cuts off the oldest without one."""
    end = None if line.number == WITHOUT_END else position + floats.ticks(line.number)
    new = Note(end, line)
    if len(notes) < MOST_NOTES:
        return [*notes, new]
    oldest = next((at for at, note in enumerate(notes) if not note.line.is_starred), None)
    if not line.is_starred or oldest is None:
        return notes
    return [*notes[:oldest], *notes[oldest + 1:], new]


def check_room(due: Due) -> None:
    if len(due.lines) > MOST_WAITING:
        raise Fault(f"{due.lines[MOST_WAITING].where}: beat {beat(due.position)}: {len(due.lines):,} lines are due at once, and the panel "
                    f"takes {MOST_WAITING}: move some of them to another beat")


def schedule_of(lines: Sequence[Line]) -> Schedule:
    """The whole piece."""
    # By exact time, equal times as they stand in the score.
    waiting = [(floats.ticks(line.time), line) for line in sorted(lines, key=lambda line: line.time)]
    out, clock, at = Schedule(), Clock(), 0
    notes: list[Note] = []
    while at < len(waiting):
        notes = sounding_after(notes, clock.go_to(waiting[at][0]))
        first = at
        while at < len(waiting) and waiting[at][0] <= clock.position:
            at += 1
        due = Due(clock.cycle, clock.position, [line for _, line in waiting[first:at]])
        check_room(due)
        out.due.append(due)
        if any(line.kind is Kind.END for line in due.lines):
            out.cycles, out.is_closed = clock.cycle, True
            out.unheard = [line for line in due.lines if line.kind is not Kind.END] + [line for _, line in waiting[at:]]
            return out
        for line in due.lines:
            if line.kind is Kind.TEMPO:
                clock.step = floats.ticks_a_cycle(line.number)
            elif line.kind is Kind.INSTR:
                notes = started(notes, line, clock.position)
    finish(out, clock, notes)
    return out


def finish(out: Schedule, clock: Clock, notes: Sequence[Note]) -> None:
    """Without an end line a piece is over when no line waits and no note sounds."""
    if not out.due:
        return
    out.endless = next((note.line for note in notes if note.end is None), None)
    if out.endless:
        out.cycles = None
        return
    clock.go_to(max((note.end for note in notes if note.end is not None), default=0))
    out.cycles = clock.cycle + 1
