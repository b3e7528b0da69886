"""What is played: the calls before each cycle, how long it lasts, and what is to be said of it."""
from __future__ import annotations

from collections.abc import Callable, Collection, Sequence
from dataclasses import dataclass, field

from . import files, midi_file, midi_messages, panel, schedule, score_bytes, score_text
from .faults import Fault, Warnings, counted
from .orchestra import Orchestra
from .orchestra_rules import Instrument
from .panel import Call
from .schedule import CYCLES_A_SECOND
from .score_lines import Kind, Line
from .wav import MOST_CYCLES

# Seconds of sound behind the last message of a MIDI file, so that its notes can die away.
MIDI_TAIL = CYCLES_A_SECOND


@dataclass
class Piece:
    """`moment` tells a cycle as people count time in it; `is_closed` says that the panel itself ends it, behind its last cycle; `hint`
    is what to look at where no sound is heard."""
    calls: dict[int, list[Call]]
    cycles: int
    notes: int
    moment: Callable[[int], str]
    hint: str
    is_closed: bool = False
    is_cut: bool = False
    read_over: list[str] = field(default_factory=list)


def cut(cycles: int | None, most: int | None) -> tuple[int, bool]:
    """The length under the limit that is asked for, and whether it cuts the piece; None is a piece without end."""
    if most is not None and (cycles is None or cycles > most):
        return most, True
    assert cycles is not None
    return cycles, False


def check_length(path: str, cycles: int) -> None:
    if cycles > MOST_CYCLES:
        raise Fault(f"{path}: {clock(cycles)} long, and a WAV file ends at {clock(MOST_CYCLES)}: --seconds N plays its first N seconds")


def clock(cycles: int) -> str:
    """A length or a moment, as `2:05.3`."""
    tenths = cycles * 10 // CYCLES_A_SECOND
    return f"{tenths // 600}:{tenths % 600 // 10:02}.{tenths % 10}"


# ---- scores

def lines_of(path: str, data: bytes, orchestra: Orchestra) -> list[Line]:
    """The lines of a score as text or as bytes."""
    if files.text_in(data) is None:
        return score_bytes.read(path, data, orchestra)
    return score_text.read(path, data, orchestra)


def from_score(path: str, data: bytes, orchestra: Orchestra, most: int | None, warnings: Warnings) -> Piece:
    """A score, its lines handed over in the cycles in which they are due."""
    lines = lines_of(path, data, orchestra)
    if not lines:
        raise Fault(f"{path}: no line to play")
    score_text.warn_of_controls(lines, orchestra, warnings)
    timing = schedule.schedule_of(lines)
    warn_of_unheard(timing.unheard, warnings)
    if timing.endless and most is None:
        name = orchestra.symbols.name(timing.endless.symbol)
        raise Fault(f"{timing.endless.where}: `{name}` is held without end, and no end line ends the piece: "
                    "add one, such as `32 end`, or play --seconds N")
    cycles, is_cut = cut(timing.cycles, most)
    check_length(path, cycles)
    positions = {due.cycle: due.position for due in timing.due}
    calls = {due.cycle: [panel.keypad(line) for line in due.lines] for due in timing.due}
    # What is due in the cycle of the end line, or behind a cut, is not heard.
    notes = sum(line.kind is Kind.INSTR for due in timing.due if due.cycle < cycles for line in due.lines)
    return Piece(calls, cycles, notes, lambda cycle: f"beat {schedule.beat(positions.get(cycle, 0))}", hint_of(lines, orchestra),
                 timing.is_closed and not is_cut, is_cut)


def warn_of_unheard(lines: Sequence[Line], warnings: Warnings) -> None:
    if lines:
        more = f", and {counted(len(lines) - 1, 'line')} more" if len(lines) > 1 else ""
        warnings.add(lines[0].where, f"at or behind the end line, so not heard{more}")


def hint_of(lines: Sequence[Line], orchestra: Orchestra) -> str:
    """The first note that has fewer values than its instrument has fields."""
    instruments = orchestra.by_symbol()
    for line in lines:
        if line.kind is Kind.INSTR and len(line.values) < len(instruments[line.symbol].fields):
            instrument, given = instruments[line.symbol], len(line.values)
            return f"{line.where}: `{instrument.name}` gets {given} of its {missing(instrument, given)}"
    return "no note lacks a value: look at the loudness that the score gives, and at `output` in the orchestra"


def missing(instrument: Instrument, given: int) -> str:
    """How many fields there are, and which are left at 0."""
    fields = instrument.fields
    rest = " and ".join(filter(None, (", ".join(fields[given:-1]), fields[-1])))
    return f"{counted(len(fields), 'value')}, so {rest} {'is' if len(fields) - given == 1 else 'are'} 0"


# ---- MIDI

def from_midi(path: str, data: bytes, instrument: Instrument, channels: Collection[int], most: int | None) -> Piece:
    """A Standard MIDI File; its sound ends a second behind its last message."""
    messages = midi_file.messages_of(path, data)
    played = [(cycle, message) for cycle, message in messages if midi_messages.channel(message) in channels]
    starts = [cycle for cycle, message in played if midi_messages.starts_note(message)]
    read_over = midi_file.read_over(messages, channels)
    if not starts:
        rest = f"; read over: {', '.join(read_over)}" if read_over else ""
        raise Fault(f"{path}: no note to play{rest}")
    calls = midi_file.calls_of(played)
    cycles, is_cut = cut(max(calls) + 1 + MIDI_TAIL, most)
    check_length(path, cycles)
    records = {cycle: [panel.keyboard(call, f"{path}: at {clock(cycle)}")] for cycle, call in calls.items()}
    notes = sum(cycle < cycles for cycle in starts)
    return Piece(records, cycles, notes, clock, keyboard_hint(instrument), is_cut=is_cut, read_over=read_over)


def keyboard_hint(instrument: Instrument) -> str:
    """A key gives two values."""
    if len(instrument.fields) > 2:
        return f"a key gives `{instrument.name}` 2 of its {missing(instrument, 2)}: choose another by --instrument"
    return f"look at `output` in `{instrument.name}`"
