"""Standard MIDI Files of format 0 and 1: their channel messages, each with the cycle before which it is handed in."""
from __future__ import annotations

from collections import Counter
from collections.abc import Collection, Sequence
from dataclasses import dataclass
from fractions import Fraction

from . import midi_messages
from .faults import Fault, counted
from .midi_messages import BEND, CONTROLLER, PROGRAM, STATUS, SYSTEM, data_bytes
from .schedule import CYCLES_A_SECOND

SYSEX, SYSEX_MORE, META = 0xF0, 0xF7, 0xFF
META_END, META_TEMPO = 0x2F, 0x51
# Microseconds of a quarter note, until a file says another.
FIRST_TEMPO = 500_000
FRAMES = {24: Fraction(24), 25: Fraction(25), 29: Fraction(30000, 1001), 30: Fraction(30)}
# General MIDI's channel for drums: its keys are no pitches.
DRUMS = 10
ALL_CHANNELS = frozenset(range(1, 17))
PITCHED = ALL_CHANNELS - {DRUMS}
PEDALS = (64, 66, 67)

# A message and its cycle.
Timed = tuple[int, bytes]


class Reader:
    """Bytes of a file from a place on, up to an end; a fault names the file and the place."""

    def __init__(self, path: str, data: bytes, at: int, end: int, within: str) -> None:
        self.path, self.data, self.at, self.end, self.within = path, data, at, end, within

    def fault(self, text: str, at: int | None = None) -> Fault:
        return Fault(f"{self.path}: byte {self.at if at is None else at}: {text}")

    def take(self, count: int, what: str) -> bytes:
        if count > self.end - self.at:
            raise self.fault(f"{self.within} ends inside {what}")
        self.at += count
        return self.data[self.at - count:self.at]

    def number(self, count: int, what: str) -> int:
        return int.from_bytes(self.take(count, what), "big")

    def variable(self, what: str) -> int:
        """A number in one to four bytes of 7 bits, all but the last with the highest bit set."""
        start, value = self.at, 0
        for _ in range(4):
            byte = self.number(1, what)
            value = value << 7 | byte & 0x7F
            if byte < 0x80:
                return value
        raise self.fault(f"{what} has more than four bytes", start)


@dataclass(frozen=True)
class Event:
    """What stands behind a time: a channel message, a new tempo, the end of the track, or nothing that is played."""
    message: bytes = b""
    tempo: int = 0
    is_end: bool = False


def meta_event(track: Reader, start: int) -> Event:
    kind = track.number(1, "a meta event")
    length = track.variable("the length of a meta event")
    body = track.take(length, "a meta event")
    if kind != META_TEMPO:
        return Event(is_end=kind == META_END)
    tempo = int.from_bytes(body, "big")
    if length != 3 or tempo == 0:
        raise track.fault("a tempo is a number above 0 in three bytes", start)
    return Event(tempo=tempo)


def channel_message(track: Reader, status: int) -> bytes:
    data = track.take(data_bytes(status), "a message")
    for place, value in enumerate(data, track.at - len(data)):
        if value >= STATUS:
            raise track.fault(f"0x{value:02X} stands inside a message", place)
    return bytes([status]) + data


def event_of(track: Reader, running: int | None) -> tuple[Event, int | None]:
    """The next event, and the running status behind it."""
    start = track.at
    byte = track.number(1, "an event")
    if byte == META:
        return meta_event(track, start), None
    if byte in (SYSEX, SYSEX_MORE):
        track.take(track.variable("the length of a system message"), "a system message")
        return Event(), None
    if byte >= SYSTEM:
        raise track.fault(f"no event begins with 0x{byte:02X}", start)
    if byte < STATUS:
        if running is None:
            raise track.fault("a data byte without a status before it", start)
        track.at, byte = start, running
    return Event(channel_message(track, byte)), byte


def track_of(track: Reader) -> list[tuple[int, Event]]:
    """A track's events with their ticks from its start."""
    events, tick, running = [], 0, None
    while True:
        if track.at == track.end:
            raise track.fault(f"{track.within} has no end event")
        tick += track.variable("a time")
        event, running = event_of(track, running)
        if event.is_end:
            if track.at != track.end:
                raise track.fault(f"{track.within} goes on behind its end event")
            return events
        events.append((tick, event))


def header_of(file: Reader) -> tuple[int, int]:
    """The number of tracks and the division of time."""
    file.take(4, "its header")
    length = file.number(4, "its header")
    if length < 6:
        raise file.fault("a header of fewer than 6 bytes", 4)
    start = file.at
    form, count, division = (file.number(2, "its header") for _ in range(3))
    file.at = start
    file.take(length, "its header")
    if form > 1:
        raise Fault(f"{file.path}: a MIDI file of format {form}; only 0 and 1 are played")
    if count == 0 or (form == 0 and count != 1):
        raise file.fault(f"{counted(count, 'track')} in a file of format {form}", start + 2)
    return count, division


def tracks_of(file: Reader, count: int) -> list[list[tuple[int, Event]]]:
    """So many tracks; other chunks are passed over."""
    tracks: list[list[tuple[int, Event]]] = []
    while len(tracks) < count:
        if file.at == file.end:
            raise file.fault(f"the file ends behind {len(tracks)} of {count} tracks")
        kind = file.take(4, "a chunk's head")
        length = file.number(4, "a chunk's head")
        if kind == b"MTrk":
            name = f"track {len(tracks) + 1}"
            if length > file.end - file.at:
                raise file.fault(f"{name} has {length} bytes, but {file.end - file.at} are left")
            tracks.append(track_of(Reader(file.path, file.data, file.at, file.at + length, name)))
        file.take(length, "a chunk")
    return tracks


def seconds_a_tick(path: str, division: int) -> tuple[Fraction, Fraction]:
    """How long a tick is, for each microsecond of a quarter note; and a tick that no tempo changes."""
    if division & 0x8000:
        frames, ticks = 256 - (division >> 8), division & 0xFF
        if frames not in FRAMES or ticks == 0:
            raise Fault(f"{path}: byte 12: {frames} frames a second in {ticks} ticks each is no division of time")
        return Fraction(0), 1 / (FRAMES[frames] * ticks)
    if division == 0:
        raise Fault(f"{path}: byte 12: a quarter note of 0 ticks")
    return Fraction(1, 1_000_000 * division), Fraction(0)


def messages_of(path: str, data: bytes) -> list[Timed]:
    """The channel messages of all tracks in order; a message belongs to the first cycle that does not begin before its time."""
    file = Reader(path, data, 0, len(data), "the file")
    count, division = header_of(file)
    tracks = tracks_of(file, count)
    scaled, fixed = seconds_a_tick(path, division)
    events = sorted((event for track in tracks for event in track), key=lambda event: event[0])
    messages, last, seconds, tempo = [], 0, Fraction(0), FIRST_TEMPO
    for tick, event in events:
        seconds += (tick - last) * (scaled * tempo + fixed)
        last = tick
        if event.tempo:
            tempo = event.tempo
        elif event.message:
            messages.append((-(-seconds * CYCLES_A_SECOND // 1), event.message))
    return messages


def calls_of(messages: Sequence[Timed]) -> dict[int, bytes]:
    """The bytes of the keyboard call before each cycle. What is more than 64 note messages in a cycle goes in before the next."""
    calls: dict[int, bytes] = {}
    waiting: list[bytes] = []
    at, cycle = 0, 0
    while at < len(messages) or waiting:
        cycle = cycle + 1 if waiting else messages[at][0]
        while at < len(messages) and messages[at][0] <= cycle:
            waiting.append(messages[at][1])
            at += 1
        now = midi_messages.room(waiting)
        calls[cycle] = midi_messages.call_of(waiting[:now])
        waiting = waiting[now:]
    return calls


def read_over(messages: Sequence[Timed], channels: Collection[int]) -> list[str]:
    """What the panel has no use for, and the notes of channels that are not played."""
    found: Counter[str] = Counter()
    silent: Counter[int] = Counter()
    for _, message in messages:
        kind = message[0] >> 4
        if midi_messages.channel(message) not in channels:
            silent[midi_messages.channel(message)] += midi_messages.starts_note(message)
        elif kind == CONTROLLER and message[1] in PEDALS:
            found["pedal message"] += 1
        elif kind == CONTROLLER:
            found["controller message"] += 1
        elif kind == PROGRAM:
            found["program change"] += 1
        elif kind == BEND:
            found["pitch bend"] += 1
        elif not midi_messages.is_note(message):
            found["pressure message"] += 1
    told = [counted(number, thing) for thing, number in found.items()]
    for number, notes in sorted(silent.items()):
        if notes:
            told.append(f"{counted(notes, 'note')} on channel {number}" + (" (drums)" if number == DRUMS else ""))
    return told
