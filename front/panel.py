"""The panel as a process: the one place that knows the records of `replay` (docs/REPLAY.md)."""
from __future__ import annotations

import array
import contextlib
import os
import struct
import subprocess
import sys
import threading
from collections.abc import Iterator, Mapping, Sequence
from dataclasses import dataclass

from .faults import Fault
from .schedule import MOST_NOTES
from .score_lines import Line, keypad_numbers

RATE, BLOCK = 32_000, 320
MOST_CEILING = 32_767
ROOT = os.path.dirname(os.path.dirname(os.path.realpath(__file__)))

SETTINGS_AREA = 4_096

ENDED = 9
MEANINGS = {
    1: "it ends before a field is whole",
    2: "a kind of line that is not carried",
    3: "a number outside its range",
    4: "no such instrument, or more values than it has fields",
    5: "more than 8 values",
    6: "a line without a time",
    7: "it comes too late",
    8: "64 lines wait already",
    9: "the piece has ended",
    11: "bytes are left over",
    12: "a token that is not known or cut short, or no end token, or bytes behind it",
    13: "tokens outside the grammar",
    14: "name rules or name counts broken",
    15: "rate rules broken",
    16: "the orchestra is too large",
    17: "settings of an unknown version",
}

Samples = array.array


@dataclass(frozen=True)
class Call:
    """A record that is answered by a number and the count of missed notes, and what it hands in."""
    record: bytes
    where: str


def settings_record(ceiling: int, notes: int) -> bytes:
    """Version 1: a length, the version, the ceiling and the highest number of notes."""
    return struct.pack(">HBHB", 4, 1, ceiling, notes)


def fresh(ceiling: int, instrument: int, orchestra: bytes) -> bytes:
    """A fresh start, with the instrument that a keyboard plays."""
    settings = settings_record(ceiling, MOST_NOTES)
    return b"F" + struct.pack(">I", len(settings)) + settings + struct.pack(">HI", instrument, len(orchestra)) + orchestra


def keypad(line: Line) -> Call:
    numbers = keypad_numbers(line)
    return Call(b"K" + struct.pack(f">I{len(numbers)}I", len(numbers), *numbers), line.where)


def keyboard(data: bytes, where: str) -> Call:
    return Call(b"M" + struct.pack(">I", len(data)) + data, where)


CYCLE = b"C" + struct.pack(">I", BLOCK)


def meaning(number: int) -> str:
    return f"{MEANINGS.get(number, 'refused')} (refusal {number})"


def program() -> str:
    """Where `replay` stands: in the build, unless the environment names another."""
    return os.environ.get("REPLAY") or os.path.join(ROOT, "crates", "replay", "out", "replay")


class Panel:
    """Calls go in, answers come out in their order. `missed` is the panel's count after the last answer, `cycle` the next one's number."""

    def __init__(self) -> None:
        self.program = program()
        self.cycle, self.missed = 0, 0
        try:
            self.process = subprocess.Popen([self.program], stdin=subprocess.PIPE, stdout=subprocess.PIPE, stderr=subprocess.PIPE,
                                            start_new_session=True)
        except FileNotFoundError:
            build = os.path.relpath(os.path.join(ROOT, "bin", "build"))
            raise Fault(f"{self.program}: the player is not built yet: type {build}, which takes a while, once") from None
        except OSError as fault:
            raise Fault(f"{self.program}: cannot be run: {fault.strerror}") from None

    def __enter__(self) -> Panel:
        return self

    def __exit__(self, *_: object) -> None:
        self.process.kill()
        self.process.wait()
        for pipe in (self.process.stdin, self.process.stdout, self.process.stderr):
            with contextlib.suppress(OSError):
                pipe.close()

    def send(self, calls: bytes, is_last: bool = True) -> bool:
        """Calls that go in at once, or with those behind them. A panel that has ended is told of when its next answer is missed."""
        try:
            self.process.stdin.write(calls)
            if is_last:
                self.process.stdin.flush()
            return True
        except (OSError, ValueError):
            return False

    def answer(self, size: int) -> tuple[int, bytes]:
        """The number of the next answer and what stands behind it."""
        got = self.process.stdout.read(1 + size)
        if len(got) < 1 + size:
            said = self.process.stderr.read().decode(errors="replace").strip()
            raise Fault(f"{self.program}: ended before its answers did" + (f": {said}" if said else ""))
        return got[0], got[1:]

    def started(self, path: str) -> None:
        number, _ = self.answer(SETTINGS_AREA)
        if number:
            raise Fault(f"{path}: {meaning(number)}")

    def taken(self, call: Call) -> None:
        number, _ = self.answer(8)
        if number:
            raise Fault(f"{call.where}: {meaning(number)}")

    def block(self) -> Samples | None:
        """The samples of a cycle; none where the piece has ended."""
        number, rest = self.answer(8 + 2 * BLOCK)
        if number == ENDED:
            return None
        if number:
            raise Fault(f"{self.program}: cycle {self.cycle}: {meaning(number)}")
        self.cycle += 1
        self.missed = int.from_bytes(rest[:8], "big")
        samples = array.array("h", rest[8:])
        if sys.byteorder == "little":
            samples.byteswap()
        return samples

    def play(self, start: bytes, path: str, calls: Mapping[int, Sequence[Call]], cycles: int, is_closed: bool) -> Iterator[Samples]:
        """So many cycles of a piece. A closed one hands its end line in behind them, and the panel has to end it there and not before.
        The calls go in beside the reading of the answers."""
        total = cycles + is_closed

        def feed() -> None:
            self.send(start)
            for cycle in range(total):
                if not self.send(b"".join(call.record for call in calls.get(cycle, ())) + CYCLE, cycle == total - 1):
                    return

        threading.Thread(target=feed, daemon=True).start()
        self.started(path)
        for cycle in range(total):
            for call in calls.get(cycle, ()):
                self.taken(call)
            samples = self.block()
            if (samples is None) != (cycle == cycles):
                raise Fault(f"{self.program}: the panel ends the piece behind another cycle than {cycles}: it is not of this version")
            if samples is not None:
                yield samples
