"""A plugged-in keyboard, heard as it is played: a cycle every hundredth of a second."""
from __future__ import annotations

import os
import select
import time
from collections.abc import Collection, Iterator

from . import midi_messages
from .faults import Fault
from .files import STANDARD_INPUT, reason, shown
from .midi_messages import Stream
from .panel import CYCLE, Panel, Samples, keyboard
from .schedule import CYCLES_A_SECOND

CHUNK = 4_096
# Where the machine was busy for longer than this, the time that was lost is not caught up.
MOST_BEHIND = 0.1


def open_port(path: str) -> int:
    """The number of an open device or pipe."""
    if path == STANDARD_INPUT:
        return os.dup(0)
    try:
        return os.open(path, os.O_RDONLY)
    except (OSError, ValueError) as fault:
        raise Fault(f"{shown(path)}: {reason(fault)}") from None


def arrived(port: int) -> bytes | None:
    """The bytes that a port has by now; None at its end."""
    data = b""
    while select.select([port], [], [], 0)[0]:
        more = os.read(port, CHUNK)
        if not more:
            return data or None
        data += more
    return data


def play(panel: Panel, start: bytes, orchestra: str, port: int, channels: Collection[int], most: int) -> Iterator[Samples]:
    """The sound of a keyboard, until it ends or so many cycles have run."""
    panel.send(start)
    panel.started(orchestra)
    stream, due = Stream(), time.monotonic()
    waiting: list[bytes] = []
    while panel.cycle < most:
        try:
            data = arrived(port)
        except OSError as fault:
            raise Fault(f"the keyboard: {reason(fault)}") from None
        if data is None:
            return
        waiting += (message for message in stream.messages(data) if midi_messages.channel(message) in channels)
        now = midi_messages.room(waiting)
        if now:
            call = keyboard(midi_messages.call_of(waiting[:now]), "the keyboard")
            panel.send(call.record + CYCLE)
            panel.taken(call)
            waiting = waiting[now:]
        else:
            panel.send(CYCLE)
        samples = panel.block()
        if samples is None:
            return
        yield samples
        due = max(due + 1 / CYCLES_A_SECOND, time.monotonic() - MOST_BEHIND)
        time.sleep(max(0.0, due - time.monotonic()))
