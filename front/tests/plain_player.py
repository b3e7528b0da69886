"""A stand-in for the panel: document 01's cycle, step by step, where every sample is 100 (or $LOUDNESS) for each sounding note.

As a program it reads the records of `replay` that the front sends. It is written from the papers alone, so that the front can be held to it.
"""
from __future__ import annotations

import os
import struct
import sys
from fractions import Fraction

from front.panel import SETTINGS_AREA

LOUDNESS = int(os.environ.get("LOUDNESS", "100"))


def value(bits):
    return Fraction(struct.unpack(">f", struct.pack(">I", bits))[0])


def ticks(bits):
    return (value(bits) * 6144000 + Fraction(1, 2)) // 1


class Line:
    """A line by its keypad numbers."""

    def __init__(self, numbers):
        rest = iter(numbers)
        self.has_time = next(rest)
        self.late, self.time = (next(rest), next(rest)) if self.has_time else (0, 0)
        self.ticks, self.exact = ticks(self.time), value(self.time)
        self.starred, self.kind = next(rest), next(rest)
        self.label = self.symbol = self.number = None
        if self.kind in (0, 1):
            self.label = next(rest) if next(rest) else None
            self.symbol = next(rest)
        if self.kind in (0, 1, 5):
            self.number = next(rest)
        self.values = [next(rest) for _ in range(next(rest))] if self.kind == 0 else []
        assert next(rest, None) is None, "numbers are left over"


class Player:
    """The waiting lines, the sounding notes and the clock."""

    def __init__(self, ceiling):
        self.ceiling, self.position, self.tempo = ceiling, 0, 60
        self.last = -1
        self.waiting, self.keys, self.notes = [], [], []
        self.missed, self.has_ended = 0, False

    def take(self, line):
        if self.has_ended:
            return 9
        if line.ticks <= self.last:
            return 7
        if len(self.waiting) == 64:
            return 8
        self.waiting.append(line)
        return 0

    def take_keys(self, notes):
        if len(self.keys) + len(notes) > 64:
            return 8
        self.keys += notes
        return 0

    def cycle(self):
        """The sample of this cycle, or None at the end."""
        due = sorted((line for line in self.waiting if line.ticks <= self.position), key=lambda line: line.exact)
        if self.has_ended or any(line.kind == 4 for line in due):
            self.has_ended = True
            return None
        self.waiting = [line for line in self.waiting if line not in due]
        for line in due:
            if line.kind == 5:
                self.tempo = value(line.number)
        for line in due:
            if line.kind == 0:
                self.start(line)
        self.play_keys()
        sample = min(LOUDNESS * len(self.notes), self.ceiling)
        self.notes = [note for note in self.notes if not note["released"] and (note["end"] is None or note["end"] > self.position)]
        self.last = self.position
        self.position += int(self.tempo * 1024)
        return sample

    def start(self, line):
        end = None if value(line.number) == -1 else self.position + ticks(line.number)
        self.add({"end": end, "starred": line.starred, "key": None, "released": False})

    def add(self, note):
        if len(self.notes) == 16:
            self.missed += 1
            weak = [other for other in self.notes if not other["starred"]]
            if not note["starred"] or not weak:
                return
            self.notes.remove(weak[0])
        self.notes.append(note)

    def play_keys(self):
        for channel, key, is_on in self.keys:
            if is_on:
                self.add({"end": None, "starred": 0, "key": (channel, key), "released": False})
            else:
                held = [note for note in self.notes if note["key"] == (channel, key) and not note["released"]]
                if held:
                    held[0]["released"] = True
        self.keys = []

    def is_idle(self):
        return not self.waiting and not self.notes


def notes_in(data):
    """The note messages of a keyboard call, or the refusal."""
    notes, status, at = [], 0, 0
    while at < len(data):
        if data[at] >= 0xF0 or (data[at] < 0x80 and not status):
            return 2
        if data[at] >= 0x80:
            status, at = data[at], at + 1
        size = 1 if 0xC0 <= status < 0xE0 else 2
        body = data[at:at + size]
        if len(body) < size or max(body) >= 0x80:
            return 1
        at += size
        if status < 0xA0:
            notes.append((status & 0x0F, body[0], status >= 0x90 and body[1] > 0))
    return notes


class Calls:
    """Standard input. What was answered goes out before a read that may wait, as `replay` does it."""

    def __init__(self, answers):
        self.answers, self.data = answers, bytearray()

    def read(self, count):
        while len(self.data) < count:
            self.answers.flush()
            more = os.read(0, 65536)
            if not more:
                break
            self.data += more
        got, self.data = bytes(self.data[:count]), self.data[count:]
        return got

    def number(self, count):
        return int.from_bytes(self.read(count), "big")


def started(calls, answers):
    """A fresh start, by the record that the front sends."""
    settings = calls.read(calls.number(4))
    ceiling = int.from_bytes(settings[3:5], "big")
    calls.number(2)
    refusal = 0 if calls.read(calls.number(4))[-1:] == b"\xff" else 12
    answers.write(bytes([refusal]) + settings.ljust(SETTINGS_AREA, b"\x5a"))
    return Player(ceiling)


def main():
    answers, player = sys.stdout.buffer, None
    calls = Calls(answers)
    while True:
        code = calls.read(1)
        if code == b"F":
            player = started(calls, answers)
        elif code == b"K":
            line = Line([calls.number(4) for _ in range(calls.number(4))])
            answers.write(struct.pack(">BQ", player.take(line), player.missed))
        elif code == b"M":
            notes = notes_in(calls.read(calls.number(4)))
            refusal = notes if isinstance(notes, int) else player.take_keys(notes)
            answers.write(struct.pack(">BQ", refusal, player.missed))
        elif code == b"C":
            size, sample = calls.number(4), player.cycle()
            block = struct.pack(">h", 0x5A5A if sample is None else sample) * size
            answers.write(struct.pack(">BQ", 9 if sample is None else 0, player.missed) + block)
        else:
            break
    answers.flush()


if __name__ == "__main__":
    main()
