"""MIDI channel messages, and the keyboard calls that hand them to the panel."""
from __future__ import annotations

from collections.abc import Iterator, Sequence

STATUS, SYSTEM, FIRST_REAL_TIME = 0x80, 0xF0, 0xF8
NOTE_OFF, NOTE_ON, CONTROLLER, PROGRAM, PRESSURE, BEND = 0x8, 0x9, 0xB, 0xC, 0xD, 0xE
MOST_WAITING = 64


def data_bytes(status: int) -> int:
    return 1 if status >> 4 in (PROGRAM, PRESSURE) else 2


def is_note(message: bytes) -> bool:
    return message[0] >> 4 in (NOTE_OFF, NOTE_ON)


def starts_note(message: bytes) -> bool:
    return message[0] >> 4 == NOTE_ON and message[2] > 0


def channel(message: bytes) -> int:
    """From 1 to 16, as people count them."""
    return (message[0] & 0x0F) + 1


def call_of(messages: Sequence[bytes]) -> bytes:
    """The bytes of one call: the status byte of a message is left out where the one before it had the same."""
    out, status = bytearray(), None
    for message in messages:
        out += message[1:] if message[0] == status else message
        status = message[0]
    return bytes(out)


def room(messages: Sequence[bytes]) -> int:
    """How many of these messages may go in before one cycle."""
    now, notes = 0, 0
    while now < len(messages) and (notes < MOST_WAITING or not is_note(messages[now])):
        notes += is_note(messages[now])
        now += 1
    return now


class Stream:
    """The channel messages in a keyboard's bytes as they come: without the system's, which may stand anywhere."""

    def __init__(self) -> None:
        self.status: int | None = None
        self.data = b""

    def messages(self, data: bytes) -> Iterator[bytes]:
        for byte in data:
            if byte >= FIRST_REAL_TIME:
                continue
            if byte >= STATUS:
                self.status, self.data = byte if byte < SYSTEM else None, b""
            elif self.status is not None:
                self.data += bytes([byte])
                if len(self.data) == data_bytes(self.status):
                    yield bytes([self.status]) + self.data
                    self.data = b""
