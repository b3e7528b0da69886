"""Files as they come: read, told apart by what is in them, and decoded where they are text."""
from __future__ import annotations

import os
import re
import stat
import sys

from .faults import Fault

STANDARD_INPUT = "-"
# More than any orchestra or score that a panel could take.
MOST_BYTES = 1 << 27
# The longest orchestra that is handed to the panel, which itself takes half of it.
MOST_ORCHESTRA = 32_768

ORCHESTRA_TEXT, ORCHESTRA_BYTES = "an orchestra as text", "an orchestra as bytes"
SCORE_TEXT, SCORE_BYTES, MIDI = "a score as text", "a score as bytes", "a MIDI file"
WAV, EMPTY = "a WAV file", "an empty file"
ORCHESTRAS, SCORES = (ORCHESTRA_TEXT, ORCHESTRA_BYTES), (SCORE_TEXT, SCORE_BYTES, MIDI)

# The major numbers of Linux' sound devices: ALSA's and the older ones.
SOUND_DEVICES = (116, 14)
CONTROL = re.compile(rb"[\x00-\x08\x0e-\x1f\x7f]")
# So many bytes of a text may be slips of that kind: one, and one more in this many.
SLIPS = 50
LINE_END = re.compile(r"\r\n|\r|\n")
COMMENT = re.compile(r"//.*")


def shown(path: str) -> str:
    """A path in a message."""
    return "standard input" if path == STANDARD_INPUT else printable(path)


def printable(text: str) -> str:
    """A text in which no character moves the cursor."""
    return "".join(c if c.isprintable() else c.encode("unicode_escape").decode() for c in text)


def read(path: str, most: int = MOST_BYTES) -> bytes:
    """All bytes of a file, or of standard input."""
    try:
        if path == STANDARD_INPUT:
            data = sys.stdin.buffer.read(most + 1)
        else:
            with open(path, "rb") as file:
                data = file.read(most + 1)
    except (OSError, ValueError) as fault:
        raise Fault(f"{shown(path)}: {reason(fault)}") from None
    if len(data) > most:
        raise Fault(f"{shown(path)}: longer than {most:,} bytes, which nothing here is")
    return data


def reason(fault: Exception) -> str:
    """What the system says of a fault."""
    return getattr(fault, "strerror", None) or str(fault)


def is_port(path: str) -> bool:
    """Whether this is the device of a plugged-in keyboard."""
    try:
        there = os.stat(path)
    except (OSError, ValueError):
        return False
    return stat.S_ISCHR(there.st_mode) and os.major(there.st_rdev) in SOUND_DEVICES


def text_in(data: bytes) -> str | None:
    """The text that bytes are, or None: UTF-8 or, with its mark, UTF-16, or else Windows' letters. The panel's bytes begin with a control
    character and have many."""
    if data[:2] in (b"\xff\xfe", b"\xfe\xff") and len(data) % 2 == 0:
        try:
            return data.decode("utf-16")
        except UnicodeDecodeError:
            return None
    if CONTROL.match(data) or len(CONTROL.findall(data)) > 1 + len(data) // SLIPS:
        return None
    try:
        return data.decode("utf-8-sig")
    except UnicodeDecodeError:
        return data.decode("cp1252", errors="replace")


def lines_in(text: str) -> list[str]:
    """The lines of a text as an editor shows them, comments taken off."""
    return [COMMENT.sub("", line) for line in LINE_END.split(text)]


def kind(data: bytes) -> str:
    """What bytes are. Bytes that nothing tells apart count as a score's, which says what is wrong with them."""
    if not data:
        return EMPTY
    if data[:4] == b"MThd":
        return MIDI
    if data[:4] == b"RIFF":
        return WAV
    text = text_in(data)
    if text is None:
        # `instr` and a name. A score that begins so has 7,936 lines or more and is longer than any orchestra.
        return ORCHESTRA_BYTES if data[:2] == b"\x01\xf0" and len(data) <= MOST_ORCHESTRA else SCORE_BYTES
    code = "\n".join(lines_in(text))
    return ORCHESTRA_TEXT if "{" in code or re.search(r"\binstr\b", code) else SCORE_TEXT
