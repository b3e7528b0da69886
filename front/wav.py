"""Sound as a WAV: 32,000 Hz, 16 bits, one channel; into a file, or to standard output."""
from __future__ import annotations

import contextlib
import fcntl
import os
import struct
import sys
from collections.abc import Sequence
from typing import BinaryIO

from . import files, outputs
from .faults import Fault
from .panel import BLOCK, RATE, Samples

STANDARD_OUTPUT = "-"
HEADER_BYTES = 44
BLOCK_BYTES = 2 * BLOCK
# A WAV tells its length in 32 bits.
MOST_CYCLES = ((1 << 32) - 1 - HEADER_BYTES) // BLOCK_BYTES
# Through a pipe as short as this, keys sound soon.
LIVE_PIPE = 4_096


def shown(out: str) -> str:
    return "standard output" if out == STANDARD_OUTPUT else files.shown(out)


def header(cycles: int) -> bytes:
    size = cycles * BLOCK_BYTES
    return (b"RIFF" + struct.pack("<I", HEADER_BYTES - 8 + size) + b"WAVEfmt "
            + struct.pack("<IHHIIHH", 16, 1, 1, RATE, 2 * RATE, 2, 16) + b"data" + struct.pack("<I", size))


def is_wav(first: bytes) -> bool:
    return first[:4] == b"RIFF" and first[8:12] == b"WAVE"


def little_endian(samples: Samples) -> bytes:
    if sys.byteorder == "big":
        samples = samples[:]
        samples.byteswap()
    return samples.tobytes()


def check_output(out: str, inputs: Sequence[str]) -> None:
    """Whether sound may go to OUT; asked before anything is played."""
    if out != STANDARD_OUTPUT:
        outputs.may_replace(out, inputs, is_wav, "WAV file")
    elif sys.stdout.isatty():
        raise Fault("the sound would go to this terminal: name a file, or let a player read it: bin/play .. - | aplay")


class StandardOutput:
    """Sound to standard output. Where it turns out shorter than its header says, a file's header is written again."""

    def __init__(self) -> None:
        self.file = sys.stdout.buffer
        self.start = self.place()

    def place(self) -> int | None:
        """Where the sound begins in a file; None where nothing can be written again."""
        with contextlib.suppress(OSError, ValueError):
            if not fcntl.fcntl(self.file.fileno(), fcntl.F_GETFL) & os.O_APPEND:
                return self.file.tell()
        return None

    def __enter__(self) -> BinaryIO:
        return self.file

    def __exit__(self, *_: object) -> None:
        with contextlib.suppress(OSError, ValueError):
            self.file.flush()
            if self.start is not None:
                end = self.file.tell()
                self.file.seek(self.start)
                self.file.write(header(max(end - self.start - HEADER_BYTES, 0) // BLOCK_BYTES))
                self.file.seek(end)
                self.file.flush()


def opened(out: str) -> outputs.Growing | StandardOutput:
    return StandardOutput() if out == STANDARD_OUTPUT else outputs.Growing(out)


def shorten_pipe() -> None:
    with contextlib.suppress(OSError, AttributeError, ValueError):
        fcntl.fcntl(sys.stdout.fileno(), fcntl.F_SETPIPE_SZ, LIVE_PIPE)
