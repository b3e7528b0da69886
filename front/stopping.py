"""The end that a signal asks for."""
from __future__ import annotations

import contextlib
import signal
from collections.abc import Iterator
from types import FrameType

STOPPING = (signal.SIGINT, signal.SIGTERM, signal.SIGHUP)


class Stopped(BaseException):
    """A signal asks for the end: what is half written goes, and then the command ends."""

    def __init__(self, number: int) -> None:
        super().__init__(number)
        self.number = number


class Waiting:
    """The signal that has come while nothing may disturb, if one has, and how many things may not be disturbed."""
    number: int | None = None
    depth = 0


@contextlib.contextmanager
def stopping() -> Iterator[None]:
    """The first signal raises `Stopped`; further ones do not disturb the end. Those that the caller has told to pass over stay so."""
    before = {number: signal.getsignal(number) for number in STOPPING}

    def stop(number: int, _: FrameType | None) -> None:
        for other in before:
            signal.signal(other, signal.SIG_IGN)
        if Waiting.depth == 0:
            raise Stopped(number)
        Waiting.number = number

    for number, handler in before.items():
        if handler is not signal.SIG_IGN:
            signal.signal(number, stop)
    try:
        yield
    finally:
        for number, handler in before.items():
            signal.signal(number, handler)


@contextlib.contextmanager
def undisturbed() -> Iterator[None]:
    """A signal that comes meanwhile acts at the end."""
    Waiting.depth += 1
    try:
        yield
    finally:
        Waiting.depth -= 1
    if Waiting.depth == 0 and Waiting.number is not None:
        number, Waiting.number = Waiting.number, None
        raise Stopped(number)
