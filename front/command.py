"""What all commands have in common: how they end, and what they say then."""
from __future__ import annotations

import argparse
import contextlib
import os
import sys
from collections.abc import Callable, Sequence
from typing import NoReturn

from .faults import Fault, Usage
from .files import printable
from .outputs import drop_unfinished
from .stopping import Stopped, stopping

DONE, REFUSED, WRONG_USAGE = 0, 1, 2
# A command that a signal ends has this status and the signal's number more.
SIGNALLED = 128


class Parser(argparse.ArgumentParser):
    """Tells wrong usage in one line."""

    def error(self, message: str) -> NoReturn:
        raise Usage(message)


def open_standard_files() -> None:
    """A standard file that the caller has closed is nothing, and is not taken for one that is opened later."""
    for number, name, mode in ((0, "stdin", "r"), (1, "stdout", "w"), (2, "stderr", "w")):
        if getattr(sys, name) is None:
            os.dup2(os.open(os.devnull, os.O_RDWR), number)
            setattr(sys, name, os.fdopen(number, mode))
    for stream in (sys.stdout, sys.stderr):
        stream.reconfigure(errors="backslashreplace")


def say(name: str, text: str) -> None:
    """On standard error, each line with the command's name in front. Where nobody listens there is nothing to tell."""
    with contextlib.suppress(OSError):
        for line in text.split("\n"):
            print(f"{name}: {printable(line)}", file=sys.stderr)
        sys.stderr.flush()


def answer(text: str) -> None:
    """What a command was asked for, on standard output."""
    try:
        print(text, flush=True)
    except BrokenPipeError:
        raise
    except OSError as fault:
        raise Fault(f"standard output: {fault.strerror}") from None


def drop_output() -> None:
    """Nothing more goes to standard output, and nothing can fail there at the end of the program."""
    os.dup2(os.open(os.devnull, os.O_WRONLY), 1)


def carried_out(name: str, carry_out: Callable[[Sequence[str]], None], arguments: Sequence[str]) -> int:
    """The status of a command."""
    try:
        with stopping():
            try:
                carry_out(arguments)
            finally:
                drop_unfinished()
        return DONE
    except Usage as usage:
        say(name, f"{usage}\n{name} --help tells how it is used")
        return WRONG_USAGE
    except Fault as fault:
        say(name, str(fault))
        return REFUSED
    except Stopped as stopped:
        say(name, "broken off")
        return SIGNALLED + stopped.number
    except BrokenPipeError:
        # A reader that has gone is no fault.
        return DONE


def run(name: str, carry_out: Callable[[Sequence[str]], None], arguments: Sequence[str]) -> int:
    """Carries a command out and gives its status."""
    open_standard_files()
    status = carried_out(name, carry_out, arguments)
    try:
        sys.stdout.flush()
    except OSError:
        # Told before, where it is a fault.
        drop_output()
    return status
