"""What is told to people: faults, which end a command, and warnings, which do not."""
from __future__ import annotations


class Fault(Exception):
    """What is wrong and where, in words; the command ends with status 1. Several faults are parted by newlines."""


class Usage(Exception):
    """A command line that cannot be carried out as it is typed; the command ends with status 2."""


class Warnings:
    """Lawful things that look like slips, each with its place, in the order in which they were met."""

    def __init__(self) -> None:
        self.told: list[str] = []

    def add(self, where: str, text: str) -> None:
        self.told.append(f"{where}: warning: {text}")


def counted(number: int, thing: str, things: str = "") -> str:
    """A number and what it counts: `1 note`, `1,200 notes`, `no notes`."""
    if number == 1:
        return f"1 {thing}"
    many = things or thing + "s"
    return f"{number:,} {many}" if number else f"no {many}"
