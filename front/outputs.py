"""Files that are made: what may be replaced, under which name they grow, and what stays when they are not finished."""
from __future__ import annotations

import contextlib
import fcntl
import os
import stat
from collections.abc import Callable, Sequence
from typing import BinaryIO

from .faults import Fault
from .files import reason, shown
from .stopping import undisturbed

FIRST_BYTES = 512
NEW_FILE = 0o666


def may_replace(path: str, inputs: Sequence[str], is_ours: Callable[[bytes], bool], what: str) -> None:
    """A new name, an empty file or one of the kind that is written, and none of the files that are read."""
    name = shown(path)
    try:
        there = os.lstat(path)
    except FileNotFoundError:
        folder = os.path.dirname(path) or "."
        if not os.path.isdir(folder):
            raise Fault(f"{name}: there is no folder {shown(folder)}") from None
        return
    except (OSError, ValueError) as fault:
        raise Fault(f"{name}: {reason(fault)}") from None
    if stat.S_ISLNK(there.st_mode):
        raise Fault(f"{name}: a link, so it stays")
    if stat.S_ISDIR(there.st_mode):
        raise Fault(f"{name}: a folder; name a file in it, such as {os.path.join(path, 'out.wav')}")
    if not stat.S_ISREG(there.st_mode):
        raise Fault(f"{name}: no regular file, so it stays")
    if any(is_same(path, other) for other in inputs):
        raise Fault(f"{name}: also read by this piece, so it stays")
    if not os.access(path, os.W_OK):
        raise Fault(f"{name}: read-only, so it stays")
    with open_to_read(path) as file:
        first = file.read(FIRST_BYTES)
    if first and not is_ours(first):
        raise Fault(f"{name}: is there and is no {what}, so it stays")


def open_to_read(path: str) -> BinaryIO:
    try:
        return open(path, "rb")
    except OSError as fault:
        raise Fault(f"{shown(path)}: {reason(fault)}, so it stays") from None


def is_same(path: str, other: str) -> bool:
    try:
        return os.path.samefile(path, other)
    except (OSError, ValueError):
        return False


class Growing:
    """A file that grows under its name with `.part` behind it and takes its own when it is whole. Not finished, it is removed.

    The part is locked, so that one which an ended run has left behind is replaced and one that another run writes is not."""

    def __init__(self, path: str) -> None:
        self.path, self.part = path, path + ".part"
        self.is_whole = False

    def locked(self) -> BinaryIO:
        """The part, empty and locked."""
        while True:
            try:
                number = os.open(self.part, os.O_RDWR | os.O_CREAT | os.O_NOFOLLOW, NEW_FILE)
            except OSError as fault:
                raise Fault(f"{shown(self.part)}: {reason(fault)}") from None
            try:
                fcntl.flock(number, fcntl.LOCK_EX | fcntl.LOCK_NB)
            except BlockingIOError:
                os.close(number)
                raise Fault(f"{shown(self.part)}: another run is writing it") from None
            except OSError:
                # A file system without locks.
                pass
            # Another run may have finished between the two calls: then the name is free, or another file's.
            if is_open_as(number, self.part):
                os.ftruncate(number, 0)
                return os.fdopen(number, "wb")
            os.close(number)

    def __enter__(self) -> BinaryIO:
        with undisturbed():
            self.file = self.locked()
            UNFINISHED.add(self)
        return self.file

    def __exit__(self, kind: type[BaseException] | None, *_: object) -> None:
        try:
            if kind is None:
                self.finish()
        except OSError as fault:
            raise Fault(f"{shown(self.path)}: not written: {reason(fault)}") from None
        finally:
            self.drop()

    def drop(self) -> None:
        """What is not whole goes; the lock goes last."""
        with undisturbed():
            if not self.is_whole:
                with contextlib.suppress(OSError):
                    os.remove(self.part)
            with contextlib.suppress(OSError):
                self.file.close()
            UNFINISHED.discard(self)

    def finish(self) -> None:
        """The mode of a file that is replaced stays."""
        self.file.flush()
        with contextlib.suppress(FileNotFoundError):
            os.fchmod(self.file.fileno(), stat.S_IMODE(os.stat(self.path).st_mode))
        os.replace(self.part, self.path)
        self.is_whole = True


# Parts that are neither whole nor removed yet.
UNFINISHED: set[Growing] = set()


def drop_unfinished() -> None:
    """At the end of a command: a signal can come between a file's making and the care that is taken of it."""
    for growing in list(UNFINISHED):
        growing.drop()


def is_open_as(number: int, path: str) -> bool:
    try:
        return os.path.samestat(os.fstat(number), os.lstat(path))
    except OSError:
        return False


def write_all(contents: Sequence[tuple[str, bytes]]) -> None:
    """Several files, each in its place only when all are written aside."""
    with contextlib.ExitStack() as stack:
        for path, data in contents:
            file = stack.enter_context(Growing(path))
            try:
                file.write(data)
                file.flush()
            except OSError as fault:
                raise Fault(f"{shown(path)}: not written: {reason(fault)}") from None
