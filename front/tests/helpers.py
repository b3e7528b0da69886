"""Files in a folder of their own, and commands run in it."""
from __future__ import annotations

import os
import signal
import stat
import struct
import subprocess
import sys
import tempfile
import unittest

ROOT = os.path.dirname(os.path.dirname(os.path.dirname(os.path.abspath(__file__))))
DEMO = os.path.join(ROOT, "demo")

ORCHESTRA = """\
instr lead(pitch, loud, held, bright) {
    asig x;
    x = pitch + loud + held + bright;
    output(x);
}
instr pad(pitch) {
    imports ksig swell;
    output(pitch * swell);
}
"""
SCORE = "0 tempo 120\n0 lead 1 440 0.2 44 1\n1 pad 2 220\n4 end\n"


def interrupts_as_at_a_terminal() -> None:
    """A shell starts what runs in the background with interrupts ignored, and so would the command be under test."""
    for number in (signal.SIGINT, signal.SIGHUP):
        signal.signal(number, signal.SIG_DFL)


class Folder(unittest.TestCase):
    """Each test has an empty folder with an orchestra, a score and the stand-in for the panel."""

    def setUp(self) -> None:
        made = tempfile.TemporaryDirectory()
        self.addCleanup(made.cleanup)
        self.folder = made.name
        self.stand_in = self.put("stand-in", f"#!/bin/sh\ncd '{ROOT}' && exec '{sys.executable}' -B -m front.tests.plain_player\n")
        os.chmod(self.stand_in, 0o755)
        self.put("o.orc", ORCHESTRA)
        self.put("s.sasl", SCORE)

    def at(self, name: str) -> str:
        return os.path.join(self.folder, name)

    def put(self, name: str, data: str | bytes) -> str:
        with open(self.at(name), "wb") as file:
            file.write(data.encode() if isinstance(data, str) else data)
        return self.at(name)

    def get(self, name: str) -> bytes:
        with open(self.at(name), "rb") as file:
            return file.read()

    def names(self) -> list[str]:
        return sorted(os.listdir(self.folder))

    def mode(self, name: str) -> int:
        return stat.S_IMODE(os.stat(self.at(name)).st_mode)

    def environment(self) -> dict[str, str]:
        return {**os.environ, "REPLAY": self.stand_in, "LC_ALL": "C.UTF-8"}

    def start(self, *arguments: str, command: str = "play", **options) -> subprocess.Popen:
        """A command that is running."""
        settings = {"cwd": self.folder, "stdin": subprocess.DEVNULL, "stdout": subprocess.PIPE, "stderr": subprocess.PIPE,
                    "env": self.environment(), "preexec_fn": interrupts_as_at_a_terminal, **options}
        return subprocess.Popen([sys.executable, "-B", os.path.join(ROOT, "bin", command), *arguments], **settings)

    def run_command(self, *arguments: str, **options) -> tuple[int, bytes, str]:
        """The status of a command, its standard output and what it says."""
        given = options.pop("given", None)
        if given is not None:
            options["stdin"] = subprocess.PIPE
        with self.start(*arguments, **options) as process:
            out, said = process.communicate(given, timeout=120)
        return process.returncode, out or b"", (said or b"").decode()

    def refused(self, arguments: list[str], said: str, status: int = 1, **options) -> None:
        """A command that ends so and says just this, and leaves everything as it was."""
        before = self.names()
        got = self.run_command(*arguments, **options)
        self.assertEqual((got[0], got[2].rstrip("\n"), got[1]), (status, said, b""), arguments)
        self.assertEqual(self.names(), before)

    def played(self, *arguments: str, **options) -> str:
        """What a command that plays says, on both ways."""
        status, out, said = self.run_command(*arguments, **options)
        self.assertEqual(status, 0, said)
        return said + ("" if "-" in arguments else out.decode())


def samples(wave: bytes) -> list[int]:
    """The first sample of each cycle of a WAV, whose header is checked."""
    size = len(wave) - 44
    expected = (b"RIFF", 36 + size, b"WAVEfmt ", 16, 1, 1, 32000, 64000, 2, 16, b"data", size)
    assert struct.unpack("<4sI8sIHHIIHH4sI", wave[:44]) == expected, wave[:44]
    return [struct.unpack_from("<h", wave, at)[0] for at in range(44, len(wave), 640)]
