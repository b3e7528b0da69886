"""The command `bin/assemble`: the panel's byte files of an orchestra, and of a score that uses its names."""
from __future__ import annotations

import sys
from collections.abc import Sequence

from . import files, orchestra, outputs, schedule, score_lines, score_text, symbols
from .command import Parser, answer, run, say
from .faults import Fault, Usage, Warnings, counted
from .orchestra import Orchestra
from .score_lines import Kind, Line

NAME = "assemble"
HELP = """\
Turns a written orchestra, and a score, into the panel's byte files.

    bin/assemble ORCHESTRA           writes ORCHESTRA.bin and ORCHESTRA.names and tells the symbol of each name
    bin/assemble ORCHESTRA SCORE     writes SCORE.bin too

ORCHESTRA.bin is what the panel is started with, ORCHESTRA.names the symbol table, which tells the names to a display,
SCORE.bin what a memory stick has. To hear a piece nothing has to be assembled: bin/play ORCHESTRA SCORE OUT.
Where something is refused nothing is written, and the status is 1."""


def text_of(path: str) -> str:
    text = files.text_in(files.read(path))
    if text is None:
        raise Fault(f"{files.shown(path)}: no text")
    return text


def warn_of_stick(path: str, lines: Sequence[Line], warnings: Warnings) -> None:
    """What a panel makes of this score as one stick."""
    if not any(line.kind is Kind.END for line in lines):
        warnings.add(path, "no end line: the piece goes on as long as anything waits or sounds")
    if len(lines) > schedule.MOST_WAITING:
        warnings.add(path, f"{counted(len(lines), 'line')}; of one stick the panel takes {schedule.MOST_WAITING}. bin/play takes any number")


def score_of(path: str, made: Orchestra, warnings: Warnings) -> bytes:
    """A score's bytes."""
    name = files.shown(path)
    lines = score_text.Reader(name, made).read(text_of(path))
    score_text.warn_of_controls(lines, made, warnings)
    warn_of_stick(name, lines, warnings)
    return score_lines.to_bytes(lines)


def carry_out(arguments: Sequence[str]) -> None:
    parser = Parser(NAME, add_help=False, allow_abbrev=False)
    parser.add_argument("paths", nargs="*")
    parser.add_argument("-h", "--help", action="store_true")
    given = parser.parse_args(list(arguments))
    if given.help:
        answer(HELP)
        return
    if len(given.paths) not in (1, 2):
        raise Usage("ORCHESTRA, or ORCHESTRA and SCORE, are wanted")
    path, warnings = given.paths[0], Warnings()
    made = orchestra.from_text(files.shown(path), text_of(path), warnings)
    written = [(f"{path}.bin", made.data)]
    if len(given.paths) == 2:
        written.append((f"{given.paths[1]}.bin", score_of(given.paths[1], made, warnings)))
    written.insert(1, (f"{path}.names", symbols.table_of(made.symbols, warnings)))
    outputs.write_all(written)
    for warning in warnings.told:
        say(NAME, warning)
    told = [f"{files.shown(name)}: {counted(len(data), 'byte')}" for name, data in written]
    if len(given.paths) == 1:
        told += symbols.listed(made.symbols)
    answer("\n".join(told))


def main() -> int:
    return run(NAME, carry_out, sys.argv[1:])
