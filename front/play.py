"""The command `bin/play`."""
from __future__ import annotations

import argparse
import contextlib
import itertools
import os
import re
import shlex
import signal
import sys
import time
from collections.abc import Collection, Iterable, Sequence
from dataclasses import dataclass
from fractions import Fraction

from . import files, live, midi_file, orchestra, outputs, panel, picture, piece, report, symbols, wav
from .command import Parser, answer, run, say
from .faults import Fault, Usage, Warnings
from .meter import Meter
from .orchestra import Orchestra
from .panel import MOST_CEILING, Panel, Samples
from .piece import Piece
from .schedule import CYCLES_A_SECOND
from .stopping import Stopped

NAME = "play"
HELP = """\
Plays a piece into a WAV file: 32,000 Hz, 16 bits, one channel.

    bin/play [OPTION ..] ORCHESTRA SCORE OUT

ORCHESTRA  SAOL text (docs/ORCHESTRAS.md) or the panel's bytes of it
SCORE      text (docs/TEACHERS.md), the panel's bytes, a MIDI file of format 0 or 1, or a plugged-in keyboard
           such as /dev/snd/midiC1D0; - is standard input
OUT        a new name, or a WAV file that is replaced; - is standard output

    --ceiling N           the loudest sample, from 1 to 32,767; without it 32,767
    --seconds N           no longer than N seconds
    --picture FILE        also draws the sound under its ceiling, as an SVG picture
    --names FILE          a symbol table, for an orchestra that is bytes
    --instrument NAME     which instrument keys play; without it the orchestra's first
    --channels LIST       which MIDI channels are played, such as 1-3,10; without it all but 10, the drums
    --live                SCORE is a keyboard's bytes as they come, and OUT is -
    -h, --help            this text

The status is 0 where the piece was played, 1 where something is refused, 2 where the command is not typed as above.
REPLAY=/path/to/replay names another place of the panel."""
PLACES = "ORCHESTRA SCORE OUT"
# How long work takes before its progress is shown, and how often.
PATIENCE, REFRESH = 1.0, 0.2


def parser() -> Parser:
    made = Parser(NAME, add_help=False, allow_abbrev=False)
    made.add_argument("paths", nargs="*")
    made.add_argument("-h", "--help", action="store_true")
    made.add_argument("--live", action="store_true")
    for option in ("--ceiling", "--seconds", "--picture", "--names", "--instrument", "--channels"):
        made.add_argument(option)
    return made


# ---- what the options say

def whole(text: str, low: int, high: int, what: str) -> int:
    if not re.fullmatch(r"[0-9]{1,9}", text) or not low <= int(text) <= high:
        raise Usage(f"{what} is a whole number from {low:,} to {high:,}, not `{text}`")
    return int(text)


def cycles_of(text: str) -> int:
    """The cycles of a number of seconds, the last one begun."""
    most = wav.MOST_CYCLES // CYCLES_A_SECOND
    if not re.fullmatch(r"[0-9]{1,6}(\.[0-9]{1,6})?", text) or not 0 < Fraction(text) <= most:
        raise Usage(f"--seconds is a number above 0 and up to {most:,}, not `{text}`")
    return -(-Fraction(text) * CYCLES_A_SECOND // 1)


def channels_of(text: str) -> set[int]:
    """Channels and ranges of them, parted by commas."""
    out: set[int] = set()
    for part in text.split(","):
        first, dash, last = part.partition("-")
        low = whole(first.strip(), 1, 16, "a channel")
        high = whole(last.strip(), 1, 16, "a channel") if dash else low
        if high < low:
            raise Usage(f"channels {part}: write {high}-{low}")
        out.update(range(low, high + 1))
    return out


def instrument_of(name: str | None, made: Orchestra) -> tuple[int, orchestra.Instrument]:
    """The chosen instrument, by its name or its symbol, and its symbol."""
    if name is None:
        chosen = made.instruments[0]
        return made.symbol_of(chosen.name), chosen
    written = f"s{name}" if name.isdigit() else name
    for symbol, instrument in made.by_symbol().items():
        if written in (instrument.name, f"s{symbol}"):
            return symbol, instrument
    raise Fault(f"{made.path}: no instrument `{name}`: it has {made.names()}")


def checked_paths(paths: Sequence[str]) -> Sequence[str]:
    if len(paths) > 3:
        if paths[3].isdigit():
            raise Usage(f"the ceiling is given by --ceiling {paths[3]}")
        raise Usage(f"`{files.shown(paths[3])}` is one name too many behind {PLACES}")
    if len(paths) < 3:
        missing = PLACES.split()[len(paths):]
        raise Usage(f"{' and '.join(missing)} {'is' if len(missing) == 1 else 'are'} missing")
    if "" in paths:
        raise Usage(f"{PLACES.split()[paths.index('')]} is an empty name")
    return paths


# ---- the files

def kind_at(path: str) -> str | None:
    """What stands at a name, where that is a regular file that can be read."""
    if not os.path.isfile(path):
        return None
    with contextlib.suppress(Fault):
        return files.kind(files.read(path))
    return None


def check_order(paths: Sequence[str]) -> None:
    """Names that are all right in another order are told in that order."""
    kinds = {path: kind_at(path) for path in paths}
    for order in itertools.permutations(paths):
        is_right = (kinds[order[0]] in files.ORCHESTRAS and kinds[order[1]] in files.SCORES
                    and kinds[order[2]] in (files.WAV, files.EMPTY, None))
        if is_right and tuple(paths) != order:
            raise Fault(f"the order is {PLACES}: type bin/play {' '.join(map(shlex.quote, order))}")


def inputs_of(paths: Sequence[str], is_live: bool) -> tuple[bytes, bytes]:
    """The bytes of the orchestra and, unless it is a keyboard, of the score; each of the kind that is wanted."""
    try:
        made = files.read(paths[0])
        score = b"" if is_live else files.read(paths[1])
    except Fault:
        check_order(paths)
        raise
    kinds = files.kind(made), files.kind(score)
    if kinds[0] not in (*files.ORCHESTRAS, files.EMPTY):
        check_order(paths)
        raise Fault(f"{files.shown(paths[0])}: {kinds[0]}; first stands an orchestra: bin/play {PLACES}")
    if kinds[1] not in (*files.SCORES, files.EMPTY):
        check_order(paths)
        raise Fault(f"{files.shown(paths[1])}: {kinds[1]}; second stands a score: bin/play {PLACES}")
    return made, score


def orchestra_of(path: str, data: bytes, names: str | None, warnings: Warnings) -> Orchestra:
    table = None if names is None else symbols.symbols_in(files.shown(names), files.read(names))
    return orchestra.read(files.shown(path), data, table, warnings)


# ---- playing

class Progress:
    """On a terminal, one line of how far long work is; it is taken away at its end."""

    def __init__(self, cycles: int) -> None:
        self.total, self.is_shown = cycles, False
        self.next = time.monotonic() + PATIENCE if sys.stderr.isatty() else float("inf")

    def tell(self, cycle: int) -> None:
        if time.monotonic() >= self.next:
            self.next, self.is_shown = time.monotonic() + REFRESH, True
            print(f"\r{NAME}: {piece.clock(cycle)} of {piece.clock(self.total)}", end="", file=sys.stderr, flush=True)

    def end(self) -> None:
        if self.is_shown:
            print("\r\033[K", end="", file=sys.stderr, flush=True)


def write_sound(out: str, cycles: int, sound: Iterable[Samples], played: Panel, meter: Meter) -> None:
    """The sound into OUT, measured on the way."""
    progress = Progress(cycles)
    try:
        with wav.opened(out) as file:
            try:
                file.write(wav.header(cycles))
                for samples in sound:
                    meter.take(samples, played.missed)
                    file.write(wav.little_endian(samples))
                    if out == wav.STANDARD_OUTPUT:
                        file.flush()
                    progress.tell(played.cycle)
            except BrokenPipeError:
                raise
            except OSError as fault:
                raise Fault(f"{wav.shown(out)}: not written: {files.reason(fault)}") from None
    finally:
        progress.end()


def play_piece(out: str, start: bytes, made: Orchestra, what: Piece, meter: Meter) -> None:
    """A piece of known length."""
    with Panel() as played:
        sound = played.play(start, made.path, what.calls, what.cycles, what.is_closed)
        write_sound(out, what.cycles, sound, played, meter)


def play_live(path: str, start: bytes, made: Orchestra, channels: Collection[int], most: int | None,
              meter: Meter) -> None:
    """A keyboard, until it ends, or is broken off, which is its usual end."""
    wav.shorten_pipe()
    port = live.open_port(path)
    try:
        with Panel() as played:
            sound = live.play(played, start, made.path, port, channels, most or wav.MOST_CYCLES)
            try:
                write_sound(wav.STANDARD_OUTPUT, wav.MOST_CYCLES, sound, played, meter)
            except Stopped as stopped:
                if stopped.number != signal.SIGINT:
                    raise
    finally:
        os.close(port)


def tell(out: str, lines: Sequence[str]) -> None:
    """On standard output, or beside the sound that goes there."""
    text = "\n".join(lines)
    if out == wav.STANDARD_OUTPUT:
        say(NAME, text)
    else:
        answer(text)


def draw(path: str, out: str, meter: Meter) -> None:
    title = f"{os.path.basename(wav.shown(out))}, ceiling {meter.ceiling:,}"
    text = picture.svg([picture.Wave(title, meter.ceiling, meter.lows, meter.highs)])
    outputs.write_all([(path, text.encode())])


# ---- the command

@dataclass(frozen=True)
class Options:
    """The command line, understood."""
    paths: Sequence[str]
    ceiling: int
    most: int | None
    picture: str | None
    names: str | None
    instrument: str | None
    channels: set[int] | None
    is_live: bool

    def inputs(self) -> list[str]:
        return [path for path in (*self.paths[:2], self.names) if path is not None]


def options_of(given: argparse.Namespace) -> Options:
    paths = checked_paths(given.paths)
    out, is_live = paths[2], given.live or files.is_port(paths[1])
    if is_live and out != wav.STANDARD_OUTPUT:
        raise Usage("a keyboard is heard through standard output, so OUT is -: bin/play .. - | aplay --buffer-time=40000")
    if given.picture in (wav.STANDARD_OUTPUT, "", out):
        raise Usage("--picture has a file of its own")
    return Options(paths, whole(given.ceiling or str(MOST_CEILING), 1, MOST_CEILING, "the ceiling"),
                   None if given.seconds is None else cycles_of(given.seconds), given.picture, given.names, given.instrument,
                   None if given.channels is None else channels_of(given.channels), is_live)


def check_outputs(options: Options) -> None:
    """Everything that is to be written may be, before anything is played."""
    wav.check_output(options.paths[2], options.inputs())
    if options.picture is not None:
        outputs.may_replace(options.picture, [*options.inputs(), options.paths[2]], picture.is_picture, "SVG picture")


def piece_of(options: Options, score: bytes, made: Orchestra, warnings: Warnings) -> Piece:
    """The piece of a score or a MIDI file."""
    name = files.shown(options.paths[1])
    if files.kind(score) == files.MIDI:
        instrument = instrument_of(options.instrument, made)[1]
        return piece.from_midi(name, score, instrument, options.channels or midi_file.PITCHED, options.most)
    for option, value in (("instrument", options.instrument), ("channels", options.channels)):
        if value is not None:
            raise Usage(f"--{option} is for MIDI files and keyboards, and {name} is a score")
    return piece.from_score(name, score, made, options.most, warnings)


def parsed(arguments: Sequence[str]) -> argparse.Namespace:
    """The options, and the names wherever they stand; behind -- all are names."""
    end = list(arguments).index("--") if "--" in arguments else len(arguments)
    given = parser().parse_intermixed_args(list(arguments[:end]))
    given.paths += arguments[end + 1:]
    return given


def carry_out(arguments: Sequence[str]) -> None:
    given = parsed(arguments)
    if given.help:
        answer(HELP)
        return
    options = options_of(given)
    data, score = inputs_of(options.paths, options.is_live)
    check_outputs(options)
    warnings = Warnings()
    made = orchestra_of(options.paths[0], data, options.names, warnings)
    what = None if options.is_live else piece_of(options, score, made, warnings)
    for warning in warnings.told:
        say(NAME, warning)
    meter = Meter(options.ceiling)
    start = panel.fresh(options.ceiling, instrument_of(options.instrument, made)[0], made.data)
    if what:
        play_piece(options.paths[2], start, made, what, meter)
    else:
        play_live(options.paths[1], start, made, options.channels or midi_file.PITCHED, options.most, meter)
    if options.picture is not None:
        draw(options.picture, options.paths[2], meter)
    tell(options.paths[2], report.summary(options.paths[2], meter, what))


def main() -> int:
    return run(NAME, carry_out, sys.argv[1:])
