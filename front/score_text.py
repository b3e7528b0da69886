"""A score that a person types: the panel's text with the orchestra's names, comments, empty lines and spaces as one likes."""
from __future__ import annotations

import difflib
import re
from collections.abc import Sequence
from dataclasses import dataclass

from . import files, floats, numerals
from .faults import Fault, Warnings, counted
from .orchestra import Orchestra
from .orchestra_rules import Instrument
from .score_lines import LEAST_TEMPO, MOST_BEATS, MOST_LINES, MOST_TEMPO, MOST_VALUES, WITHOUT_END, Kind, Line
from .symbols import MOST_SYMBOL, numbered

WORD = re.compile(r"\S+")
LABEL = re.compile(r"\s*([^\s:]*)\s*:")
NAME = re.compile(r"[A-Za-z_][A-Za-z0-9_]*\Z")
LIKE_NUMBERED = re.compile(r"s[0-9]+\Z")
KEYWORDS = ("control", "tempo", "end")
# Words that begin lines in other score languages, and lines that are not carried.
NOT_CARRIED = ("table",)
COMMENT_MARKS = ("#", ";", "--", "/*")
MOST_TOLD = 20
LONGEST_SHOWN = 40


@dataclass(frozen=True)
class Word:
    """A word of a line and its column."""
    text: str
    column: int

    def shown(self) -> str:
        return f"`{self.text}`" if len(self.text) <= LONGEST_SHOWN else f"`{self.text[:LONGEST_SHOWN]}..`"


class Wrong(Exception):
    """What is wrong in a line, and at which column."""

    def __init__(self, column: int, text: str) -> None:
        super().__init__(text)
        self.column = column


def number(word: Word, what: str) -> int:
    """The bits of a number."""
    if numerals.fits(word.text):
        return numerals.bits_of(word.text)
    if word.text.startswith(COMMENT_MARKS):
        raise Wrong(word.column, f"a comment begins with //, not {word.text[:2]}")
    cure = numerals.cure(word.text)
    raise Wrong(word.column, cure or f"{what} should be a number, not {word.shown()}")


def ranged(word: Word, what: str, least: int, most: int, also: str = "") -> int:
    """The bits of a number that has to lie in a range."""
    bits = number(word, what)
    if bits & floats.MINUS or not least <= floats.exact(bits) <= most:
        raise Wrong(word.column, f"{what} {word.text} is not from {least:,} to {most:,}{also}")
    return bits


def time_of(word: Word) -> int:
    if NAME.match(word.text):
        raise Wrong(word.column, f"a line begins with its time: write 0 {word.text}, or the beat that is meant")
    return ranged(word, "the time", 0, MOST_BEATS)


def duration_of(word: Word) -> int:
    if numerals.fits(word.text) and numerals.bits_of(word.text) == WITHOUT_END:
        return WITHOUT_END
    return ranged(word, "the duration", 0, MOST_BEATS, ", nor -1 for a note without end")


def exactly(words: Sequence[Word], count: int, pattern: str) -> None:
    """A line of a fixed number of words."""
    if len(words) > count:
        comment = "" if numerals.fits(words[count].text) else "; a comment begins with //"
        raise Wrong(words[count].column, f"{words[count].shown()} is too much: the line is `{pattern}`{comment}")
    if len(words) < count:
        raise Wrong(words[-1].column, f"something is missing behind {words[-1].shown()}: the line is `{pattern}`")


class Reader:
    """Reads the lines of one score for one orchestra."""

    def __init__(self, path: str, orchestra: Orchestra) -> None:
        self.path, self.orchestra = path, orchestra
        self.instruments = orchestra.by_symbol()

    def read(self, text: str) -> list[Line]:
        """All lines, or all faults."""
        lines, faults = [], []
        rows = [(row, content) for row, content in enumerate(files.lines_in(text), 1) if content.strip()]
        self.orchestra.symbols.reserve(self.written_numbers(rows))
        for row, content in rows:
            try:
                lines.append(self.line(row, content))
            except Wrong as wrong:
                faults.append(f"{self.path}: line {row}, column {wrong.column}: {wrong}")
        if len(faults) > MOST_TOLD:
            faults[MOST_TOLD:] = [f"{self.path}: {len(faults) - MOST_TOLD:,} more lines are wrong"]
        if faults:
            raise Fault("\n".join(faults))
        if len(lines) > MOST_LINES:
            raise Fault(f"{self.path}: more than {MOST_LINES:,} lines")
        return lines

    def written_numbers(self, rows: Sequence[tuple[int, str]]) -> set[int]:
        """The symbols that the score writes by number."""
        words = {word for _, content in rows for word in re.findall(r"\bs[0-9]+\b", content)}
        return {symbol for symbol in map(numbered, words) if symbol is not None}

    def line(self, row: int, content: str) -> Line:
        where = f"{self.path}: line {row}"
        start = len(content) - len(content.lstrip())
        is_starred = content[start] == "*"
        start += is_starred
        label = None
        found = LABEL.match(content, start)
        if found:
            label = Word(found.group(1), found.start(1) + 1)
            start = found.end()
        words = [Word(word.group(), word.start() + 1) for word in WORD.finditer(content, start)]
        if not words:
            raise Wrong(start, "a line has a time and what is to happen then: `0 lead 1 440`")
        time = time_of(words[0])
        if len(words) == 1:
            raise Wrong(words[0].column, f"what is to happen at {words[0].text}? The line is `time instrument duration values`")
        event = self.event(where, time, is_starred, label, words)
        if label and event.kind is not Kind.INSTR:
            raise Wrong(label.column, f"only a note has a label before the colon; the line is `{PATTERNS[event.kind]}`")
        return event

    def event(self, where: str, time: int, is_starred: bool, label: Word | None, words: Sequence[Word]) -> Line:
        """What stands behind the time."""
        word = words[1].text
        if word == "end":
            exactly(words, 2, PATTERNS[Kind.END])
            return Line(where, Kind.END, time, is_starred)
        if word == "tempo":
            exactly(words, 3, PATTERNS[Kind.TEMPO])
            return Line(where, Kind.TEMPO, time, is_starred, number=ranged(words[2], "the tempo", LEAST_TEMPO, MOST_TEMPO))
        if word in NOT_CARRIED:
            raise Wrong(words[1].column, f"{words[1].shown()} lines are not carried by this panel")
        if word == "control":
            raise Wrong(words[1].column, f"a control line names the notes by their label: `{PATTERNS[Kind.CONTROL]}`")
        if len(words) > 2 and words[2].text == "control":
            exactly(words, 5, PATTERNS[Kind.CONTROL])
            return Line(where, Kind.CONTROL, time, is_starred, self.symbol(words[1], "label"),
                        self.symbol(words[3], "name"), number(words[4], "the value"))
        return self.note(where, time, is_starred, label, words)

    def note(self, where: str, time: int, is_starred: bool, label: Word | None, words: Sequence[Word]) -> Line:
        symbol, instrument = self.instrument(words[1])
        if len(words) == 2:
            raise Wrong(words[1].column, f"behind {words[1].shown()} stands how many beats it lasts, -1 for a note without end")
        duration = duration_of(words[2])
        values = tuple(number(word, "a value") for word in words[3:])
        most = min(MOST_VALUES, len(instrument.fields))
        if len(values) > most:
            raise Wrong(words[3 + most].column, too_many(instrument, len(values)))
        name = None if label is None else self.symbol(label, "label")
        return Line(where, Kind.INSTR, time, is_starred, name, symbol, duration, values)

    # ---- names

    def instrument(self, word: Word) -> tuple[int, Instrument]:
        """The symbol of an instrument and what is known of it."""
        symbol = self.orchestra.symbols.of.get(word.text, numbered(word.text))
        if symbol in self.instruments:
            return symbol, self.instruments[symbol]
        if not self.orchestra.has_names and NAME.match(word.text) and symbol is None:
            raise Wrong(word.column, f"{word.shown()}: {self.orchestra.path} is bytes without names: write {self.numbers()}, "
                                     "or give its symbol table by --names")
        raise Wrong(word.column, f"{word.shown()}: {self.alike(word.text)}")

    def numbers(self) -> str:
        return " or ".join(f"s{symbol}" for symbol in self.instruments)

    def alike(self, text: str) -> str:
        """The instrument that is probably meant, or all of them."""
        names = {instrument.name.lower(): instrument.name for instrument in self.orchestra.instruments}
        near = difflib.get_close_matches(text.lower()[:LONGEST_SHOWN], names, 1)
        return f"the orchestra has {f'`{names[near[0]]}`' if near else self.orchestra.names()}"

    def symbol(self, word: Word, what: str) -> int:
        """The symbol of a label or a signal; a name that the orchestra does not have gets a new one."""
        if word.text in self.orchestra.symbols.of:
            return self.orchestra.symbols.of[word.text]
        if LIKE_NUMBERED.match(word.text):
            symbol = numbered(word.text)
            if symbol is None:
                raise Wrong(word.column, f"{word.shown()}: symbols are s0 to s{MOST_SYMBOL}, without leading zeros")
            return symbol
        if not NAME.match(word.text) or word.text in KEYWORDS:
            raise Wrong(word.column, f"{word.shown()} is no {what}: it has letters, digits and _, and begins with a letter")
        return self.orchestra.symbols.symbol(word.text, self.path)


PATTERNS = {
    Kind.INSTR: "label: time instrument duration values",
    Kind.CONTROL: "time label control name value",
    Kind.TEMPO: "time tempo beats-a-minute",
    Kind.END: "time end",
}


def too_many(instrument: Instrument, count: int) -> str:
    fields = instrument.fields
    if len(fields) >= MOST_VALUES:
        return f"{count} values; a line has at most {MOST_VALUES}"
    if not fields:
        return f"`{instrument.name}` takes no values"
    return f"`{instrument.name}` takes {counted(len(fields), 'value')}, {', '.join(fields)}; here are {count}"


def read(path: str, data: bytes, orchestra: Orchestra) -> list[Line]:
    text = files.text_in(data)
    if text is None:
        raise Fault(f"{path}: no text")
    return Reader(path, orchestra).read(text)


def warn_of_controls(lines: Sequence[Line], orchestra: Orchestra, warnings: Warnings) -> None:
    """Control lines that reach no note: none has the label, or none of those imports the signal."""
    symbols, instruments = orchestra.symbols, orchestra.by_symbol()
    labelled: dict[int, list[Instrument]] = {}
    for line in lines:
        if line.kind is Kind.INSTR and line.label is not None and line.symbol in instruments:
            labelled.setdefault(line.label, []).append(instruments[line.symbol])
    for line in lines:
        if line.kind is not Kind.CONTROL or line.label is None:
            continue
        label, signal = symbols.name(line.label), symbols.name(line.symbol)
        if line.label not in labelled:
            warnings.add(line.where, f"no note has the label `{label}`; the line changes nothing")
        elif not any(signal in instrument.imports for instrument in labelled[line.label]):
            warnings.add(line.where, f"no instrument with the label `{label}` imports `{signal}`; the line changes nothing")
