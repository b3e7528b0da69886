"""Names and their symbols, and the symbol table that tells the names to a display."""
from __future__ import annotations

import re
from collections import Counter
from collections.abc import Iterable

from .bits import BitReader, Bits
from .faults import Fault, Warnings

MOST_SYMBOL = 65_535
# A symbol table's count has 16 bits, and a name's length 4.
MOST_LISTED, LONGEST_NAME = 65_535, 15
NUMBERED = re.compile(r"s(0|[1-9][0-9]{0,4})\Z")


def numbered(word: str) -> int | None:
    """The symbol that the panel's text writes as `s` and its number."""
    found = NUMBERED.match(word)
    return int(found.group(1)) if found and int(found.group(1)) <= MOST_SYMBOL else None


class Symbols:
    """Symbols given out to names, from 0 in the order of their first use."""

    def __init__(self) -> None:
        self.of: dict[str, int] = {}
        self.names: dict[int, str] = {}
        self.next = 0
        self.reserved: set[int] = set()

    def add(self, name: str, symbol: int) -> None:
        self.of.setdefault(name, symbol)
        self.names.setdefault(symbol, name)

    def reserve(self, symbols: Iterable[int]) -> None:
        """Symbols that a score writes by number are given to no other name."""
        self.reserved.update(symbols)

    def symbol(self, name: str, where: str) -> int:
        """The symbol of a name, a new one where it has none."""
        if name not in self.of:
            while self.next in self.names or self.next in self.reserved:
                self.next += 1
            if self.next > MOST_SYMBOL:
                raise Fault(f"{where}: more than {MOST_SYMBOL + 1:,} names")
            self.add(name, self.next)
        return self.of[name]

    def name(self, symbol: int) -> str:
        """A symbol in a message: its name, or the panel's way to write it."""
        return self.names.get(symbol, f"s{symbol}")


def table_of(symbols: Symbols, warnings: Warnings) -> bytes:
    """A 16-bit count, then for each symbol from 0 a 4-bit length and that many bytes; 0 where a name is too long or missing."""
    bits = Bits()
    count = min(max(symbols.names, default=-1) + 1, MOST_LISTED)
    bits.put(16, count)
    for symbol in range(count):
        letters = symbols.names.get(symbol, "").encode()
        if len(letters) > LONGEST_NAME:
            warnings.add(letters.decode(), f"longer than {LONGEST_NAME} letters, so the symbol table has no name for it")
            letters = b""
        bits.put(4, len(letters))
        for letter in letters:
            bits.put(8, letter)
    return bits.to_bytes()


def symbols_in(path: str, data: bytes) -> Symbols:
    """The names of a symbol table. A name that two symbols have, or that looks like a number, is no help and left out."""
    reader, names = BitReader(data), []
    try:
        for _ in range(reader.take(16)):
            names.append(bytes(reader.take(8) for _ in range(reader.take(4))).decode("ascii", errors="replace"))
    except EOFError:
        raise Fault(f"{path}: no symbol table: it ends inside a name") from None
    if not reader.is_filling():
        raise Fault(f"{path}: no symbol table: bytes are left behind its names")
    symbols, often = Symbols(), Counter(names)
    for symbol, name in enumerate(names):
        if name and often[name] == 1 and numbered(name) is None:
            symbols.add(name, symbol)
    return symbols


def listed(symbols: Symbols) -> list[str]:
    """Each symbol and its name, as `s14 pad`."""
    return [f"s{symbol} {name}" for symbol, name in sorted(symbols.names.items())]
