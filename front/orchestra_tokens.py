"""An orchestra's tokens: from text, from the panel's bytes, and as those bytes; and document 01's measures of them."""
from __future__ import annotations

import re
from dataclasses import dataclass
from fractions import Fraction

from . import files, floats
from .faults import Fault
from .symbols import Symbols

SIGNS = ("instr ivar ksig asig imports output if else abs sgn int frac min max ( ) { } , ; = ? : || && == != < > "
         "<= >= + - * / !").split()
NUMBER_OF = {sign: number for number, sign in enumerate(SIGNS, 1)}
KEYWORDS = {sign for sign in SIGNS if sign.isalpha()}
LEXEME = re.compile(r"(?P<number>(\d+\.?\d*|\.\d+)([eE][-+]?\d{1,2})?(?![\w.]))|(?P<word>[A-Za-z_]\w*)"
                    r"|(?P<sign>\|\||&&|==|!=|<=|>=|[(){},;=?:<>+\-*/!])", re.ASCII)
SYMBOL_TOKEN, FLOAT_TOKEN, WHOLE_TOKEN, END_TOKEN = 0xF0, 0xF1, 0xF2, 0xFF
# The bytes behind the first of a token.
REST = {SYMBOL_TOKEN: 2, FLOAT_TOKEN: 4, WHOLE_TOKEN: 4}
MOST_WHOLE = 16_777_216
LONGEST_NUMBER = 200

# Document 01's sizes.
MOST_BYTES, MOST_TOKENS, MOST_BRACKETS, MOST_BETWEEN = 16_384, 2_048, 24, 128


@dataclass(frozen=True)
class Token:
    """A name, a number or a sign, and where it stands."""
    kind: str
    text: str
    where: str

    def is_sign(self, *signs: str) -> bool:
        return self.kind == "sign" and self.text in signs


def from_text(path: str, text: str) -> list[Token]:
    """The tokens of a written orchestra."""
    tokens = []
    for number, line in enumerate(files.lines_in(text), 1):
        at = 0
        while True:
            while at < len(line) and line[at].isspace():
                at += 1
            if at == len(line):
                break
            where = f"{path}: line {number}, column {at + 1}"
            found = LEXEME.match(line, at)
            if not found:
                raise Fault(f"{where}: no token begins with `{line[at]}`")
            at = found.end()
            tokens.append(Token(kind_of(found), found.group(), where))
    return tokens


def kind_of(found: re.Match[str]) -> str:
    if found.group("number"):
        return "number"
    return "name" if found.group("word") and found.group() not in KEYWORDS else "sign"


def from_bytes(path: str, data: bytes, symbols: Symbols) -> list[Token]:
    """The tokens of the panel's bytes; a symbol without a name is written as the panel writes it."""
    if len(data) > MOST_BYTES:
        raise Fault(f"{path}: {len(data):,} bytes; the panel takes at most {MOST_BYTES:,}")
    tokens, at = [], 0
    while data[at:at + 1] != bytes([END_TOKEN]):
        where = f"{path}: byte {at}"
        if at == len(data):
            raise Fault(f"{path}: at the end: the end token 0xFF is missing")
        first, size = data[at], 1 + REST.get(data[at], 0)
        if at + size > len(data):
            raise Fault(f"{where}: the bytes end inside a token")
        tokens.append(token_of(first, int.from_bytes(data[at + 1:at + size], "big"), where, symbols))
        at += size
    if at + 1 < len(data):
        raise Fault(f"{path}: byte {at + 1}: bytes behind the end token")
    return tokens


def token_of(first: int, rest: int, where: str, symbols: Symbols) -> Token:
    """The token of a first byte and the number behind it."""
    if first == SYMBOL_TOKEN:
        return Token("name", symbols.name(rest), where)
    if first == FLOAT_TOKEN and floats.is_finite(rest):
        return Token("number", floats.shown(rest), where)
    if first == WHOLE_TOKEN and rest <= MOST_WHOLE:
        return Token("number", str(rest), where)
    if first in (FLOAT_TOKEN, WHOLE_TOKEN):
        raise Fault(f"{where}: a number that no token has")
    if not 1 <= first <= len(SIGNS):
        raise Fault(f"{where}: 0x{first:02X} begins no token")
    return Token("sign", SIGNS[first - 1], where)


def to_bytes(path: str, tokens: list[Token], symbols: Symbols) -> bytes:
    """The panel's bytes of a written orchestra; its names get their symbols."""
    out = bytearray()
    for token in tokens:
        if token.kind == "name":
            out.append(SYMBOL_TOKEN)
            out += symbols.symbol(token.text, token.where).to_bytes(2, "big")
        elif token.kind == "number":
            out += number_bytes(token)
        else:
            out.append(NUMBER_OF[token.text])
    out.append(END_TOKEN)
    if len(out) > MOST_BYTES:
        raise Fault(f"{path}: {len(out):,} bytes; the panel takes at most {MOST_BYTES:,}")
    return bytes(out)


def number_bytes(token: Token) -> bytes:
    """A number with a point or an exponent is a float, another a whole number."""
    if len(token.text) > LONGEST_NUMBER:
        raise Fault(f"{token.where}: a number of {len(token.text)} digits; {LONGEST_NUMBER} are enough")
    if token.text.isdigit():
        if int(token.text) > MOST_WHOLE:
            raise Fault(f"{token.where}: {token.text} is above {MOST_WHOLE:,}; write it with a point")
        return bytes([WHOLE_TOKEN]) + int(token.text).to_bytes(4, "big")
    bits = floats.nearest(Fraction(token.text))
    if bits >= floats.INFINITY:
        raise Fault(f"{token.where}: {token.text} is too large for a 32-bit float")
    return bytes([FLOAT_TOKEN]) + bits.to_bytes(4, "big")


def measure(tokens: list[Token]) -> None:
    """Document 01's token measures."""
    if len(tokens) > MOST_TOKENS:
        raise Fault(f"{tokens[MOST_TOKENS].where}: more than {MOST_TOKENS:,} tokens")
    opened, between = 0, 0
    for token in tokens:
        if token.is_sign("(", "{"):
            opened += 1
            if opened > MOST_BRACKETS:
                raise Fault(f"{token.where}: more than {MOST_BRACKETS} brackets are open here")
        elif token.is_sign(")", "}"):
            opened = max(opened - 1, 0)
        between = 0 if token.is_sign(";", "{", "}") else between + 1
        if between > MOST_BETWEEN:
            raise Fault(f"{token.where}: more than {MOST_BETWEEN} tokens since the last `;`, `{{` or `}}`")
