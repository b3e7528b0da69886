"""Document 01's grammar, name rules and rate rules, so that a fault is told with its place before the panel refuses it."""
from __future__ import annotations

from collections.abc import Sequence
from dataclasses import dataclass, field

from .faults import Fault
from .orchestra_tokens import Token

CALLS = {"abs": 1, "sgn": 1, "int": 1, "frac": 1, "min": 2, "max": 2}
MOST_INSTRUMENTS, MOST_NAMES = 8, 16

# Binary operators, loosest first, all grouped from the left.
LEVELS = (("||",), ("&&",), ("==", "!="), ("<", ">", "<=", ">="), ("+", "-"), ("*", "/"))

# Rates, slowest first, by their letters.
RATES = "ika"
I_RATE, K_RATE, A_RATE = range(3)
DECLARED_RATE = {"ivar": I_RATE, "ksig": K_RATE, "asig": A_RATE}
DECLARING = (*DECLARED_RATE, "imports")


@dataclass
class Instrument:
    """An instrument's name, its fields, the rate of each of its names, and which of them score lines may set."""
    name: str
    where: str
    fields: list[str] = field(default_factory=list)
    rates: dict[str, int] = field(default_factory=dict)
    imports: set[str] = field(default_factory=set)


@dataclass(frozen=True)
class Declared:
    """A name where it is declared."""
    instrument: Instrument
    token: Token
    rate: int


@dataclass(frozen=True)
class Statement:
    """An assignment or an output: its first token, the names that it uses, and those in the guards around it."""
    instrument: Instrument
    token: Token
    names: Sequence[Token]
    guards: Sequence[Token]

    def rate(self) -> int:
        return A_RATE if self.token.kind == "sign" else self.instrument.rates[self.token.text]


class Reader:
    """Reads tokens by the grammar. An expression gives the names in it, which are all that its rate depends on."""

    def __init__(self, path: str, tokens: Sequence[Token]) -> None:
        self.path, self.tokens, self.at = path, tokens, 0
        self.instruments: list[Instrument] = []
        self.declared: list[Declared] = []
        self.used: list[tuple[Instrument, Token]] = []
        self.statements: list[Statement] = []

    # ---- the next token

    def where(self) -> str:
        return self.tokens[self.at].where if self.at < len(self.tokens) else f"{self.path}: at the end"

    def found(self) -> str:
        return f"`{self.tokens[self.at].text}`" if self.at < len(self.tokens) else "nothing"

    def is_next(self, *signs: str) -> bool:
        return self.at < len(self.tokens) and self.tokens[self.at].is_sign(*signs)

    def is_kind(self, *kinds: str) -> bool:
        return self.at < len(self.tokens) and self.tokens[self.at].kind in kinds

    def take(self) -> Token:
        self.at += 1
        return self.tokens[self.at - 1]

    def sign(self, text: str, what: str) -> Token:
        if not self.is_next(text):
            raise Fault(f"{self.where()}: `{text}` expected {what}, not {self.found()}")
        return self.take()

    def name(self, what: str) -> Token:
        if not self.is_kind("name"):
            raise Fault(f"{self.where()}: {what} expected, not {self.found()}")
        return self.take()

    def names(self, what: str) -> list[Token]:
        names = [self.name(what)]
        while self.is_next(","):
            self.take()
            names.append(self.name(what))
        return names

    # ---- instruments and declarations

    def orchestra(self) -> None:
        if not self.tokens:
            raise Fault(f"{self.path}: no instrument")
        while self.at < len(self.tokens):
            self.sign("instr", "to begin an instrument")
            self.instrument()

    def instrument(self) -> None:
        name = self.name("an instrument's name")
        instrument = Instrument(name.text, name.where)
        self.instruments.append(instrument)
        self.sign("(", f"behind `{instrument.name}`")
        fields = [] if self.is_next(")") else self.names("a field's name")
        self.sign(")", "behind the fields")
        instrument.fields = [token.text for token in fields]
        self.declare(instrument, fields, I_RATE)
        self.sign("{", f"to begin the body of `{instrument.name}`")
        while self.is_next(*DECLARING):
            self.declaration(instrument)
        self.block_of_statements(instrument, ())
        self.sign("}", f"to end `{instrument.name}`, or a statement")

    def declaration(self, instrument: Instrument) -> None:
        kind = self.take().text
        is_imported = kind == "imports"
        if is_imported:
            kind = self.sign("ksig", "behind `imports`").text
        names = self.names("a name to declare")
        self.sign(";", "behind the declared names")
        self.declare(instrument, names, DECLARED_RATE[kind])
        if is_imported:
            instrument.imports.update(token.text for token in names)

    def declare(self, instrument: Instrument, names: Sequence[Token], rate: int) -> None:
        self.declared += [Declared(instrument, token, rate) for token in names]

    # ---- statements

    def block_of_statements(self, instrument: Instrument, guards: Sequence[Token]) -> None:
        while self.at < len(self.tokens) and not self.is_next("}"):
            if self.is_next("output"):
                self.output(instrument, guards)
            elif self.is_next("if"):
                self.branch(instrument, guards)
            elif self.is_kind("name"):
                self.assignment(instrument, guards)
            elif self.is_next(*DECLARING):
                raise Fault(f"{self.where()}: {self.found()}: a declaration stands before the statements and in no if")
            else:
                raise Fault(f"{self.where()}: a statement or `}}` expected, not {self.found()}")

    def assignment(self, instrument: Instrument, guards: Sequence[Token]) -> None:
        target = self.take()
        self.sign("=", f"behind `{target.text}`")
        names = self.expression()
        self.sign(";", "behind an assignment")
        self.use(instrument, [target, *names])
        self.statements.append(Statement(instrument, target, names, guards))

    def output(self, instrument: Instrument, guards: Sequence[Token]) -> None:
        word = self.take()
        self.sign("(", "behind `output`")
        names = self.expression()
        self.sign(")", "behind what is put out")
        self.sign(";", "behind `output (..)`")
        self.use(instrument, names)
        self.statements.append(Statement(instrument, word, names, guards))

    def branch(self, instrument: Instrument, guards: Sequence[Token]) -> None:
        self.take()
        self.sign("(", "behind `if`")
        names = self.expression()
        self.sign(")", "behind the guard")
        self.use(instrument, names)
        self.block(instrument, [*guards, *names], "behind the guard")
        if self.is_next("else"):
            self.take()
            self.block(instrument, [*guards, *names], "behind `else`")

    def block(self, instrument: Instrument, guards: Sequence[Token], what: str) -> None:
        self.sign("{", what)
        self.block_of_statements(instrument, guards)
        self.sign("}", "to end the block, or a statement")

    def use(self, instrument: Instrument, names: Sequence[Token]) -> None:
        self.used += [(instrument, token) for token in names]

    # ---- expressions

    def expression(self) -> list[Token]:
        names = self.binary(0)
        if self.is_next("?"):
            self.take()
            names += self.expression()
            self.sign(":", "between the two values of a choice")
            names += self.expression()
        return names

    def binary(self, level: int) -> list[Token]:
        if level == len(LEVELS):
            return self.unary()
        names = self.binary(level + 1)
        while self.is_next(*LEVELS[level]):
            self.take()
            names += self.binary(level + 1)
        return names

    def unary(self) -> list[Token]:
        while self.is_next("!", "-"):
            self.take()
        if self.is_next(*CALLS):
            return self.call()
        if self.is_next("("):
            self.take()
            names = self.expression()
            self.sign(")", "to close a bracket")
            return names
        if self.is_kind("name", "number"):
            token = self.take()
            return [token] if token.kind == "name" else []
        raise Fault(f"{self.where()}: a value expected, not {self.found()}")

    def call(self) -> list[Token]:
        word = self.take()
        self.sign("(", f"behind `{word.text}`")
        names = self.expression()
        for _ in range(1, CALLS[word.text]):
            self.sign(",", f"between the two values of `{word.text}`")
            names += self.expression()
        self.sign(")", f"behind the values of `{word.text}`")
        return names


def instruments_of(path: str, tokens: Sequence[Token]) -> list[Instrument]:
    """The instruments of an orchestra that keeps all rules."""
    reader = Reader(path, tokens)
    reader.orchestra()
    check_instruments(reader.instruments)
    check_declared(reader.declared)
    for instrument, token in reader.used:
        if token.text not in instrument.rates:
            raise Fault(f"{token.where}: `{token.text}` is not declared in `{instrument.name}`")
    for statement in reader.statements:
        check_rates(statement)
    return reader.instruments


def check_instruments(instruments: Sequence[Instrument]) -> None:
    """Eight at most, all named differently."""
    seen = set()
    for instrument in instruments:
        if instrument.name in seen:
            raise Fault(f"{instrument.where}: a second instrument named `{instrument.name}`")
        seen.add(instrument.name)
    if len(instruments) > MOST_INSTRUMENTS:
        raise Fault(f"{instruments[MOST_INSTRUMENTS].where}: more than {MOST_INSTRUMENTS} instruments")


def check_declared(declared: Sequence[Declared]) -> None:
    """Sixteen names at most in an instrument, each declared once."""
    for item in declared:
        instrument, token = item.instrument, item.token
        if token.text in instrument.rates:
            raise Fault(f"{token.where}: `{token.text}` is declared twice in `{instrument.name}`")
        if len(instrument.rates) == MOST_NAMES:
            raise Fault(f"{token.where}: `{token.text}` is one name too many; `{instrument.name}` may have {MOST_NAMES}")
        instrument.rates[token.text] = item.rate


def check_rates(statement: Statement) -> None:
    """No assigned name is slower than what it is given, and no statement slower than a guard around it."""
    rates, token, rate = statement.instrument.rates, statement.token, statement.rate()
    for name in statement.names:
        if rates[name.text] > rate:
            raise Fault(f"{name.where}: `{name.text}` has rate {RATES[rates[name.text]]}, faster than `{token.text}`, "
                        f"which has rate {RATES[rate]}")
    for guard in statement.guards:
        if rates[guard.text] > rate:
            raise Fault(f"{token.where}: `{token.text}` has rate {RATES[rate]}, slower than `{guard.text}` in a guard "
                        f"around it, which has rate {RATES[rates[guard.text]]}")
