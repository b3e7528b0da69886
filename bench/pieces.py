#!/usr/bin/env python3
"""Writes the measured pieces: tones, and the orchestras that cost most among those that the panel accepts.

    pieces.py DIRECTORY CYCLES        each piece as NAME.orc and NAME.sco, and for sfront as NAME.saol and NAME.sasl;
                                      the same without notes as idle-NAME. Prints a line "NAME NOTES" for each.

All notes sound from the first cycle to the last. The costly orchestras have one instrument of as many tokens as the
panel takes, 2,048, and 16 notes; all their statements run at every sample.
"""
import os
import re
import sys

HERE = os.path.dirname(os.path.abspath(__file__))
MOST_TOKENS = 2048
MOST_NOTES = 16
LONGEST = 128  # tokens of a statement before its ;
DEEPEST = 23  # brackets inside an instrument's own
# A subnormal float, with which processors multiply far more slowly; a score's text has none, so the orchestra does.
TINY = "1e-40"
FRAME = "instr s(y) {{ asig x; x = y; {} output(x); }}"
LEXEME = re.compile(r"\w+|&&|\|\||[<>=!]=|\S")


def count(text):
    return len(LEXEME.findall(text))


def filled(statement):
    """An orchestra filled up with statements: statement(n) has at most n tokens, or is empty."""
    left, body = MOST_TOKENS - count(FRAME.format("")), []
    while True:
        text = statement(min(left, LONGEST + 1))
        if not text:
            return FRAME.format("\n".join(body))
        left -= count(text)
        body.append(text)


def chain(operator, operand="y"):
    return lambda n: "x = x" + f" {operator} {operand}" * ((n - 4) // 2) + ";" if n >= 6 else ""


def prefixes(operator):
    return lambda n: "x = " + f"{operator} " * (n - 4) + "x;" if n >= 5 else ""


def choices(n):
    return "x = " + "x ? y : " * ((n - 4) // 4) + "x;" if n >= 8 else ""


def fracs(n):
    deep = min((n - 4) // 3, DEEPEST)
    return "x = " + "frac(" * deep + "x" + ")" * deep + ";" if deep >= 1 else ""


def fixed(text):
    return lambda n: text if n >= count(text) else ""


def tone(name):
    with open(os.path.join(HERE, "tone.orc"), encoding="utf-8") as file:
        return re.sub(r"//.*", "", file.read()).replace("instr tone", f"instr {name}")


def pieces():
    """Name, orchestra, and the instrument and value of each note."""
    for notes in (16, 8, 4, 2, 1):
        yield f"tone-{notes}", tone("tone"), [("tone", "440")] * notes
    names = [f"tone{i}" for i in range(8)]
    yield "eight-by-2", "".join(tone(name) for name in names), [(name, "440") for name in names] * 2
    costly = [("times", chain("*"), "1"), ("over", chain("/"), "1"), ("plus", chain("+"), "1"), ("less", chain("<"), "1"),
              ("and", chain("&&"), "1"), ("not", prefixes("!"), "1"), ("minus", prefixes("-"), "1"), ("choices", choices, "1"),
              ("ifs", fixed("if (x) { x = y; }"), "1"), ("outputs", fixed("output(x);"), "0.001"), ("fracs", fracs, "0.5"),
              ("tiny", chain("*", "1"), TINY)]
    for name, statement, value in costly:
        orchestra = filled(statement)
        if value == TINY:
            orchestra, value = orchestra.replace("x = y;", f"x = {TINY};", 1), "1"
        assert count(orchestra) <= MOST_TOKENS
        yield name, orchestra, [("s", value)] * MOST_NOTES


def write(path, text):
    with open(path, "w", encoding="utf-8") as file:
        file.write(text)


def main(directory, cycles):
    seconds = int(cycles) / 100
    for name, orchestra, notes in pieces():
        lines = "".join(f"0 {instrument} {seconds} {value}\n" for instrument, value in notes)
        end = f"{seconds} end\n"
        for piece, score in ((name, lines + end), ("idle-" + name, end)):
            base = os.path.join(directory, piece)
            write(base + ".orc", orchestra)
            write(base + ".sco", score)
            write(base + ".saol", "global { srate 32000; krate 100; outchannels 1; }\n" + orchestra)
            write(base + ".sasl", score)
        print(name, len(notes))


if __name__ == "__main__":
    main(*sys.argv[1:])
