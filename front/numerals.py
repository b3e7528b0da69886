"""Numbers as people type them, and how to write one that the panel's text does not have."""
from __future__ import annotations

import re
from fractions import Fraction

from . import floats

NUMERAL = re.compile(r"-?[0-9]+(\.[0-9]{1,3})?\Z")
DECIMALS = re.compile(r"-?[0-9]+\.([0-9]{4,})\Z")
# Past these a word is no number that anybody means, and takes long to work out.
LONGEST_WORD = 40
LARGE_EXPONENT = re.compile(r"[eE][-+]?[0-9]{3,}")
# All digits of a number, read with the point left out, are below this.
DIGITS_END = 16_777_216
MOST_DECIMALS = 3
WORDS = {4: "four", 5: "five", 6: "six", 7: "seven", 8: "eight"}


def digits_of(word: str) -> str:
    """All digits of a number, without zeros in front."""
    return word.replace("-", "").replace(".", "").lstrip("0") or "0"


def fits(word: str) -> bool:
    """Whether the panel's text has this number."""
    if not NUMERAL.match(word):
        return False
    digits = digits_of(word)
    return len(digits) <= len(str(DIGITS_END)) and int(digits) < DIGITS_END


def bits_of(word: str) -> int:
    """The bits of the nearest float of a number that fits; a minus sets the sign bit."""
    sign = floats.MINUS if word.startswith("-") else 0
    decimals = len(word.partition(".")[2])
    return sign | floats.nearest(Fraction(int(digits_of(word)), 10 ** decimals))


def shortened(number: Fraction) -> str | None:
    """The number with as many decimals as the panel's text has for it, or None where it is too large."""
    for decimals in range(MOST_DECIMALS, -1, -1):
        text = f"{float(number):.{decimals}f}"
        text = text.rstrip("0").rstrip(".") if "." in text else text
        if fits(text):
            return text
    return None


def meant(word: str) -> Fraction | None:
    """The number that a person means by a word which is none for the panel."""
    if len(word) > LONGEST_WORD or LARGE_EXPONENT.search(word):
        return None
    try:
        return Fraction(word.replace("\u2212", "-").replace("\u2013", "-").replace(",", ".").lstrip("+"))
    except (ValueError, ZeroDivisionError):
        return None


def cure(word: str) -> str | None:
    """What to do about a number that the panel's text does not have; None where the word is not like a number at all."""
    number = meant(word)
    if number is None:
        return None
    better = shortened(number)
    if better is None:
        return f"`{word}` is too large: the panel's numbers are below {DIGITS_END:,}"
    decimals = DECIMALS.match(word)
    if decimals:
        count = len(decimals.group(1))
        return f"`{word}` has {WORDS.get(count, count)} decimals: the panel has three: write {better}"
    if NUMERAL.match(word):
        return f"`{word}` has too many digits: without the point they are below {DIGITS_END:,}: write {better}"
    return f"write {better}, not {word}"
