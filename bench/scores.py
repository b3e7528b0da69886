#!/usr/bin/env python3
"""Writes one score twice, as bits and as text, each just below 1 MB, and the longest symbol table: scores.py FOLDER makes score.bits,
score.text and score.names there."""
import os
import struct
import sys

LINE = b"12.5 s3 0.25 440 0.8\n"
LINES = (1 << 20) // len(LINE) - 1


def word(number):
    """A float's 32 bits, as digits."""
    return format(struct.unpack(">I", struct.pack(">f", number))[0], "032b")


def line_bits():
    """Has-time, use-if-late, time, priority, type, has-label, instrument, duration, count, values."""
    return "10" + word(12.5) + "0" + "000" + "0" + format(3, "016b") + word(0.25) + format(2, "08b") + word(440) + word(0.8)


def table():
    """65,535 names of 15 letters, each a count and its letters."""
    entry = format(15, "04b") + "".join(format(letter, "08b") for letter in b"grand piano, 88")
    bits = format(65535, "016b") + entry * 65535
    return bits + "0" * (-len(bits) % 8)


def main(folder):
    bits = table()
    with open(os.path.join(folder, "score.names"), "wb") as file:
        file.write(int(bits, 2).to_bytes(len(bits) // 8, "big"))
    bits = format(LINES, "020b") + line_bits() * LINES
    bits += "0" * (-len(bits) % 8)
    with open(os.path.join(folder, "score.bits"), "wb") as file:
        file.write(int(bits, 2).to_bytes(len(bits) // 8, "big"))
    with open(os.path.join(folder, "score.text"), "wb") as file:
        file.write(LINE * LINES)


if __name__ == "__main__":
    main(sys.argv[1])
