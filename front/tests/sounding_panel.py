"""The front held to the panel: it refuses what the panel refuses, reads what the panel reads, and feeds as one stick plays."""
import array
import os
import random
import struct
import subprocess
import unittest

from front import orchestra, panel, piece, score_bytes, score_lines, score_text, symbols
from front.faults import Fault, Warnings
from front.score_lines import Kind, Line

from .helpers import DEMO
from .test_schedule import bits


def demo(name):
    with open(os.path.join(DEMO, name), "rb") as file:
        return file.read()


TUNE = orchestra.read("tune.orc", demo("tune.orc"), None, Warnings())
START = panel.fresh(32767, 0, TUNE.data)
SLOT, WORDS = 18, 72


def answers(*calls):
    """The answers to calls, each given with the size of its answer, as a number and what stands behind it."""
    written = subprocess.run([panel.program()], input=b"".join(record for record, _ in calls), capture_output=True, check=True).stdout
    assert len(written) == sum(size for _, size in calls)
    out, at = [], 0
    for _, size in calls:
        out.append((written[at], written[at + 1:at + size]))
        at += size
    return out


START_SIZE = 1 + panel.SETTINGS_AREA


def stick(data):
    return b"S" + struct.pack(">I", len(data)) + data, 13


def number_told(read, *arguments):
    """The refusal number in a fault, 0 for none, -1 for a fault without one."""
    try:
        read(*arguments)
    except Fault as fault:
        return int(str(fault).rpartition("(refusal ")[2].rstrip(")")) if "(refusal " in str(fault) else -1
    return 0


def mutated(dice, data):
    out = bytearray(data)
    for _ in range(dice.randint(1, 3)):
        kind, at = dice.randrange(4), dice.randrange(len(out) or 1)
        if kind == 0 and out:
            out[at] = dice.randrange(256)
        elif kind == 1 and out:
            del out[at:at + dice.randint(1, 4)]
        elif kind == 2:
            out[at:at] = bytes(dice.choice((*range(1, 37), 0xF0, 0xFF)) for _ in range(dice.randint(1, 3)))
        elif out:
            out[at] ^= 1 << dice.randrange(8)
    return bytes(out)


def random_score(dice):
    lines = []
    for at in range(dice.randint(1, 63)):
        time, where = bits(dice.choice(("0", "0.1", "0.5", "0.999", "1"))), f"line {at}"
        kind = dice.choice((Kind.INSTR,) * 6 + (Kind.TEMPO, Kind.CONTROL))
        if kind is Kind.INSTR:
            values = tuple(bits(dice.choice(("0.1", "44", "220"))) for _ in range(dice.randint(0, 1)))
            lines.append(Line(where, kind, time, dice.random() < 0.2, dice.choice((None, 14)), dice.choice((0, 12, 14)),
                              bits(dice.choice(("0", "0.4", "2"))), values))
        elif kind is Kind.TEMPO:
            lines.append(Line(where, kind, time, number=bits(dice.choice(("45", "60", "200.5")))))
        else:
            lines.append(Line(where, kind, time, label=14, symbol=15, number=bits(dice.choice(("0.1", "0.4")))))
    lines.append(Line("end", Kind.END, bits("1.25")))
    return lines


class Agreement(unittest.TestCase):
    def test_orchestras_are_accepted_alike(self):
        seen = set()
        for seed in range(400):
            data = mutated(random.Random(seed), TUNE.data)
            ours = number_told(orchestra.from_bytes, "t", data, None)
            theirs = answers((panel.fresh(32767, int.from_bytes(data[2:4], "big"), data), START_SIZE))[0][0]
            # 4: the chosen instrument is not there, which is asked last.
            self.assertEqual(ours == 0, theirs in (0, 4), (seed, ours, theirs))
            seen.add(theirs)
        self.assertTrue({0, 12, 13, 14} <= seen, seen)

    def test_scores_are_refused_by_the_same_number(self):
        seen = set()
        for seed in range(400):
            dice = random.Random(seed)
            data = mutated(dice, score_lines.to_bytes(random_score(dice)))
            ours = number_told(score_bytes.read, "s", data, TUNE)
            theirs = answers((START, START_SIZE), stick(data))[1][0]
            self.assertEqual(ours, 0 if theirs == 8 else theirs, seed)
            seen.add(theirs)
        self.assertTrue({0, 1, 2, 3, 4} <= seen, seen)

    def test_text_is_read_alike(self):
        for seed in range(60):
            dice, lines = random.Random(seed), []
            for _ in range(dice.randint(1, 40)):
                number = "".join(dice.choice("0123456789") for _ in range(dice.randint(1, 4))) + dice.choice(("", ".5", ".125", ".001", ".10"))
                time = f"{dice.randrange(16384)}{dice.choice(('', '.1', '.999'))}"
                lines.append(dice.choice((f"{time} s12 {time} {number} -{number}", f"*s300: {time} s0 -1 {number}",
                                          f"{time} s14 control s15 -{number}", f"{time} tempo {dice.randint(1, 960)}", f"{time} end")))
            text = ("\n".join(lines) + "\n").encode()
            number, rest = answers((b"E" + struct.pack(">II", 128, len(text)) + text, 5 + 128 * WORDS))[0]
            self.assertEqual(number, 0, text)
            for at, line in enumerate(score_text.read("s", text, TUNE)):
                slot = struct.unpack_from(f">{SLOT}I", rest, 4 + at * WORDS)
                numbers = score_lines.keypad_numbers(line)
                self.assertEqual(list(slot), numbers + [0] * (SLOT - len(numbers)), lines[at])

    def test_names_are_a_table_that_the_panel_unpacks(self):
        table = symbols.table_of(TUNE.symbols, Warnings())
        number, rest = answers((b"N" + struct.pack(">I", len(table)) + table + struct.pack(">I", 4096), 5 + 4096))[0]
        names = [TUNE.symbols.names[symbol].encode() for symbol in range(len(TUNE.symbols.names))]
        listed = b"".join(bytes([len(name)]) + name for name in names)
        self.assertEqual((number, rest[:4 + len(listed)]), (0, struct.pack(">I", len(listed)) + listed))


class Feeding(unittest.TestCase):
    def by_stick(self, data, cycles):
        """The blocks and the missed notes of a score that is handed in at once."""
        cycle = (panel.CYCLE, 9 + 2 * panel.BLOCK)
        got = answers((START, START_SIZE), stick(data), *[cycle] * cycles)
        self.assertEqual((got[0][0], got[1][0]), (0, 0))
        return [rest[8:] for _, rest in got[2:]], [int.from_bytes(rest[:8], "big") for _, rest in got[2:]]

    def test_lines_handed_over_when_due_sound_as_one_stick(self):
        for seed in range(12):
            data = score_lines.to_bytes(random_score(random.Random(seed)))
            what = piece.from_score("s", data, TUNE, None, Warnings())
            blocks, missed = self.by_stick(data, what.cycles)
            with panel.Panel() as filter_:
                fed = []
                for at, samples in enumerate(filter_.play(START, "t", what.calls, what.cycles, what.is_closed)):
                    self.assertEqual(filter_.missed, missed[at], seed)
                    fed.append(samples)
            expected = []
            for block in blocks:
                expected.append(array.array("h", struct.unpack(f">{panel.BLOCK}h", block)))
            self.assertEqual(fed, expected, seed)
