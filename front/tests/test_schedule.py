"""When lines are due and when a piece is over, against the plain player, cycle by cycle."""
import random
import unittest
from fractions import Fraction

from front import floats, schedule, score_lines
from front.faults import Fault
from front.score_lines import WITHOUT_END, Kind, Line

from .plain_player import Line as PlainLine
from .plain_player import Player

TIMES = ("0", "0.1", "0.25", "0.5", "0.999", "1", "1.001", "1.5", "2", "3.333", "7")


def bits(text):
    return floats.nearest(Fraction(text))


def random_lines(dice):
    lines = []
    for number in range(dice.randint(1, 60)):
        where, time, starred = f"line {number}", bits(dice.choice(TIMES)), dice.random() < 0.2
        kind = dice.choice((Kind.INSTR,) * 12 + (Kind.TEMPO, Kind.CONTROL))
        if kind is Kind.INSTR:
            lines.append(Line(where, kind, time, starred, number=bits(dice.choice(("0", "0.003", "0.5", "1", "4")))))
        elif kind is Kind.TEMPO:
            lines.append(Line(where, kind, time, number=bits(dice.choice(("33.333", "60", "240.001", "960")))))
        else:
            lines.append(Line(where, kind, time, label=1, symbol=2))
    if dice.random() < 0.4:
        lines.append(Line("end", Kind.END, bits(dice.choice(TIMES))))
    return lines


def played(lines, timing):
    """The plain player with the lines handed over as they are due: its cycles, its missed notes and whether it ended itself."""
    player, cycle = Player(32767), 0
    due = {item.cycle: item.lines for item in timing.due}
    left = len(due)
    while left or not player.is_idle():
        for line in due.get(cycle, ()):
            assert player.take(PlainLine(score_lines.keypad_numbers(line))) == 0
        left -= cycle in due
        if player.cycle() is None:
            return cycle, player.missed, True
        cycle += 1
    return cycle, player.missed, False


def whole(lines):
    """The same with all lines from the start."""
    player, cycle = Player(32767), 0
    player.waiting = [PlainLine(score_lines.keypad_numbers(line)) for line in lines]
    while not player.is_idle():
        if player.cycle() is None:
            return cycle, player.missed, True
        cycle += 1
    return cycle, player.missed, False


class Schedule(unittest.TestCase):
    def test_random_scores(self):
        for seed in range(100):
            lines = random_lines(random.Random(seed))
            timing = schedule.schedule_of(lines)
            fed = played(lines, timing)
            self.assertEqual(fed, whole(lines), seed)
            self.assertEqual((timing.cycles, timing.is_closed), (fed[0], fed[2]), seed)

    def test_far_apart_takes_no_time(self):
        slow = [Line("1", Kind.TEMPO, 0, number=bits("1")), Line("2", Kind.END, bits("16384"))]
        self.assertEqual(schedule.schedule_of(slow).cycles, 16384 * 6_144_000 // 1024)

    def test_end(self):
        note = Line("1", Kind.INSTR, bits("1"), number=bits("0"))
        self.assertEqual(schedule.schedule_of([note]).cycles, 101)
        self.assertEqual(schedule.schedule_of([]).cycles, 0)
        held = Line("2", Kind.INSTR, 0, number=WITHOUT_END)
        self.assertEqual((schedule.schedule_of([note, held]).cycles, schedule.schedule_of([note, held]).endless), (None, held))
        timing = schedule.schedule_of([held, Line("3", Kind.END, bits("2")), Line("4", Kind.TEMPO, bits("2"), number=bits("60"))])
        self.assertEqual((timing.cycles, timing.is_closed, [line.where for line in timing.unheard]), (200, True, ["4"]))

    def test_a_held_note_that_is_cut_off_does_not_last(self):
        held = [Line(str(at), Kind.INSTR, 0, number=WITHOUT_END if at == 0 else bits("1")) for at in range(16)]
        starred = Line("star", Kind.INSTR, bits("0.5"), True, number=bits("1"))
        self.assertEqual(schedule.schedule_of([*held, starred]).cycles, 151)

    def test_more_than_64_at_once(self):
        lines = [Line(f"s: line {at}", Kind.TEMPO, bits("0.5"), number=bits("60")) for at in range(70)]
        self.assertEqual(len(schedule.schedule_of(lines[:64]).due[0].lines), 64)
        with self.assertRaises(Fault) as told:
            schedule.schedule_of(lines)
        self.assertEqual(str(told.exception), "s: line 64: beat 0.5: 70 lines are due at once, and the panel takes 64: move some of them "
                                              "to another beat")
