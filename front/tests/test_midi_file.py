"""Wrong MIDI files and what is said of each; right ones and their messages; random ones against the definition of time alone."""
import random
import struct
import unittest
from fractions import Fraction

from front import midi_file, midi_messages, orchestra_rules, piece
from front.faults import Fault

from . import keys_tune

END = b"\0\xff\x2f\0"
NOTE = b"\0\x90\x3c\x40"
ORGAN = orchestra_rules.Instrument("organ", "o.orc", ["pitch", "loud"])


def chunk(kind, body):
    return kind + struct.pack(">I", len(body)) + body


def midi(*tracks, form=0, division=96):
    return chunk(b"MThd", struct.pack(">HHH", form, len(tracks), division)) + b"".join(chunk(b"MTrk", track) for track in tracks)


# A file, and what is said of it behind its name.
WRONG = [
    (b"MThd\0\0", "byte 4: the file ends inside its header"),
    (chunk(b"MThd", bytes(4)), "byte 4: a header of fewer than 6 bytes"),
    (midi(NOTE + END, form=2), "a MIDI file of format 2; only 0 and 1 are played"),
    (midi(NOTE + END, NOTE + END), "byte 10: 2 tracks in a file of format 0"),
    (midi(form=1), "byte 10: no tracks in a file of format 1"),
    (midi(NOTE + END, division=0), "byte 12: a quarter note of 0 ticks"),
    (midi(NOTE + END, division=0xE100), "byte 12: 31 frames a second in 0 ticks each is no division of time"),
    (midi(NOTE + END)[:14], "byte 14: the file ends behind 0 of 1 tracks"),
    (midi(NOTE + END)[:-1], "byte 22: track 1 has 8 bytes, but 7 are left"),
    (midi(NOTE), "byte 26: track 1 has no end event"),
    (midi(NOTE + END + b"\0"), "byte 30: track 1 goes on behind its end event"),
    (midi(b"\xff\xff\xff\xff\x7f" + END), "byte 22: a time has more than four bytes"),
    (midi(b"\x81"), "byte 23: track 1 ends inside a time"),
    (midi(b"\0"), "byte 23: track 1 ends inside an event"),
    (midi(b"\0\x90\x3c"), "byte 24: track 1 ends inside a message"),
    (midi(b"\0\x3c\x40" + END), "byte 23: a data byte without a status before it"),
    (midi(NOTE + b"\0\xff\x01\0\0\x3c\x40" + END), "byte 31: a data byte without a status before it"),
    (midi(b"\0\x90\x3c\x80" + END), "byte 25: 0x80 stands inside a message"),
    (midi(b"\0\xf4" + END), "byte 23: no event begins with 0xF4"),
    (midi(b"\0\xff\x51\x02\1\1" + END), "byte 23: a tempo is a number above 0 in three bytes"),
    (midi(b"\0\xff\x51\x03\0\0\0" + END), "byte 23: a tempo is a number above 0 in three bytes"),
    (midi(b"\0\xff\x01\x06a" + END), "byte 26: track 1 ends inside a meta event"),
    (midi(b"\0\xf0\x7f" + END), "byte 25: track 1 ends inside a system message"),
    (midi(END), "no note to play"),
    (midi(b"\0\x90\x3c\0" + END), "no note to play"),
    (midi(b"\0\x99\x3c\x40\0\x3d\x40" + END), "no note to play; read over: 2 notes on channel 10 (drums)"),
    (midi(b"\xff\xff\xff\x7f" + NOTE[1:] + END, division=1),
     "2236962:08.5 long, and a WAV file ends at 1118:28.8: --seconds N plays its first N seconds"),
]

# A file, and its messages with their cycles.
RIGHT = [
    (midi(NOTE + b"\x60\x3c\0" + END), [(0, "903c40"), (50, "903c00")]),
    (midi(NOTE + b"\x01\x3c\0" + END), [(0, "903c40"), (1, "903c00")]),
    (midi(NOTE + b"\0\xc1\x05\0\x06" + b"\0\xf0\x02\1\xf7" + b"\0\xff\x03\x01a" + b"\0\x80\x3c\x40" + END),
     [(0, "903c40"), (0, "c105"), (0, "c106"), (0, "803c40")]),
    (midi(NOTE + b"\0\xff\x51\x03\x0f\x42\x40\x60\x90\x3c\0" + END), [(0, "903c40"), (100, "903c00")]),
    (midi(b"\x60\xff\x51\x03\x03\xd0\x90" + END, NOTE + b"\x81\x40\x3c\0" + END, form=1), [(0, "903c40"), (75, "903c00")]),
    (midi(NOTE + b"\x0a\x3c\0" + END, division=0xE728), [(0, "903c40"), (1, "903c00")]),
    (midi(NOTE + b"\x64\x3c\0" + END, division=0xE364), [(0, "903c40"), (4, "903c00")]),
    (midi(END, NOTE + END, form=1) + b"padding", [(0, "903c40")]),
]


def random_track(dice, division, tempos):
    tick, events = 0, []
    for _ in range(dice.randint(0, 40)):
        tick += dice.choice((0, 0, 1, division, dice.randint(0, 4 * division)))
        kind = dice.choice((8, 9, 9, 9, 0xA, 0xB, 0xC, 0xD, 0xE, "tempo", "text"))
        if kind == "tempo":
            # One tempo at a tick: the order of two would be that of the tracks.
            if tick not in tempos:
                tempos[tick] = dice.randint(1, 2000000)
                events.append((tick, b"\xff\x51\x03" + tempos[tick].to_bytes(3, "big")))
        elif kind == "text":
            events.append((tick, dice.choice((b"\xff\x01\x02hi", b"\xf0\x03\x01\x02\xf7"))))
        else:
            size = 1 if kind in (0xC, 0xD) else 2
            events.append((tick, bytes([kind << 4 | dice.randint(0, 15)] + [dice.randint(0, 127) for _ in range(size)])))
    return events


def written(dice, events):
    """A track in some lawful way: running status is used now and then."""
    body, last, status = b"", 0, None
    for tick, data in events:
        short = data[0] == status and dice.random() < 0.8
        body += keys_tune.variable(tick - last) + data[short:]
        last, status = tick, data[0] if data[0] < 0xF0 else None
    return body + END


def random_file(dice):
    """A file, and its messages with their cycles, worked out by the definition of time alone."""
    division, tempos = dice.choice((1, 24, 96, 480)), {}
    tracks = [random_track(dice, division, tempos) for _ in range(dice.randint(1, 3))]
    expected = []
    for tick, message in sorted((event for track in tracks for event in track if event[1][0] < 0xF0), key=lambda event: event[0]):
        marks = [0] + sorted(t for t in tempos if t < tick) + [tick]
        seconds = sum(Fraction((b - a) * tempos.get(a, 500000), 1000000 * division) for a, b in zip(marks, marks[1:]))
        cycle = int(seconds * 100)
        expected.append((cycle + (cycle < seconds * 100), message))
    bodies = [written(dice, events) for events in tracks]
    return midi(*bodies, form=0 if len(bodies) == 1 else 1, division=division), expected


class MidiFiles(unittest.TestCase):
    def test_wrong(self):
        for data, expected in WRONG:
            with self.assertRaises(Fault) as told:
                piece.from_midi("t.mid", data, ORGAN, midi_file.PITCHED, None)
            self.assertEqual(str(told.exception), f"t.mid: {expected}")

    def test_right(self):
        for data, expected in RIGHT:
            self.assertEqual([(cycle, message.hex()) for cycle, message in midi_file.messages_of("t.mid", data)], expected)

    def test_random(self):
        for seed in range(200):
            data, expected = random_file(random.Random(seed))
            self.assertEqual(midi_file.messages_of("t.mid", data), expected, seed)

    def test_what_is_read_over(self):
        data = midi(NOTE + b"\0\xb0\x40\x7f\0\x40\0\0\x07\x64\0\xe0\0\x40\0\xc0\x05\0\xd0\x05\0\xa0\x3c\x05\0\x99\x24\x40\0\x91\x3c\x40" + END)
        messages = midi_file.messages_of("t.mid", data)
        self.assertEqual(midi_file.read_over(messages, {1}), [
            "2 pedal messages", "1 controller message", "1 pitch bend", "1 program change", "2 pressure messages", "1 note on channel 2",
            "1 note on channel 10 (drums)"])

    def test_a_hundred_notes_at_once_go_into_two_calls(self):
        messages = [(0, bytes([0x90, key, 1])) for key in range(100)]
        calls = midi_file.calls_of(messages)
        self.assertEqual({cycle: len(call) for cycle, call in calls.items()}, {0: 1 + 128, 1: 1 + 72})


class Streams(unittest.TestCase):
    def test_the_systems_bytes_stand_anywhere(self):
        stream = midi_messages.Stream()
        sent = bytes.fromhex("fe 3c 90 3c f8 40 3e 40 f0 01 f7 3c 40 b0 40 7f c2 05")
        got = [message.hex() for byte in sent for message in stream.messages(bytes([byte]))]
        self.assertEqual(got, ["903c40", "903e40", "b0407f", "c205"])
