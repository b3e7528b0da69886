"""How demo/keys.mid was written, a short tune for two hands: a MIDI file of format 1, with a tempo that slows down at the end."""
import struct

TICKS = 96      # of a quarter note
STEPS = {"c": 0, "d": 2, "e": 4, "f": 5, "g": 7, "a": 9, "b": 11}

# A note is a letter, perhaps # or b, an octave, and how many eighths it lasts; - is a rest. | parts the bars.
RIGHT = """
    e5/2 d5/1 c5/1 g4/4 | a4/2 b4/1 c5/1 d5/4 | e5/2 g5/1 e5/1 d5/2 c5/2 | d5/3 e5/1 d5/4 |
    f5/2 e5/1 d5/1 a4/4 | b4/2 c5/1 d5/1 e5/4 | f5/2 e5/2 d5/2 b4/2      | c5/6 -/2       |
"""
LEFT = """
    c3/2 g3/2 e3/2 g3/2 | f3/2 c4/2 g3/2 b3/2 | c3/2 g3/2 e3/2 a3/2      | g2/2 d3/2 g3/2 b3/2 |
    d3/2 a3/2 f3/2 a3/2 | g2/2 d3/2 c3/2 g3/2 | d3/2 a3/2 g2/2 f3/2      | c3/2 g3/2 c4/4      |
"""
VELOCITY = {"right": 96, "left": 60}
# Microseconds of a quarter note, from a bar on.
TEMPOS = {0: 500000, 6: 560000, 7: 640000}


def variable(value):
    out = bytes([value & 0x7F])
    while value >> 7:
        value >>= 7
        out = bytes([value & 0x7F | 0x80]) + out
    return out


def key(name):
    step = STEPS[name[0]] + name.count("#") - name[1:].count("b")
    return 12 * (int(name.strip("abcdefg#")) + 1) + step


def hand(text, velocity):
    """A note-on and a note-on with velocity 0 for each note."""
    at, events = 0, []
    for word in text.replace("|", " ").split():
        name, eighths = word.split("/")
        length = int(eighths) * TICKS // 2
        if name != "-":
            events += [(at, (key(name), velocity)), (at + length - TICKS // 16, (key(name), 0))]
        at += length
    return events, at


def track(events, end):
    """Delta times, running status, and the end event. An event is meta bytes or a key with its velocity."""
    out, last, status = b"", 0, None
    for tick, event in events + [(end, b"\xff\x2f\0")]:
        out += variable(tick - last)
        last = tick
        if isinstance(event, bytes):
            out, status = out + event, None
        else:
            out, status = out + (b"" if status else b"\x90") + bytes(event), 0x90
    return b"MTrk" + struct.pack(">I", len(out)) + out


def tune():
    tempos = [(4 * TICKS * bar, b"\xff\x51\x03" + tempo.to_bytes(3, "big")) for bar, tempo in TEMPOS.items()]
    tracks = [track(tempos, tempos[-1][0])]
    for text, velocity in ((RIGHT, VELOCITY["right"]), (LEFT, VELOCITY["left"])):
        tracks.append(track(*hand(text, velocity)))
    return b"MThd" + struct.pack(">IHHH", 6, 1, len(tracks), TICKS) + b"".join(tracks)
