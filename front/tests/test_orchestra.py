"""Wrong orchestras and what is said of each, as text and as bytes; the bytes of right ones."""
import unittest

from front import orchestra, orchestra_tokens, symbols
from front.faults import Fault, Warnings

RIGHT = "instr lead(pitch) {\n  ivar grow;\n  asig x;\n  x = grow + pitch;\n  output(x);\n}\n"
TOKENS = bytes.fromhex("01 f00000 0f f00001 10 11 02 f00002 14 04 f00003 14 f00003 15 f00002 20 f00001 14 06 0f f00003 10 14 12 ff")

# An orchestra, and what is said of it behind its name.
WRONG = [
    (RIGHT.replace("grow +", "grow #"), "line 4, column 12: no token begins with `#`"),
    (RIGHT.replace("grow +", "16777217 +"), "line 4, column 7: 16777217 is above 16,777,216; write it with a point"),
    (RIGHT.replace("grow +", "1e39 +"), "line 4, column 7: 1e39 is too large for a 32-bit float"),
    (RIGHT.replace("grow +", "1" * 5000 + " +"), "line 4, column 7: a number of 5000 digits; 200 are enough"),
    (RIGHT.replace("pitch;", "pitch"), "line 5, column 3: `;` expected behind an assignment, not `output`"),
    (RIGHT.replace("output(x)", "output(min(x))"), "line 5, column 15: `,` expected between the two values of `min`, not `)`"),
    (RIGHT.replace("  asig x;\n  x = grow + pitch;", "  x = grow + pitch;\n  asig x;"),
     "line 4, column 3: `asig`: a declaration stands before the statements and in no if"),
    (RIGHT.replace("}", ""), "at the end: `}` expected to end `lead`, or a statement, not nothing"),
    ("// nothing\n", "no instrument"),
    ("", "empty, so no instrument"),
    (RIGHT.replace("grow +", "y +"), "line 4, column 7: `y` is not declared in `lead`"),
    (RIGHT.replace("asig x", "asig x, pitch"), "line 3, column 11: `pitch` is declared twice in `lead`"),
    (RIGHT.replace("asig x", "asig x, " + ", ".join(f"n{i}" for i in range(14))),
     "line 3, column 66: `n13` is one name too many; `lead` may have 16"),
    (RIGHT + RIGHT, "line 7, column 7: a second instrument named `lead`"),
    ("".join(RIGHT.replace("lead", f"l{i}") for i in range(9)), "line 49, column 7: more than 8 instruments"),
    (RIGHT.replace("x = grow", "grow = x"), "line 4, column 10: `x` has rate a, faster than `grow`, which has rate i"),
    (RIGHT.replace("x = grow + pitch;", "if (x) {\n    grow = 1;\n  }"),
     "line 5, column 5: `grow` has rate i, slower than `x` in a guard around it, which has rate a"),
    (RIGHT.replace("grow +", "(" * 25 + "grow" + ")" * 25 + " +"), "line 4, column 30: more than 24 brackets are open here"),
    (RIGHT.replace("grow +", "grow +" * 64), "line 4, column 385: more than 128 tokens since the last `;`, `{` or `}`"),
    (RIGHT.replace("  output", "  x = x + 1;\n" * 400 + "  output"), "line 343, column 7: more than 2,048 tokens"),
    (RIGHT.replace("\n", "\r\n").replace("grow +", "y +"), "line 4, column 7: `y` is not declared in `lead`"),
]

# Bytes, and what is said of them.
WRONG_BYTES = [
    (TOKENS[:-1], "at the end: the end token 0xFF is missing"),
    (TOKENS + b"\0", "byte 41: bytes behind the end token"),
    (TOKENS[:2], "byte 1: the bytes end inside a token"),
    (b"\x01\xf3\xff", "byte 1: 0xF3 begins no token"),
    (b"\x01\xf1\x7f\x80\0\0\xff", "byte 1: a number that no token has"),
    (TOKENS.replace(b"\xf0\0\2\x20", b"\xf0\0\7\x20"), "byte 24: `s7` is not declared in `s0`"),
    (b"\x01" * 16385, "16,385 bytes; the panel takes at most 16,384"),
]


def said_of(data: bytes) -> str:
    try:
        orchestra.read("t.orc", data, None, Warnings())
    except Fault as fault:
        return str(fault)
    return "nothing"


class Orchestras(unittest.TestCase):
    def test_right(self):
        made = orchestra.read("t.orc", RIGHT.encode(), None, Warnings())
        self.assertEqual(made.data, TOKENS)
        self.assertEqual([(item.name, item.fields) for item in made.instruments], [("lead", ["pitch"])])

    def test_text_in_any_dress(self):
        comment = RIGHT.replace("\n", " // caf\u00e9 {\n")
        for data in (b"\xef\xbb\xbf" + RIGHT.encode(), RIGHT.replace("\n", "\r\n").encode(), RIGHT.replace("\n", "\r").encode(),
                     RIGHT.encode("utf-16"), comment.encode(), comment.encode("latin-1")):
            self.assertEqual(orchestra.read("t.orc", data, None, Warnings()).data, TOKENS)

    def test_bytes_are_read_back(self):
        made = orchestra.read("t.orc.bin", TOKENS, None, Warnings())
        self.assertEqual((made.data, made.instruments[0].name, made.names()), (TOKENS, "s0", "`s0`"))
        table = symbols.table_of(orchestra.read("t.orc", RIGHT.encode(), None, Warnings()).symbols, Warnings())
        named = orchestra.read("t.orc.bin", TOKENS, symbols.symbols_in("t.names", table), Warnings())
        self.assertEqual((named.instruments[0].name, named.instruments[0].fields), ("lead", ["pitch"]))

    def test_wrong(self):
        for text, expected in WRONG:
            self.assertEqual(said_of(text.encode()), f"t.orc: {expected}")

    def test_wrong_bytes(self):
        for data, expected in WRONG_BYTES:
            self.assertEqual(said_of(data), f"t.orc: {expected}")

    def test_a_reserved_word_is_warned_of_once(self):
        warnings = Warnings()
        orchestra.read("t.orc", RIGHT.replace("grow", "step").encode(), None, warnings)
        self.assertEqual(warnings.told, ["t.orc: line 2, column 8: warning: `step` is a reserved word of SAOL; other players refuse it "
                                         "as a name"])

    def test_all_signs(self):
        self.assertEqual(len(orchestra_tokens.SIGNS), 36)
        tokens = orchestra_tokens.from_text("t", " ".join(orchestra_tokens.SIGNS))
        self.assertEqual(orchestra_tokens.to_bytes("t", tokens, symbols.Symbols()), bytes([*range(1, 37), 0xFF]))


class Tables(unittest.TestCase):
    def test_wrong_tables(self):
        for data, said in ((b"", "it ends inside a name"), (b"\0\1\x10", "it ends inside a name"),
                           (b"\0\0\0", "bytes are left behind its names"), (b"\0\1\x01", "bytes are left behind its names")):
            with self.assertRaises(Fault) as told:
                symbols.symbols_in("t.names", data)
            self.assertEqual(str(told.exception), f"t.names: no symbol table: {said}")

    def test_a_long_name_is_left_out(self):
        made, warnings = symbols.Symbols(), Warnings()
        made.symbol("growing_by_steps", "t")
        made.symbol("x", "t")
        table = symbols.table_of(made, warnings)
        self.assertEqual(symbols.symbols_in("t", table).names, {1: "x"})
        self.assertEqual(warnings.told, ["growing_by_steps: warning: longer than 15 letters, so the symbol table has no name for it"])
