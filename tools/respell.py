#!/usr/bin/env python3
"""Spells the repository's own definitions and lemmas as today's Rattle does: words in snake case, types in camel case, a dash between the parts of a lemma's name.

    tools/respell.py        once, at the top, right after port.py

- A word that begins small and has a capital inside, as `keypadLine`, becomes `keypad_line`; of a lemma's name each part, as in `length-bits_of`.
- Where that meets a lemma that port.py gave an underscore, the lemma keeps its dash (KEEP_DASH).
- `panel_claims/specs/Contracts` becomes ByContract: rt makes a module `specs.contracts`.
Functions, strings and characters of src/ stay; edits and documents were turned beside it.
"""
import glob
import os
import re
import subprocess

ROOT = os.path.dirname(os.path.dirname(os.path.abspath(__file__)))
# Lemmas and the places where they are meant: elsewhere the word is another name.
KEEP_DASH = {
    "all_valid": ("settings_records", "panel_claims", "panel_piece_claims"),
    "by_place": ("panel_claims", "panel_witness"),
    "count_at": ("code_decoder/proofs", "engine_group_area"),
    "is_digit": ("text_numerals",),
    "left_over": ("settings_records", "panel_claims"),
    "no_room": ("settings_records", "panel_claims"),
    "other_length": ("settings_records", "panel_claims"),
    "slot_read": ("score_writer",),
    "third_of": ("engine_capacity",),
    "told_text": ("text_writer",),
    "whole_run": ("score_line_writer",),
}
WORD = re.compile(r"[^\s(){}.;,@\"«»\[\]|λ→:=`]+")
QUIET = re.compile(r"\"(?:[^\"\\\n]|\\.)*\"|b?'(?:[^'\\\n]|\\.)'")


def part(name):
    if not re.match(r"[a-zμ]", name) or not re.search(r"[A-Z]", name):
        return name
    name = re.sub(r"(?<=[a-z0-9])([A-Z])", lambda m: "_" + m.group(1).lower(), name)
    return re.sub(r"[A-Z]", lambda m: m.group(0).lower(), name)


def word(name):
    return "-".join(part(each) for each in name.split("-"))


def turned(text):
    return WORD.sub(lambda m: word(m.group(0)), text)


def outside_quotes(text):
    parts, last = [], 0
    for m in QUIET.finditer(text):
        parts += [turned(text[last:m.start()]), m.group(0)]
        last = m.end()
    return "".join(parts + [turned(text[last:])])


def dashed(path, text):
    """Gives lemmas back their dash: the bare name, and not a folder's or a field's."""
    for name, places in KEEP_DASH.items():
        if any(f"/{place}/" in path for place in places):
            text = re.sub(rf"(?<![\w.'-]){name}(?![\w'.-])", name.replace("_", "-"), text)
            # An item of a use line, and a lemma that a record of lemmas hands out, stand behind a dot or a bracket.
    return text


def main():
    os.chdir(ROOT)
    subprocess.run(["git", "mv", "crates/panel_claims/specs/Contracts.antt", "crates/panel_claims/specs/ByContract.antt"], check=True)
    for path in glob.glob("crates/**/*.antt", recursive=True) + glob.glob("crates/**/*.rt", recursive=True):
        if "/out/" in path:
            continue
        with open(path, encoding="utf-8") as file:
            text = file.read()
        new = text
        if path.endswith(".antt"):
            new = turned(dashed(path, new))
        else:
            new = outside_quotes(new)
        new = new.replace("Rattle.panel_claims.specs.Contracts.", "Rattle.panel_claims.specs.ByContract.")
        if path == "crates/panel_claims/specs/Lib.antt":
            new = new.replace("pub mod Contracts", "pub mod ByContract")
        if new != text:
            with open(path, "w", encoding="utf-8") as file:
                file.write(new)


if __name__ == "__main__":
    main()
