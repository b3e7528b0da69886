#!/usr/bin/env python3
"""Counts the places that docs/DESIGN-PASS.md speaks of, point by point, in crates/*/src: `design_counts.py [-v]`; with -v each place is named."""
import collections
import pathlib
import re
import sys

ROOT = pathlib.Path(__file__).resolve().parent.parent
SOURCES = sorted(ROOT.glob("crates/*/src/**/*.rt"))
NAME = re.compile(r"\b[a-zA-Z_][a-zA-Z_0-9]*\b")
KEPT = re.compile(r"fn|let|mut|if|else|match|for|in|while|return|true|false|self|Some|None|Ok|Err")


def place(path, line):
    return f"{path.relative_to(ROOT / 'crates')}:{line}"


def items(path, head):
    """Each item that begins with a line like `head`, up to the line that closes it at the same depth: its line and its lines."""
    lines = path.read_text(encoding="utf-8").split("\n")
    for at, line in enumerate(lines):
        found = re.match(r"(\s*)" + head, line)
        if found:
            end = at
            while end + 1 < len(lines) and lines[end].rstrip() != found[1] + "}" and not lines[at].rstrip().endswith(("}", ";")):
                end += 1
            yield at + 1, lines[at : end + 1]


def functions():
    for path in SOURCES:
        for line, text in items(path, r"(?:pub )?fn \w+"):
            yield path, line, text


def types(kind):
    for path in SOURCES:
        for line, text in items(path, rf"(?:pub )?{kind} \w+"):
            yield path, line, re.search(kind + r" (\w+)", text[0])[1], [part.strip().rstrip(",") for part in text[1:-1]]


def named(text):
    return re.search(r"fn (\w+)", text[0])[1]


def signature(text):
    """A function's parameters with their types, and its contract's clauses."""
    head = "\n".join(text).split("\n{", 1)[0]
    inside = re.search(r"\((.*?)\)(?: ->|\n|$)", head.replace("\n", " "), re.S)
    parameters = [part.strip() for part in re.split(r",(?![^<\[(]*[>\])])", inside[1] if inside else "") if part.strip()]
    return parameters, re.findall(r"requires(?: \w+)? \{ (.*?) \}\s*$", head, re.M)


def body(text):
    return "\n".join(text).split("{\n", 1)[-1] if not any(line.strip() == "{" for line in text) else "\n".join(text).split("\n" + re.match(r"\s*", text[0])[0] + "{\n", 1)[-1]


def own_enums():
    for path, line, name, parts in types("enum"):
        variants = [part for part in parts if re.match(r"[A-Z]", part)]
        bare = sum(bool(re.fullmatch(r"\w+", part)) for part in variants)
        if len(variants) == 2 and bare < 2:
            yield f"{place(path, line)} {name}: shape of {'Option' if bare else 'Result'}"


def flags():
    for path, line, name, parts in types("struct"):
        fields = [part.split(":", 1)[1].strip() for part in parts if re.match(r"(?:pub )?\w+: ", part)]
        if len(fields) > 1 and any(field in ("bool", "Answer") for field in fields):
            yield f"{place(path, line)} {name}: {'an answer' if 'Answer' in fields else 'a flag'} beside values"


def number_codes():
    for path in SOURCES:
        names = re.findall(r"^(?:pub )?const (\w+): u(?:8|16|32) = \w+;", path.read_text(encoding="utf-8"), re.M)
        if len(names) > 2:
            yield f"{place(path, 1)} {len(names)} constants, {names[0]} to {names[-1]}"


def twins():
    """Functions, and structs, that are the same once their names, types and numbers are taken for blanks."""
    groups = collections.defaultdict(list)
    for path, line, text in functions():
        inside = re.sub(r"//.*", "", body(text))
        if inside.count("\n") > 3:
            shape = NAME.sub(lambda m: m[0] if KEPT.fullmatch(m[0]) else "_", re.sub(r"\b\d\w*\b", "0", inside))
            groups[re.sub(r"\s+", " ", re.sub(r"(_::)+_", "_", shape))].append(f"{place(path, line)} {named(text)}")
    for path, line, name, parts in types("struct"):
        fields = [part.split(":", 1)[1].strip() for part in parts if ": " in part and not part.startswith("//")]
        if "Answer" in fields:
            groups["struct of an answer and " + ", ".join(sorted("T" if field[0].isupper() and field != "Answer" else field for field in fields))].append(f"{place(path, line)} {name}")
    for group in groups.values():
        if len(group) > 1:
            yield "; ".join(group)


def loops():
    for path in SOURCES:
        for at, line in enumerate(path.read_text(encoding="utf-8").split("\n")):
            if re.match(r"\s*(while\b.*|loop) \{$", line):
                yield f"{place(path, at + 1)} {line.strip()}"


def by_hand():
    """Matches that only give true and false, enums turned into numbers, and functions whose name says equality, copying or printing."""
    for path, line, text in functions():
        inside = body(text)
        name = named(text)
        arms = re.findall(r"=> (\S+?),?$", inside, re.M)
        if len(arms) > 1 and (set(arms) <= {"true", "false"} or all(re.fullmatch(r"\d+", arm) for arm in arms)):
            yield f"{place(path, line)} {name}: a match to {'truth' if arms[0] in ('true', 'false') else 'a number'}"
        elif re.search(r"(^|_)(same|equal|equals|eq|copied|copy|clone|is_range|print|digit_at|hex)($|_)", name):
            yield f"{place(path, line)} {name}"


def together():
    """Clauses of `requires` of three functions or more, and runs of parameters of three functions or more."""
    clauses = collections.Counter()
    runs = collections.Counter()
    for path, line, text in functions():
        parameters, requires = signature(text)
        clauses.update({re.sub(r"\b(v|s|l|old|new|now)\b", "_", part.strip(" ()")) for clause in requires for part in clause.split(" × ")})
        runs.update({", ".join(parameters[at : at + 3]) for at in range(len(parameters) - 2)})
    for text, count in sorted(clauses.items()) + sorted(runs.items()):
        if count > 2:
            yield f"{count} functions: {text}"


def buffers():
    for path, line, name, parts in types("struct"):
        fields = dict(re.sub("^pub ", "", part).split(": ", 1) for part in parts if ": " in part and not part.startswith("//"))
        arrays = [field.split("; ")[1] for field in fields.values() if field.startswith("[")]
        if arrays and any(key in fields for key in ("count", "len", "length", "groups")):
            yield f"{place(path, line)} {name}: a length beside"
        if len(arrays) != len(set(arrays)):
            yield f"{place(path, line)} {name}: parallel arrays"
    for run in ("kinds: &[u8], words: &[u32], reals: &[f32]", "ops: &[u8], args: &[u16], vals: &[f32]", "ops: &mut [u8], args: &mut [u16], vals: &mut [f32]"):
        count = sum(run in ", ".join(signature(text)[0]) for _, _, text in functions())
        if count:
            yield f"{count} functions take parallel slices: {run}"


def switches():
    """Matches with three arms or more that each call another function with the same arguments."""
    for path, line, text in functions():
        calls = re.findall(r"=> (?:\w+::)*(\w+)\(([^()]*)\),$", body(text), re.M)
        if len(calls) > 2 and len({name for name, _ in calls}) > 2 and all(name[0].islower() for name, _ in calls) and len({given for _, given in calls}) < 3:
            yield f"{place(path, line)} {named(text)}"


POINTS = [
    ("1", "own enums of Option's or Result's shape", own_enums),
    ("1", "a flag or an answer with values beside it", flags),
    ("1", "numbers for kinds", number_codes),
    ("2", "groups of twins", twins),
    ("3", "loops that count by hand", loops),
    ("4", "equality, conversion, printing by hand", by_hand),
    ("5", "clauses or parameters of three functions or more", together),
    ("6", "buffers with a length beside, parallel arrays", buffers),
    ("7", "switches on a step", switches),
]


def main():
    for number, what, find in POINTS:
        found = list(find())
        print(f"{number}. {what}: {len(found)}")
        if "-v" in sys.argv[1:]:
            for one in found:
                print(f"     {one}")


if __name__ == "__main__":
    main()
