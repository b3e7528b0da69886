#!/usr/bin/env python3
"""Holds crates.txt to the layers of docs/ARCHITECTURE.md: each crate stands in one layer and uses only what its layer may use."""
import fnmatch
import pathlib
import re
import sys

ROOT = pathlib.Path(__file__).resolve().parent.parent


def layers(text):
    """Name, patterns and usable layers of each row of the table under `## Layers`, in order."""
    table = text.split("## Layers", 1)[1].split("\n## ", 1)[0]
    rows = []
    for line in table.splitlines():
        cells = [cell.strip() for cell in line.strip("|").split("|")]
        if line.startswith("|") and len(cells) == 4 and cells[0] != "layer" and not cells[0].startswith("-"):
            name, crates, _, uses = cells
            above = [row[0] for row in rows]
            allowed = above if uses == "all" else [] if uses == "-" else [use.strip() for use in uses.split(",")]
            rows.append((name, re.findall(r"`([^`]+)`", crates), set(allowed) | {name}))
    return rows


def layer_of(crate, rows):
    """A row that names the crate, else the row whose pattern fits."""
    for fits in (lambda pattern: pattern == crate, lambda pattern: fnmatch.fnmatchcase(crate, pattern)):
        for row in rows:
            if any(fits(pattern) for pattern in row[1]):
                return row
    return None


def crates(text):
    """Each crate of crates.txt with those that it stands on."""
    for line in text.splitlines():
        name, colon, uses = line.split("#")[0].partition(":")
        if colon:
            yield name.strip(), uses.split()


def faults(rows, listed):
    known = {name for name, _ in listed}
    for i, (name, _, allowed) in enumerate(rows):
        for use in sorted(allowed - {row[0] for row in rows[: i + 1]}):
            yield f"docs/ARCHITECTURE.md: layer {name} may use {use}, which no row above it is"
    for name, uses in listed:
        row = layer_of(name, rows)
        if row is None:
            yield f"crates.txt: {name} stands in no layer of docs/ARCHITECTURE.md"
            continue
        for use in uses:
            other = layer_of(use, rows) if use in known else None
            if other and other[0] not in row[2]:
                yield f"crates.txt: {name} (layer {row[0]}) uses {use} (layer {other[0]}), which docs/ARCHITECTURE.md does not allow"


def main():
    rows = layers((ROOT / "docs/ARCHITECTURE.md").read_text(encoding="utf-8"))
    listed = list(crates((ROOT / "crates.txt").read_text(encoding="utf-8")))
    found = list(faults(rows, listed))
    for fault in found:
        print(fault, file=sys.stderr)
    return 1 if found else 0


sys.exit(main())
