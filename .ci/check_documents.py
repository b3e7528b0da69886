#!/usr/bin/env python3
"""What the documents say of the sources, held against the sources.

    .ci/check_documents.py        a line for each thing that is not so; ends with status 1 where there is one

- An edit's `old:` text stands exactly once in its file, after the pairs before it.
- Every edit is named in docs/PROMISES.md behind *edit* or *edits*, every edit named there exists, and of those in a row the gate tries one
  at least. A crate in brackets holds for all names since the last bracket; a name that several crates have, without a bracket, is of the crate that was named last.
- Every `crate: name` of PROMISES.md is declared in that crate's specs/ or proofs/, every `crate::name` in its src/, and every other name in backticks in some crate.
- The table in docs/DECISIONS.md has exactly the public functions that have a `requires`.
- README's table of what to read has each file's lines, and in brackets those that are no comment, import or blank.
"""
import glob
import os
import re
import sys

ROOT = os.path.dirname(os.path.dirname(os.path.abspath(__file__)))
LABEL = r"[a-z0-9]+(?:_[a-z0-9]+)+"
BRACKET = r" \((`\w+`(?:, `\w+`)*)\)"
EDITS = re.compile(rf"\*edits?\* ((?:of the definitions? )?{LABEL}(?:{BRACKET})?(?:(?:,|,? and) {LABEL}(?:{BRACKET})?)*)")
HEAD = re.compile(r"^ *(pub )?(?:extern \"C\" )?(fn|const|struct|enum) (\w+)(.*?)(?:\{\n|;\n)", re.M | re.S)
NAMED = re.compile(r"`(\w+)(?:::|:| |`)")
DECLARED = re.compile(r"^\s*(?:(?:abbrev|unfoldable|pub|mutual) )*(?:(?:record|data) )?([^\s:(){}.,;]+)(?=\s*[:({]|$)", re.M)


def text_of(path):
    with open(path, encoding="utf-8") as file:
        return file.read()


def files(crate, *parts):
    return [p for part in parts for p in glob.glob(f"{ROOT}/crates/{crate}/{part}/**/*.*", recursive=True)]


def crates():
    return sorted(os.path.basename(d) for d in glob.glob(f"{ROOT}/crates/*") if os.path.isdir(d))


# ---- the sources

def edits():
    """The crates that have an edit of a name, by its name."""
    found = {}
    for path in sorted(glob.glob(f"{ROOT}/crates/*/must-fail/**/*.edit", recursive=True)):
        label, crate = os.path.basename(path)[:-5], os.path.relpath(path, f"{ROOT}/crates").split("/")[0]
        found.setdefault(label, []).append(crate)
    return found


def misplaced(crate, label):
    """What is wrong with the places that an edit changes."""
    texts, name, old = {}, None, None
    [path] = glob.glob(f"{ROOT}/crates/{crate}/must-fail/**/{label}.edit", recursive=True)
    for line in text_of(path).split("\n"):
        word, _, rest = line.partition(":")
        rest = rest.removeprefix(" ")
        if word == "file":
            name = rest
        elif word == "old":
            old = rest
        elif word == "new":
            path = f"{ROOT}/crates/{crate}/{name}"
            if not os.path.exists(path):
                return [f"{crate}/{label}: there is no {name}"]
            text = texts.setdefault(name, text_of(path))
            if text.count(old) != 1:
                return [f"{crate}/{label}: {old.strip()!r} stands {text.count(old)} times in {name}"]
            texts[name] = text.replace(old, rest)
    return [] if texts else [f"{crate}/{label}: changes nothing"]


def written(crate):
    """What a crate's src/ declares, and its public functions with a condition."""
    names, conditional = set(), set()
    for path in files(crate, "src"):
        for public, kind, name, head in HEAD.findall(text_of(path)):
            names.add(name)
            if public and kind == "fn" and re.search(r"^\s*requires\b", head, re.M):
                conditional.add(f"{crate}::{name}")
    return names, conditional


def declared(crate, *parts):
    return {name for path in files(crate, *parts) for name in DECLARED.findall(text_of(path))}


# ---- the documents

def edits_named(promises, known, gate):
    """The edits that PROMISES.md names, as pairs of crate and name, and what is wrong with how it names them."""
    rows, wrong = {}, []
    for match in EDITS.finditer(promises):
        here = rows.setdefault(promises.rfind("\n", 0, match.start()), set())
        before = [c for c in NAMED.findall(promises[:match.start()]) if c in CRATES]
        waiting = []
        for label, bracket in re.findall(rf"({LABEL})(?:{BRACKET})?", match.group(1)):
            waiting.append(label)
            for crate in re.findall(r"\w+", bracket):
                here |= {(crate, each) for each in waiting}
            waiting = [] if bracket else waiting
        for label in waiting:
            owners = known.get(label, [])
            if len(owners) == 1:
                here.add((owners[0], label))
            elif before and before[-1] in owners:
                here.add((before[-1], label))
            else:
                wrong.append(f"PROMISES: {label}: " + (f"say which of {', '.join(owners)}" if owners else "there is no such edit"))
    for start, here in rows.items():
        if here and not here & gate:
            wrong.append(f"PROMISES: the gate tries no edit of this row: {promises[start + 1:start + 90]}")
    return set().union(*rows.values()), wrong


def names_missing(promises):
    wrong = []
    everything = set(CRATES) | {"requires"}
    for crate in CRATES:
        everything |= SPECIFIED[crate] | WRITTEN[crate][0]
    for name in re.findall(r"`([^`\n]+)`", promises):
        if re.fullmatch(r"\w+: [^ ]+", name):
            crate, _, rest = name.partition(": ")
            if crate not in CRATES or rest not in SPECIFIED[crate]:
                wrong.append(f"PROMISES: `{name}` is not declared")
        elif re.fullmatch(r"[a-z]\w*::\w+", name):
            crate, _, rest = name.partition("::")
            if crate not in CRATES or rest not in WRITTEN[crate][0]:
                wrong.append(f"PROMISES: `{name}` is not in its src/")
        elif re.fullmatch(r"(?:[A-Z]\w*::)?[\w-]+", name) and name.split("::")[-1] not in everything:
            wrong.append(f"PROMISES: `{name}` is declared nowhere")
    return wrong


def conditions_wrong(decisions):
    """The table of functions with a condition against the sources."""
    told, crate = set(), None
    table = decisions.split("### Functions with a condition")[1]
    for row in re.findall(r"^\| (`.*?) \|", table, re.M):
        for name in re.findall(r"`([\w:]+)`", row):
            crate, name = name.split("::") if "::" in name else (crate, name)
            told.add(f"{crate}::{name}")
    have = set().union(*(WRITTEN[crate][1] for crate in CRATES))
    return ([f"DECISIONS: {f} has a condition and is not in the table" for f in sorted(have - told)]
            + [f"DECISIONS: {f} is in the table and has no condition" for f in sorted(told - have)])


def reading_wrong(readme):
    """The table of what to read against the files: each row's lines, and the sums so far."""
    wrong, whole = [], [0, 0]
    table = readme.split("## Where to start reading")[1].split("\n\n")[2]
    for row in table.split("\n")[2:]:
        _, part, names, _, told, _ = (cell.strip() for cell in row.split("|"))
        if names:
            have = [0, 0]
            for crate, listed in re.findall(r"`(\w+)/specs/` ([\w, ]+?)(?=, `|$)", names):
                for name in listed.split(", "):
                    lines = text_of(f"{ROOT}/crates/{crate}/specs/{name}.antt").split("\n")[:-1]
                    have[0] += len(lines)
                    have[1] += sum(1 for line in lines if line.strip() and not line.strip().startswith(("--", "use ")))
            whole = [a + b for a, b in zip(whole, have)]
        shown = f"{(have if names else whole)[0]:,} ({(have if names else whole)[1]:,})"
        if told != shown:
            wrong.append(f"README: {part}: {shown}, not {told}")
    return wrong


CRATES = crates()
WRITTEN = {crate: written(crate) for crate in CRATES}
SPECIFIED = {crate: declared(crate, "specs", "proofs") for crate in CRATES}


def main():
    promises, decisions = text_of(f"{ROOT}/docs/PROMISES.md"), text_of(f"{ROOT}/docs/DECISIONS.md")
    known = edits()
    pairs = {(crate, label) for label, owners in known.items() for crate in owners}
    gate = {(path.split("/")[-3], os.path.basename(path)[:-5]) for path in glob.glob(f"{ROOT}/crates/*/must-fail/*.edit")}
    named, wrong = edits_named(promises, known, gate)
    for crate, label in sorted(pairs):
        wrong += misplaced(crate, label)
    wrong += [f"PROMISES: {crate}/{label} is in no row" for crate, label in sorted(pairs - named)]
    wrong += [f"PROMISES: {label} ({crate}): there is no such edit" for crate, label in sorted(named - pairs)]
    wrong += names_missing(promises) + conditions_wrong(decisions) + reading_wrong(text_of(f"{ROOT}/README.md"))
    print("\n".join(wrong) if wrong else f"documents: {len(pairs)} edits, {len(gate)} of them in the gate, {len(CRATES)} crates, as they say")
    sys.exit(1 if wrong else 0)


main()
