#!/usr/bin/env python3
"""Spells the repository's own definitions and lemmas as today's Rattle does: words in snake case, joined by `_`, a prime as an apostrophe.

usage: python3 tools/spelling.py        at the top of the repository, once, behind the kit's port.py

spelling.tsv beside this file has a line for each name: as it was, and as it is. Where a lemma would have had the name of a definition it ends in `_lem`. A
name is respelled in specs/ and proofs/ wherever it stands as a whole, in comments too; in src/ and in the edits of must-fail/ where a clause or a `ghost use`
may cite it. Names of functions in src/, names in C, strings, inputs and outputs are left as they are.
"""
import os
import re

HERE = os.path.dirname(os.path.realpath(__file__))
NAME = re.compile(r'[^\s(){}\[\].;,:@"«»`λ]+')
# what a library exports under a name that we have too
FROM_LIBRARY = re.compile(r"use (?:mathlib|native|borrow|lib|Prim|Rattle\.std)[.\w]*\.\{([^}]*)\}")
# lemmas that had the new name of a definition before, each in the files where both stand
IN_FILES = {
    "crates/call_retiring/proofs/Ended.antt": {"lines_end": "lines_end_lem"},
    "crates/read_plant/proofs/Reading.antt": {"out_of_range": "out_of_range_lem"},
}
TIES = re.compile(r"(?m)^(\S+) : tie\.")


def table():
    with open(os.path.join(HERE, "spelling.tsv"), encoding="utf-8") as f:
        return dict(line.rstrip("\n").split("\t") for line in f)


def respelled(text, names, left=()):
    return NAME.sub(lambda m: names[m[0]] if m[0] in names and m[0] not in left else m[0], text)


def shortened(text):
    """In the list of names that a file opens with, `build-length, -at` stands for two names."""
    return "\n".join(re.sub(r"(?<=, )-(?=[a-z])", "_", line) if re.match(r"\s*--", line) else line for line in text.split("\n"))


def turned(path, text, names):
    if path.endswith(".antt"):
        left = {n for m in FROM_LIBRARY.finditer(text) for n in re.split(r"[\s,]+", m[1])}
        left |= set(TIES.findall(text))
        return shortened(respelled(text, names | IN_FILES.get(path, {}), left))
    # in Rust a dash is a minus, so a name with one is respelled only where it cannot be that
    plain = {a: b for a, b in names.items() if "-" not in a and "_" not in a}
    dashed = {a: b for a, b in names.items() if "-" in a}
    lines = []
    for line in text.split("\n"):
        pieces = re.split(r'("(?:[^"\\]|\\.)*")', line) if path.endswith(".rt") else [line]
        pieces = [p if p.startswith('"') else respelled(p, plain) for p in pieces]
        line = "".join(pieces)
        if re.search(r"ghost use|requires|ensures|ghost ", line):
            line = respelled(line, dashed)
        lines.append(line)
    return "\n".join(lines)


def main():
    names = table()
    count = 0
    for top in ("crates", "tests/definitions"):
        for folder, dirs, files in os.walk(top):
            dirs[:] = sorted(d for d in dirs if d != "out")
            for name in sorted(files):
                if not name.endswith((".antt", ".rt", ".edit")):
                    continue
                path = os.path.join(folder, name)
                with open(path, encoding="utf-8") as f:
                    text = f.read()
                if name.endswith(".edit"):
                    specs = re.search(r"(?m)^file: .*\.antt$", text)
                    new = turned(path + (".antt" if specs else ""), text, names)
                else:
                    new = turned(path, text, names)
                if new != text:
                    with open(path, "w", encoding="utf-8") as f:
                        f.write(new)
                    count += 1
    print(f"{count} files respelled")


main()
