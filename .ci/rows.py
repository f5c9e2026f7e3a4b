#!/usr/bin/env python3
"""Prints the rows of the rules, each with what runs it: a request of a program, an equation or a test."""
import re
import sys

import common

CRATES = common.TOP / "crates"
HEAD = """# Rows of the rules

A row is an input with what comes of it. Each has a number here, in the order of the files that hold them, and what runs it in the gate:

- `replay`: so many requests, after a remark of these words in `crates/replay/stdin`. Their answers are in the golden file `stdout` beside it;
- the crate `rows`: so many of its equations, after a comment of these words in its `proofs/`. Each is proved, most by computing;
- a test function, which says in its name what holds;
- a table of rows that a test goes through, listed there with what it shows;
- a program: what it is run on and its golden file, beside its sources.

| Row | What it shows | Run by |
|---|---|---|
"""


def requests():
    """The remarks among the requests of `replay`, with how many requests each has."""
    words, count = None, 0
    for line in (CRATES / "replay" / "stdin").read_text(encoding="utf-8").splitlines() + ["#"]:
        if line.startswith("#"):
            if count:
                yield words, f"`replay`, {count} requests" if count > 1 else "`replay`"
            words, count = line[1:].strip(), 0
        elif line:
            count += 1


def equations(crate):
    """The comments between equations, with how many equations each has: a `refl` proves each. Among those of documents stand lemmas that refuse an answer; of these the refusals count."""
    for file in sorted((CRATES / crate / "proofs").rglob("*.antt")):
        text = file.read_text(encoding="utf-8")
        computed = {name: proof.count("refl") for name, proof in re.findall(r"(?m)^(\w+) = (refl|\((?:refl, )+refl\))$", text)}
        refused = set(re.findall(r"(?m)^(\w+_refused) : ", text))
        words, count, beside = [], 0, False
        for line in text.splitlines() + ["-- "]:
            is_remark = line.startswith("-- ")
            if is_remark and not beside:
                if words and count:
                    yield " ".join(words), f"`{crate}`, {count} equations" if count > 1 else f"`{crate}`"
                words, count = [], 0
            if is_remark:
                words.append(line[3:].strip("- "))
            elif (name := re.match(r"(\w+) : ", line)) and (file.parent.name != "Doc" or name[1] in computed or name[1] in refused):
                count += computed.get(name[1], 1)
            beside = is_remark


def tests(crate):
    root = CRATES / crate / "src"
    for file in sorted(root.rglob("*.rt")):
        module = "::".join(file.relative_to(root).with_suffix("").parts)
        for name in re.findall(r"#\[test\]\n *(?:pub )?fn (\w+)", file.read_text(encoding="utf-8")):
            yield name.replace("_", " "), f"`{crate}::{module}::{name}`"
    if (listed := root / "tables.rt").exists():
        table = r'\(\s*"([^"]*)",\s*(?:(?:""|NAME),\s*)?(\w+::[A-Z_]+),?\s*\)'
        for words, name in re.findall(table, listed.read_text(encoding="utf-8")):
            yield words, f"`{crate}::{name}`"


def programs():
    for folder in sorted(path.parent for path in CRATES.glob("*/stdout")):
        if folder.name == "replay":
            continue
        words = " ".join((folder / "args").read_text(encoding="utf-8").split()) if (folder / "args").exists() else ""
        yield f"what the program prints when it is run with the words `{words}`" if words else "what the program prints", f"`{folder.name}`"


def rows():
    yield from requests()
    yield from equations("rows")
    for crate in sorted(path.name for path in CRATES.glob("*_tests")):
        yield from tests(crate)
    yield from programs()


if sys.argv[1:]:
    common.refuse("rows", "expected nothing")
print(HEAD, end="")
for number, (words, run) in enumerate(rows(), 1):
    print(f"| {number} | {words.replace('|', chr(92) + '|')} | {run} |")
