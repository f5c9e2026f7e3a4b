#!/usr/bin/env python3
"""Compares the pages of `clidoc` with those of `pages`, for the descriptions of `examples/` and for random ones.

    compare/compare.py [COUNT [SEED]]

Makes COUNT descriptions (100) from SEED (1), with hostile texts and fixed words, writes each as TOML or as JSON, and runs the built program, `out/clidoc`, on it in each
form, for the application and for a command to which random words lead. `pages` is the definition of the pages as a program. Then `clidoc` is run on the same
descriptions with a planted fault each, and the line that reports it is looked for (`faults.py`).
Prints how many pages and lines agree and how many differ, and the first that differs. Ends with status 1 where any differs.
"""
import concurrent.futures
import pathlib
import random
import subprocess
import sys
import tomllib

sys.dont_write_bytecode = True

import describing
import faults
import levels
import page_cases

from page_of import text_of

CLIDOC = pathlib.Path(__file__).resolve().parent.parent / "out" / "clidoc"
WIDTHS = [5, 7, 20, 40, 72, 79, 80, 100, 101, 120, 1000, 2**64 - 1]
FORMS = ["usage", "full", "brief", "man", "markdown", "html"]
TITLES = ["November 2026", "2026-11-23", "", "a-b 'c'", "日本", "a\\b \"c\""]


def written(count, seed):
    """The descriptions, each with a text of it, in TOML or in JSON."""
    chances = random.Random(seed)
    for name, table in page_cases.cases(count, seed):
        file = page_cases.EXAMPLES / name
        text = file.read_text() if file.exists() else describing.Writer(chances).document(table)
        if tomllib.loads(text) != table:
            sys.exit(f"the text says something else than\n{table}\n{text}")
        yield table, describing.in_json(table, chances) if chances.random() < 0.4 else text


def way(table, chances):
    """Words that lead to a level: names of commands, of all kinds."""
    words = []
    while levels.commands(table) and chances.random() < 0.7:
        word = chances.choice([word for command in levels.commands(table) for word in levels.called(command)])
        table = next(command for command in levels.commands(table) if word in levels.called(command))
        words.append(word)
    return words


def pages(cases, seed):
    """What is given, the words, and what should come out. Under HTML stand the words of the title line too."""
    chances = random.Random(seed)
    for top, text in cases:
        given = way(top, chances)
        for form in FORMS:
            table, words, how = dict(top), [form, *(f"--command={word}" for word in given)], {}
            if form in ("usage", "full", "brief"):
                how["width"] = chances.choice(WIDTHS)
                words.append(f"--width={how['width']}")
            flag = {"man": "deep", "markdown": "deep", "html": "fragment"}.get(form)
            if flag and chances.random() < 0.5:
                how[flag] = True
                words.append(f"--{flag}")
            for key in ["date", "vendor"] if form in ("man", "html") else []:
                if chances.random() < 0.3:
                    table[key] = chances.choice(TITLES)
                    words += [f"--{key}", table[key]]
            yield text.encode(), words, (0, text_of(table, form, given, **how).encode(), b"")


def lines(cases, seed):
    """The same of data with a planted fault, in each form in turn. What should come out on standard error is a pattern of one of its lines."""
    chances = random.Random(seed)
    number = 0
    for table, _ in cases[len(list(page_cases.EXAMPLES.glob("*.toml"))) :]:
        for other, said in faults.planted(table, chances):
            write = describing.in_json if chances.random() < 0.4 else lambda data, chances: describing.Writer(chances).document(data)
            given = write(other, chances).encode()
            form = FORMS[number % len(FORMS)]
            number += 1
            yield given, [form], (1, b"", said)


def run(words, given):
    done = subprocess.run([CLIDOC, *words], input=given, capture_output=True, check=False)
    return done.returncode, done.stdout, done.stderr


def agrees(came, wanted):
    if isinstance(wanted[2], bytes):
        return came == wanted
    told = came[2].decode(errors="replace").splitlines()
    return came[:2] == wanted[:2] and any(wanted[2].fullmatch(line) for line in told)


def compared(what, rows):
    agreed, different = 0, []
    with concurrent.futures.ThreadPoolExecutor() as pool:
        for given, words, wanted, came in pool.map(lambda row: (*row, run(row[1], row[0])), rows):
            if agrees(came, wanted):
                agreed += 1
            else:
                different.append((given, words, came, wanted))
    print(f"{what}: {agreed} agree, {len(different)} differ")
    for given, words, came, wanted in different[:1]:
        print(f"\nclidoc {' '.join(words)}, of\n{given.decode(errors='replace')}")
        print(f"program: {came}\nwanted:  {wanted}")
    return not different


def main():
    count, seed = (list(map(int, sys.argv[1:])) + [100, 1][len(sys.argv) - 1 :])[:2]
    cases = list(written(count, seed))
    same = compared("pages", pages(cases, seed))
    sys.exit(0 if compared("lines", lines(cases, seed)) and same else 1)


main()
