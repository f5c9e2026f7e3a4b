#!/usr/bin/env python3
"""Compares the program's answers with those of another implementation.

    compare/compare.py REQUESTS ANSWERS [PROGRAM ..]

REQUESTS has a request a line; its own answer lines (`= ..`) are left out, so a file of answers serves too. ANSWERS has the same
requests, each followed by its answers. PROGRAM is the command to run; without one it is the built program, out/replay.
Prints how many answers agree and how many differ, and the first that differ.
Ends with status 1 where any differs.
"""
import os
import subprocess
import sys

SHOWN = 20


def split(text):
    """Each line that is not an answer, with its answers as a list of (key, answer); `^` is resolved."""
    rows = []
    for line in text.split("\n"):
        if not line.startswith("= "):
            rows.append((line, []))
            continue
        key, _, answer = line[2:].partition(" ")
        answers = rows[-1][1]
        if answer == "^" and answers:
            answer = answers[-1][1]
        answers.append((key, answer))
    return [row for row in rows if row[0] and not row[0].startswith("#")]


def main():
    if len(sys.argv) < 3:
        sys.exit(__doc__)
    here = os.path.dirname(os.path.abspath(__file__))
    program = sys.argv[3:] or [os.path.join(here, "..", "out", "replay")]
    with open(sys.argv[1], encoding="utf-8", newline="\n") as file:
        asked = [line for line in file.read().split("\n") if not line.startswith("= ")]
    with open(sys.argv[2], encoding="utf-8", newline="\n") as file:
        wanted = split(file.read())
    run = subprocess.run(program, input="\n".join(asked).encode(), stdout=subprocess.PIPE, check=True)
    given = split(run.stdout.decode())
    if [row[0] for row in given] != [row[0] for row in wanted]:
        sys.exit("the requests differ")

    agreed = 0
    differences = []
    for (request, answers), (_, others) in zip(given, wanted):
        others = dict(others)
        for key, answer in answers:
            other = others.pop(key, None)
            if answer == other:
                agreed += 1
            else:
                differences.append((request, key, answer, other))
        differences += [(request, key, None, other) for key, other in others.items()]

    print(f"{len(given)} requests: {agreed} answers agree, {len(differences)} differ")
    for request, key, answer, other in differences[:SHOWN]:
        print(f"\n{request}\nprogram: = {key} {answer}\nother:   = {key} {other}")
    sys.exit(1 if differences else 0)


main()
