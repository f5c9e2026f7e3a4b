#!/usr/bin/python3
"""Runs `clidoc` on descriptions of `examples/` that are changed at random.

    compare/fuzz.py PROGRAM SECONDS [SEED]

Each input is one of them, of at most 64 KiB, in which bytes, lines and pieces of others are put in, taken out, doubled
or changed. A run has to end with status 0, or with 1 and lines on standard error, each only of characters of a line,
within ten seconds. Prints how many runs there were by form and status, the longest time, and the most memory.
"""
import collections
import os
import pathlib
import random
import resource
import subprocess
import sys
import tempfile
import time

TOP = pathlib.Path(__file__).resolve().parents[3]
FORMS = ("check", "usage", "full", "html", "man", "man --deep", "markdown", "markdown --deep", "complete bash", "complete zsh", "complete fish")
PIECES = [b"[[command]]\n", b"[[option]]\n", b"[[help_option]]\n", b"[[group]]\n", b"'", b'"', b"'''\n", b"```", b"`", b"{", b"}", b"[", b"]", b"\\", b"\0", b"\x1b[", b"\xff", b"\xe2\x80\xae", b"\xf3\xa0\x80\x81", b"=", b",", b"\n", b"\r\n", b"-" * 300, b"a" * 300, b"9" * 40, b"- ", b"    ", b"<https://a.b>"]


def changed(rolls, seeds):
    text = bytearray(rolls.choice(seeds))
    for _ in range(rolls.choice((1, 1, 2, 4, 16, 64))):
        at = rolls.randrange(len(text) + 1)
        way = rolls.randrange(6)
        if way == 0 and text:
            text[at % len(text)] = rolls.randrange(256)
        elif way == 1:
            text[at:at] = rolls.choice(PIECES)
        elif way == 2:
            del text[at : at + rolls.choice((1, 4, 40, 400))]
        elif way == 3:
            other = rolls.choice(seeds)
            start = rolls.randrange(len(other))
            text[at:at] = other[start : start + rolls.choice((8, 80, 800))]
        elif way == 4:
            text[at:at] = text[at : at + rolls.choice((8, 80, 800, 8000))]
        else:
            lines = bytes(text).split(b"\n")
            rolls.shuffle(lines)
            text = bytearray(b"\n".join(lines))
    return bytes(text[:65536])


def fault_of(status, said):
    lines = said.decode(errors="replace")
    if status not in (0, 1):
        return f"status {status}: {lines[-300:]}"
    if status == 1 and not lines.endswith("\n"):
        return "no line"
    if any(not (each.isprintable() or each == "\n") and not "\xa0" <= each for each in lines):
        return f"a control character: {lines!r}"
    return None


def main():
    program, until = os.path.abspath(sys.argv[1]), time.monotonic() + float(sys.argv[2])
    rolls = random.Random(int(sys.argv[3]) if sys.argv[3:] else 1)
    seeds = [it.read_bytes() for it in sorted((TOP / "examples").iterdir()) if it.stat().st_size <= 65536]
    counts, longest, faults = collections.Counter(), 0, 0
    with tempfile.TemporaryDirectory() as folder:
        given = pathlib.Path(folder) / "input"
        while time.monotonic() < until:
            given.write_bytes(changed(rolls, seeds))
            form = rolls.choice(FORMS)
            used = resource.getrusage(resource.RUSAGE_CHILDREN)
            try:
                ran = subprocess.run([program, *form.split(), given], capture_output=True, timeout=600)
                fault, status = fault_of(ran.returncode, ran.stderr), ran.returncode
            except subprocess.TimeoutExpired:
                fault, status = "no end", None
            now = resource.getrusage(resource.RUSAGE_CHILDREN)
            longest = max(longest, now.ru_utime + now.ru_stime - used.ru_utime - used.ru_stime)
            counts[f"{form}: {status}"] += 1
            if fault:
                faults += 1
                kept = pathlib.Path(tempfile.gettempdir()) / f"clidoc-fuzz-{os.getpid()}-{faults}"
                kept.write_bytes(given.read_bytes())
                print(f"{form}: {fault}; the input is {kept}", flush=True)
    print(dict(sorted(counts.items())))
    print(f"{sum(counts.values())} runs, {faults} faults, at most {longest:.2f} s of a processor and {now.ru_maxrss} kB")
    sys.exit(bool(faults))


main()
