#!/usr/bin/env python3
"""Each example beside a definition is an equation that the crate `rows` proves, word for word. It is a comment that begins with `-- e.g.`, with
its further lines indented.

Prints the examples that no row has. Ends with status 1 where there is any.
"""
import re
import sys

import common

TOP = common.top_of("examples")
EXAMPLE = re.compile(r"(?m)^ *-- e\.g\. (.*(?:\n *--     .*)*)$")


def words(text):
    """A text with one blank for each run of white space."""
    return " ".join(text.split())


def examples():
    """The place and the equation of each example."""
    for file in sorted((TOP / "crates").glob("*/specs/**/*.antt")):
        text = file.read_text(encoding="utf-8")
        for found in EXAMPLE.finditer(text):
            line = text.count("\n", 0, found.start()) + 1
            yield f"{file.relative_to(TOP)}:{line}", words(re.sub(r"(?m)^ *--", "", found[1]))


def rows():
    """The equations of `rows`, between blanks."""
    files = sorted((TOP / "crates" / "rows" / "proofs").rglob("*.antt"))
    return " ".join(" " + words(file.read_text(encoding="utf-8")) + " " for file in files)


def main():
    proved, count, missing = rows(), 0, 0
    for place, equation in examples():
        count += 1
        if not re.search("[:×] " + re.escape(equation) + r"(?= (?:×|unfolding|[\w-]+ = ))", proved):
            missing += 1
            print(f"{place}: no row has {equation}")
    print(f"{count} examples")
    sys.exit(1 if missing else 0)


main()
