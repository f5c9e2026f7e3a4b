#!/usr/bin/python3
"""Compares the layout of paragraphs on the console with that of bpaf_doc.

    compare/layouts.py ask [COUNT [SEED]] > REQUESTS
    compare/layouts.py judge ANSWERS

The first prints requests to `replay` (docs/replay.md), for the paragraphs and items of COUNT random
descriptions (100) from SEED (1), each at some widths. The second reads the answers of `replay`, and says how
many layouts by `pages/console.py` agree. Each that differs is printed. Ends with status 1 where one does.
"""
import random
import re
import sys

sys.dont_write_bytecode = True

import asking
import page_cases

from pages import console, level
from pages.tree import is_a, plain

WIDTHS = [0, 1, 5, 9, 17, 30, 53, 76, 96]


def paragraphs(node):
    """What is laid out by itself: paragraphs, items of lists, and parts of a usage."""
    if is_a(node, "paragraph", "item", "part"):
        yield console.letters(node.inside)
    for child in node.inside:
        if not isinstance(child, str):
            yield from paragraphs(child)


def requests(count, seed):
    chances = random.Random(seed)
    for _, top in page_cases.cases(count, seed):
        for text in sorted(set(paragraphs(level.page(top, deep=True)))):
            document = asking.plain(text.replace("\n", "\n "))
            yield f"console full {chances.choice(WIDTHS)} {document}"


def judged(lines):
    """The request, what is answered, and the layout that is made here."""
    for asked, answered in zip(lines, lines[1:]):
        match = re.fullmatch(r"console full (\d+) \[ T(.*) \]", asked)
        if match:
            text = asking.page("full", match[2]).replace("\n ", "\n")
            yield asked, asking.page("full", answered.removeprefix("= console ")), "\n".join(
                console.filled(text, int(match[1]))
            )


def main():
    if sys.argv[1] == "ask":
        count, seed = (list(map(int, sys.argv[2:])) + [100, 1][len(sys.argv) - 2 :])[:2]
        print("\n".join(requests(count, seed)))
        return
    with open(sys.argv[2], encoding="utf-8") as answers:
        rows = list(judged(answers.read().split("\n")))
    different = [row for row in rows if row[1] != row[2]]
    for asked, answered, made in different:
        print(f"{asked}\n  answered {answered!r}\n  made     {made!r}")
    print(f"layouts: {len(rows) - len(different)} agree, {len(different)} differ")
    sys.exit(1 if different else 0)


main()
