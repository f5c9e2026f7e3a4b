#!/usr/bin/python3
"""Makes the pages of descriptions by `pages`, and has other programs read them.

    compare/media.py [COUNT [SEED]]

Takes those of `examples/`, and COUNT random ones (100) from SEED (1), of each all levels, in full and in brief, and
each page with those below it.

- A manual page is read by `man_reader`, which gives what `man` keeps; `groff` and `mandoc` warn of nothing in it
  except a date, and what is wider than a line; `lexgrog` reads one that has a summary; and the text that `groff` shows
  holds each word of the page in order.
- A page in markdown is read by `markdown_reader` and by `cmark`, which both give what `markdown` keeps.
- A page in HTML is parsed by `html5lib` in its strict mode as the tree that it was written from, and so is what
  stands in its body alone; `tidy` warns only of empty elements; no id stands twice, each link shows something and
  leads to a place on the page, there is one `main`, and no heading skips a rank.
- On the console no part of a usage that fits is broken at 40, 80 and 120 columns, and only a line of one word is wider
  than the width.

Needs Debian's packages `groff`, `mandoc`, `man-db`, `cmark`, `python3-html5lib` and `tidy`. Prints each fault and
counts. Ends with status 1 where there is a fault.
"""
import collections
import concurrent.futures
import sys

sys.dont_write_bytecode = True

import page_cases

from media_checks import console_faults, html_faults, man_faults, markdown_faults
from pages import level

WIDTHS = [40, 80, 120]


def levels_of(top):
    yield []
    for _, names in level.all_below(top, [top["name"]]):
        yield names[1:]


def judged(case):
    """The faults of the pages of one description, and how many pages there were."""
    name, top = case
    faults, counts = [], collections.Counter()

    def told(medium, given, found):
        counts[medium] += 1
        faults.extend(f"{name} {' '.join(given)}: {medium}: {fault}" for fault in found)

    for given in levels_of(top):
        page = level.page(top, given)
        pages = [page, level.page(top, given, deep=True)] if level.below(level.find(top, given)[0]) else [page]
        for each in pages:
            told("man", given, man_faults(each))
            told("markdown", given, markdown_faults(each))
        for each in [page, level.page(top, given, brief=True)]:
            for width in WIDTHS:
                told("console", given, console_faults(each, width))
        told("html", given, html_faults(pages[-1]))
    return faults, counts


def main():
    count, seed = (list(map(int, sys.argv[1:])) + [100, 1][len(sys.argv) - 1 :])[:2]
    total, wrong = collections.Counter(), 0
    with concurrent.futures.ProcessPoolExecutor(2) as pool:
        for faults, counts in pool.map(judged, page_cases.cases(count, seed)):
            total += counts
            wrong += len(faults)
            for fault in faults:
                print(fault)
    print(f"pages: {', '.join(f'{number} {medium}' for medium, number in total.items())}; {wrong} faults")
    sys.exit(1 if wrong else 0)


if __name__ == "__main__":
    main()
