#!/usr/bin/env python3
"""The table of crates in docs/ARCHITECTURE.md: for each crate of crates.txt the first sentence of its source, and the crates here that it
stands on, except those that these stand on.

`crates.py write` writes it between its marks. Without a word it prints what is not as the sources say, and ends with status 1 where anything is.
"""
import re
import sys

import common

PAGE = common.TOP / "docs" / "ARCHITECTURE.md"


def sentence(name):
    """The first sentence of the comment at the front of a crate."""
    folder = common.TOP / "crates" / name / "src"
    source = next(it for it in (folder / "lib.rt", folder / "main.rt") if it.exists()).read_text(encoding="utf-8")
    said = " ".join(line[3:].strip() for line in re.match(r"(?://!.*\n)*", source)[0].splitlines())
    return re.match(r".*?[.;](?= |$)|.*", said)[0].rstrip(".;").replace("|", "\\|")


def directly_below(name, used):
    """The crates here that one uses, except those that another of them uses too."""
    here = [it for it in used[name] if it in used]
    return [it for it in here if not any(it in common.with_those_below([other], used) for other in here if other != it)]


def table():
    used = common.uses()
    rows = (f"| `{name}` | {sentence(name)} | {', '.join(f'`{it}`' for it in directly_below(name, used))} |" for name in used)
    return "\n".join(["<!-- made: crates -->", "| Crate | What it is | Stands on |", "|---|---|---|", *rows, "<!-- end -->"])


def main():
    if sys.argv[1:] not in ([], ["write"]):
        common.refuse("crates", "expected nothing, or write")
    page = PAGE.read_text(encoding="utf-8")
    made = re.sub(r"<!-- made: crates -->\n.*?<!-- end -->", lambda _: table(), page, flags=re.S)
    if sys.argv[1:]:
        PAGE.write_text(made, encoding="utf-8")
        page = made
    faults = [f"missing: {line}" for line in table().splitlines() if line not in page.splitlines()]
    faults += [f"stale: {line}" for line in page.splitlines() if line not in made.splitlines()]
    print("\n".join(faults) if faults else f"{len(common.uses())} crates stand in docs/ARCHITECTURE.md")
    sys.exit(1 if faults else 0)


main()
