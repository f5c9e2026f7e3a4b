#!/usr/bin/env python3
"""What pages show is also in a file, word by word: each caller of a crate's CALLING.md in the crate `callers`, which the gate proves, and the
description of README.md in `examples/`. The description of the README's pictures is the one that the gate runs `clidoc` on, and that of
`clidoc` itself the one that it holds.

Prints what is not, and then ends with status 1. `callers.py write` first writes each caller that stands between marks, which name its
file.
"""
import difflib
import re
import sys

import common

WRITES = sys.argv[1:] == ["write"]
TOP = common.TOP if WRITES else common.top_of("callers")
CRATES, EXAMPLES = TOP / "crates", TOP / "examples"
FIRST = "#![tactic(auto)]\n\n"
# The column of README.md at which the page of a description begins beside it.
BESIDE = 32


def unlike_their_files():
    """What is reported of the descriptions of README.md that are not those of their files."""
    readme = (TOP / "README.md").read_text(encoding="utf-8")
    block = re.search(r"(?m)^The description is `examples/greet\.toml`.*\n\n((?:(?: {4}.*)?\n)+?)\n(?=\S)", readme)
    lines = [line[4:] for line in block[1].splitlines()] if block else []
    if [line[:BESIDE].rstrip() for line in lines] != (EXAMPLES / "greet.toml").read_text(encoding="utf-8").splitlines():
        yield "README.md does not show examples/greet.toml"
    page = re.search(r"(?s)\$ clidoc full greet\.toml\n(.*?)\n```", (TOP / "docs" / "guide.md").read_text(encoding="utf-8"))[1]
    if "\n".join(line[BESIDE:] for line in lines).rstrip() != page:
        yield "README.md does not show the page of greet.toml in docs/guide.md"
    if (EXAMPLES / "fetch.toml").read_bytes() != (CRATES / "clidoc" / "data" / "fetch.toml").read_bytes():
        yield "crates/clidoc/data/fetch.toml is not examples/fetch.toml"
    own = (CRATES / "clidoc_engine" / "src" / "own.rt").read_text(encoding="utf-8")
    if 'r#"' + (EXAMPLES / "clidoc.toml").read_text(encoding="utf-8") + '"#' not in own:
        yield "crates/clidoc_engine/src/own.rt does not hold examples/clidoc.toml"


def nearest(caller, proved):
    """The file of callers that is most like a caller, and the first line of it that the caller does not have."""
    lines = caller.splitlines()
    name = max(sorted(proved), key=lambda it: difflib.SequenceMatcher(None, lines, proved[it].splitlines()).ratio())
    other = next((it for it in proved[name].splitlines() if it not in lines), "")
    return f"{name} is the most like it, with the line '{other.strip()}'"


def write(page, proved):
    """Writes the callers of a page that stand between marks."""

    def fill(found):
        return f"<!-- made: {found[1]} -->\n```rust\n{FIRST}{proved[found[1]]}```\n<!-- end -->"

    text = page.read_text(encoding="utf-8")
    page.write_text(re.sub(r"<!-- made: (\w+\.rt) -->\n.*?<!-- end -->", fill, text, flags=re.S), encoding="utf-8")


def main():
    files = (CRATES / "callers" / "src").glob("*.rt")
    proved = {file.name: file.read_text(encoding="utf-8").split("\n\n", 1)[1] for file in files}
    for page in CRATES.glob("*/CALLING.md") if WRITES else []:
        write(page, proved)
    count, faults = 0, []
    for page in sorted(CRATES.glob("*/CALLING.md")):
        for number, caller in enumerate(re.findall(r"```rust\n(.*?)```", page.read_text(encoding="utf-8"), re.S), 1):
            count += 1
            if not caller.startswith(FIRST) or caller[len(FIRST):] not in proved.values():
                said = nearest(caller.removeprefix(FIRST), proved)
                faults.append(f"{page.parent.name}/CALLING.md: no file of callers has its caller {number}, word by word; {said}")
    faults += unlike_their_files()
    print("\n".join(faults) if faults else f"{count} callers stand in the crate that proves them")
    sys.exit(1 if faults or not count else 0)


main()
