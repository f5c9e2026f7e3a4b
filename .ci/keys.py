#!/usr/bin/env python3
"""docs/keys.md has just the keys of a description that `description_toml` reads, in its order: for each table those that it passes to `check_keys`.

Prints what differs. Ends with status 1 where anything does.
"""
import re
import sys

import common

TOP = common.top_of("keys")
PAGE = TOP / "docs" / "keys.md"
# The list of keys in the reader for each table of the page, by its heading.
LISTS = {
    "The top": "DESCRIPTION_KEYS",
    "[[option]]": "OPTION_KEYS",
    "[[choice]]": "CHOICE_KEYS",
    "[[choice.option]]": "ALTERNATIVE_KEYS",
    "[[group]]": "GROUP_KEYS",
    "[[positional]]": "POSITIONAL_KEYS",
    "[[command]]": "COMMAND_KEYS",
    "[[topic]]": "TOPIC_KEYS",
    "[[help_option]]": "HELP_OPTION_KEYS",
    "[words]": "FIXED_KEYS",
}


def read_keys():
    """The lists of keys that the reader passes on, by their names."""
    folder = TOP / "crates" / "description_toml" / "src"
    text = "\n".join(file.read_text(encoding="utf-8") for file in sorted(folder.rglob("*.rt")))
    passed = set(re.findall(r"(?:check_keys|options_with)\([^;]*?&([A-Z_]+)\)", text))
    lists = re.findall(r"(?m)^const (\w+): \[&str; \d+\] = \[(.*?)\];", text, re.S)
    return {name: re.findall(r'"(\w+)"', keys) for name, keys in lists if name in passed}


def shown_keys():
    """The keys in the tables of the page, by the headings of the tables."""
    tables, heading = {}, None
    for line in PAGE.read_text(encoding="utf-8").splitlines():
        if line.startswith("## "):
            heading = line[3:].strip("`")
        elif heading and (row := re.match(r"\| ((?:\*{0,2}`\w+`\*{0,2}(?:, )?)+) \|", line)):
            tables.setdefault(heading, []).extend(re.findall(r"`(\w+)`", row[1]))
    return tables


def faults():
    read, shown = read_keys(), shown_keys()
    for name in sorted(read.keys() - set(LISTS.values())):
        yield f"{name} is of no table of the page"
    for heading, name in LISTS.items():
        keys, rows = read.get(name, []), shown.get(heading, [])
        yield from (f"{heading}: {key} has no row" for key in keys if key not in rows)
        yield from (f"{heading}: {key} is no key" for key in rows if key not in keys)
        if set(keys) == set(rows) and keys != rows:
            yield f"{heading}: its keys are not in the order of {name}, or one has two rows"


def main():
    found = list(faults())
    count = sum(len(keys) for keys in read_keys().values())
    print("\n".join(found) if found else f"{count} keys of {len(LISTS)} tables, each with its row")
    sys.exit(1 if found or not count else 0)


main()
