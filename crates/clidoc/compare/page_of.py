#!/usr/bin/python3
"""Writes a page of a description, by `pages`: the definition of the pages as a program.

    compare/page_of.py FORM [--command NAME].. [--deep] [--width COLUMNS] [--fragment] [FILE]

FORM is `usage`, `full`, `brief`, `man`, `markdown` or `html`, or `tree`, which writes the tree of the page in full as
JSON.
"""
import argparse
import json
import sys
import tomllib

sys.dont_write_bytecode = True

from pages import console, html, level, man, markdown


def spelled(node):
    return (
        node if isinstance(node, str) else {"kind": node.kind, **node.said, "inside": list(map(spelled, node.inside))}
    )


def text_of(top, form, given=(), deep=False, width=100, fragment=False):
    """The text of a page."""
    page = level.page(top, given, deep or form == "html", form == "brief")
    if form == "usage":
        return console.usage(page, width)
    if form in ("full", "brief"):
        return console.whole(page, width)
    if form == "html":
        return html.fragment(page) if fragment else html.write(page)
    return {
        "man": man.write,
        "markdown": markdown.write,
        "tree": lambda tree: json.dumps(spelled(tree), indent=1, ensure_ascii=False) + "\n",
    }[form](page)


def main():
    words = argparse.ArgumentParser()
    words.add_argument("form", choices=["usage", "full", "brief", "man", "markdown", "html", "tree"])
    words.add_argument("--command", action="append", default=[])
    words.add_argument("--deep", action="store_true")
    words.add_argument("--width", type=int, default=100)
    words.add_argument("--fragment", action="store_true")
    words.add_argument("file", nargs="?", type=argparse.FileType("rb"), default=sys.stdin.buffer)
    given = words.parse_intermixed_args()
    sys.stdout.write(
        text_of(tomllib.load(given.file), given.form, given.command, given.deep, given.width, given.fragment)
    )


if __name__ == "__main__":
    main()
