#!/usr/bin/env python3
"""What a newcomer reads: lines of prose in the pages of this repository have at most 100 columns, words stand in their usual sense, links lead
somewhere, and pages keep to their lengths. Tables, code, and a link or a piece of code without a blank may be longer than a line. Code, and what
stands between the marks of what a script made, is not judged; blocks of code and what a script made are not counted. Words in comments of `.rt` and
`.antt` files stand in their usual sense too.

Prints what does not. Ends with status 1 where anything does not.
"""
import re
import sys

import common

MOST = 100
# Words and turns that are refused, each with what to write.
ODD = {
    r"[Bb]ehind": "after",
    r"[Tt]old": "reported, said",
    r"what holds where": "the default",
    r"where nothing is said": "by default",
    r"where (?:it|they) (?:is|are) not given": "by default",
    r"hand(?:s|ed|ing)? (?:it |them |all )?on": "pass on, re-export",
    r"answers (?:a|an|no|nothing)": "returns",
    r"(?:for|of|by) who": "for whoever",
    r"Who (?:wants|reads|may|picks|judges)": "whoever",
    r"but for": "except",
    r"an?other (?:one )?behind": "after another",
    r"one (?:behind|after) the other": "one after another",
    r"as to": "about",
    r"anew": "again",
    r"by turns": "alternately",
    r"in one go": "at once",
    r"(?:there|where|here)(?:of|by|in|upon|with)": "of it, by which",
    r"upon": "on",
    r"hitherto|whatsoever|thence|hence": "so far, so",
    r"[Nn]obody has to believe": "internal",
    r"such as have": "those that have",
    r"does otherwise": "does differently",
    r"so many (?:columns|bytes|lines)": "that many",
    r"round (?:it|them|the|all|what|each)": "around",
    r"stand[s]? for good": "stays",
    r"(?:has|have) not(?=[.,:;])": "does not have",
    r"(?<!there\s)(?:is|are) no (?:text|document|description|JSON|TOML|object|tag|table|option|number|link|fence|code|item|entry|part|folder|place|word)": "is not a",
    r"parted": "separated",
    r"in one another": "nested",
    r"the road of": "the path of",
    r"for ever": "forever",
}
# Texts and comments of a source, by the ending of its name.
SOURCES = {
    ".rt": re.compile(r"""r(#*)".*?"\1|"(?:\\.|[^"\\])*"|'(?:\\.|[^'\\])'|//[/!]?(?P<comment>[^\n]*)""", re.S),
    ".antt": re.compile(r'''"(?:\\.|[^"\\])*"|(?<!\S)--(?!\S)(?P<comment>[^\n]*)''', re.S),
}
# How many words a page has at most, and all together.
LENGTHS = {"docs/DECISIONS.md": 3000, "docs/PROVED.md": 4000, "docs/GATE.md": 750, "docs/LIMITS.md": 750}
ALL = 34000


def prose(text):
    """The lines of a page that are prose, each with its number."""
    fence = None
    for number, line in enumerate(text.splitlines(), 1):
        mark = line.lstrip()[:3]
        if mark in ("```", "~~~") and fence in (None, mark):
            fence = None if fence else mark
        elif not fence and not line.startswith(("|", "    ", "![")):
            yield number, line


def is_long(line):
    """Whether the line could be broken so that it has fewer columns: at a blank that is in no code and in no link."""
    whole = re.sub(r"`[^`]*`|\[[^]]*\]\([^)]*\)", lambda it: it[0].replace(" ", "_"), line)
    return len(line) > MOST and " " in whole.strip("-* ")[:MOST]


def blanked(found):
    """As many lines, with nothing in them."""
    return "\n" * found[0].count("\n")


def written(text):
    """The lines of a page, tables too, without blocks of code and without what a script made."""
    text = re.sub(r"<!-- (?:made|printed)\b.*?<!-- end -->", blanked, text, flags=re.S)
    text = re.sub(r"(?ms)^( *)(```|~~~).*?^ *\2$", blanked, text)
    return re.sub(r"(?<=\n\n)(?: {4}.*\n)+(?:\n+(?: {4}.*\n)+)*", blanked, text)


def comments(text, source):
    """The comments of a source, each on its line, without anything else."""
    said, end = "", 0
    for found in source.finditer(text):
        said += "\n" * text.count("\n", end, found.start()) + ((found["comment"] or "").strip() or blanked(found))
        end = found.end()
    return said


def without_code(text):
    """A text without the code between its backquotes."""
    return re.sub(r"(?<!`)(`+)(?!`)(?:(?!\n\n).)+?(?<!`)\1(?!`)", lambda it: "`" + blanked(it), text, flags=re.S)


def sentences(text):
    """What is written in a page, without code."""
    return without_code(written(text))


def odd_words(text):
    """Each odd word in a text without code: its line, the word, and what to write."""
    for words, better in ODD.items():
        spaced = words.replace(" ", r"(?!\s*\n\s*\n)\s+")
        for found in re.finditer(rf"(?<![\w-])(?:{spaced})(?![\w-])", text):
            yield text[: found.start()].count("\n") + 1, " ".join(found[0].split()), better


def headings(text):
    """What the headings of a page are called in links."""
    return {re.sub(r"[^\w -]", "", line.lstrip("# ").lower()).replace(" ", "-") for line in text.splitlines() if line.startswith("#")}


def lost_links(name, pages):
    """The links of a page that lead to no file here, or to no heading of a page."""
    for target in re.findall(r"\[[^]]*\]\(([^()\s]+)\)", sentences(pages[name])):
        path, _, heading = target.partition("#")
        file = (common.TOP / name).parent.joinpath(path).resolve() if path else common.TOP / name
        if not target.startswith(("http:", "https:")) and not file.exists():
            yield target
        elif heading and file.suffix == ".md" and heading not in headings(file.read_text(encoding="utf-8")):
            yield target


def count(text):
    """How many words are written in a page. What holds no letter and no digit, as the bars of a table, is none."""
    return sum(bool(re.search(r"\w", word)) for word in written(text).split())


def files_like(pattern):
    """The texts of these files of the repository, by their names."""
    files = [it for it in sorted(common.TOP.rglob(pattern)) if not {"out", ".git"} & set(it.relative_to(common.TOP).parts)]
    return {str(it.relative_to(common.TOP)): it.read_text(encoding="utf-8") for it in files}


def main():
    if sys.argv[1:]:
        common.refuse("prose", "expected nothing")
    pages = files_like("*.md")
    sources = {name: comments(text, SOURCES[kind]) for kind in SOURCES for name, text in files_like(f"*{kind}").items()}
    faults = [f"{name}:{number}: {len(line)} columns" for name, text in pages.items() for number, line in prose(text) if is_long(line)]
    judged = {name: sentences(text) for name, text in pages.items()} | {name: without_code(text) for name, text in sources.items()}
    faults += [f"{name}:{line}: '{word}'; write: {better}" for name, text in judged.items() for line, word, better in sorted(odd_words(text))]
    faults += [f"{name}: {target} leads nowhere" for name in pages for target in lost_links(name, pages)]
    counts = {name: count(text) for name, text in pages.items() if not name.startswith("docs/lists/")}
    faults += [f"{name}: {counts[name]} words, and {most} are the most" for name, most in LENGTHS.items() if counts.get(name, 0) > most]
    if sum(counts.values()) > ALL:
        faults.append(f"all pages: {sum(counts.values())} words, and {ALL} are the most")
    kept = f"{len(pages)} pages keep to {MOST} columns, to plain words and to {sum(counts.values())} words, the comments of {len(sources)} sources to plain words"
    print("\n".join(faults) if faults else kept)
    sys.exit(1 if faults else 0)


main()
