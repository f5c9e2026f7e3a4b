#!/usr/bin/env python3
"""The public calls that have a contract, from the sources: the tables of docs/PROVED.md with the names of their clauses, one for each library, and
docs/lists/CONTRACTS.md with the contracts themselves.

`proved.py write` writes both; in PROVED.md what stands between marks. Without a word it prints what is not as the sources say, and ends with
status 1 where anything is.
"""
import re
import sys
import textwrap
from collections import namedtuple

import common

TOP = common.TOP
PAGE, LIST = TOP / "docs" / "PROVED.md", TOP / "docs" / "lists" / "CONTRACTS.md"
HEAD = "# The contracts of public calls\n\nMade from the sources by `.ci/proved.py`. [PROVED.md](../PROVED.md) says in words what they promise.\n"
# What a call belongs to and its name, the names of what it requires and ensures, and its head with its clauses as they stand.
Call = namedtuple("Call", "owner name requires ensures text")
HEADER = re.compile(r"(?m)^( *)pub (?:const )?fn (\w+)")
CLAUSE = re.compile(r"(?:\s|//[^\n]*\n)*(ensures|requires)\b(?: (\w+))? \{")
# What a model says is not a promise of a call.
OF_MODELS = {"Value", "view", "coded", "counted", "invariant", "inverse", "use", "laws"}


def after_brackets(text, start):
    """The place after the bracket that closes the one at `start`."""
    pairs, depth = {"(": ")", "[": "]", "{": "}"}, 0
    for place in range(start, len(text)):
        depth += (text[place] in pairs) - (text[place] in pairs.values())
        if not depth:
            return place + 1
    return len(text)


def call_at(owner, name, text, found):
    """The call whose head begins at a match."""
    named = {"requires": [], "ensures": []}
    head = re.compile(r"(?=\s(?:ensures\b|requires\b|\{)|;)").search(text, after_brackets(text, text.index("(", found.end())))
    place = head.end() if head else len(text)
    while clause := CLAUSE.match(text, place):
        named[clause[1]].append(clause[2] or clause[1])
        place = after_brackets(text, clause.end() - 1)
    shown = textwrap.dedent(text[found.start() : place]).strip()
    return Call(owner, name, named["requires"], named["ensures"], shown)


def ghosts_of(text):
    """The implementations of traits in a file that say what a trait leaves open: the trait, the type, and each with its name."""
    for trait, owner, body in re.findall(r"(?ms)^impl(?:<[^{]*?>)? ([\w:]+(?:<[^{]*?>)?) for &?(\w+)[^{]*\{\n(.*?)^\}", text):
        ghosts = re.findall(r"(?ms)^    ghost (\w+) = (\{.*?\};)$", body)
        ghosts = [(name, textwrap.dedent(said)) for name, said in ghosts if name not in OF_MODELS]
        if ghosts and trait != "Model":
            yield trait, owner, ghosts


def calls(library):
    """Each public call of a library that has a contract."""
    files = common.modules(library)
    handed = common.handed_on(files)
    sources = [(public, name) for _, public, text in files for name in re.findall(r"(?m)^(pub(?:\(\w+\))? )?(?:struct|enum|trait) (\w+)", text)]
    types = {name for public, (word, name) in sources if word == "pub " and public or name in handed}
    others = {name for _, (_, name) in sources} - types
    found = []
    for path, public, text in files:
        for head in HEADER.finditer(text):
            owner = re.findall(r"(?m)^impl(?:<.*?>)? (\w+)", text[: head.start()])[-1:] if head[1] else []
            if owner and owner[0] in types or not head[1] and (public or head[2] in handed):
                found.append(call_at("::".join(owner or (path if public else [])), head[2], text, head))
        for trait in re.finditer(r"(?ms)^pub trait (\w+)[^{]*\{\n(.*?)^\}", text):
            if trait[1] in types:
                found += [call_at(trait[1], head[1], trait[2], head) for head in re.finditer(r"(?m)^    fn (\w+)", trait[2])]
        for trait, owner, ghosts in ghosts_of(text):
            if owner not in others:
                shown = "\n".join([f"impl {trait} for {owner}", *(f"    ghost {name} = {said}" for name, said in ghosts)])
                found.append(Call(f"{trait} for {owner}", "", [], [name for name, _ in ghosts], shown))
    return [call for call in found if call.requires or call.ensures]


def rows(library):
    """Neighbouring calls with the same owner and the same clauses share a row."""
    shown = []
    for call in calls(library):
        if shown and (shown[-1][0].owner, shown[-1][0].requires, shown[-1][0].ensures) == (call.owner, call.requires, call.ensures):
            shown[-1].append(call)
        else:
            shown.append([call])
    for first, *more in shown:
        names = ["::".join(it for it in (first.owner, first.name) if it), *(it.name for it in more)]
        cells = (", ".join(f"`{it}`" for it in cell) for cell in (names, first.requires, first.ensures))
        yield f"| {' | '.join(cells)} |"


def filled(page):
    """The page with its tables as the sources say, and the crates that it has tables of."""
    named = []

    def fill(found):
        named.append(found[1])
        return "\n".join([f"<!-- made: {found[1]} -->", "| Call | Requires | Ensures |", "|---|---|---|", *rows(found[1]), "<!-- end -->"])

    return re.sub(r"<!-- made: (\w+) -->\n.*?<!-- end -->", fill, page, flags=re.S), named


def listed(libraries):
    """The contracts, in a part for each library."""
    parts = [HEAD]
    for library in libraries:
        shown = (re.sub(r"^pub |^(?=fn )", f"// {call.owner}\n" if call.owner and call.name else "", call.text) for call in calls(library))
        parts.append(f"\n## `{library}`\n\n```text\n" + "\n\n".join(shown) + "\n```\n")
    return "".join(parts)


def differing(path, made):
    """What differs between a file and what it should be."""
    text = path.read_text(encoding="utf-8") if path.exists() else ""
    if text != made:
        old, new = text.splitlines(), made.splitlines()
        yield from (f"{path.name}: stale: {line}" for line in old if line not in new)
        yield from (f"{path.name}: missing: {line}" for line in new if line not in old)
        yield f"{path.name} is not as the sources say; `.ci/proved.py write` makes it again"


def main():
    if sys.argv[1:] not in ([], ["write"]):
        common.refuse("proved", "expected nothing, or write")
    wanted = [library for library in common.libraries() if calls(library)]
    page, named = filled(PAGE.read_text(encoding="utf-8"))
    made = {PAGE: page, LIST: listed(wanted)}
    faults = [f"PROVED.md: crate {name} has no table" for name in wanted if name not in named]
    if named != [name for name in wanted if name in named]:
        faults.append("PROVED.md: the tables are not in the order of crates.txt")
    for path, text in made.items():
        if sys.argv[1:]:
            path.write_text(text, encoding="utf-8")
        faults += differing(path, text)
    print("\n".join(faults) if faults else f"{len(named)} tables of clauses and {sum(len(calls(it)) for it in wanted)} contracts are as the sources say")
    sys.exit(1 if faults else 0)


main()
