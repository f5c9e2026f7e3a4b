#!/usr/bin/env python3
"""Each public call of a library that can meet an allocation failure stands in docs/lists/REFUSALS.md, with the test that makes each of its allocations fail in turn.

The libraries are those of crates.txt. A call can meet a failure where it returns a `Result`, unless its error is one of those named here.
Prints what is missing there, and rows that name no such call or no test. Ends with status 1 where there is any.
"""
import re
import sys

import common

TOP = common.top_of("refusals")
PAGE = TOP / "docs" / "lists" / "REFUSALS.md"
# These take their memory from `Global`, where a test can make nothing fail.
OF_GLOBAL = {"lasting_names"}
# Errors that are not an allocation failure: `from_names` of two empty lists, a misplaced item, a name that no file may have, and what a stream returns.
OTHER_ERRORS = {"NoName", "&Item", "NameFault", "io::Error"}
CALL = re.compile(r"(?m)^( *)pub fn (\w+)(?:<[^{}]*?>)?\(([^{}]*?)\)\s*->\s*(.*?)(?=\n\s*(?:where|requires|ensures|\{)|\s*\{)", re.S)
ROW = re.compile(r"(?m)^\| `([\w:]+)` \| `(\w+)::((?:\w+::)*)(\w+)`")


def arguments(text):
    """The parts of a text between its commas, except those inside brackets."""
    parts, depth = [""], 0
    for character in text:
        depth += (character in "<([") - (character in ">)]")
        if character == "," and not depth:
            parts.append("")
        else:
            parts[-1] += character
    return [part.strip() for part in parts if part.strip()]


def error_of(result, aliases):
    """The error that a result's type names, without its own arguments; None where it is not a `Result`."""
    result = " ".join(result.split())
    if (name := re.match(r"\w+$", result)) and name[0] in aliases:
        return error_of(aliases[name[0]], aliases)
    if result.startswith("io::Result"):
        return "io::Error"
    if found := re.match(r"(?:\w+::)*Result<(.*)>$", result):
        return re.match(r"&?(?:'\w+ )?[\w:]+", arguments(found[1])[-1])[0]
    return "an unread error" if "Result" in result else None


def public_calls(library):
    files = common.modules(library, TOP)
    handed = common.handed_on(files)
    aliases = dict(re.findall(r"(?m)^pub type (\w+)(?:<.*?>)? = (.*?);", "\n".join(text for _, _, text in files)))
    types = {
        name
        for _, public, text in files
        for name in re.findall(r"(?m)^pub (?:struct|enum) (\w+)", text)
        if public or name in handed
    }
    for path, public, text in files:
        for match in CALL.finditer(text):
            if (error_of(match[4], aliases) or "NoName") in OTHER_ERRORS:
                continue
            if not match[1]:
                if public or match[2] in handed:
                    yield "::".join([library, *path[:1], match[2]])
                continue
            owner = re.findall(r"(?m)^impl(?:<.*?>)? (?:[\w:<>', ]* for )?(\w+)", text[: match.start()])[-1]
            if owner in types:
                yield f"{library}::{owner}::{match[2]}"


def main():
    calls = {call for library in common.libraries(TOP) if library not in OF_GLOBAL for call in public_calls(library)}
    rows = ROW.findall(PAGE.read_text(encoding="utf-8"))
    named = {call for call, *_ in rows}
    faults = [f"{call} has no row" for call in sorted(calls - named)]
    faults += [f"{call} is no public call that can meet an allocation failure" for call in sorted(named - calls)]
    for call, crate, path, test in rows:
        files = (TOP / "crates" / crate / "src").rglob(f"{path[:-2].replace('::', '/') or '*'}.rt")
        sources = "".join(file.read_text(encoding="utf-8") for file in files)
        if not re.search(rf"#\[test\]\nfn {test}\(", sources):
            faults.append(f"{call}: crate {crate} has no test {test}")
    print("\n".join(faults) if faults else f"{len(calls)} calls that can meet an allocation failure, each with a test")
    sys.exit(1 if faults else 0)


main()
