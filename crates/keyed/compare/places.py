#!/usr/bin/env python3
"""Finds the place of each path of TOML texts by a walk, and sees by `tomllib` whether it is the place.

    compare/places.py [FILE..] [--random N] [--seed S]

A path is a list of keys and indexes. Its place is where the entry begins that brings the path into the document: a
header, a pair (of which a dotted key is the front), or an element of an array. So the text up to the place, with the
brackets closed that are open there, is a document without the path, and the text up to the end of the entry, closed in
the same way, is one with it. This is looked at for each path of each text. Where the entry is a pair, the key at the
place is read by `tomllib` too, and has to be on the path.

Without N the files alone are read. Prints what was looked at, and each fault. Ends with status 1 where there is one.
"""
import argparse
import random
import re
import sys
import tomllib

BARE = re.compile(r"[A-Za-z0-9_-]+")
WS = re.compile(r"[ \t]*")
BLANK = re.compile(r"(?:[ \t\n]|\r\n|#[^\n]*)*")
WORD = re.compile(r"[A-Za-z0-9_+.:-]+(?: [0-9][A-Za-z0-9_+.:-]*)?")
CLOSERS = {"[": "]", "{": "}"}


def after_string(text, at):
    """The place after a string, of any of the four kinds."""
    mark = text[at]
    if text.startswith(mark * 3, at):
        at += 3
        while not text.startswith(mark * 3, at):
            at += 2 if mark == '"' and text[at] == "\\" else 1
        end = at + 3
        while end < at + 5 and text[end:end + 1] == mark:
            end += 1
        return end
    at += 1
    while text[at] != mark:
        at += 2 if mark == '"' and text[at] == "\\" else 1
    return at + 1


def key(text, at):
    """The parts of a dotted key, and the place after it and the blanks that follow."""
    parts = []
    while True:
        if text[at] in "\"'":
            end = after_string(text, at)
            parts.append(tomllib.loads("x = " + text[at:end])["x"])
        else:
            end = BARE.match(text, at).end()
            parts.append(text[at:end])
        at = WS.match(text, end).end()
        if text[at:at + 1] != ".":
            return parts, at
        at = WS.match(text, at + 1).end()


def key_equals(text, at):
    parts, at = key(text, at)
    assert text[at] == "="
    return parts, WS.match(text, at + 1).end()


def after_value(text, at):
    """The place after a value."""
    first = text[at]
    if first in "\"'":
        return after_string(text, at)
    if first not in CLOSERS:
        return WORD.match(text, at).end()
    at += 1
    while True:
        at = BLANK.match(text, at).end()
        if text[at] == CLOSERS[first]:
            return at + 1
        if first == "{":
            _, at = key_equals(text, at)
        at = after_value(text, at)
        at = BLANK.match(text, at).end()
        at += text[at] == ","


def along(parts, path):
    """What is left of the path after a dotted key: a list, empty where the key brings the path. None where it leads
    elsewhere."""
    for number, part in enumerate(parts):
        if number == len(path):
            return []
        if path[number] != part:
            return None
    return path[len(parts):]


def in_value(text, at, path, closers):
    """The entry in a value that brings the path, which is not empty: where it begins and ends, and what closes it."""
    first = text[at]
    wanted = int if first == "[" else str
    if first not in CLOSERS or not isinstance(path[0], wanted):
        return None
    closers = CLOSERS[first] + closers
    at += 1
    number = 0
    while True:
        at = BLANK.match(text, at).end()
        if text[at] == CLOSERS[first]:
            return None
        start = at
        if first == "{":
            parts, at = key_equals(text, at)
            left = along(parts, path)
        else:
            left = path[1:] if number == path[0] else None
        end = after_value(text, at)
        if left == []:
            return start, end, closers
        if left is not None:
            return in_value(text, at, left, closers)
        number += 1
        at = BLANK.match(text, end).end()
        at += text[at] == ","


def along_header(parts, is_array, path, seen):
    """What is left of the path in the table of a header: a list, empty where the header brings the path. None where
    the table is not on the path. `seen` counts the elements of each array of tables on the path."""
    at = 0
    for number, part in enumerate(parts):
        if at == len(path):
            return []
        if path[at] != part:
            return None
        at += 1
        if at < len(path) and isinstance(path[at], int):
            if is_array and number + 1 == len(parts):
                seen[at] = seen.get(at, 0) + 1
            if seen.get(at, 0) != path[at] + 1:
                return None
            at += 1
    return path[at:]


def place(text, path):
    """The entry of a document that brings the path: where it begins and ends, and the brackets that close it."""
    at = 0
    left = path
    seen = {}
    while True:
        at = BLANK.match(text, at).end()
        if at == len(text):
            return None
        start = at
        if text[at] == "[":
            is_array = text.startswith("[[", at)
            at += 1 + is_array
            parts, at = key(text, WS.match(text, at).end())
            at += 1 + is_array
            left = along_header(parts, is_array, path, seen)
            if left == []:
                return start, at, ""
        else:
            parts, value = key_equals(text, at)
            at = after_value(text, value)
            rest = None if left is None else along(parts, left)
            if rest == []:
                return start, at, ""
            found = rest and in_value(text, value, rest, "")
            if found:
                return found


def paths(value, path=()):
    """Each path in a value except the empty one."""
    inside = value.items() if isinstance(value, dict) else enumerate(value) if isinstance(value, list) else ()
    for step, inner in inside:
        yield [*path, step]
        yield from paths(inner, (*path, step))


def has(value, path):
    for step in path:
        if isinstance(value, dict) != isinstance(step, str) or not isinstance(value, (dict, list)):
            return False
        if (step not in value) if isinstance(step, str) else step >= len(value):
            return False
        value = value[step]
    return True


def closed(front, closers):
    """The document of a front of a text. TOML 1.0 has no comma before a closing brace."""
    if closers.startswith("}"):
        front = front.rstrip(" \t\r\n")
        front = front[:-1] if front.endswith(",") else front
    return tomllib.loads(front + closers)


def fault(text, path):
    """What is wrong with the place of a path, or nothing."""
    found = place(text, path)
    if found is None:
        return "no place"
    start, end, closers = found
    if has(closed(text[:start], closers), path):
        return f"there before {start}"
    if not has(closed(text[:end], closers), path):
        return f"not there after {end}"
    if closers.startswith("]") or (text[start] == "[" and not closers):
        return None
    parts, _ = key(text, start)
    if parts[0] not in path:
        return f"another key at {start}"
    return None


KEYS = ["a", "b", "c", "long", '"a"', "'b'", '"\\u0061"', '"x.y"', "'[[a]]'", '""', "1", '"é"']
ATOMS = ["1", "0x1F", "-1.5e3", "inf", "true", "1979-05-27 07:32:00Z", "1979-05-27", "07:32:00.5", '"a = 1"', "'[a]'",
         '"\\"] # \\\\"', '"""\n[[a]]\na = "1"\n"""', '"""x\\\n   y"""', "'''\n# '' [a]\n'''", '""""q"""""', "''''q'''''"]
GAPS = ["", " ", "\t", "\n", "\n# a = 1, ]}\n", "  # [[a]]\r\n "]


def dotted(chance):
    count = 1
    while chance.random() < 0.3:
        count += 1
    return chance.choice([".", " . ", "\t."]).join(chance.choice(KEYS) for _ in range(count))


def value_text(chance, depth):
    kind = chance.random()
    if depth == 0 or kind < 0.5:
        return chance.choice(ATOMS)
    inside = range(chance.randrange(4))
    if kind < 0.75:
        gap = lambda: chance.choice(GAPS)
        items = [f"{gap()}{value_text(chance, depth - 1)}{gap()}" for _ in inside]
        comma = chance.choice([",", "," + gap()]) if items else ""
        return f"[{','.join(items)}{comma}{gap()}]"
    pairs = [f" {dotted(chance)} = {value_text(chance, depth - 1)} " for _ in inside]
    return "{" + ",".join(pairs) + "}"


def expression(chance):
    blank = chance.choice(["", " ", "\t"])
    kind = chance.random()
    if kind < 0.2:
        return f"{blank}[{blank}{dotted(chance)}{blank}]"
    if kind < 0.45:
        return f"{blank}[[{blank}{dotted(chance)}{blank}]]"
    return f"{blank}{dotted(chance)}{blank}={blank}{value_text(chance, 3)}"


def random_text(chance):
    """A text whose expressions are random. Those that `tomllib` refuses are left out."""
    text = ""
    for _ in range(chance.randrange(1, 14)):
        more = text + expression(chance) + chance.choice(["\n", "\r\n", " # [a]\n", "\n\n", "\n# '''\n"])
        try:
            tomllib.loads(more)
        except tomllib.TOMLDecodeError:
            continue
        text = more
    return text


def look(name, text):
    """How many paths a text has, each looked at, and how many faults."""
    count = faults = 0
    for path in paths(tomllib.loads(text)):
        count += 1
        try:
            wrong = fault(text, path)
        except (AssertionError, IndexError, AttributeError, tomllib.TOMLDecodeError) as error:
            wrong = f"{type(error).__name__} {error}"
        if wrong:
            faults += 1
            print(f"{name}: {path}: {wrong}")
            if faults == 1:
                print(text)
    return count, faults


def main():
    options = argparse.ArgumentParser()
    options.add_argument("files", nargs="*")
    options.add_argument("--random", type=int, default=0)
    options.add_argument("--seed", type=int, default=1)
    given = options.parse_args()
    texts = [(name, open(name, encoding="utf-8", newline="").read()) for name in given.files]
    chance = random.Random(given.seed)
    texts += [(f"random {number}", random_text(chance)) for number in range(given.random)]
    counts = [look(name, text) for name, text in texts]
    faults = sum(wrong for _, wrong in counts)
    print(f"{len(texts)} texts, {sum(count for count, _ in counts)} paths, {faults} faults")
    sys.exit(1 if faults else 0)


if __name__ == "__main__":
    main()
