#!/usr/bin/env python3
"""Measures drafts of descriptions: how much of a help text a draft has, and how much of that is right.

    compare/helps.py FOLDER [COMMAND..]

FOLDER is made by `helps_corpus.py`. It has for each program what it prints, NAME.txt, and what a person reads there:

- NAME.names: each option name that begins a line or stands in the usage, as it is typed. One that may be
  taken for a name or not stands after a `?`. Both names of `--[no-]x` are there, the second after a `?`; operands such as `if=FILE`
  and names in examples and running text are not.
- NAME.values: after a name and a tab the word for its value, if the first line of the name has one.

COMMAND is called with `--name NAME FILE` and prints a draft; without one, `clidoc draft` is run (`tried.py`). A name is
found if an option of the draft has it, in its `syntax` too; one that nobody reads there is wrong. A value is kept if
the option has the word, brackets aside. A line is lost if the draft has not all of its words, in its keys and in
comments `# left out:`; the words that a draft has more often than the text are counted too. The names of programs and
the words that a page writes by itself, such as `usage`, are not looked for.

Prints a row for each program, the sums with the aims, and for each program what is missing, wrong and lost. Ends with
status 1 if an aim is missed or a draft is not TOML.
"""
import collections
import pathlib
import re
import subprocess
import sys
import tomllib

sys.dont_write_bytecode = True

import levels
import syntaxes
import tried

COLUMNS = ["names", "found", "wrong", "values", "kept", "lines", "lost", "more"]
AIMS = {"found": 0.98, "right": 0.99, "kept": 0.95}
# What is not seen on a terminal: escape sequences, and a letter that another is struck over.
UNSEEN = re.compile("\x1b\\[[0-9;?]*[A-Za-z]|\x1b\\][^\x07]*\x07|.\x08")
FIXED = {"usage", "or", "options", "arguments", "commands", "default", "possible", "values", "env", "aliases"}


def options(data):
    for table in levels.tables(data):
        yield from table.get("option", []) + table.get("help_option", [])


def names(option):
    """What the option is called, as it is typed."""
    plain_names = [mark + option[key] for key, mark in (("short", "-"), ("long", "--")) if key in option]
    syntax = option.get("syntax", "")
    return plain_names + (syntaxes.names(syntax) if syntaxes.is_syntax(syntax) else [])


def plain(word):
    return re.sub(r"[<>\[\]{}=. ]", "", word)


def keeps(option, word):
    """Whether the option has the word for its value."""
    rest = option.get("syntax", "")
    for name in sorted(names(option), key=len, reverse=True):
        rest = rest.replace(name, " ")
    values = option.get("values", [])
    said = [option.get("value", ""), ",".join(values), "|".join(values)]
    return plain(word) in map(plain, said) or plain(word) in plain(rest)


def words(text):
    return [word for word in re.findall(r"\w+", text) if word.lower() not in FIXED]


def texts(data):
    """Each text of the draft."""
    if isinstance(data, str):
        yield data
    elif isinstance(data, (dict, list)):
        for each in data.values() if isinstance(data, dict) else data:
            yield from texts(each)


def lines(text, draft, data):
    """The lines of the text of which the draft does not have all words, and the words that it has too often."""
    kept = {key: each for key, each in data.items() if key != "name"}
    said = [*texts(kept), *re.findall(r"(?m)^# left out:(.*)$", draft)]
    left = collections.Counter(word for each in said for word in words(each))
    lost = []
    for line in text.split("\n"):
        wanted = collections.Counter(words(line))
        if wanted - left:
            lost.append(line)
        left -= wanted
    return lost, left


def judged(folder, name, draft):
    """The numbers of a draft, and what is to be reported of it."""
    truth = (folder / f"{name}.names").read_text().split()
    wanted, free = {it for it in truth if it[0] != "?"}, {it[1:] for it in truth if it[0] == "?"}
    values = [row.split("\t") for row in (folder / f"{name}.values").read_text().splitlines()]
    text = UNSEEN.sub("", (folder / f"{name}.txt").read_text(errors="replace"))
    data = tomllib.loads(draft)
    had = collections.defaultdict(list)
    for option in options(data):
        for each in names(option):
            had[each].append(option)
    found, wrong = wanted & had.keys(), had.keys() - wanted - free
    unkept = [f"{each} {word}" for each, word in values if not any(keeps(it, word) for it in had[each])]
    lost, more = lines(text, draft, data)
    numbers = [len(wanted), len(found), len(wrong), len(values), len(values) - len(unkept)]
    numbers += [len(text.splitlines()), len(lost), more.total()]
    told = {"missing": wanted - found, "wrong": wrong, "value": unkept, "lost": lost, "more": more}
    return numbers, [f"{name}: {what}: {each}" for what, them in told.items() for each in sorted(them)]


def drafts(folder, command):
    """The name of each text, and what is drafted of it: a status, the draft, and what is reported."""
    files = sorted(folder.glob("*.txt"))
    if not command:
        yield from zip(files, tried.runs([(["draft", "--name", it.stem], it.read_bytes()) for it in files]))
    for it in files if command else []:
        ran = subprocess.run([*command, "--name", it.stem, it], capture_output=True, check=False)
        yield it, (ran.returncode, ran.stdout, ran.stderr)


def main():
    folder, sums, told = pathlib.Path(sys.argv[1]), collections.Counter(), []
    print("program".ljust(20) + "".join(it.rjust(8) for it in COLUMNS))
    for file, (status, draft, said) in drafts(folder, sys.argv[2:]):
        try:
            numbers, more = judged(folder, file.stem, "" if status else draft.decode())
        except ValueError as error:
            numbers, more = judged(folder, file.stem, "")
            status, said = 1, str(error).encode()
        told += [f"{file.stem}: no draft: {said.decode(errors='replace')}"] if status else more
        sums.update(dict(zip(COLUMNS, numbers)))
        print(file.stem.ljust(20) + "".join(str(it).rjust(8) for it in numbers), flush=True)
    print("all".ljust(20) + "".join(str(sums[it]).rjust(8) for it in COLUMNS))
    parts = {
        "found": sums["found"] / max(sums["names"], 1),
        "right": sums["found"] / max(sums["found"] + sums["wrong"], 1),
        "kept": sums["kept"] / max(sums["values"], 1),
    }
    print("; ".join(f"{what} {part:.2%}, aim {AIMS[what]:.0%}" for what, part in parts.items()))
    print("\n".join(told))
    return 1 if any(parts[it] < AIMS[it] for it in AIMS) or any(": no draft: " in it for it in told) else 0


if __name__ == "__main__":
    sys.exit(main())
