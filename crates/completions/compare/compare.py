#!/usr/bin/env python3
"""Tries the completions of `clidoc` in bash, zsh and fish.

    compare/compare.py [SHELL..]

What each shell offers at the places of `cursor_places` is compared with what is listed there, and the line after a tab
with that of `LINES`. Then hostile descriptions are tried: nothing of them is run, and all their names and values are
offered. A shell that is not there is left out. The scripts are those of `prototype.py`: the fixed programs of the crate,
with the table that this plain program makes.
Prints how many places agree, and those that differ. Ends with status 1 where any differs.
"""
import pathlib
import shutil
import sys
import tempfile
import tomllib

sys.dont_write_bytecode = True

import cursor_places
import prototype
import shells

HERE = pathlib.Path(__file__).resolve().parent
EXAMPLES = HERE.parent.parent.parent / "examples"
SHELLS = ("bash", "zsh", "fish")
HOSTILE = ["$(touch x)", "`touch x`", "'", "'\\''", "a\\", "\\", "\\'", ";touch x;", "a b", "$x", "\"", "*", "?", "[a]", "{a,b}", "~", "~root", "#", "!!", "%x",
           "a:b", ":", "=", "-", "--", "|touch x", "&touch x", "<(touch x)", ">x", "(touch x)", "é日", "a=b", "''", "$'\\n'", "[0]=x", "!", "(", ")", "-n", "@"]


def room_of(folder):
    room = folder / "room"
    (room / "dir").mkdir(parents=True)
    for name in ("a file", "b.txt"):
        (room / name).touch()
    return room


def home_of(folder):
    """A home whose owner has been at one host, which each shell finds where it looks for hosts."""
    known = folder / "home" / ".ssh" / "known_hosts"
    known.parent.mkdir(parents=True)
    known.write_text("depot.example.org ssh-ed25519 AAAA\n")
    (folder / "home" / "hosts").write_text("192.0.2.1 depot.example.org\n")


def plain(words):
    """Words as they are meant: zsh quotes files, and leaves out the slash after a folder."""
    return {word.rstrip("/") for word in words}


def tried(shell, description, folder, run):
    """What `run` gives of a shell that has the completions of a description."""
    script = folder / f"script.{shell}"
    script.write_text(prototype.script(shell, description))
    started = shells.started(shell, script, folder / "room", folder / "told", folder / "home")
    try:
        return run(started)
    finally:
        started.close()


def places(shell, file, folder):
    """The places that differ, of all."""
    description = tomllib.loads(((EXAMPLES if (EXAMPLES / file).exists() else HERE) / file).read_text())

    def run(started):
        for typed, wanted in cursor_places.PLACES[file]:
            typed = f"{description['name']} {typed}"
            offered = {word for word in started.offers(typed)[1]}
            if shell == "fish":
                offered = only_prefixed(offered, typed)
            yield typed, plain(offered), plain(wanted)
        if shell == "fish":
            return
        for typed, *lines in cursor_places.LINES.get(file, []):
            line = started.offers(f"{description['name']} {typed}")[0]
            yield typed, line, f"{description['name']} {lines[SHELLS.index(shell)]}"

    return tried(shell, description, folder, lambda started: list(run(started)))


def only_prefixed(offered, typed):
    """fish offers what holds the word, too, where nothing begins with it."""
    word = typed.rsplit(" ", 1)[1].strip("'\"") if "\\ " not in typed and "very f" not in typed else ""
    return {it for it in offered if it.startswith(word)}


def hostile(shell, folder):
    """Texts at each place where one may stand. No name and no value has a newline or a tab, and no name a `=`."""

    def level(text, name):
        help_text = f"{text}\n{text}"
        return {"about": help_text, "positional": [{"value": text, "values": [text, f"v{text}"]}],
                "option": [{"long": f"o{name}", "help": help_text}, {"long": "v", "value": text, "values": [text, f"{text}2"], "help": help_text}]}

    unchanged = ["a file", "b.txt", "dir"]
    for text in HOSTILE:
        word = text.replace("=", "_")
        for name in (f"p{word}".replace(" ", "_"), "prog"):
            description = {"name": name, "help_option": [{"long": f"h{word}", "help": text}], **level(text, word),
                           "command": [{"name": f"c{word}", "aliases": [f"d{word}"], "help": text, **level(text, word)}]}
            # A line would need quotes to lead to some names, and fish finds none that holds a %: their scripts are only loaded.
            is_plain = not any(it in name for it in " \"'\\;|&<>()$`*?[{~#!%")
            typed = [(f"{name} ", {text, f"v{text}", f"c{word}", f"d{word}"}), (f"{name} --v=", {f"--v={text}", f"--v={text}2"}), (f"{name} --o", {f"--o{word}"})]
            got = tried(shell, description, folder, lambda started: [started.offers(it)[1] for it, _ in typed] if is_plain else [])
            for (it, wanted), offered in zip(typed, got):
                yield f"{it} of {text!r}", offered, wanted
            yield f"{name}: files", sorted(it.name for it in (folder / "room").iterdir()), unchanged


def main(names):
    differing = agreeing = 0
    for shell in names or [it for it in SHELLS if shutil.which(it)]:
        with tempfile.TemporaryDirectory() as room:
            folder = pathlib.Path(room)
            room_of(folder)
            home_of(folder)
            found = [(file, *it) for file in cursor_places.PLACES for it in places(shell, file, folder)]
            found += [("hostile", *it) for it in hostile(shell, folder)]
        for file, typed, got, wanted in found:
            if got == wanted:
                agreeing += 1
                continue
            differing += 1
            print(f"{shell}, {file}: {typed!r}")
            if isinstance(got, set):
                print(f"    too much: {sorted(got - wanted)}\n    missing: {sorted(wanted - got)}")
            else:
                print(f"    got {got!r}, wanted {wanted!r}")
    print(f"{agreeing} agree, {differing} differ")
    return 1 if differing else 0


if __name__ == "__main__":
    sys.exit(main(sys.argv[1:]))
