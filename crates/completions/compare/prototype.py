#!/usr/bin/env python3
"""The table of a description's completions and its script for a shell, as a plain program: the words of `src/programs.rt` around the table.

    compare/prototype.py SHELL FILE
"""
import pathlib
import re
import sys
import tomllib

PROGRAMS = pathlib.Path(__file__).resolve().parent.parent / "src" / "programs.rt"
QUOTES = {"bash": {"'": "'\\''"}, "zsh": {"'": "'\\''"}, "fish": {"'": "\\'", "\\": "\\\\"}}


# ---- texts


def paragraph(text):
    """The first paragraph of a text in one line. What it holds of the grammar of texts is what these descriptions have."""
    lines, found, is_list, is_fence = (text or "").split("\n"), [], False, False
    for line in (re.sub(r"^[ \t]+", lambda blanks: " " * len(blanks[0]), line) for line in lines):
        if is_fence or line.startswith("```"):
            is_fence = is_fence != line.startswith("```")
            kind = "code"
        elif not line.strip():
            kind, is_list = "blank", False
        elif re.match(" {0,3}- +[^ ]", line) or is_list:
            kind, is_list = "item", True
        else:
            kind = "code" if line.startswith("    ") else "plain"
        if kind == "plain":
            found.append(line)
        elif found:
            break
    line = re.sub("[ \t]+", " ", " ".join(it.strip() for it in found))
    return re.sub(r"(?<!`)`(?!`)([^`]*[^ `][^`]*)`(?!`)", r"\1", re.sub(r"<(https?://[!-;=?-_a-~]+)>", r"\1", line))


# ---- the syntax of an option


def words(syntax):
    found, depth = [""], 0
    for character in syntax:
        if character in " ,|" and not depth:
            found.append("")
        else:
            depth += (character in "[(<{") - (character in "])>}")
            found[-1] += character
    return found


def named(word):
    """The names of a word, and what follows them."""
    front = re.match(r"[^][(){}<>=,| ]*", word)[0]
    if front.startswith("-") and front.strip("-"):
        return [front], word[len(front):]
    rest = word.removeprefix("--[no-]")
    front = re.match(r"[^][(){}<>=,| ]*", rest)[0]
    if rest != word and front.strip("-"):
        return [f"--{front}", f"--no-{front}"], rest[len(front):]
    return [], word


def spelled(option):
    """The names of an option, and how its value is given."""
    if "syntax" not in option:
        names = [dashes + option[key] for key, dashes in (("short", "-"), ("long", "--")) if key in option]
        return names, "value" if "value" in option else "flag"
    found = [named(word) for word in words(option["syntax"])]
    tail = next((tail for _, tail in found if tail), "")
    return [name for names, _ in found for name in names], {"": "flag", "[": "optional", "=": "value"}.get(tail[:1], "word")


# ---- the table


def hint(table):
    return "none" if "values" in table else table.get("hint", "file")


def values(table):
    return [("among", value, "", "") for value in ", ".join(table["values"]).split(", ")] if "values" in table else []


def option(what, table):
    names, how = spelled(table)
    return [(what, how, "none" if how == "flag" else hint(table), paragraph(table.get("help"))), *(("name", it, "", "") for it in names), *values(table)]


def many(table):
    return "many" if table.get("repeated") else "once"


def shown(tables):
    return [it for it in tables or [] if not it.get("hidden")]


def options(level):
    found = [entry for it in shown(level.get("option")) for entry in option(many(it), it)]
    for choice in level.get("choice", []):
        found += [entry for at, it in enumerate(shown(choice["option"])) for entry in option("or" if at else "once", it)]
    return found


def places(level):
    found = []
    for it in level.get("positional", []):
        what = "strict" if it.get("strict") else "place"
        found += [(what, many(it), "none", "")] if it.get("hidden") else [(what, many(it), hint(it), ""), *values(it)]
    return found


def commands(level):
    found = []
    for it in shown(level.get("command")):
        found.append(("command", it["name"], "", paragraph(it.get("help")) or paragraph(it.get("about"))))
        found += [("alias", name, "", "") for name in [*filter(None, [it.get("short")]), *it.get("aliases", [])]]
        found += [*level_entries(it), ("end", "", "", "")]
    return found


def unsaid_places(level):
    """Files, for a level whose usage alone may say what else is given there."""
    takes_words = any(it.get(key) for it in [*level.get("group", []), level] for key in ("positional", "command"))
    return [("place", "many", "file", "")] if "usage" in level and not takes_words else []


def level_entries(level):
    return [*(entry for it in [*level.get("group", []), level] for entry in [*options(it), *places(it), *commands(it)]), *unsaid_places(level)]


def table(description):
    common = options({"option": description.get("help_option", [])})
    return [("program", description["name"], "", ""), *common, ("level", "", "", ""), *level_entries(description), ("end", "", "", "")]


# ---- the script


def quoted(shell, word):
    return "'" + "".join(QUOTES[shell].get(character, character) for character in word) + "'"


def script(shell, description):
    name = description["name"]
    tag = "".join(chr(byte) if chr(byte).isalnum() and byte < 128 else f"_{byte:02x}" for byte in name.encode())
    head, tail = (re.search(rf'{shell.upper()}_{it}: &str =\s+r##"(.*?)"##;', PROGRAMS.read_text(), re.S)[1].replace("`", tag) for it in ("HEAD", "TAIL"))
    first = f"#compdef {name if re.fullmatch('[A-Za-z0-9._+-]*', name) else ''}\n" if shell == "zsh" else ""
    end = " \\\n" if shell == "fish" else "\n"
    return first + head + "".join("    " + " ".join(quoted(shell, it) for it in entry) + end for entry in table(description)) + tail


if __name__ == "__main__":
    sys.stdout.write(script(sys.argv[1], tomllib.loads(pathlib.Path(sys.argv[2]).read_text())))
