"""Inputs in which a fault is planted, each with a line that the program has to say of it among its lines."""
import copy
import re

TEXTS = {
    "description": ["vendor", "title", "about", "header", "footer", "usage"],
    "command": ["help", "about", "header", "footer", "usage"],
    "option": ["value", "help"],
    "positional": ["value", "help"],
    "group": ["title"],
    "choice": [],
    "topic": ["title", "text"],
}
NEEDED = {"description": "name", "command": "name", "positional": "value", "group": "title", "topic": "title"}
WORDS = {"option": ["value"], "positional": ["value"]}
TITLES = {"description": ["date", "vendor", "title"], "group": ["title"], "topic": ["title"]}
NAMES = {"description": ["name"], "command": ["name"], "option": ["long", "env"]}
FLAGS = {
    "description": ["command_required"],
    "command": ["hidden", "command_required"],
    "option": ["hidden", "required", "repeated"],
    "positional": ["hidden", "required", "repeated", "strict"],
    "choice": ["required"],
    "group": [],
    "topic": [],
}
LISTS = ["help_option", "option", "choice", "group", "positional", "command", "topic"]


def tables(table, kind="description", way=(), alternative=False):
    """Each table of a description: itself, its kind, the path to it, and whether it is an option of a choice."""
    yield table, kind, way, alternative
    for key in LISTS:
        for number, inner in enumerate(table.get(key, []), 1):
            yield from tables(inner, "option" if key == "help_option" else key, way + (f"{key} {number}",), kind == "choice")


def faults(table, kind, way, alternative):
    """Each way to plant a fault in a table, and what is said of it."""
    keys = list(table)
    yield {"lnog": "x"}, [], "no key lnog is known here" + ("; is it long?" if kind == "option" else "")
    if kind != "description":
        yield {"vendor": "x"}, [], "no key vendor is known here"
    if alternative:
        yield {"required": True}, [], "no key required is known here"
    if kind in NEEDED:
        yield {}, [NEEDED[kind]], f"{NEEDED[kind]} is missing"
    for key in TEXTS[kind]:
        yield {key: 1}, [], f"{key} is no text"
    asks_for_help = bool(way) and way[-1].startswith("help_option")
    for key in [] if alternative or asks_for_help else FLAGS[kind]:
        yield {key: "x"}, [], f"{key} is neither true nor false"
    if asks_for_help:
        yield {"hidden": True}, [], "no key hidden is known here"
    if kind in ["option", "positional"]:
        yield from values(table, kind, alternative)
    if kind == "option":
        yield from syntaxes(table)
    if kind == "command":
        yield from arrays("aliases")
        for name, why in WHY.items():
            yield {"aliases": ["x" * 40, name]}, [], f"aliases {why if name else 'holds an empty text'}"
    yield from characters(kind)
    yield from names(kind)
    if kind == "description":
        for section in ["", "m", "N", "1 ", "1é", "-1", 10, -1, True]:
            yield {"section": section}, [], said_of_a_section(section)


def values(table, kind, alternative):
    """Faults in values."""
    if kind == "option":
        for key, said in [("default", "x"), ("values", ["x"])]:
            if "syntax" not in table:
                yield {key: said}, ["value", "default", "values"], f"{key} stands beside no value and no syntax; add value"
        if not {"value", "syntax"} & set(table):
            return
    if not alternative:
        yield {"default": "x", "required": True}, [], "required is true beside a default"
    for text, said in [("a\nb", "holds a control character"), ("a\ufffeb", "holds a noncharacter"), (True, "is no text and no whole number; write it in quotes"), (1.5, "is no text and no whole number; write it in quotes")]:
        yield {"default": text}, [], f"default {said}"
    yield from arrays("values")
    yield {"values": ["x", ""]}, [], "values holds an empty text"
    yield {"values": ["x", "a\tb"]}, [], "values holds a control character"


def syntaxes(table):
    """Faults in how an option is written, with a name that no other option has."""
    own = ["short", "long", "value", "syntax"]
    for text, said in [("", "is empty"), ("\u3000", "is blank"), ("-☃,", "holds an empty piece"), ("-☃, \u3000", "holds an empty piece"), ("-☃[", "holds a bracket that is in no pair"), ("-☃ [X}", "holds a bracket that is in no pair"), ("-☃\tX", "holds a control character")]:
        yield {"syntax": text}, own, f"syntax {said}"
    for key, text in [("short", "Q"), ("long", "q" * 40)]:
        yield {"syntax": "-☃ X", key: text}, own, f"syntax stands beside {key}"
    yield {"syntax": "-☃ X", "value": "X"}, own, "syntax stands beside value"
    yield {"syntax": 1}, own, "syntax is no text"
    yield {}, own + ["default", "values"], "short, long or syntax is missing"


def arrays(key):
    yield {key: []}, [], f"{key} is empty"
    for data in ["x", ["x" * 40, 1]]:
        yield {key: data}, [], f"{key} is no array of texts"


def characters(kind):
    """Faults in what texts and titles hold."""
    for key in TEXTS[kind] + TITLES.get(kind, []):
        yield {key: "a\u001bb"}, [], f"{key} holds a control character"
        yield {key: "a\ufffeb"}, [], f"{key} holds a noncharacter"
    for key in WORDS.get(kind, []) + TITLES.get(kind, []):
        yield {key: "a\nb"}, [], f"{key} holds a control character"
        yield {key: "a\u2066b"}, [], f"{key} holds an invisible character"
    for key in WORDS.get(kind, []):
        yield {key: ""}, [], f"{key} is empty"
    for key in TITLES.get(kind, []):
        yield {key: "a\\b"}, [], f"{key} holds a backslash"
        yield {key: "a\"b"}, [], f"{key} holds a double quote"
    if kind in ["group", "topic"]:
        yield {"title": " \u3000"}, [], "title begins with a blank"
    if kind == "topic":
        for text in ["", " \n\t", "```\n```"]:
            yield {"text": text}, [], "text is empty"


WHY = {"": "is empty", "a b": "holds a blank", "a\n": "holds a blank", "a\u0007": "holds a control character", "a=": "holds =", "a\ufdd0": "holds a noncharacter", "a\u202e": "holds an invisible character", "\u200da": "holds an invisible character"}


def names(kind):
    """Texts that are not names."""
    for key in NAMES.get(kind, []):
        for name, why in WHY.items():
            hint = "; write name and value as syntax" if (key, name) == ("long", "a=") else ""
            yield {key: name}, [], f"{key} {why}{hint}"
        if key == "name":
            yield {key: "a\\"}, [], f"{key} holds a backslash"
            yield {key: "a\""}, [], f"{key} holds a double quote"
        if key in ["long", "name"]:
            yield {key: "-a"}, [], f"{key} begins with -"
    if kind in ["option", "command"]:
        for text in ["", "ab", "日本"]:
            yield {"short": text}, [], "short is not one character; a longer name of an option goes in long, one of a command in aliases"
        for text, why in [("-", "begins with -"), ("=", "holds ="), (" ", "holds a blank"), ("\uffff", "holds a noncharacter")]:
            yield {"short": text}, [], f"short {why}"


def said_of_a_section(section):
    if section is True:
        return "section is no text and no number"
    if isinstance(section, int):
        return "section is no number from 0 to 9"
    return "section is no section of a manual"


def planted(table, random):
    """The data with a fault, and a pattern of the line that reports it: one for each kind of fault, at a table of its kind."""
    places = list(tables(table))
    random.shuffle(places)
    seen = set()
    for index, (_, kind, way, alternative) in enumerate(places):
        for new, lost, said in faults(places[index][0], kind, way, alternative):
            if (kind, alternative, said) in seen:
                continue
            seen.add((kind, alternative, said))
            other = copy.deepcopy(table)
            found = next(inner for inner, _, path, _ in tables(other) if path == way)
            for key in lost:
                found.pop(key, None)
            found.update(new)
            yield other, line_of(way, said)


def line_of(way, said):
    """The line that reports a fault: its place, the path to its table, in which names may follow the steps, and what is wrong."""
    steps = ", ".join(rf"{step}( \(.+?\))?" for step in way)
    return re.compile(rf"-:\d+:\d+: {steps + ': ' if way else ''}{re.escape(said)}(; .*|, at line \d+)?")
