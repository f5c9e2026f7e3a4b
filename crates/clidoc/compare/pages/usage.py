"""The usage of a level: the names that lead there, and parts that are not to be broken."""
import re

import syntaxes

from pages.entries import shown, styled, value
from pages.tree import element, is_a, joined, plain


def has_bar(parts):
    """Whether a bar stands outside of brackets."""
    text = plain(parts)
    depths = syntaxes.depths(text)
    return depths is not None and any(letter == "|" and not depth for letter, depth in zip(text, depths))


def called(option):
    """An option by its short name, if any; of a syntax the first piece that is more than a name, else the first."""
    if "syntax" in option:
        pieces = [styled(piece) for piece in syntaxes.pieces(option["syntax"])]
        more = [piece for piece in pieces if len(piece) > 1 or not is_a(piece[0], "literal")]
        return (more or pieces)[0]
    name, between = ("-" + option["short"], " ") if "short" in option else ("--" + option["long"], "=")
    return [element("literal", name)] + ([between, value(option["value"])] if "value" in option else [])


def bracketed(inside, required, repeated, needs_brackets):
    """In brackets if it is not required, in round ones if what is required would be taken apart."""
    dots = "..." if repeated else ""
    if not required:
        return ["[", *inside, "]" + dots]
    return ["(", *inside, ")" + dots] if needs_brackets else [*inside, dots]


def option_part(option, required, repeated):
    inside = called(option)
    return bracketed(inside, required, repeated, repeated or "syntax" in option and has_bar(inside))


def option_parts(table):
    """The options of a level or of a group, and then its choices."""
    parts = [
        option_part(option, option.get("required", False), option.get("repeated", False))
        for option in shown(table.get("option", []))
    ]
    for choice in table.get("choice", []):
        members, required = shown(choice["option"]), choice.get("required", False)
        if len(members) == 1:
            parts.append(option_part(members[0], required, False))
        elif members:
            parts.append(bracketed(joined(map(called, members), " | "), required, False, True))
    return parts


def positional_parts(positionals):
    """The first strict value has `--` before it, within its brackets."""
    parts, has_strict = [], False
    for positional in positionals:
        required = positional.get("required", "default" not in positional)
        dots = "..." if positional.get("repeated", False) else ""
        inside = [value(positional["value"])]
        if positional.get("strict", False) and not has_strict:
            has_strict, inside = True, [element("literal", "--"), " ", *inside, dots]
            dots = ""
        parts.append([*inside, dots] if required else ["[", *inside, "]" + dots])
    return parts


def command_parts(level, words):
    tables = [level, *level.get("group", [])]
    if not any(shown(table.get("command", [])) for table in tables):
        return []
    part = [element("value", words["command"]), " ..."]
    return [part if level.get("command_required", True) else ["[", *part, "]"]]


def parts_of(level, words):
    """The parts after the names, in order."""
    groups = level.get("group", [])
    named = [part for table in [level, *groups] for part in option_parts(table)]
    positionals = [positional for table in [*groups, level] for positional in shown(table.get("positional", []))]
    return named + positional_parts(positionals) + command_parts(level, words)


def unpaired(line):
    """The places of the brackets in no pair. A closing one closes the innermost open one, if that is of its kind."""
    open_ones, alone = [], set()
    for place, letter in enumerate(line):
        if letter in syntaxes.BRACKETS:
            open_ones.append(place)
        elif letter in syntaxes.BRACKETS.values():
            if open_ones and syntaxes.BRACKETS[line[open_ones[-1]]] == letter:
                open_ones.pop()
            else:
                alone.add(place)
    return alone | set(open_ones)


# Noncharacters, which stand in no description, for brackets that count as letters.
LETTERS = {ord(bracket): chr(0xFDD0 + number) for number, bracket in enumerate("[](){}<>")}
BRACKETS = {ord(letter): chr(bracket) for bracket, letter in LETTERS.items()}


def read_parts(line):
    """The parts of a line: what blanks outside of brackets separate, read as a syntax."""
    alone = unpaired(line)
    marked = "".join(letter.translate(LETTERS) if place in alone else letter for place, letter in enumerate(line))
    cut = "".join(
        "\n" if letter == " " and not depth else letter for letter, depth in zip(marked, syntaxes.depths(marked))
    )
    for piece in filter(None, cut.split("\n")):
        yield list(map(with_brackets, styled(piece)))


def with_brackets(node):
    """A text, or an element of one, with the brackets for the letters that stood for them."""
    if isinstance(node, str):
        return node.translate(BRACKETS)
    return element(node.kind, *map(with_brackets, node.inside))


def read_forms(text, words):
    """The forms that the text `usage` has, one a line."""
    for line in text.replace("\t", " ").split("\n"):
        line = line.strip(" ")
        for word in ["Usage", words["usage"]]:
            line = re.sub(rf"^{re.escape(word)}:( +|$)", "", line)
        if line:
            yield list(read_parts(line))


def usage(level, names, words):
    """The forms of a level: the text `usage`, or what its options, values and commands give."""
    if "usage" in level:
        forms = list(read_forms(level["usage"], words))
    else:
        forms = [[joined([[element("literal", name)] for name in names], " "), *parts_of(level, words)]]
    return element("usage", *map(form, forms))


def form(parts):
    names, *others = parts
    return element("form", element("names", *names), *[element("part", *part) for part in others])
