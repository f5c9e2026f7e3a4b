"""The lists of a level: their entries, each its terms and what is said of it."""
import syntaxes

from pages import texts
from pages.tree import Piece, element, is_a, joined, plain
from pages.words import title


def shown(tables):
    return [table for table in tables if not table.get("hidden", False)]


def value(word):
    """The word for a value: as it is where it is in capitals, otherwise between `<` and `>`."""
    is_capital = all(letter.isupper() or letter in "0123456789-_" for letter in word)
    return element("value", word if is_capital else f"<{word}>")


def styled(syntax):
    """A syntax, or a piece of one: names, words for values, and what stands between."""
    kinds = {"L": "literal", "M": "value"}
    return [element(kinds[style], text) if style in kinds else text for style, text in syntaxes.styled(syntax)]


def option_terms(option):
    """Each name, and the value after the last; the pieces of a syntax."""
    if "syntax" in option:
        return [styled(piece) for piece in syntaxes.pieces(option["syntax"])]
    names = [lead + option[key] for lead, key in [("-", "short"), ("--", "long")] if key in option]
    terms = [[element("literal", name)] for name in names]
    if "value" in option:
        terms[-1] += ["=" if "long" in option else " ", value(option["value"])]
    return terms


def option_key(option):
    return "option", option.get("syntax"), option.get("short"), option.get("long"), option.get("value")


def option_word(option):
    """What an option is called in an id: without dashes, where it has a name."""
    if "syntax" in option:
        first = next(iter(syntaxes.names(option["syntax"])), None)
        return option["syntax"] if first is None else first.lstrip("-")
    return option.get("long", option.get("short"))


def positional_terms(positional):
    return [[value(positional["value"])]]


def command_terms(command):
    return [[element("literal", command[key])] for key in ["name", "short"] if key in command]


def notes(table, words):
    """What is said of a table except its help: pieces of one text."""
    said = [
        ("env", "env", lambda name: [name]),
        ("default", "default", lambda line: [str(line)]),
        ("possible_values", "values", lambda values: [", ".join(values)]),
        ("aliases", "aliases", lambda names: joined([[name] for name in names], ", ")),
    ]
    found = [["[", words[word], ": ", *pieces(table[key]), "]"] for word, key, pieces in said if key in table]
    return list(map(Piece, joined(found, " ")))


def first(blocks, brief):
    """In brief the first block alone."""
    return blocks[:1] if brief else blocks


def body(table, words, brief):
    """The blocks of the help, and the notes: after it where it is one paragraph, else as a last one."""
    blocks, said = first(texts.blocks(table.get("help")), brief), notes(table, words)
    if not said:
        return blocks
    if len(blocks) == 1 and is_a(blocks[0], "paragraph"):
        return [element("paragraph", *blocks[0].inside, Piece(" "), *said)]
    return [*blocks, element("paragraph", *said)]


def alternatives(table):
    """The options of a level or of a group, and those of its choices."""
    members = [option for choice in table.get("choice", []) for option in choice["option"]]
    return shown(table.get("option", []) + members)


def name_only(option):
    """An option with nothing said of it."""
    return {key: said for key, said in option.items() if key in ("syntax", "short", "long", "value")}


def lists(level, help_options, words):
    """The title of each list of a level, and what may stand in it: options, positional values, commands."""
    yield words["arguments"], [], level.get("positional", []), []
    for group in level.get("group", []):
        yield title(group["title"]), alternatives(group), group.get("positional", []), group.get("command", [])
    yield words["options"], alternatives(level) + help_options, [], []
    yield words["commands"], [], [], level.get("command", [])


def rows(members, words, brief):
    """The entries of a list: a key, the word for its id, the name of the command that it leads to, terms, and body."""
    options, positionals, commands = members
    for option in options:
        yield option_key(option), option_word(option), None, option_terms(option), body(option, words, brief)
    for positional in shown(positionals):
        said = body(positional, words, brief)
        if said:
            terms = positional_terms(positional)
            yield ("positional", positional["value"]), plain(terms[0]), None, terms, said
    for command in shown(commands):
        yield ("command", command["name"]), None, command["name"], command_terms(command), body(command, words, brief)


def once(found):
    """The first of the rows with one key."""
    keys = set()
    for row in found:
        if row[0] not in keys:
            keys.add(row[0])
            yield row
