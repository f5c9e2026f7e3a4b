"""Descriptions whose pages are made and read: `examples/`, and random ones with hostile texts and fixed words."""
import pathlib
import random
import tomllib
import unicodedata

import describing
import hostile_texts
import levels
import syntaxes

from pages import texts, words

EXAMPLES = pathlib.Path(__file__).resolve().parents[3] / "examples"
TEXTS = {"about", "header", "footer", "usage", "help", "text"}
LINES = {"value", "default", "syntax"}
# What a macro of roff may read twice.
TITLES = {"title", "vendor", "date"}
NAMES = {"name", "long", "env"}
# In bytes.
LONGEST_NAME = 200
LANGUAGES = ["en", "de", "pt-BR", "zh-Hans-CN"]


def is_refused(letter):
    """Whether no description holds this letter: a control character or a noncharacter."""
    return (
        unicodedata.category(letter) == "Cc"
        and letter not in "\t\n"
        or ord(letter) & 0xFFFE == 0xFFFE
        or "\ufdd0" <= letter <= "\ufdef"
    )


def fitting(key, text):
    """A text without the letters that may not stand at this key."""
    text = "".join(letter for letter in text if not is_refused(letter))
    if key in TEXTS:
        return text
    text = text.replace("\n", " ").replace("\t", " ")
    if key != "default":
        text = "".join(letter for letter in text if ord(letter) not in describing.HIDDEN)
    if key in TITLES or key in NAMES - {"long", "env"}:
        text = text.replace("\\", "").replace('"', "")
    if key in NAMES:
        text = "".join(letter for letter in text if not letter.isspace() and letter not in "=\u200c\u200d\u200e\u200f").lstrip("-")
        return text.encode()[:LONGEST_NAME].decode(errors="ignore") or "x"
    return text


def is_fit(key, text):
    if key == "syntax":
        return syntaxes.is_syntax(text) and bool(text)
    return key != "text" or bool(texts.blocks(text))


def title(text):
    """A title that may stand over a list or a topic."""
    text = fitting("title", text).strip()
    while text and words.title(text) != words.title(text).strip():
        text = words.title(text).strip()
    return text if words.title(text).strip() else "Title"


def tidied(top):
    """Titles and topics as they may be."""
    for table in levels.tables(top):
        if "title" in table and table is not top:
            table["title"] = title(table["title"])
        if "text" in table and not texts.blocks(table["text"]):
            table["text"] = "x"


def with_hostile(top, chances):
    """Puts hostile texts at some places. A name is taken once."""
    places = [
        (table, key)
        for table in levels.tables(top)
        if table is not top.get("words")
        for key, each in table.items()
        if isinstance(each, str) and key in TEXTS | LINES | TITLES | NAMES
    ]
    taken = {name for table in levels.tables(top) for key in ["name", "short", "long"] for name in [table.get(key)]}
    taken |= {
        name
        for table in levels.tables(top)
        for name in [*table.get("aliases", []), *(syntaxes.names(table["syntax"]) if "syntax" in table else [])]
    }
    for table, key in chances.sample(places, min(len(places), 8)):
        text = fitting(key, chances.choice(chances.choice([hostile_texts.TEXTS, MARKS])))
        text = chances.choice([text, table[key] + text, text + table[key]]) if key in TEXTS else text
        names = (
            syntaxes.names(text) if key == "syntax" and syntaxes.is_syntax(text) else [text] if key in NAMES else []
        )
        if is_fit(key, text) and not taken & set(names):
            table[key] = text
            taken |= set(names)


# What means something in a text, in markdown, or in a manual page, at the ends of lines and beside literals.
MARKS = [
    "- a\n- b `c`",
    "-a",
    "+ a",
    "1. a",
    "12) b",
    "1234567890. c",
    "a\n  b\n  - c",
    "===",
    "a\n ===",
    "a\n ---",
    "~~~",
    "# a #",
    "> a",
    "a_b _c_ d_",
    "a*b*",
    "&copy; &#65; & b",
    "a\\",
    "a\\\n b",
    "[a](b)",
    "![a](b)",
    "a]:",
    "<https://a.example/?b&copy=c>",
    "<http://x> <https://>",
    "<b>",
    "`` a ` b `` c",
    "`a``b` c",
    "` a ` b ` c `",
    "`a ` `b`",
    "a` b`",
    "`a` `b`",
    "`*` `_`",
    "`a\\`",
    "```\n````\n```",
    "```\n\n```",
    "```sh\na ``` b\n\n  c\n```",
    "```a`b",
    "    a\n\n     b\n    \n    c\n- d\n      \n- e\n  f\n\n    g",
    "\ta\n\n\tb",
    "    .so x\n    'br\n    \\e",
    ".a\n .b",
    "'a\n 'b",
    "a\n\n- b\n\n    c\n\n d",
    "- `-x`: a\n- `-y` — b",
    "-- a",
    "- ",
    "-",
    "a.\n b.",
    "Usage: a [b]\nUsage: c {d | e} f] (g",
    "a\n  [b c] d...\n\n    e",
    "Usage:\n  x y",
    "x {a,b} <c d> -e=F... G",
    "\u00a0a\u00a0",
    "\u3000",
    "`\u00a0`",
    "a  b\t\tc",
    "https://x.example/a_b_c",
    "100% of ^ and ~ and \" and '",
    "a|b",
    "Notes",
    "See also",
    "notes:",
    "NOTES",
]


def with_words(top, chances):
    """Gives a description words of its own."""
    if chances.random() < 0.3:
        keys = chances.sample(sorted(words.WORDS), 5)
        top["words"] = {
            key: title(chances.choice(["Übersicht", "ÉTÉ:", "Σας", *hostile_texts.TEXTS])) for key in keys
        }


def twin(table, chances):
    """An entry with the names and the value of another, which says the same, or something else."""
    other = {key: each for key, each in table.items() if key not in ["required", "hidden"]}
    key = chances.choice(["help", "env" if {"short", "long", "syntax"} & set(other) else "help", "default", None])
    if key in other:
        del other[key]
    elif key == "help" or key and "value" in other:
        other[key] = "OTHER"
    return other


def with_twins(top, chances):
    """Adds entries like others, of which a list shows the first."""
    for table in list(levels.tables(top)):
        if table.get("positional") and chances.random() < 0.2:
            table["positional"].append(twin(chances.choice(table["positional"]), chances))
        if table.get("option") and chances.random() < 0.2:
            top.setdefault("help_option", []).append(twin(chances.choice(table["option"]), chances))
        if table.get("command") and chances.random() < 0.1:
            command = chances.choice(table["command"])
            table.setdefault("positional", []).append({"value": command["name"], "help": command.get("help", "x")})


def cases(count, seed):
    """What each description is called, and its data."""
    for file in sorted(EXAMPLES.glob("*.toml")):
        yield file.name, tomllib.loads(file.read_text())
    chances = random.Random(seed)
    for number in range(count):
        top = describing.Describer(chances).description()
        if chances.random() < 0.6:
            top["language"] = chances.choice(LANGUAGES)
        with_twins(top, chances)
        with_words(top, chances)
        with_hostile(top, chances)
        tidied(top)
        yield str(number), top
