"""Random descriptions, as the data of a TOML text, and texts in TOML and in JSON of such data."""
import json
import unicodedata

import syntaxes

WORDS = [
    "word", "Prints things", "-v", "--verbose", "FILE", "a<b", "<tag>", "&amp;", "&", "'q'", "“quoted”", "don't", ".dot", "..",
    "\\", "\\-", "a\\b", "`", "`", "``", "`-v`", "[x]", "]", "*", "_", "#", "# h", ">", "-", "--", "|", "é", "ßtraße", "日本", "日本語", "한국",
    "ｆｕｌｌ", "カタ", "😀", "👩‍👩‍👧", "❤️", "☺️ok", "İ", "ǆ", "a\u0301", "\u200b", "\u202e", "\u00a0", "\u2003", "\u3000", "\ufdf0", "\ufffd",
    "\t", "\"", "\"\"\"", "'''", "long-long-word-of-some-length", "a" * 40, "x", "", "name", "=", "$HOME", "{}", "%s",
]
JOINTS = [" ", " ", " ", " ", "", "  ", "\n", "\n ", "\n\n", "\n\n\n", "\n    ", "\n```\n", "\n\n```text\n", "\n- ", ", "]
LETTERS = "abcdefghijklmnopqrstuvwxyzABCXYZ0123456789-_.'\"\\<>&*`[]/:@éß日한ｆ😀❤\u0301#$%+~|"
SECTIONS = ["1", "2", "3", "4", "5", "6", "7", "8", "9", "0", "1p", "3posix2X", "n", "lx", 0, 1, 7, 9]
TWICE = "\\\""
# What is not seen. No word and no name holds it.
HIDDEN = {0x200B, 0xFEFF, *range(0x202A, 0x202F), *range(0x2060, 0x2070), *range(0xE0000, 0xE0080)}
# What a syntax is made of.
PIECES = ["-", "--", "-x", "--word", "--[no-]", "FILE", "WHEN", "file", "N", "a_B", "...", "é", "日", " ", " ", ",", ", ", "=", "|", "[", "(", "<", "{", "[=", "0", "\\", "\"", "`", ".", "'"]
CLOSING = {"[": "]", "(": ")", "<": ">", "{": "}"}
KEY_LETTERS = set("abcdefghijklmnopqrstuvwxyzABCDEFGHIJKLMNOPQRSTUVWXYZ0123456789-_")


class Describer:
    """Makes descriptions. The chances are those of a `random.Random`."""

    def __init__(self, random):
        self.random = random

    def some(self, chance):
        return self.random.random() < chance

    def text(self):
        pieces = []
        for _ in range(self.random.choice([0, 1, 1, 1, 2, 2, 3, 5, 9, 20])):
            pieces += [self.random.choice(WORDS), self.random.choice(JOINTS)]
        return "".join(pieces if self.some(0.3) else pieces[:-1])

    def line(self):
        return self.text().replace("\n", " ").replace("\t", " ")

    def word(self):
        """A text on one line that is not empty, all of which is seen."""
        return "".join(c for c in self.line() if ord(c) not in HIDDEN) or "x"

    def title(self):
        """A text that a macro of roff may read twice."""
        return "".join(c for c in self.word() if c not in TWICE)

    def name(self):
        return "".join(self.random.choice(LETTERS) for _ in range(self.random.choice([1, 2, 3, 4, 6, 8, 12, 30])))

    def long(self):
        return self.name().lstrip("-") or "x"

    def command_name(self):
        return "".join(c for c in self.long() if c not in TWICE).lstrip("-") or "x"

    def fresh(self, taken, make):
        while True:
            name = make()
            if name not in taken:
                taken.add(name)
                return name

    def maybe(self, table, key, make, chance=0.5):
        if self.some(chance):
            table[key] = make()

    def flag(self):
        return self.some(0.5)

    def short(self):
        return self.random.choice(LETTERS.replace("-", ""))

    def value(self, table):
        """What is said of the value of a table."""
        self.maybe(table, "default", lambda: self.random.choice([self.line(), self.line(), 0, -7, 10 ** 18]), 0.3)
        self.maybe(table, "values", lambda: [self.word() for _ in range(self.random.randint(1, 3))], 0.3)

    def syntax(self):
        """How an option is written: as people write it, or of pieces at random with their brackets closed."""
        long, other, short = self.name().strip("-") or "x", self.name().strip("-") or "y", self.short()
        plain = [
            f"--{long}[=WHEN]", f"-{short} FILE", f"-{short}, --{long}, --{other}", f"--[no-]{long}", "if=FILE", f"-{short}|--{long}", f"-{short}, --{long}=FILE",
            f"-{short} N | --{long}", f"--{long} <NAME>...", f"-{short}[N], --[no-]{long}", f"{{-{short}|--{long}}} FILE", f"+{short}", f"-{short},--{long} KEY=VALUE",
        ]
        if self.some(0.6):
            return self.random.choice(plain)
        written, closing = "", []
        for _ in range(self.random.choice([1, 2, 3, 5, 8, 13])):
            piece = closing.pop() if closing and self.some(0.3) else self.random.choice(PIECES)
            closing += [CLOSING[c] for c in piece if c in CLOSING] if piece != "--[no-]" else []
            written += piece
        return written + "".join(reversed(closing))

    def fresh_syntax(self, taken):
        """One that is a syntax, and whose names are not taken."""
        while True:
            syntax = self.syntax()
            if syntaxes.is_syntax(syntax) and not taken & set(syntaxes.names(syntax)):
                taken |= set(syntaxes.names(syntax))
                return syntax

    def names(self, table, taken):
        """How an option is called: by a short and a long name, or as its syntax has it."""
        which = self.random.choice(["short", "long", "both", "syntax"])
        if which == "syntax":
            table["syntax"] = self.fresh_syntax(taken)
            return
        if which != "long":
            table["short"] = self.fresh(taken, lambda: "-" + self.short())[1:]
        if which != "short":
            table["long"] = self.fresh(taken, lambda: "--" + self.long())[2:]
        self.maybe(table, "value", lambda: self.random.choice(["FILE", "N", "a b", "日本", self.word()]))

    def option(self, taken, wraps=True, hides=True):
        table = {}
        self.names(table, taken)
        self.maybe(table, "help", self.text, 0.7)
        self.maybe(table, "env", self.name, 0.3)
        if "value" in table or "syntax" in table:
            self.value(table)
        if hides:
            self.maybe(table, "hidden", self.flag, 0.2)
        if wraps:
            self.maybe(table, "required", lambda: "default" not in table and self.flag(), 0.4)
            self.maybe(table, "repeated", self.flag, 0.4)
        return table

    def choice(self, taken):
        table = {"option": [self.option(taken, False) for _ in range(self.random.randint(1, 3))]}
        self.maybe(table, "required", self.flag)
        return table

    def positional(self):
        table = {"value": self.random.choice(["FILE", "INPUT", "a b", self.word()])}
        self.maybe(table, "help", self.text, 0.7)
        self.value(table)
        self.maybe(table, "hidden", self.flag, 0.2)
        self.maybe(table, "required", lambda: "default" not in table and self.flag(), 0.4)
        for key in ["repeated", "strict"]:
            self.maybe(table, key, self.flag, 0.4)
        return table

    def topic(self):
        return {"title": (self.title() + "x").strip() or "x", "text": self.body() or "x"}

    def body(self):
        """The text of a topic, often with lines of code."""
        if self.some(0.4):
            return self.text()
        lines = ["", "", " ", "     ", "```", "```", "```sh", "    $ app -v", "    a `b` c", "     x", "Say `app`:", "and more", "  then", "`", "   ```", self.line(), "    " + self.line()]
        return "\n".join(self.random.choice(lines) for _ in range(self.random.choice([1, 2, 3, 5, 8, 13])))

    def lists(self, table, depth, names, kinds):
        """Puts options, choices, positional values and commands into a table, of a level or of a group of it."""
        taken, commands = names
        make = {
            "option": lambda: self.option(taken),
            "choice": lambda: self.choice(taken),
            "positional": self.positional,
            "command": lambda: self.command(depth + 1, commands),
        }
        for kind in kinds:
            most = (0 if depth >= 3 else 2) if kind == "command" else 3
            count = self.random.choice([0, 0, 1, most]) if most else 0
            if count or self.some(0.05):
                table[kind] = [make[kind]() for _ in range(min(count, most))]

    def group(self, depth, names):
        table = {"title": self.title() + self.random.choice(["", "x", "é"])}
        if not table["title"].strip():
            table["title"] = "Group"
        while not any(table.get(kind) for kind in ["option", "choice", "positional", "command"]):
            self.lists(table, depth, names, ["option", "choice", "positional", "command"])
        return table

    def level(self, table, depth):
        for key in ["about", "header", "footer"]:
            self.maybe(table, key, self.text, 0.4)
        self.maybe(table, "usage", self.text, 0.1)
        self.maybe(table, "command_required", self.flag, 0.4)
        names = (set(), set())
        self.lists(table, depth, names, ["option", "choice", "positional", "command"])
        if self.some(0.4):
            table["group"] = [self.group(depth, names) for _ in range(self.random.randint(1, 2))]
        if self.some(0.3):
            table["topic"] = [self.topic() for _ in range(self.random.randint(1, 2))]
        return table

    def command(self, depth, names):
        table = {"name": self.fresh(names, self.command_name)}
        self.maybe(table, "short", lambda: self.fresh(names, self.short), 0.3)
        self.maybe(table, "help", self.text, 0.7)
        self.maybe(table, "hidden", self.flag, 0.2)
        self.maybe(table, "aliases", lambda: self.aliases(table, names), 0.3)
        return self.level(table, depth)

    def aliases(self, table, names):
        """Other names, one of which may be the name itself."""
        others = [self.fresh(names, self.command_name) for _ in range(self.random.randint(1, 3))]
        return others + ([table["name"]] if self.some(0.1) else [])

    def description(self):
        table = {"name": self.random.choice(["app", "git-log", self.command_name()])}
        self.maybe(table, "section", lambda: self.random.choice(SECTIONS))
        self.maybe(table, "date", lambda: self.random.choice(["November 2026", "", self.title(), Day(2026, 11, 23), Day(987, 1, 2)]))
        self.maybe(table, "vendor", self.title, 0.3)
        self.maybe(table, "title", self.title, 0.3)
        self.level(table, 0)
        if self.some(0.5):
            taken = set()
            table["help_option"] = [self.option(taken, hides=False) for _ in range(self.random.randint(1, 2))]
        return self.shuffled(table)

    def shuffled(self, data):
        """The same data, with the keys of each table in another order."""
        if isinstance(data, list):
            return [self.shuffled(table) for table in data]
        if not isinstance(data, dict):
            return data
        keys = list(data)
        self.random.shuffle(keys)
        return {key: self.shuffled(data[key]) for key in keys}


class Day:
    """A TOML date without a time."""

    def __init__(self, year, month, day):
        self.text = f"{year:04}-{month:02}-{day:02}"

    def __eq__(self, other):
        return str(other) == self.text


class Writer:
    """Writes data as TOML, with a random choice among the forms that say the same."""

    def __init__(self, random):
        self.random = random

    def escaped(self, text, kept):
        plain = {"\n": "\\n", "\t": "\\t", "\r": "\\r", "\"": "\\\"", "\\": "\\\\", "\b": "\\b", "\f": "\\f"}
        pieces = []
        for c in text:
            if c in kept:
                pieces.append(c)
            elif c in plain:
                pieces.append(plain[c])
            elif unicodedata.category(c) == "Cc" or self.random.random() < 0.01:
                pieces.append(f"\\u{ord(c):04x}" if ord(c) < 0x10000 else f"\\U{ord(c):08x}")
            else:
                pieces.append(c)
        return "".join(pieces)

    def text(self, text):
        form = self.random.choice(["basic", "basic", "basic", "lines", "literal", "literal lines"])
        has_control = any(unicodedata.category(c) == "Cc" and c not in "\t\n" for c in text)
        if form == "literal" and not has_control and "'" not in text and "\n" not in text:
            return f"'{text}'"
        if form == "literal lines" and not has_control and "''" not in text and not text.endswith("'"):
            return f"'''\n{text}'''"
        if form == "lines":
            return f"\"\"\"\n{self.escaped(text, chr(10))}\"\"\""
        return f"\"{self.escaped(text, '')}\""

    def key(self, key):
        return key if set(key) <= KEY_LETTERS and key and self.random.random() < 0.9 else f"\"{self.escaped(key, '')}\""

    def value(self, data):
        if isinstance(data, bool):
            return "true" if data else "false"
        if isinstance(data, Day):
            return data.text
        if isinstance(data, str):
            return self.text(data)
        if isinstance(data, (int, float)):
            return str(data)
        if isinstance(data, list):
            return "[" + ", ".join(self.value(item) for item in data) + "]"
        return "{ " + ", ".join(f"{self.key(key)} = {self.value(item)}" for key, item in data.items()) + " }"

    def table(self, table, path=()):
        """The lines of a table, those of the tables in it after its own values."""
        lines, below = [], []
        for key, data in table.items():
            if isinstance(data, list) and data and all(isinstance(item, dict) for item in data) and self.random.random() < 0.8:
                header = ".".join(path + (self.key(key),))
                for item in data:
                    below += ["", f"[[{header}]]"] + self.table(item, path + (self.key(key),))
            else:
                lines.append(f"{self.key(key)} = {self.value(data)}")
        return lines + below

    def document(self, table):
        return "\n".join(self.table(table)) + "\n"


def in_json(table, random):
    """The data as JSON, a day as a string."""
    layout = {"indent": random.choice([None, 0, 2, "\t"]), "ensure_ascii": random.random() < 0.5}
    return random.choice(["", " ", "\r\n\t"]) + json.dumps(table, default=lambda day: getattr(day, "text", str(day)), **layout)
