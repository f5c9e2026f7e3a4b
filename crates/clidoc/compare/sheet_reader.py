"""The reader of manual pages of `crates/man_page/specs/Reader.antt`, word by word, as a program.

A glyph is a letter with its font: `R`, `B` or `I`. What is not of the language raises `Refused`.
"""
import dataclasses

SPECIALS = {"aq": "'", "ga": "`", "ha": "^", "ti": "~", "dq": '"'}
OTHERS = set("-'`^~")


class Refused(Exception):
    """What is not read."""


@dataclasses.dataclass
class Said:
    """What a page says: a `heading`, a `plain`, `tagged`, `bulleted` or `continued` paragraph, an `example` or a
    `synopsis`. `place` is the rank of a heading, and of paragraphs and examples the indents, the innermost first: a
    number of columns, or None for a usual one. `front` is what stands before the lines, and is empty except for a
    heading, what has a tag and a synopsis. Each line is a list of glyphs, and in `written` a list of lines of the text."""

    kind: str
    place: object
    front: list
    lines: list
    written_front: list
    written: list


@dataclasses.dataclass
class Sheet:
    title: list
    said: list


# ---- the glyphs of a line


def is_control(letter):
    return letter < " " and letter != "\t" or letter == "\x7f"


def glyphs(line, other=False):
    """The glyphs of a line. With `other` the glyphs of other letters count as the letters: in a title line."""
    shown, font, rest = [], "R", iter(line)
    for letter in rest:
        if letter != "\\":
            if is_control(letter) or letter in OTHERS and not other:
                raise Refused(f"a letter {letter!r}")
            shown.append((letter, font))
            continue
        sign = next(rest, "")
        if sign == "-":
            shown.append(("-", font))
        elif sign == "e":
            shown.append(("\\", font))
        elif sign == "~":
            shown.append((" ", font))
        elif sign == "&":
            pass
        elif sign == "%":
            if shown and shown[-1][0] != " ":
                raise Refused("a place to hyphenate within a word")
        elif sign == "(":
            name = next(rest, "") + next(rest, "")
            if name not in SPECIALS:
                raise Refused(f"a glyph {name!r}")
            shown.append((SPECIALS[name], font))
        elif sign == "f":
            font = font_after(font, next(rest, ""))
        elif sign == "N":
            shown.append((chr(number_of(rest)), font))
        else:
            raise Refused(f"an escape {sign!r}")
    if font != "R":
        raise Refused("a font that does not end")
    return shown


def font_after(font, name):
    """Bold or italic begins in roman, and ends there."""
    if font == "R" and name in ("B", "I"):
        return name
    if font != "R" and name == "P":
        return "R"
    raise Refused(f"a font {name!r}")


def number_of(rest):
    """The number of a printable character of ASCII."""
    if next(rest, "") != "'":
        raise Refused("a number without a quote")
    number = 0
    for letter in rest:
        if letter == "'":
            if not 32 <= number < 127:
                raise Refused(f"a character {number}")
            return number
        if letter not in "0123456789":
            raise Refused("no number")
        number = number * 10 + int(letter)
    raise Refused("a number without an end")


# ---- the words of a request


def words_of(text):
    """The words of a request, as they are written: each by itself or in double quotes."""
    words, word, is_quoted, is_closed = [], None, False, False
    for letter in text:
        if is_quoted:
            if letter == '"':
                words.append(word)
                word, is_quoted, is_closed = None, False, True
            else:
                word += letter
        elif letter == " ":
            words += [word] if word is not None else []
            word, is_closed = None, False
        elif is_closed or letter == '"' and word is not None:
            raise Refused("a quote in a word")
        elif letter == '"':
            word, is_quoted = "", True
        else:
            word = (word or "") + letter
    if is_quoted:
        raise Refused("a quote without an end")
    return words + ([word] if word is not None else [])


# ---- the page


class Reading:
    def __init__(self):
        self.title, self.said, self.indents = None, [], []
        # Where the next text goes: `front`, `fresh`, `tag`, `filled`, `bodied`, `broken`, `example` or `synopsis`.
        self.stand, self.kind = "front", None

    def need_open(self):
        if self.stand not in ("fresh", "filled", "bodied", "broken"):
            raise Refused("no paragraph may come here")

    def fresh(self, kind="plain"):
        self.stand, self.kind = "fresh", kind

    def say(self, kind, *parts):
        self.said.append(Said(kind, list(self.indents), *parts))

    def line(self, text):
        if text.endswith(" ") or self.stand != "example" and (not text or text.startswith(" ")):
            raise Refused("a blank at an end of a line")
        shown = glyphs(text)
        if self.stand == "front":
            raise Refused("a text before the title line")
        if self.stand == "fresh":
            self.say(self.kind, [], [shown], [], [[text]])
        elif self.stand == "tag":
            self.say("tagged", shown, [], [text], [])
            self.stand = "bodied"
            return
        elif self.stand in ("bodied", "broken"):
            self.said[-1].lines.append(shown)
            self.said[-1].written.append([text])
        elif self.stand == "filled":
            self.said[-1].lines[-1] += [(" ", "R"), *shown]
            self.said[-1].written[-1].append(text)
        else:
            self.said[-1].lines.append(shown)
            self.said[-1].written.append([text])
            return
        self.stand = "filled"

    def request(self, line):
        name, _, words = line.partition(" ")
        if line in PLAIN_REQUESTS:
            PLAIN_REQUESTS[line](self)
        elif name == ".RS" and words and set(words) <= set("0123456789"):
            self.indent(int(words))
        elif line.startswith((".SH ", ".SS ")):
            self.heading(name[1:], words)
        elif line.startswith(".SY "):
            self.synopsis(words)
        elif line.startswith(".TH "):
            self.title_line(words)
        else:
            raise Refused(f"a request {name}")

    def title_line(self, words):
        if self.stand != "front":
            raise Refused("two title lines")
        self.title = [glyphs(word, other=True) for word in words_of(words)]
        self.fresh()

    def heading(self, rank, words):
        self.need_open()
        if self.indents:
            raise Refused("a heading in an indent")
        if not all(words.split(" ")) or '"' in words:
            raise Refused("blanks or quotes in a heading")
        self.said.append(Said("heading", rank, glyphs(words), [], words.split(" "), []))
        self.fresh()

    def new_paragraph(self):
        self.need_open()
        self.fresh()

    def new_tagged(self):
        self.need_open()
        self.stand = "tag"

    def new_bulleted(self):
        self.need_open()
        self.say("bulleted", [], [], [], [])
        self.stand = "bodied"

    def new_continued(self):
        self.need_open()
        self.fresh("continued")

    def line_break(self):
        if self.stand != "filled":
            raise Refused("a break where no line is")
        self.stand = "broken"

    def indent(self, width=None):
        self.need_open()
        self.indents.insert(0, width)
        self.fresh()

    def outdent(self):
        self.need_open()
        if not self.indents:
            raise Refused("the end of no indent")
        self.indents.pop(0)
        self.fresh()

    def start_example(self):
        if (self.stand, self.kind) != ("fresh", "plain"):
            raise Refused("an example in the paragraph of a tag or an item")
        self.say("example", [], [], [], [])
        self.stand = "example"

    def end_example(self):
        if self.stand != "example":
            raise Refused("the end of no example")
        self.fresh()

    def synopsis(self, words):
        self.need_open()
        if self.indents:
            raise Refused("a synopsis in an indent")
        names = words_of(words)
        if len(names) != 1:
            raise Refused("a synopsis of no name or of more")
        self.say("synopsis", glyphs(names[0]), [], names, [])
        self.stand = "synopsis"

    def end_synopsis(self):
        if self.stand != "synopsis":
            raise Refused("the end of no synopsis")
        self.fresh()


PLAIN_REQUESTS = {
    ".PP": Reading.new_paragraph,
    ".TP": Reading.new_tagged,
    ".IP \\(bu 2": Reading.new_bulleted,
    ".IP": Reading.new_continued,
    ".br": Reading.line_break,
    ".RS": Reading.indent,
    ".RE": Reading.outdent,
    ".EX": Reading.start_example,
    ".EE": Reading.end_example,
    ".YS": Reading.end_synopsis,
}


def read(text):
    """The sheet that a text is read as."""
    if not text.endswith("\n"):
        raise Refused("the last line has no end")
    reading = Reading()
    for line in text[:-1].split("\n"):
        if line.startswith("."):
            reading.request(line)
        elif line.startswith("'"):
            raise Refused("a request of another kind")
        else:
            reading.line(line)
    reading.need_open()
    if reading.indents:
        raise Refused("an indent that does not end")
    return Sheet(reading.title, reading.said)
