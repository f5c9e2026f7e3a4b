"""Reads a manual page, by the requests and escapes of man(7) that one may have. Otherwise it raises `Refused`."""
import re

from pages.tree import element

ESCAPE = re.compile(
    r"\\(?:\((?P<glyph>..)|N'(?P<code>37)'|f(?P<font>[BIP])|(?P<one>[-e&%~]))|(?P<letter>[^\\])", re.DOTALL
)
GLYPHS = {"aq": "'", "ga": "`", "ha": "^", "ti": "~", "dq": '"', "bu": "\u2022"}
ONES = {"-": "-", "e": "\\", "&": "", "%": "", "~": " "}
FONTS = {"B": "literal", "I": "value"}


class Refused(Exception):
    """What is not read."""


class Lines:
    """The lines of a page, each a request with its arguments or a text."""

    def __init__(self, text):
        if not text.endswith("\n"):
            raise Refused("the last line has no end")
        self.rest = [request(line) or line for line in text[:-1].split("\n")]

    def next(self):
        if not self.rest:
            raise Refused("the page ends")
        return self.rest.pop(0)

    def is_at(self, *requests):
        """Whether the next line is one of these requests."""
        return bool(self.rest) and isinstance(self.rest[0], tuple) and self.rest[0][0] in requests

    def is_at_text(self):
        return bool(self.rest) and isinstance(self.rest[0], str)

    def take(self, *wanted):
        """A request with just these arguments."""
        found = self.next()
        if found != wanted:
            raise Refused(f"{found}, not {wanted}")


def request(line):
    """The name of a request and its arguments, where the line is one."""
    if not line.startswith((".", "'")):
        return None
    match = re.fullmatch(r"\.([A-Za-z]+)((?: +(?:\"[^\"]*\"|[^ \"]+))*)", line)
    if not match:
        raise Refused(f"no request: {line}")
    words = re.findall(r" +(?:\"([^\"]*)\"|([^ \"]+))", match[2])
    return match[1], *[letters(quoted or bare) for quoted, bare in words]


def letters(text):
    """The letters of a text in one font."""
    parts = list(within(text))
    if not all(isinstance(part, str) for part in parts):
        raise Refused(f"a font in {text}")
    return "".join(parts)


def letter_of(match):
    if match["code"]:
        return chr(int(match["code"]))
    return match["letter"] or (GLYPHS[match["glyph"]] if match["glyph"] else ONES[match["one"]])


def within(text):
    """What stands within a line: texts, and what is bold or italic."""
    font, inside, at, last = None, [], 0, " "
    for match in ESCAPE.finditer(text):
        if match.start() != at:
            break
        at = match.end()
        if match["one"] == "%" and last != " ":
            raise Refused(f"a place to hyphenate in a word: {text}")
        if match["font"] and (match["font"] == "P") != bool(font):
            raise Refused(f"a font in a font, or the end of none: {text}")
        if match["font"] == "P":
            yield element(font, *inside)
            font, inside = None, []
        elif match["font"]:
            font = FONTS[match["font"]]
        else:
            letter = letter_of(match)
            last = letter or last
            if font:
                inside.append(letter)
            else:
                yield letter
    if at != len(text) or font:
        raise Refused(f"an escape in {text}")


def filled(lines):
    """A paragraph or an item: a line, and after each `.br` one more."""
    inside = list(within(filled_line(lines)))
    while lines.is_at("br"):
        lines.take("br")
        inside += [element("break"), *within(filled_line(lines))]
    return inside


def text_line(lines):
    if not lines.is_at_text():
        raise Refused(f"no text: {lines.rest[:1]}")
    return lines.next()


def filled_line(lines):
    """A line that is filled. One that is empty or begins with a blank would break the one before."""
    line = text_line(lines)
    if not line or line.startswith(" "):
        raise Refused(f"a break in a text: {line}")
    return line


def code(lines):
    for wanted in [("RS", "4"), ("EX",)]:
        lines.take(*wanted)
    found = []
    while not lines.is_at("EE"):
        found.append(letters(text_line(lines)))
    for wanted in [("EE",), ("RE",)]:
        lines.take(*wanted)
    return element("code", "\n".join(found))


def list_of(lines):
    found = []
    while lines.is_at("IP"):
        lines.take("IP", "\u2022", "2")
        found.append(element("item", *filled(lines)))
    return element("list", *found)


def blocks(lines):
    """Blocks, up to a request that is not one of theirs."""
    found = []
    while lines.is_at_text() or lines.is_at("PP", "IP", "RS"):
        if lines.is_at("IP"):
            found.append(list_of(lines))
            continue
        if lines.is_at("PP"):
            lines.take("PP")
        elif found and lines.is_at_text():
            raise Refused("a text after a block")
        found.append(code(lines) if lines.is_at("RS") else element("paragraph", *filled(lines)))
    return found


def body(lines):
    """What is said of an entry."""
    found = [element("paragraph", *filled(lines))] if lines.is_at_text() else []
    while lines.is_at("IP", "RS"):
        if lines.is_at("IP"):
            lines.take("IP")
            found.append(element("paragraph", *filled(lines)))
        else:
            lines.take("RS")
            found += blocks(lines)
            lines.take("RE")
    return element("body", *found)


def entries(lines):
    found = []
    while lines.is_at("TP"):
        lines.take("TP")
        found.append(element("entry", element("term", *filled(lines)), body(lines)))
    return element("entries", *found)


def usage(lines):
    found = []
    while lines.is_at("SY"):
        _, *names = lines.next()
        parts = []
        while not lines.is_at("YS"):
            parts.append(element("part", *within(filled_line(lines))))
        lines.take("YS")
        found.append(element("form", element("names", *names), *parts))
    return element("usage", *found)


def section(lines, name="SH"):
    """A section, and in it those below."""
    asked, *words = lines.next()
    if asked != name:
        raise Refused(f"{asked}, not {name}")
    found = [element("heading", " ".join(words))]
    ends = ["SH"] if name == "SH" else ["SH", "SS"]
    while lines.rest and not lines.is_at(*ends):
        found += parts_of_section(lines)
    return element("section", *found)


def parts_of_section(lines):
    for name, read_part in [("TP", entries), ("SY", usage), ("SS", lambda rest: section(rest, "SS"))]:
        if lines.is_at(name):
            return [read_part(lines)]
    found = blocks(lines)
    if not found:
        raise Refused(f"{lines.rest[0]} in a section")
    return found


def read(text):
    """The tree of a page, as `man.keeps` gives it."""
    lines = Lines(text)
    asked, *title = lines.next()
    if asked != "TH":
        raise Refused("no title line")
    found = []
    while lines.rest:
        found.append(section(lines))
    return element("page", *found, title=title)
