"""Reads markdown as CommonMark says, as far as a page is written in it. Otherwise it raises `Refused`.

| CommonMark | In cmark's XML | Tree |
|---|---|---|
| document | `document` | page |
| heading, its level | `heading`, `level` | heading, its rank |
| paragraph | `paragraph` | paragraph |
| fenced code without an info string | `code_block` | code: its text without the newline at the end |
| list of items with `-`, tight or loose; an item | `list`, `item` | list, item |
| text, code span, hard break | `text`, `code`, `linebreak` | text, literal, break |
| link, autolink, and the destination | `link`, `destination` | link, its address |

An entry of a list is an item: its terms are the code spans at its front, with a comma and a blank between two, and
after them stands ` \u2014 ` and the first paragraph of what is said of it. A usage is code.

Not read, since none is written: indented code, setext headings, thematic breaks, quotes, numbered lists, HTML,
emphasis, images, link references, entities except `&#32;`, `&#123;`, and `&amp;` in an autolink, paragraphs that continue
in a second line without a hard break, and control characters except tabs and newlines.
"""
import re

from pages.tree import element

PUNCTUATION = r"!-/:-@\[-`{-~"
INLINE = re.compile(
    rf"\\(?P<escaped>[{PUNCTUATION}])|(?P<ticks>`+)|<(?P<auto>https?:[^\x00-\x20<>]*)>|"
    r"&#(?P<number>32|123);|(?P<open>\[)|(?P<letter>[^\\`<\[])",
    re.DOTALL,
)
ADDRESS = re.compile(r"\]\(([^\s()]*)\)")
HEADING = re.compile(r"(#{1,6}) (.*)")
FENCE = re.compile(r"(```+)([^`]*)")
# Begins a block that no page has.
OTHER = re.compile(r"[+*>=~]|<(?!https?:)|\t|    |\[(?:\\.|[^\[\]\\])+\]:|#|-[ -]|[0-9]{1,9}[.)]|_{3}|```+[^`]*$")
# CommonMark ends a line at a carriage return too, and has U+FFFD for a NUL.
CONTROL = re.compile(r"[\x00-\x08\x0b-\x1f\x7f]")


class Refused(Exception):
    """What is not read."""


def read(text):
    """The tree of a page, as `markdown.keeps` gives it."""
    if CONTROL.search(text):
        raise Refused("a control character")
    return element("page", *blocks(text.split("\n")))


def blocks(lines):
    found, at = [], 0
    while at < len(lines):
        if not lines[at]:
            at += 1
            continue
        reader = (
            heading
            if HEADING.fullmatch(lines[at])
            else fence
            if FENCE.fullmatch(lines[at])
            else list_of
            if lines[at].startswith("- ")
            else paragraph
        )
        block, at = reader(lines, at)
        found.append(block)
    return found


def heading(lines, at):
    marks, text = HEADING.fullmatch(lines[at]).groups()
    if re.search(r"(^| )#+ *$", text):
        raise Refused(f"a heading that is closed: {text}")
    return element("heading", *within(text), rank=len(marks)), at + 1


def fence(lines, at):
    ticks, info = FENCE.fullmatch(lines[at]).groups()
    end = next((place for place in range(at + 1, len(lines)) if is_close(lines[place], ticks)), None)
    if info or end is None:
        raise Refused("a fence that is not closed, or has an info string")
    return element("code", "\n".join(lines[at + 1 : end])), end + 1


def is_close(line, ticks):
    return re.fullmatch(rf" {{0,3}}`{{{len(ticks)},}} *", line) is not None


def list_of(lines, at):
    """Items: lines that begin with `- `, and those below that are indented by two columns, or empty before such."""
    found = []
    while at < len(lines) and lines[at].startswith("- "):
        own, at = [lines[at][2:]], at + 1
        while at < len(lines) and (lines[at].startswith("  ") or not lines[at]):
            own.append(lines[at][2:])
            at += 1
        found.append(element("item", *blocks(own)))
    return element("list", *found), at


def paragraph(lines, at):
    """A line, and the next one where it ends in a hard break."""
    found, start = [], at
    while True:
        if OTHER.match(lines[at]):
            raise Refused(f"another block: {lines[at]}")
        ends = re.search(r"(?:^|[^\\])(?:\\\\)*\\$", lines[at]) is not None
        found += within(lines[at].removesuffix("\\") if ends else lines[at])
        at += 1
        if not ends:
            break
        if at == len(lines) or not lines[at]:
            raise Refused("a hard break at the end")
        found.append(element("break"))
    if at < len(lines) and lines[at] and not lines[at].startswith("- ") and start < at:
        raise Refused(f"a line goes on: {lines[at]}")
    return element("paragraph", *found), at


def within(text):
    """What stands within a line."""
    return element("", *inline(text, 0, False)[0]).inside


def inline(text, at, in_link):
    """What follows a place, in a link up to the bracket that closes its text, and where that ends."""
    found = []
    while at < len(text) and not (in_link and text[at] == "]"):
        match = INLINE.match(text, at)
        if not match:
            raise Refused(f"no text: {text[at:]}")
        if match["ticks"]:
            node, at = span(text, match)
        elif match["open"]:
            node, at = link(text, match.end(), in_link)
        else:
            node, at = auto(match["auto"]) if match["auto"] else bare(match, text), match.end()
        found.append(node)
    return found, at


def span(text, ticks):
    """A code span, up to the next run of as many backquotes."""
    end = re.compile(rf"(?<!`){ticks[0]}(?!`)").search(text, ticks.end())
    if not end:
        raise Refused(f"a span that is not closed: {text}")
    return element("literal", unpadded(text[ticks.end() : end.start()])), end.end()


def link(text, at, in_link):
    inside, at = inline(text, at, True)
    address = ADDRESS.match(text, at)
    if in_link or not address:
        raise Refused(f"a bracket that means more: {text}")
    return element("link", *inside, address=address[1]), address.end()


def auto(text):
    address = text.replace("&amp;", "&")
    return element("link", address, address=address)


def unpadded(text):
    """A span that begins and ends with a blank has one more at each end."""
    return text[1:-1] if text.startswith(" ") and text.endswith(" ") and text.strip(" ") else text


def bare(match, text):
    """A letter that stands for itself, or its number."""
    if match["number"]:
        return chr(int(match["number"]))
    letter, before, after = match["letter"], text[: match.start()][-1:], text[match.end() :][:1]
    is_intraword = before.isalnum() and after.isalnum()
    is_entity = letter == "&" and re.match(r"[#A-Za-z]", after)
    if letter in ("*", "]") or is_entity or letter == "_" and not is_intraword:
        raise Refused(f"a letter that means more: {text[match.start():]}")
    return match["escaped"] or letter
