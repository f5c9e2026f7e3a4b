"""The blocks of a text: fences, code, lists and paragraphs, and in these literals and links."""
import itertools
import re

from pages.tree import element

FENCE = re.compile(r"```+[^`]*")
ITEM = re.compile(r" {0,3}- [ \t]*[^ \t].*")
# A backquote that stands beside no other one.
SINGLE = re.compile(r"(?<!`)`(?!`)")
# Printable ASCII except blanks, `<`, `>` and backquotes.
LINK = re.compile(r"<(https?://[!-;=?-_a-~]+)>")


def lines_of(text):
    """The lines. A tab at the front of one counts as a blank."""
    return [re.sub(r"^[ \t]+", lambda front: " " * len(front[0]), line) for line in text.split("\n")]


def is_blank(line):
    return not line.strip(" \t")


def is_fence(line):
    return FENCE.fullmatch(line) is not None


def is_code(line):
    return line.startswith("    ") and not is_blank(line)


def is_item(line):
    return ITEM.fullmatch(line) is not None


def is_plain(line):
    return not (is_blank(line) or is_fence(line) or is_code(line) or is_item(line))


def blocks(text):
    """The blocks of a text, or of none."""
    found, lines = [], lines_of(text or "")
    while lines:
        first = lines[0]
        kind = next(
            kind
            for fits, kind in [
                (is_blank, blank),
                (is_fence, fence),
                (is_code, code),
                (is_item, items),
                (is_plain, paragraph),
            ]
            if fits(first)
        )
        some, taken = kind(lines)
        found += some
        lines = lines[taken:]
    return found


def blank(_):
    return [], 1


def fence(lines):
    """The lines up to the next that begins with three backquotes. No lines are nothing."""
    inside = list(itertools.takewhile(lambda line: not line.startswith("```"), lines[1:]))
    return [element("code", "\n".join(inside))] if inside else [], len(inside) + 2


def code(lines):
    """Lines that begin with four blanks, and blank ones between them."""
    near = list(itertools.takewhile(lambda line: is_code(line) or is_blank(line), lines))
    taken = max(place for place, line in enumerate(near) if is_code(line)) + 1
    return [element("code", "\n".join("" if is_blank(line) else line[4:] for line in near[:taken]))], taken


def items(lines):
    """Items that follow one another, blank lines between them or not."""
    found, place, taken = [], 0, 0
    while place < len(lines) and is_item(lines[place]):
        more = list(itertools.takewhile(is_plain, lines[place + 1 :]))
        first = lines[place].lstrip(" ")[2:]
        found.append(element("item", *within([first, *(line.lstrip(" ") for line in more)])))
        place = taken = place + 1 + len(more)
        while place < len(lines) and is_blank(lines[place]):
            place += 1
    return [element("list", *found)], taken


def paragraph(lines):
    own = list(itertools.takewhile(is_plain, lines))
    return [element("paragraph", *within(own))], len(own)


def within(lines):
    """What stands within the lines. One that begins with a blank, except the first, begins on a new line."""
    parts = []
    for number, line in enumerate(lines):
        if number:
            parts.append(("text", "\n" if line.startswith(" ") else " "))
        parts += line_parts(line)
    return [shown(kind, text) for kind, text in spaced(parts)]


def line_parts(line):
    """The kinds and texts of a line: literals, links and texts."""
    cut = SINGLE.split(line)
    if len(cut) % 2 == 0:
        cut[-2:] = ["`".join(cut[-2:])]
    text, parts = "", []
    for number, piece in enumerate(cut):
        if number % 2 == 0:
            text += piece
        elif is_blank(piece):
            text += f"`{piece}`"
        else:
            parts += [*links(text), ("literal", piece)]
            text = ""
    return parts + links(text)


def links(text):
    return [("link" if number % 2 else "text", piece) for number, piece in enumerate(LINK.split(text))]


def spaced(parts):
    """A run of blanks becomes one: that of a text stays rather than that of a literal. None stands at the ends
    or beside a line break."""
    places = [
        (kind, number, " " if letter == "\t" else letter)
        for number, (kind, text) in enumerate(parts)
        for letter in text
    ]
    runs = [(is_space, list(run)) for is_space, run in itertools.groupby(places, key=lambda place: place[2] in " \n")]
    kept = []
    for number, (is_space, run) in enumerate(runs):
        if not is_space:
            kept += run
        elif 0 < number < len(runs) - 1:
            breaks = [place for place in run if place[2] == "\n"]
            kept += (breaks or [place for place in run if place[0] == "text"] or run)[:1]
    for (kind, _), run in itertools.groupby(kept, key=lambda place: place[:2]):
        yield kind, "".join(place[2] for place in run)


def shown(kind, text):
    if kind == "link":
        return element("link", text, address=text)
    if kind == "literal":
        return element("literal", text)
    return element("break") if text == "\n" else text
