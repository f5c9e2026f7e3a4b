"""A page on the console: its usage, or the whole page in full or in brief, at a width."""
import itertools
import re

from pages.columns import columns
from pages.level import without_references
from pages.tree import is_a, plain

WIDEST_TERM = 24


def filled(text, width):
    """The lines of a text that are as full as the width lets them be. A newline in it begins a line."""
    page, column = "", 0
    for piece in re.findall(r"\n| |[^ \n]+", text):
        if piece == "\n":
            page, column = page + "\n", 0
            continue
        size = columns(piece)
        if page and column + size > width:
            page, column = page.rstrip() + "\n", 0
            if piece == " ":
                continue
        page, column = page + piece, column + size
    return page.split("\n")


def letters(nodes):
    """The letters of what stands within a line; a line break is a newline."""
    return "".join("\n" if is_a(node, "break") else plain([node]) for node in nodes)


def prefixed(first, others, lines):
    """The lines, the first with one prefix and each further one with a second. An empty line has no prefix."""
    return [(others if number else first) + line if line else "" for number, line in enumerate(lines)]


def block_lines(block, width):
    if is_a(block, "code"):
        return prefixed("    ", "    ", plain(block.inside).split("\n"))
    if is_a(block, "list"):
        return [
            line for item in block.inside for line in prefixed("- ", "  ", filled(letters(item.inside), room(width, 2)))
        ]
    return filled(letters(block.inside), width)


def room(width, taken):
    return max(width - taken, 0)


def blocks_lines(blocks, width):
    """Blocks with an empty line between two."""
    return [
        line for number, block in enumerate(blocks) for line in ([""] if number else []) + block_lines(block, width)
    ]


def term_text(entry):
    """The terms of an entry, a lone long name indented as far as one after a short name."""
    text = ", ".join(plain(term.inside) for term in entry.children("term"))
    return "    " + text if text.startswith("--") else text


def help_column(level):
    """The column of each help: two after the widest term that is not too wide."""
    widths = [
        columns(term_text(entry))
        for section in level.children("section")
        for entries in section.children("entries")
        for entry in entries.inside
    ]
    return 4 + max([width for width in widths if width <= WIDEST_TERM], default=0) + 2


def entry_lines(entry, column, width):
    term, blocks = "    " + term_text(entry), entry.child("body").inside
    lines = blocks_lines(blocks, room(width, column))
    if not lines:
        return [term]
    margin, before = " " * column, term + " " * max(column - columns(term), 2)
    is_beside = lines[0] and (columns(before) == column or columns(lines[0]) <= room(width, columns(before)))
    return prefixed(before, margin, lines) if is_beside else [term, *prefixed(margin, margin, lines)]


def entries_lines(entries, column, width):
    """Entries. An empty line follows one of several blocks, if there is another one."""
    found, is_parted = [], False
    for entry in entries:
        found += ([""] if is_parted else []) + entry_lines(entry, column, width)
        is_parted = len(entry.child("body").inside) > 1
    return found


def section_lines(section, column, width):
    found = [plain(section.child("heading").inside) + ":"]
    for entries in section.children("entries"):
        found += entries_lines(entries.inside, column, width)
    return found + prefixed("    ", "    ", blocks_lines(section.children("paragraph", "code", "list"), room(width, 4)))


def at_bars(piece):
    """A part cut after its outermost bars, without white space at the ends."""
    depths = list(itertools.accumulate((letter in "[({<") - (letter in "])}>") for letter in piece))
    bars = [(depth, place) for place, depth in enumerate(depths) if piece.startswith("| ", place)]
    cuts = [place + 1 for depth, place in bars if depth == min(bars)[0]]
    return [piece[start:end].strip() for start, end in zip([0, *cuts], [*cuts, len(piece)])]


def pieces(part, width):
    """What of a part is not broken: the whole if it fits, else what its outermost bars separate, else what blanks separate."""
    found = [part]
    for cut in [at_bars, lambda piece: piece.split(" ")]:
        found = [small for piece in found for small in ([piece] if columns(piece) <= width else cut(piece))]
    return [piece for piece in found if piece]


def form_lines(form, before, width):
    """A form after a number of columns. Other lines begin under its first part, or four columns in where the widest
    does not fit there."""
    names, parts = plain(form.child("names").inside), [plain(part.inside) for part in form.children("part")]
    column = before + columns(names) + 1
    if max(map(columns, parts), default=0) > room(width, column):
        column = 4
    whole = [piece for part in parts for piece in pieces(part, room(width, column))]
    lines, at = [names], before + columns(names)
    for piece in whole:
        if at + 1 + columns(piece) > width and at > column:
            lines, at = [*lines, " " * column + piece], column + columns(piece)
        else:
            lines[-1], at = f"{lines[-1]} {piece}", at + 1 + columns(piece)
    return lines


def usage_lines(usage, word, width):
    """The forms of a usage, the first after a word and the others under it."""
    found = []
    for form in usage.inside:
        lines = form_lines(form, columns(word), width)
        found += prefixed(" " * columns(word) if found else word, "", lines)
    return found


def usage(page, width):
    lines = usage_lines(page.inside[0].child("usage"), "", width)
    return "\n".join(lines) + "\n" if lines else ""


def whole(page, width):
    """The page of the first level. Its title is not shown."""
    level, word = without_references(page).inside[0], page.said["words"]["usage"]
    column = help_column(level)
    parts = [
        blocks_lines(level.child("about").inside, width),
        usage_lines(level.child("usage"), word + ": ", width),
        blocks_lines(level.child("header").inside, width),
        *[section_lines(section, column, width) for section in level.children("section")],
    ]
    shown = ["\n".join(part) for part in parts if part]
    return "\n\n".join(shown) + "\n" if shown else ""
