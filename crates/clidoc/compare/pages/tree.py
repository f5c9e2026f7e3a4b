"""A page as nested data.

| Element | Holds | What is said of it |
|---|---|---|
| page | levels, that of the page first | the words of the title line, the language, the fixed words |
| level | heading, summary, about, usage, header, sections | id, the names that lead there |
| heading | text | id, where links lead to it |
| summary | what stands within a line | |
| about, header | blocks | |
| usage | forms | |
| form | names, and then parts: each what stands within a line | |
| section | heading, and then entries or blocks | |
| entries | entries: each its terms, and a body of blocks | id, or the names of the command that the entry leads to |
| paragraph, term | what stands within a line | |
| code | text, its lines with newlines between them | |
| list | items: each what stands within a line | |

Blocks are paragraphs, code and lists. Within a line stand texts, literals and values, which hold text, links with an
address, line breaks, and references: a link to the page of a level, which has its names and the section of the
manual.
"""
import typing


class Piece(str):
    """A text that is not joined to those beside it. In markdown, escapes at its end allow for what may follow."""


class Element(typing.NamedTuple):
    kind: str
    said: dict
    inside: list

    def child(self, kind):
        """The element of this kind that it holds, or an empty one."""
        return next((child for child in self.inside if is_a(child, kind)), Element(kind, {}, []))

    def children(self, *kinds):
        return [child for child in self.inside if is_a(child, *kinds)]


def is_a(node, *kinds):
    return isinstance(node, Element) and node.kind in kinds


def element(kind, *inside, **said):
    """An element. Texts that are neighbours are one, except pieces, and an empty one is nothing."""
    whole = []
    for child in inside:
        if type(child) is str and whole and type(whole[-1]) is str:
            whole[-1] += child
        elif child != "":
            whole.append(child)
    return Element(kind, {key: value for key, value in said.items() if value is not None}, whole)


def plain(nodes):
    """The letters of what stands within a line. A line break is a blank."""
    return "".join(
        node if isinstance(node, str) else " " if node.kind == "break" else plain(node.inside) for node in nodes
    )


def without_pieces(node):
    """The same, in which pieces are joined to the texts beside them."""
    if isinstance(node, str):
        return str(node)
    return element(node.kind, *map(without_pieces, node.inside), **node.said)


def one_line(nodes):
    """What stands within a line, with blanks for line breaks, and without the full stop at its end, unless another is before it."""
    inside = [" " if is_a(node, "break") else node for node in nodes]
    if inside and isinstance(inside[-1], str) and not inside[-1].endswith(".."):
        inside[-1] = inside[-1].removesuffix(".").rstrip(" ")
    return inside


def joined(groups, between):
    """The groups one after another, with a text between two."""
    whole = []
    for group in groups:
        whole += [between, *group] if whole else group
    return whole


def merged(blocks):
    """Blocks in which two lists that follow one another are one."""
    whole = []
    for block in blocks:
        if is_a(block, "list") and whole and is_a(whole[-1], "list"):
            whole[-1] = element("list", *whole[-1].inside, *block.inside)
        else:
            whole.append(block)
    return whole
