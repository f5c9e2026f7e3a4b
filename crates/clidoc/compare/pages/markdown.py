"""A page in markdown, as CommonMark has it.

`arranged` is the page as blocks that follow one another, and `write` writes them. `keeps` is what a reader can give
back: an entry is an item that begins with its terms, usage and code have no styles, and nothing has an id.
"""
import re
import unicodedata
import urllib.parse

from pages.tree import element, is_a, joined, merged, plain

ALWAYS = set("\\`*[]<")
# What programs that make pages of a site look for before they read markdown.
BY_NUMBER = {"{": "&#123;"}
AT_FRONT = re.compile(r"[#+>=~-]|[0-9]+(?=[.)])")


# What stands on a page of markdown.


def arranged(page):
    """The blocks of all levels. After the first page everything except the names is one rank lower."""
    links, found = Links(page), []
    for number, level in enumerate(page.inside):
        rank = 3 if number else 2
        for part in level.inside:
            if is_a(part, "heading"):
                found.append(element("heading", *part.inside, rank=1))
            elif is_a(part, "usage"):
                found.append(element("code", "\n".join(map(form_line, part.inside))))
            elif is_a(part, "section") and (inside := beside(part.inside[1:], links.below)):
                found.append(element("heading", *part.child("heading").inside, rank=rank))
                found += [entry_list(child, links) if is_a(child, "entries") else child for child in inside]
            elif is_a(part, "about", "header"):
                found += part.inside
    return element("page", *[links.resolved(block) for block in merged(found)])


def beside(blocks, below):
    """Blocks without references to levels that stand on this page."""
    found = []
    for block in blocks:
        links = [node for node in block.inside if is_a(node, "reference")]
        near = [[link] for link in links if link.said["to"] not in below]
        if not links:
            found.append(block)
        elif near:
            found.append(element("paragraph", *joined(near, ", ")))
    return found


def form_line(form):
    return " ".join(plain(part.inside) for part in form.inside)


def entry_list(entries, links):
    return element("list", *[element("item", *entry_blocks(entry, links)) for entry in entries.inside], is_loose=True)


def entry_blocks(entry, links):
    """The terms, each in a span of its own, and the first paragraph after them. A name that holds `]:` is not a link: at
    the front of a line that would be the definition of a link."""
    terms = [[element("literal", plain(term.inside))] for term in entry.children("term")]
    if "to" in entry.said and "]:" not in entry.said["to"][-1]:
        terms[0] = [element("link", *terms[0], address=links.of_entry(entry.said["to"]))]
    line, blocks = joined(terms, ", "), entry.child("body").inside
    if blocks and is_a(blocks[0], "paragraph"):
        line, blocks = [*line, " \u2014 ", *blocks[0].inside], blocks[1:]
    return [element("paragraph", *line), *blocks]


class Links:
    """Where links to levels lead: those of entries to headings of this page or to the pages beside it, and others to these."""

    def __init__(self, page):
        self.below = [level.said["names"] for level in page.inside[1:]]

    def of_entry(self, names):
        return "#" + encoded(slug_of(" ".join(names))) if names in self.below else self.of_page(names)

    def of_page(self, names):
        return encoded("-".join(names)) + ".md"

    def resolved(self, node):
        """A node with links for its references."""
        if isinstance(node, str):
            return node
        inside = map(self.resolved, node.inside)
        if node.kind == "reference":
            return element("link", *inside, address=self.of_page(node.said["to"]))
        if node.kind == "link" and "{" in node.said["address"]:
            return plain(node.inside)
        return element(node.kind, *inside, **node.said)


def slug_of(title):
    """The id that sites give to a heading."""
    return "".join(
        "-" if letter == " " else letter
        for letter in title.lower()
        if letter in " -_" or unicodedata.category(letter)[0] in "LNM"
    )


def encoded(text):
    return urllib.parse.quote(text, safe="")


def keeps(page):
    return kept(arranged(page))


def kept(node):
    if isinstance(node, str):
        return node
    inside = list(map(kept, node.inside))
    if node.kind == "item" and not (inside and is_a(inside[0], "paragraph")):
        inside = [element("paragraph", *inside)]
    said = {key: each for key, each in node.said.items() if key in {"rank", "address"}}
    return element(node.kind, *merged(inside), **said)


# How it is written.


def is_letter(letter):
    return letter.isascii() and letter.isalnum()


def escapes(text, place, in_heading):
    """Whether a backslash stands before a letter, wherever its line begins."""
    letter, before, after = text[place], text[:place][-1:], text[place + 1 : place + 2]
    if letter == "_":
        return not (before and is_letter(before) and after and is_letter(after))
    if letter == "&":
        return after in ("", "#") or after.isascii() and after.isalpha()
    if letter == "!":
        return not after
    return letter in ALWAYS or in_heading and letter == "#"


def escaped(text, in_heading=False):
    marks = ("\\" if escapes(text, place, in_heading) else "" for place in range(len(text)))
    return "".join(mark + BY_NUMBER.get(letter, letter) for mark, letter in zip(marks, text))


def guarded(line):
    """A line that begins no block."""
    match = AT_FRONT.match(line)
    if not match:
        return line
    at = match.end() if match[0][0].isdigit() else 0
    return line[:at] + "\\" + line[at:]


def span(text):
    """A code span."""
    ticks = next("`" * count for count in range(1, len(text) + 2) if count not in map(len, re.findall("`+", text)))
    pad = " " if text[:1] in ("`", " ") or text[-1:] in ("`", " ") else ""
    return ticks + pad + text + pad + ticks


def shown(node):
    if isinstance(node, str):
        return escaped(node)
    if node.kind == "literal":
        return span(plain(node.inside))
    if node.kind == "break":
        return "\\\n"
    if node.said["address"] == plain(node.inside):
        return "<" + node.said["address"].replace("&", "&amp;") + ">"
    return f"[{''.join(map(shown, node.inside))}]({node.said['address']})"


def filled(nodes):
    """The lines of a paragraph or an item."""
    return [guarded(line) for line in "".join(map(shown, nodes)).split("\n")]


def code_lines(code):
    lines = plain(code.inside).split("\n")
    fence = "`" * max(3, *[len(run) + 1 for line in lines for run in re.findall("`+", line)], 0)
    return [fence, *lines, fence]


def item_lines(item, is_loose):
    lines = blocks_lines(item.inside) if is_loose else filled(item.inside)
    return [("  " if number else "- ") + line if line else "" for number, line in enumerate(lines)]


def block_lines(block):
    if is_a(block, "heading"):
        return ["#" * block.said["rank"] + " " + escaped(plain(block.inside), True)]
    if is_a(block, "code"):
        return code_lines(block)
    if is_a(block, "list"):
        is_loose = block.said.get("is_loose", False)
        groups = [item_lines(item, is_loose) for item in block.inside]
        return joined(groups, "") if is_loose else [line for group in groups for line in group]
    return filled(block.inside)


def blocks_lines(blocks):
    return joined(map(block_lines, blocks), "")


def write(page):
    return "\n".join(blocks_lines(arranged(page).inside)) + "\n"
