"""A page in the language of man(7).

`arranged` is the page as a manual page has it: its sections, with NAME, SYNOPSIS and DESCRIPTION in front. `write`
writes this, and `keeps` is what of it a reader can give back: no ids, targets and small letters in titles, texts for
links, and the terms of an entry in one line.
"""
import re

from pages.tree import element, is_a, joined, merged, one_line, plain

GLYPHS = {"-": "\\-", "\\": "\\e", "'": "\\(aq", "`": "\\(ga", "^": "\\(ha", "~": "\\(ti", '"': "\\(dq"}


# What stands on a manual page.


def arranged(page):
    first, *others = page.inside
    sections = [part for part in (top_section(page, first), *own_sections(page, first)) if part]
    for level in others:
        sections.append(element("section", level.child("heading"), *own_sections(page, level)))
    title = ["-".join(first.said["names"]), *[page.said[key] for key in ["section", "date", "vendor", "title"]]]
    return element("page", *sections, title=title)


def capital(section):
    """A section with its title in capitals. The names of a level are not a title."""
    return element("section", element("heading", plain(section.child("heading").inside).upper()), *section.inside[1:])


def named(page, key, *inside):
    return [capital(element("section", element("heading", page.said["words"][key]), *inside))] if inside else []


def top_section(page, level):
    """NAME: what tools that list manual pages read."""
    summary = level.child("summary").inside
    line = ["-".join(level.said["names"]), *([" - ", *summary] if summary else [])]
    return named(page, "name", element("paragraph", *line))[0]


def own_sections(page, level):
    """All except NAME. What NAME shows is not said again."""
    usage, about = level.children("usage"), level.child("about").inside
    if level is page.inside[0] and is_only(about, level.child("summary").inside):
        about = []
    description = merged(about + level.child("header").inside)
    return [
        *named(page, "synopsis", *usage),
        *named(page, "description", *description),
        *map(capital, level.children("section")),
    ]


def is_only(blocks, summary):
    """Whether blocks are a paragraph that says the same as a summary."""
    is_paragraph = len(blocks) == 1 and is_a(blocks[0], "paragraph")
    return is_paragraph and element("summary", *one_line(blocks[0].inside)).inside == summary


def keeps(page):
    return kept(arranged(page))


def kept(node):
    if isinstance(node, str):
        return node
    if node.kind == "heading":
        return element("heading", *node.inside)
    if node.kind == "names":
        return element("names", plain(node.inside))
    if node.kind == "entry":
        terms = joined([term.inside for term in node.children("term")], ", ")
        return element("entry", element("term", *map(kept, terms)), kept(node.child("body")))
    inside = [part for child in node.inside for part in kept_within(child)]
    return element(node.kind, *inside, **({"title": node.said["title"]} if node.kind == "page" else {}))


def kept_within(node):
    if is_a(node, "link"):
        return node.inside
    if is_a(node, "reference"):
        return [element("literal", *node.inside), f"({node.said['section']})"]
    return [kept(node)]


# How it is written.


def escaped(text, glyphs=GLYPHS):
    return "".join(glyphs.get(letter, letter) for letter in text)


def argument(text, is_quoted, glyphs=GLYPHS):
    """An argument of a request."""
    return f'"{escaped(text, glyphs)}"' if is_quoted else escaped(text, glyphs)


def word(text, glyphs=GLYPHS):
    return argument(text, not text or " " in text, glyphs)


def title(text):
    """A title. Where blanks would not be kept, no line breaks at them."""
    is_spaced = "  " not in text and text == text.strip(" ")
    return escaped(text) if is_spaced else escaped(text).replace(" ", "\\~")


def title_line(words):
    """The words of a title line have their dashes as they are: a date has some. groff takes `%` there for the number of the page."""
    return " ".join([".TH", *[word(text, {**GLYPHS, "-": "-", "%": "\\N'37'"}) for text in words]])


def guarded(line, is_code=False):
    """A line that is not a request, and keeps its blanks. Some readers of names drop most glyphs at the front of a line."""
    front = "\\&" if line.startswith((".", "\\(")) or not is_code and line[:1] in ("", " ") else ""
    return front + line + ("\\&" if line.endswith(" ") else "")


def has_letter(text):
    """Whether a text has a letter; any character that is not ASCII counts as one."""
    return any(letter.isalpha() or not letter.isascii() for letter in text)


def shown(node, keeps_whole=False):
    """What stands within a line. A literal with a letter is not hyphenated where it is kept whole."""
    if isinstance(node, str):
        return escaped(node)
    text = plain(node.inside)
    mark = "\\%" if keeps_whole and has_letter(text) else ""
    if node.kind == "reference":
        return f"\\fB{mark}{escaped(text)}\\fP({escaped(node.said['section'])})"
    return {
        "literal": f"\\fB{mark}{escaped(text)}\\fP",
        "value": f"\\fI{escaped(text)}\\fP",
        "link": escaped(text),
        "break": "\n",
    }[node.kind]


def last_letter(node):
    """The last letter that a part of a line shows, if it shows one."""
    if isinstance(node, str):
        return node[-1:]
    return {"reference": ")", "break": " "}.get(node.kind) or plain(node.inside)[-1:]


def filled(nodes, keeps_whole=True):
    """The input lines of a paragraph or an item. Within a word the sign that keeps one whole would make a hyphen."""
    written, last = "", " "
    for node in nodes:
        written += shown(node, keeps_whole and last == " ")
        last = last_letter(node) or last
    lines = written.split("\n")
    return joined([[guarded(line)] for line in lines], ".br")


def code_lines(code):
    return [".RS 4", ".EX", *[guarded(escaped(line), True) for line in plain(code.inside).split("\n")], ".EE", ".RE"]


def list_lines(items):
    return [line for item in items.inside for line in [".IP \\(bu 2", *filled(item.inside)]]


def block_lines(block, is_first):
    """A block directly in a section."""
    if is_a(block, "list"):
        return list_lines(block)
    mark = [] if is_first else [".PP"]
    return mark + (code_lines(block) if is_a(block, "code") else filled(block.inside))


def body_lines(blocks):
    found = []
    for number, block in enumerate(blocks):
        if is_a(block, "paragraph"):
            found += ([".IP"] if number else []) + filled(block.inside)
        else:
            inside = list_lines(block) if is_a(block, "list") else [".PP", *code_lines(block)]
            found += [".RS", *inside, ".RE"]
    return found


def entry_lines(entry):
    terms = joined([term.inside for term in entry.children("term")], ", ")
    return [".TP", *filled(terms, False), *body_lines(entry.child("body").inside)]


def ends_sentence(text):
    """Whether a text ends with a stop, and what may close after one."""
    return re.search(r"[.?!][)\]\"'* \u0080-\U0010ffff]*\Z", text) is not None


def part_line(part):
    """A part of a usage: it is broken at no blank, and ends no sentence."""
    line = "".join(map(shown, part.inside)).replace(" ", "\\~")
    return guarded(line + "\\&" if ends_sentence(plain(part.inside)) else line)


def usage_lines(usage):
    found = []
    for form in usage.inside:
        names = plain(form.child("names").inside)
        found += [f".SY {word(names)}", *map(part_line, form.children("part")), ".YS"]
    return found


def section_lines(section, request=".SH"):
    heading = plain(section.child("heading").inside)
    found, is_first = [f"{request} {title(heading)}"], True
    for part in section.inside[1:]:
        if is_a(part, "section"):
            found += section_lines(part, ".SS")
        elif is_a(part, "usage"):
            found += usage_lines(part)
        elif is_a(part, "entries"):
            found += [line for entry in part.inside for line in entry_lines(entry)]
        else:
            found += block_lines(part, is_first)
        is_first = False
    return found


def write(page):
    tree = arranged(page)
    lines = [title_line(tree.said["title"]), *[line for section in tree.inside for line in section_lines(section)]]
    return "\n".join(lines) + "\n"
