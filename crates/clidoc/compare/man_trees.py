#!/usr/bin/env python3
"""Compares what the reader of manual pages reads with what `mandoc` makes of the same.

    compare/man_trees.py [COUNT [FOLDER..]]

Takes pages of others' making: each manual page below the folders (`/usr/share/man`), its sections, and its paragraphs and
entries, these after a title line of their own, since few whole pages are of the language that a page is written in; and
COUNT random rows of requests and lines (20,000).

What `sheet_reader` reads, which is `specs/Reader` of `man_page` as a program, has to be what `mandoc -T tree` has:
headings, paragraphs with their tags and bullets, examples and synopses, in the same indents, with the same lines. Its
letters, with their fonts, have to be those of `mandoc -T html`.

Prints how many of each are read and what is in them, how many differ, and the first that differs. Ends with status 1
where one does.
"""
import collections
import concurrent.futures
import gzip
import html.parser
import pathlib
import random
import re
import subprocess
import sys

sys.dont_write_bytecode = True

import sheet_reader

from sheet_reader import Refused

FOLDERS = ["/usr/share/man"]
ROWS = [
    ".PP", ".TP", ".IP", ".IP \\(bu 2", ".RS", ".RS 4", ".RS 12", ".RE", ".EX", ".EE", ".br", ".SH A B", ".SS C", ".SY x", ".SY \"x y\"", ".YS",
    "a", "b c", "\\fBx\\fP y", "\\fI\\-x\\fP\\~y\\&", "\\&.z", "\\(aqq\\(dq \\(ha\\(ti\\(ga", "\\%\\-\\-a \\%b\\e", " d", "", "f\tg", ".", "'",
]
TITLE = ".TH a 1 2026-01-01 b c\n"
SECTION = re.compile(r"(?m)^(?=\.S[HS] )")
PART = re.compile(r"(?m)^(?=\.(?:S[HS] |PP$|TP$|IP$|IP \\\(bu 2$|SY |RS))")
NODE = re.compile(r"(?P<at> *)(?P<text>.*) \((?P<kind>root|block|head|body|elem|text|comment)\) \*?\d+:\d+.*")
# How a tree spells what is not ASCII.
LETTER = re.compile(r"\\\[u([0-9A-F]{4,6})\]")
FONTS = {"b": "B", "i": "I"}


# ---- pages of others


def text_of(path):
    try:
        data = path.read_bytes()
        return (gzip.decompress(data) if path.suffix == ".gz" else data).decode()
    except (OSError, EOFError, UnicodeDecodeError, gzip.BadGzipFile):
        return None


def given(count, folders):
    """What is read: of each page itself, its sections, and its parts, each once; and random rows."""
    chances = random.Random(1)
    for _ in range(count):
        yield "rows", TITLE + "".join(f"{chances.choice(ROWS)}\n" for _ in range(chances.randint(1, 7)))
    seen = set()
    for folder in folders:
        for path in sorted(path for path in pathlib.Path(folder).rglob("*.[0-9]*") if not path.is_symlink()):
            text = text_of(path)
            if text is None:
                continue
            yield "pages", text
            for kind, cut in ("sections", SECTION), ("parts", PART):
                for piece in cut.split(text)[1:]:
                    if piece not in seen:
                        seen.add(piece)
                        yield kind, TITLE + piece


# ---- what mandoc makes of a text


def mandoc(form, text):
    return subprocess.run(["mandoc", "-Kutf-8", "-T", *form], input=text.encode(), capture_output=True, check=False).stdout.decode()


def letter_of(match):
    return chr(int(match[1], 16))


class Node:
    def __init__(self, kind, text):
        self.kind, self.text, self.inside = kind, text, []

    def child(self, kind):
        return next((node for node in self.inside if node.kind == kind), None)

    def texts(self):
        return [node.text for node in self.inside if node.kind == "text"]


def tree(text):
    """The tree of `mandoc -T tree`. A text is indented by four columns from what it is in, and may begin with blanks."""
    top = Node("root", "")
    open_nodes = [(-4, top)]
    for line in mandoc(["tree"], text).split("\n\n", 1)[1].splitlines():
        match = NODE.fullmatch(line)
        if not match:
            raise ValueError(f"no line of a tree: {line!r}")
        column = len(match["at"])
        if match["kind"] == "text":
            # A text may look as if it stood deeper: it is in the last open node that is not an element.
            while open_nodes[-1][1].kind in ("elem", "block") or column < open_nodes[-1][0] + 4:
                open_nodes.pop()
            start = open_nodes[-1][0] + 4
            open_nodes[-1][1].inside.append(Node("text", LETTER.sub(letter_of, line[start : match.end("text")])))
            continue
        while column <= open_nodes[-1][0]:
            open_nodes.pop()
        node = Node(match["kind"], match["text"])
        open_nodes[-1][1].inside.append(node)
        open_nodes.append((column, node))
    return top


class Sayings:
    """The headings, paragraphs, examples and synopses of a tree, each as `spelled` has them."""

    def __init__(self):
        self.said, self.indents, self.last = [], [], None

    def say(self, kind, place, front, *lines):
        self.said.append((kind, place, front, list(lines)))

    def take(self, nodes, kind="plain"):
        """What stands in a block. The first text begins a paragraph of this kind, unless one with a tag or a bullet has
        begun: then it is of that."""
        self.last = "begun" if kind is None else None
        for node in nodes:
            if node.kind == "text":
                self.line(node.text, kind)
            elif node.kind == "elem":
                self.element(node.text, kind)
            else:
                self.block(node)
                self.last, kind = None, "plain"

    def line(self, text, kind):
        if self.last == "line":
            self.said[-1][3][-1].append(text)
        elif self.last is None:
            self.say(kind, list(self.indents), [], [text])
        else:
            self.said[-1][3].append([text])
        self.last = "example" if self.last == "example" else "line"

    def element(self, name, kind):
        if name == "br":
            self.last = "break"
        elif name == "EX" and kind == "plain":
            self.say("example", list(self.indents), [])
            self.last = "example"
        elif name == "EE":
            self.last = None
        elif name != "YS":
            raise ValueError(f"an element {name}")

    def block(self, node):
        words, body = node.child("head").texts(), node.child("body")
        inside = body.inside if body else []
        if node.text in ("SH", "SS"):
            self.say("heading", node.text, words)
            self.take(inside)
        elif node.text == "PP":
            self.take(inside)
        elif node.text == "TP":
            self.say("tagged", list(self.indents), words)
            self.take(inside, None)
        elif node.text == "IP" and words:
            self.say("bulleted", list(self.indents), [])
            self.take(inside, None)
        elif node.text == "IP":
            self.take(inside, "continued")
        elif node.text == "RS":
            self.indents.insert(0, int(words[0]) if words else None)
            self.take(inside)
            self.indents.pop(0)
        elif node.text == "SY":
            self.say("synopsis", list(self.indents), words, *([text] for text in body.texts()))
        else:
            raise ValueError(f"a block {node.text}")


def sayings(text):
    found = Sayings()
    found.take(tree(text).inside)
    return found.said


class Letters(html.parser.HTMLParser):
    """The letters of a page with their fonts, without blanks."""

    def __init__(self):
        super().__init__()
        self.found, self.fonts, self.is_inside, self.depth, self.is_bulleted = [], [], False, 0, False

    def handle_starttag(self, tag, attributes):
        if tag in ("br", "meta", "link"):
            return
        if tag == "div" and dict(attributes).get("class") == "manual-text":
            self.is_inside, self.depth = True, 0
        self.depth += 1
        if tag == "ul":
            self.is_bulleted = True
        if tag == "li" and self.is_bulleted:
            self.handle_data("\u2022")
        if tag in FONTS:
            self.fonts.append(FONTS[tag])

    def handle_endtag(self, tag):
        if tag == "br":
            return
        self.depth -= 1
        if self.is_inside and not self.depth:
            self.is_inside = False
        if tag in FONTS:
            self.fonts.pop()

    def handle_data(self, data):
        if self.is_inside:
            font = self.fonts[-1] if self.fonts else "R"
            self.found += [(letter, font) for letter in data if not letter.isspace()]


def letters_of_mandoc(text):
    parser = Letters()
    parser.feed(mandoc(["html", "-O", "fragment"], text))
    return parser.found


# ---- what the reader reads, as the same


def letters_of(said):
    """The letters of what is said, and a bullet before each item."""
    for one in said:
        if one.kind == "bulleted":
            yield "\u2022", "R"
        for line in [one.front, *one.lines]:
            yield from ((letter, font) for letter, font in line if not letter.isspace())


def spelled(one):
    return one.kind, one.place, one.written_front, one.written


def difference(text, said):
    """How what is read differs from what mandoc makes of it, or nothing."""
    try:
        theirs = sayings(text)
    except ValueError as fault:
        return f"the tree: {fault}"
    for kind, ours, theirs in ("said", list(map(spelled, said)), theirs), ("letters", list(letters_of(said)), letters_of_mandoc(text)):
        if ours != theirs:
            at = next((at for at, (one, other) in enumerate(zip(ours, theirs)) if one != other), min(len(ours), len(theirs)))
            return f"{kind}: {ours[at : at + 20]}\nmandoc: {theirs[at : at + 20]}"
    return None


def judged(case):
    """The kind of a case, what is read of it, and how that differs."""
    kind, text = case
    try:
        said = sheet_reader.read(text).said
    except Refused:
        return kind, None, None
    names = [one.kind for one in said]
    fault = difference(text, said)
    return kind, names, fault and f"{text}{fault}"


def main(count=20000, *folders):
    counts, first = collections.Counter(), None
    with concurrent.futures.ProcessPoolExecutor() as pool:
        for kind, names, fault in pool.map(judged, given(int(count), folders or FOLDERS), chunksize=64):
            counts[kind] += 1
            if names is not None:
                counts[f"{kind} read"] += 1
                counts[f"{kind} differ"] += bool(fault)
                counts.update(names)
                first = first or fault
    for kind in "rows", "pages", "sections", "parts":
        print(f"{kind}: {counts[kind]}, of which {counts[f'{kind} read']} are read, and {counts[f'{kind} differ']} of these differ")
    print("read:", ", ".join(f"{name} {counts[name]}" for name in ("heading", "plain", "tagged", "bulleted", "continued", "example", "synopsis")))
    if first:
        print(first)
    return bool(first)


if __name__ == "__main__":
    sys.exit(main(*sys.argv[1:]))
