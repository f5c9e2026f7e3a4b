"""What is wrong with a page in each medium, by the programs that read it."""
import re
import subprocess
import tempfile
import xml.etree.ElementTree

import html5lib

from pages import console, html, man, man_reader, markdown, markdown_reader, words
from pages.columns import columns
from pages.tree import Element, element, is_a, plain, without_pieces

# What groff and mandoc say of what no page can mend: no date, or one in words, and words wider than a line.
NAMED = re.compile(r"missing date|cannot parse date|can't break line|cannot adjust line|cannot break line")
SPACE = "{http://commonmark.org/xml/1.0}"
HOLDERS = {"html", "head", "body", "header", "nav", "main", "section", "ul", "dl", "footer"}


def run(command, text):
    done = subprocess.run(command, input=text.encode(), capture_output=True, check=False)
    return done.stdout.decode(errors="replace"), done.stderr.decode(errors="replace")


def difference(found, wanted):
    """Where two trees differ first."""
    return difference_at("", found, without_pieces(wanted))


def difference_at(way, found, wanted):
    if (
        isinstance(found, Element)
        and isinstance(wanted, Element)
        and found[:2] == wanted[:2]
        and len(found.inside) == len(wanted.inside)
    ):
        pairs = zip(found.inside, wanted.inside)
        return next(filter(None, (difference_at(f"{way}/{found.kind}", one, other) for one, other in pairs)), None)
    return None if found == wanted else f"{way}: {str(found)[:300]!r}, not {str(wanted)[:300]!r}"


def reads(reader, text, wanted):
    try:
        fault = difference(reader.read(text), wanted)
    except reader.Refused as refused:
        fault = f"refused: {refused}"
    if fault:
        yield f"read: {fault}"


def man_faults(page):
    text = man.write(page)
    yield from reads(man_reader, text, man.keeps(page))
    for command in [
        ["groff", "-Kutf8", "-man", "-ww", "-Tutf8", "-Z"],
        ["mandoc", "-Kutf-8", "-T", "lint", "-W", "warning"],
    ]:
        shown, told = run(command, text)
        for line in (told if command[0] == "groff" else shown + told).splitlines():
            if not NAMED.search(line):
                yield f"{command[0]}: {line}"
    yield from lexgrog_faults(page, text)
    yield from word_faults(page, text)


def lexgrog_faults(page, text):
    first = page.inside[0]
    name = "-".join(first.said["names"])
    # It does not take a name with a dash at an end for one, and it looks under NAME.
    if (
        not first.children("summary")
        or "," in name
        or name != name.strip("-")
        or page.said["words"]["name"] != words.WORDS["name"]
    ):
        return
    with tempfile.NamedTemporaryFile(suffix=".1") as file:
        file.write(text.encode())
        file.flush()
        told, _ = run(["lexgrog", "-E", "UTF-8", file.name], "")
    if f': "{name} - ' not in told:
        yield f"lexgrog: {told!r} of {name}"


def ink(text):
    return "".join(letter for letter in text if not letter.isspace())


def words_of(node):
    if isinstance(node, str):
        return node.split()
    if node.kind in {"paragraph", "item", "term", "part", "names", "code", "heading"}:
        return plain(node.inside).split()
    return [word for child in node.inside for word in words_of(child)]


def word_faults(page, text):
    """The words of the page that groff does not show, in order."""
    shown = run(["groff", "-Kutf8", "-man", "-Tutf8", "-P-cbou", "-rLL=3000n", "-rHY=0"], text)[0]
    rest = ink(shown).replace("\u2010", "-")
    for word in words_of(man.keeps(page)):
        if not word.isascii():
            continue
        before, found, rest_after = rest.partition(word)
        if not found:
            yield f"groff does not show {word!r}"
            return
        rest = rest_after


def of_cmark(node):
    """A node of cmark's tree as an element, by the table of `markdown_reader`."""
    kind, inside = node.tag.removeprefix(SPACE), [of_cmark(child) for child in node]
    text = node.text or ""
    if kind == "text":
        return text
    if kind == "heading":
        return element(kind, *inside, rank=int(node.get("level")))
    if kind == "link":
        return element(kind, *inside, address=node.get("destination"))
    if kind == "code_block":
        return element("code", text.removesuffix("\n")) if not node.get("info") else element("code with info", text)
    kinds = {
        "document": "page",
        "linebreak": "break",
        "paragraph": "paragraph",
        "list": "list",
        "item": "item",
        "code": "literal",
    }
    return element(kinds.get(kind, kind), *(inside or [text]))


def markdown_faults(page):
    text, wanted = markdown.write(page), markdown.keeps(page)
    yield from reads(markdown_reader, text, wanted)
    shown = xml.etree.ElementTree.fromstring(run(["cmark", "-t", "xml"], text)[0].partition("\n")[2])
    fault = difference(of_cmark(shown), wanted)
    if fault:
        yield f"cmark: {fault}"


def of_html5lib(node):
    """A node of the parser as an element."""
    if not isinstance(node.tag, str):
        return element("comment")
    children = [node.text or ""]
    for child in node:
        children += [of_html5lib(child), child.tail or ""]
    if node.tag in HOLDERS:
        children = [child for child in children if not isinstance(child, str) or child.strip(" \t\n\f\r")]
    return element(node.tag, *children, **node.attrib)


def html_faults(page):
    text, wanted = html.write(page), html.arranged(page)
    parser = html5lib.HTMLParser(strict=True, namespaceHTMLElements=False)
    try:
        found = of_html5lib(parser.parse(text))
        part = list(map(of_html5lib, parser.parseFragment(html.fragment(page), container="body")))
    except html5lib.html5parser.ParseError as fault:
        yield f"html5lib: {fault}"
        return
    for one, other in [(found, wanted), (element("body", *part), wanted.child("body"))]:
        fault = difference(one, other)
        if fault:
            yield f"html5lib: {fault}"
    for line in run(["tidy", "-e", "-q", "-utf8", "--show-info", "no"], text)[1].splitlines():
        if not line.endswith(("Warning: trimming empty <dd>", "Warning: trimming empty <code>")):
            yield f"tidy: {line}"
    yield from link_faults(list(every(wanted)))
    yield from heading_faults(list(every(wanted)))


def every(node):
    yield node
    for child in node.inside:
        if isinstance(child, Element):
            yield from every(child)


def link_faults(nodes):
    """An id that stands twice, a link that shows nothing, or one to a place that is not on the page."""
    ids = [node.said["id"] for node in nodes if "id" in node.said]
    for each in sorted({each for each in ids if ids.count(each) > 1}):
        yield f"two elements have the id {each}"
    for node in nodes:
        address = node.said.get("href", "")
        if address.startswith("#") and address[1:] not in ids:
            yield f"nothing has the id {address}"
        if address and not plain(node.inside).strip():
            yield f"a link to {address} shows nothing"


def heading_faults(nodes):
    """A rank that is skipped, or not exactly one `main`. Where a page has only a usage, its title stands after the name."""
    if len([node for node in nodes if node.kind == "main"]) != 1:
        yield "there is not one main"
    ranks = [0] + [int(node.kind[1]) for node in nodes if re.fullmatch("h[1-6]", node.kind)]
    for above, below in zip(ranks, ranks[1:]):
        if below > above + 1 and ranks != [0, 1, 3]:
            yield f"h{below} stands after h{above}"


def console_faults(page, width):
    shown, line = console.whole(page, width), console.usage(page, width)
    for form in page.inside[0].child("usage").children("form"):
        for part in map(plain, (part.inside for part in form.children("part"))):
            if columns(part) <= width - 4 and part not in line:
                yield f"a part is broken at {width}: {part}"
    fixed = [plain(node.inside) + ":" for node in every(page) if is_a(node, "heading")]
    fixed += [plain(node.inside) for node in every(page) if is_a(node, "names")]
    fixed += [row for node in every(page) if is_a(node, "code") for row in plain(node.inside).split("\n")]
    terms = [console.term_text(node) for node in every(page) if is_a(node, "entry")]
    for row in shown.split("\n"):
        if (
            columns(row) > width
            and not any(text and row.endswith(text) for text in fixed)
            and not is_one_word(row, terms)
        ):
            yield f"a line is wider than {width}: {row}"


def is_one_word(row, terms):
    """Whether a line holds one word, after a term or not, or a term alone."""
    text = row.strip(" ")
    rests = [text, *[row[4 + len(term) :].strip(" ") for term in terms if row.startswith("    " + term)]]
    return any(" " not in rest.removeprefix("- ") for rest in rests)
