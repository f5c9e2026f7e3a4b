"""A page in HTML.

`arranged` is its tree of elements. Nothing is left out except the summary and what points to the pages beside it.
"""
from pages.ids import of_level
from pages.level import without_references
from pages.tree import element, is_a, joined, plain

STYLE = (
    "html{color-scheme:light dark}"
    "body{font:1rem/1.5 sans-serif;max-width:50rem;margin:0 auto;padding:1rem;color:#1b1b1b;background:#fff;"
    "overflow-wrap:anywhere}"
    "h1,h2,h3{line-height:1.25;margin:1.5rem 0 .5rem}"
    "a{color:#0645ad}"
    "p,pre,ul,dl{margin:.5rem 0}"
    "ul ul{margin:0}"
    "pre,code,dt{font-family:ui-monospace,monospace;font-size:.875rem}"
    "pre{white-space:pre-wrap;padding:.5rem;background:#f2f2f2}"
    "pre code{display:inline-block;max-width:100%}"
    "nav>ul>li>ul{columns:15rem}"
    "nav li li{break-inside:avoid}"
    "nav a:not([href*=':::']){font-weight:bold}"
    "section+section,footer{margin-top:2rem;border-top:1px solid #949494}"
    "dt{margin-top:.5rem}"
    "dt a{text-decoration:none}"
    "dt a:hover{text-decoration:underline}"
    "dd{margin-left:2rem}"
    "dd p{margin:.25rem 0}"
    "h3:target,dt:target{background:#fff2c2}"
    "@media(max-width:40rem){dd,ul{margin-left:0;padding-left:0}ul{list-style-position:inside}}"
    "@media(prefers-color-scheme:dark){body{color:#e6e6e6;background:#161616}a{color:#8ab4f8}"
    "pre{background:#262626}h3:target,dt:target{background:#3d3300}}"
    "@media print{body{max-width:none;color:#000;background:#fff}a{color:#000}"
    "pre,h3:target,dt:target{background:none}pre{border:1px solid #949494;break-inside:avoid}"
    "h2,h3,dt{break-after:avoid}}"
)
TAGS = {"literal": "code", "value": "var", "break": "br", "code": "pre", "list": "ul", "item": "li", "paragraph": "p"}
EMPTY = {"br", "meta"}
# What HTML takes for white space.
WHITE = " \t\n\f\r"


# The elements of a page.


def arranged(page):
    page = without_references(page)
    name = plain(page.inside[0].child("heading").inside)
    head = [
        element("meta", charset="utf-8"),
        element("meta", name="viewport", content="width=device-width"),
        element("title", name),
        element("style", STYLE),
    ]
    return element("html", element("head", *head), element("body", *body(page, name)), lang=page.said["language"])


def body(page, name):
    """A header, links to the sections, the sections, and a foot."""
    found = [element("header", element("h1", name), *map(block, page.inside[0].child("about").inside))]
    links = link_item(page, page.inside[0])
    if is_a(links.inside[-1], "ul"):
        found.append(element("nav", element("h2", page.said["words"]["contents"]), element("ul", links)))
    found.append(element("main", *[section(page, level) for level in page.inside]))
    foot = [page.said[key] for key in ["vendor", "date"] if page.said[key].strip(WHITE)]
    return found + ([element("footer", element("p", ", ".join(foot)))] if foot else [])


def link_item(page, level):
    """A link to the section of a level, and below it to its headings and to the levels below."""
    names = level.said["names"]
    headings = [each.child("heading") for each in level.children("section")]
    below = [element("li", element("a", *heading.inside, href="#" + heading.said["id"])) for heading in headings]
    below += [link_item(page, other) for other in page.inside if other.said["names"][:-1] == names]
    link = element("a", names[-1], href="#" + level.said["id"])
    return element("li", link, *([element("ul", *below)] if below else []))


def section(page, level):
    """The section of a level. What stands over all sections is the name, and the `about` of the first."""
    is_first, found = level is page.inside[0], []
    if not is_first or len(page.inside) > 1:
        found.append(element("h2", *level.child("heading").inside))
    if not is_first:
        found += map(block, level.child("about").inside)
    for usage in level.children("usage"):
        found += [element("h3", page.said["words"]["usage"]), element("pre", *joined(map(form, usage.inside), "\n"))]
    found += map(block, level.child("header").inside)
    for part in level.children("section"):
        heading, *inside = part.inside
        found.append(element("h3", *heading.inside, id=heading.said["id"]))
        found += [entry_list(child) if is_a(child, "entries") else block(child) for child in inside]
    return element("section", *found, id=level.said["id"])


def form(usage_form):
    """The names and each part in a `code` of its own, with blanks between them."""
    names, *parts = usage_form.inside
    called = element("code", element("strong", plain(names.inside)))
    return joined([[called], *[[element("code", *map(of_usage, part.inside))] for part in parts]], " ")


def of_usage(node):
    return element("strong", *node.inside) if is_a(node, "literal") else phrase(node)


def entry_list(entries):
    return element("dl", *[node for entry in entries.inside for node in definition(entry)])


def definition(entry):
    """A term, which is a link to itself or to the section of its command, and what is said of it."""
    terms = joined([list(map(phrase, term.inside)) for term in entry.children("term")], ", ")
    target = of_level(entry.said["to"]) if "to" in entry.said else entry.said["id"]
    term = element("dt", element("a", *terms, href="#" + target), id=entry.said.get("id"))
    return [term, element("dd", *map(block, entry.child("body").inside))]


def phrase(node):
    if isinstance(node, str):
        return node
    if node.kind == "link":
        return element("a", *node.inside, href=node.said["address"])
    return element(TAGS[node.kind], *node.inside)


def block(node):
    if is_a(node, "code"):
        return element("pre", element("code", *node.inside))
    if is_a(node, "list"):
        return element("ul", *[element("li", *map(phrase, item.inside)) for item in node.inside])
    return element("p", *map(phrase, node.inside))


# How they are written.


def escaped(text):
    return text.replace("&", "&amp;").replace("<", "&lt;").replace(">", "&gt;")


def written(node):
    if isinstance(node, str):
        return escaped(node)
    said = "".join(' {}="{}"'.format(key, escaped(value).replace('"', "&quot;")) for key, value in node.said.items())
    if node.kind in EMPTY:
        return f"<{node.kind}{said}>"
    inside = "".join(node.inside) if node.kind == "style" else "".join(map(written, node.inside))
    newline = "\n" if node.kind == "pre" else ""
    return f"<{node.kind}{said}>{newline}{inside}</{node.kind}>"


def write(page):
    return "<!DOCTYPE html>" + written(arranged(page))


def fragment(page):
    """What stands in the body alone."""
    return "".join(map(written, arranged(page).child("body").inside))
