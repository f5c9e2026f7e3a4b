"""The page of a level, and with it those of the levels below."""
import levels

from pages import entries, ids, texts
from pages.tree import Element, element, is_a, joined, merged, one_line
from pages.usage import usage
from pages.words import same_title, title, words_of


def find(top, given):
    """The level that names, short names or other names lead to, and the names."""
    level, names = top, [top["name"]]
    for word in given:
        level = next(command for command in levels.commands(level) if word in levels.called(command))
        names.append(level["name"])
    return level, names


def below(level):
    """The commands of a level that are shown, those of its groups first."""
    return entries.shown(levels.commands(level))


def all_below(level, names):
    """Each level below that is shown, with its names."""
    for command in below(level):
        own = [*names, command["name"]]
        yield command, own
        yield from all_below(command, own)


def summary(about, help_blocks):
    """The first paragraph of the help, otherwise that of `about`, on one line and without the full stop at its end."""
    paragraphs = [block for block in help_blocks + about if is_a(block, "paragraph")]
    return element("summary", *(one_line(paragraphs[0].inside) if paragraphs else []))


class LevelPage:
    """The page of one level, which may follow another on one page: then it names no pages beside it."""

    def __init__(self, top, level, names, brief=False, is_first=True):
        self.top, self.level, self.names, self.brief, self.is_first = top, level, names, brief, is_first
        self.words, self.ids = words_of(top), ids.Numbered(names)

    def blocks(self, text):
        return entries.first(texts.blocks(text), self.brief)

    def tree(self):
        about = texts.blocks(self.level.get("about"))
        help_blocks = [] if self.level is self.top else texts.blocks(self.level.get("help"))
        parts = [
            element("heading", " ".join(self.names)),
            summary(about, help_blocks),
            element("about", *entries.first(about, self.brief)),
            usage(self.level, self.names, self.words),
            element("header", *self.blocks(self.level.get("header"))),
            *self.lists(),
            *self.topics(),
        ]
        return element(
            "level", *[part for part in parts if part.inside], id=ids.of_level(self.names), names=self.names
        )

    def section(self, name, inside):
        return [element("section", element("heading", name, id=self.ids.of_heading(name)), *inside)] if inside else []

    def help_options(self):
        """The options that ask for help, of which only the first level of a page says what they do."""
        options = self.top.get("help_option", [])
        return options if self.is_first else list(map(entries.name_only, options))

    def lists(self):
        for name, *members in entries.lists(self.level, self.help_options(), self.words):
            found = [self.entry(row) for row in entries.once(entries.rows(members, self.words, self.brief))]
            yield from self.section(name, [element("entries", *found)] if found else [])

    def entry(self, row):
        _, word, command, terms, body = row
        leads = {"id": self.ids.of_entry(word)} if command is None else {"to": [*self.names, command]}
        return element("entry", *[element("term", *term) for term in terms], element("body", *body), **leads)

    def topics(self):
        """The topics, and after them notes and references, with the topics that have their titles in front."""
        last = {"notes": self.blocks(self.level.get("footer")), "see_also": self.references()}
        for key, own in last.items():
            named = [topic for topic in self.level.get("topic", []) if self.place(topic) == key]
            last[key] = merged([block for topic in named for block in self.blocks(topic["text"])] + own)
        for topic in self.level.get("topic", []):
            if self.place(topic) is None:
                yield from self.section(title(topic["title"]), self.blocks(topic["text"]))
        for key, inside in last.items():
            yield from self.section(self.words[key], inside)

    def place(self, topic):
        """Under which fixed title a topic stands."""
        return next((key for key in ["notes", "see_also"] if same_title(topic["title"], self.words[key])), None)

    def references(self):
        """The pages above and below."""
        near = [self.names[:-1]] + [[*self.names, command["name"]] for command in below(self.level)]
        section = str(self.top.get("section", "1"))
        links = [[element("reference", "-".join(names), to=names, section=section)] for names in near if names]
        return [element("paragraph", *joined(links, ", "))] if links and self.is_first else []


def page(top, given=(), deep=False, brief=False):
    """The page of the level that words lead to, with those below it where it is deep."""
    level, names = find(top, given)
    found = [LevelPage(top, level, names, brief).tree()]
    if deep:
        found += [LevelPage(top, command, own, brief, False).tree() for command, own in all_below(level, names)]
    date = top.get("date", "")
    said = {
        "section": str(top.get("section", "1")),
        "date": getattr(date, "text", None) or str(date),
        "vendor": top.get("vendor", ""),
        "title": top.get("title", ""),
    }
    return element("page", *found, **said, language=top.get("language", "en"), words=words_of(top))


def without_references(page_tree):
    """A page for a medium that has all levels on one page, or no links: nothing points to the pages beside it."""

    def kept(section):
        inside = [block for block in section.inside if not any(is_a(node, "reference") for node in block.inside)]
        return [Element(section.kind, section.said, inside)] if len(inside) > 1 else []

    found = []
    for level in page_tree.inside:
        inside = [part for child in level.inside for part in (kept(child) if is_a(child, "section") else [child])]
        found.append(Element(level.kind, level.said, inside))
    return Element(page_tree.kind, page_tree.said, found)
