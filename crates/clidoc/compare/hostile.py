#!/usr/bin/env python3
"""Puts hostile texts into descriptions, and checks whether a page brings one to its medium as a command.

    compare/hostile.py [STEP]

Each text of `hostile_texts.py`, or with STEP each STEP-th, stands once at each key that takes a text, a word, a title or a name, in a description
that is otherwise harmless.
The built program, `out/clidoc`, refuses it, in one line and without a page, or makes its pages. These are read as their readers read them:

- on the console, by a terminal (`pyte`, where Python has it) and as bytes: no control character but newlines and tabs, and the words that stand around the text;
- as a manual page, by `groff`, with its unsafe requests, and by `mandoc`: the words around the text, nothing of a file that the text asks for
  nor of the environment, no command is run, and no warning of a name that is not known;
- as HTML, by a parser: the elements of the same page without the characters that a tag is made of.

Pages in markdown are read by `media.py`. Prints how many texts were refused and how many pages were read, and each fault. Ends with
status 1 where there is one.
"""
import concurrent.futures
import html.parser
import os
import pathlib
import re
import subprocess
import sys
import tempfile
import unicodedata

sys.dont_write_bytecode = True

import hostile_texts

from pages import texts
from pages.tree import is_a, plain

try:
    import pyte
except ImportError:
    pyte = None

CLIDOC = pathlib.Path(os.environ.get("CLIDOC") or pathlib.Path(__file__).resolve().parent.parent / "out" / "clidoc")
# What leaks where a text is taken for a request, an escape or a command.
SECRETS = ["leaked-by-a-file", "leaked-by-the-environment", "leaked\n"]
KEYS = [
    "name", "section", "date", "vendor", "title", "about", "header", "footer", "usage", "option.long", "option.value", "option.help", "option.env", "help_option.help", "choice.value", "choice.help",
    "option.default", "option.values", "option.syntax", "group.title", "group.help", "positional.value", "positional.default", "positional.help", "topic.title", "topic.text",
    "command.name", "command.aliases", "command.help", "command.about", "command.usage", "command.footer",
]
# The short name of the command keeps texts out of the words.
FORMS = ["usage", "full", "brief", "html", "man", "man --deep", "man --command=C", "full --command=C", "usage --command=C --width=40"]
# The words of a manual page's title line that take any text.
TITLE = {"date", "vendor", "title"}
# Those whose texts have literals.
LITERALS = {"about", "header", "footer", "help", "text"}
HARMLESS = """
name = {name}
section = {section}
date = {date}
vendor = {vendor}
title = {title}
about = {about}
header = {header}
footer = {footer}
{usage}
[[option]]
long = {option.long}
value = {option.value}
default = {option.default}
values = [{option.values}]
help = {option.help}
env = {option.env}
[[option]]
syntax = {option.syntax}
[[choice]]
[[choice.option]]
short = "c"
value = {choice.value}
help = {choice.help}
[[group]]
title = {group.title}
[[group.option]]
short = "g"
help = {group.help}
[[positional]]
value = {positional.value}
default = {positional.default}
help = {positional.help}
[[topic]]
title = {topic.title}
text = {topic.text}
[[command]]
name = {command.name}
short = "C"
aliases = [{command.aliases}]
help = {command.help}
about = {command.about}
{command.usage}
footer = {command.footer}
[[help_option]]
short = "h"
help = {help_option.help}
"""
PLAIN = {"section": "1", "date": "Today", "usage": None, "command.usage": None}


def quoted(text):
    return '"' + "".join(f"\\U{ord(c):08x}" if c in '"\\' or unicodedata.category(c) == "Cc" else c for c in text) + '"'


def description(key, text):
    """A description with this text at this key, and harmless ones at all others."""
    held = {each: PLAIN.get(each, each.replace(".", "-")) for each in KEYS}
    held[key] = text
    told = re.sub(r"\{([\w.]+)\}", lambda m: usage(held[m[1]]) if m[1].endswith("usage") else quoted(held[m[1]]), HARMLESS)
    return told.encode()


def visible(key, text):
    """What a page shows of the text at the key; nothing for one with a list, before whose items each medium has a mark of its own."""
    if key.split(".")[-1] not in LITERALS:
        return text
    blocks = texts.blocks(text)
    return "" if any(is_a(block, "list") for block in blocks) else "".join(plain(block.inside) for block in blocks)


def usage(text):
    return "" if text is None else "usage = " + quoted(text)


def run(words, given, **more):
    done = subprocess.run(words, input=given, capture_output=True, check=False, **more)
    return done.returncode, done.stdout, done.stderr


def ink(text):
    """What is left of a text without blanks, in one spelling of dashes, quotes and letters: readers of manual pages choose their own."""
    spelled = text.translate(str.maketrans({**dict.fromkeys("\u2010\u2011\u2212\u2013\u2014", "-"), **dict.fromkeys("\u2018\u2019\u00b4\u02cb`", "'"), "\u02c6": "^", "\u02dc": "~", "\u2032": "'"}))
    return "".join(c for c in unicodedata.normalize("NFC", spelled).casefold() if not c.isspace())


def shows(page, text):
    """Whether the page has the words around the text, the text between them."""
    return ink(text) in ink(page) if ink(text).isascii() else "before" in ink(page) and "afterwards" in ink(page)


def commands(page):
    """The control characters of a page, except those that are white space: a text may hold newlines and tabs."""
    return sorted({f"U+{ord(c):04X}" for c in page if unicodedata.category(c) == "Cc" and c not in "\t\n"})


def on_console(page, text):
    if commands(page):
        yield f"holds {commands(page)}"
    lines = page.split("\n")
    if pyte and all(len(line) < 200 for line in lines):
        screen = pyte.Screen(400, len(lines) + 1)
        pyte.Stream(screen).feed(page.replace("\n", "\r\n"))
        if [ink(line) for line in screen.display[:len(lines)]] != [ink(line) for line in lines] and page.isascii():
            yield "a terminal shows something else"
    if "before" in ink(page) and not shows(page, text):
        yield "the text is not there"


class Elements(html.parser.HTMLParser):
    def __init__(self):
        super().__init__(convert_charrefs=True)
        self.found, self.ids = [], {}

    def handle_starttag(self, tag, attrs):
        self.found.append((tag, [(key, self.numbered(value) if key == "id" or (value or "").startswith("#") else value) for key, value in attrs]))

    def numbered(self, value):
        """The number of an id, also of one that a link leads to: it is made of a title or a name, and so of the text."""
        return self.ids.setdefault(value.removeprefix("#"), len(self.ids))

    def handle_endtag(self, tag):
        self.found.append("/" + tag)

    def handle_comment(self, data):
        self.found.append(("comment", data))

    def handle_decl(self, decl):
        self.found.append(("declaration", decl))

    def handle_pi(self, data):
        self.found.append(("instruction", data))

    def unknown_decl(self, data):
        self.found.append(("section", data))


def elements(page):
    reader = Elements()
    reader.feed(page)
    reader.close()
    return reader.found


def tame(key, text):
    """The text with `x` for what a tag, a comment or a reference is made of. Lines and fences stay, and so does what separates words in a syntax."""
    if key == "option.syntax":
        return re.sub(r"[&/!?\"']", ".", text).translate(str.maketrans("<>", "()"))
    return re.sub(r"[<>&/!?=\"'\[\]]", "x", text)


def leaks(told):
    return [secret.strip() for secret in SECRETS if secret in told]


def on_manual(key, page, text, folder):
    groff = run(["groff", "-Kutf8", "-U", "-man", "-ww", "-Tutf8", "-P-cbou", "-rLL=3000n", "-rHY=0"], page.encode(), cwd=folder)
    mandoc = run(["mandoc", "-Kutf-8", "-Tutf8", "-Owidth=999"], page.encode(), cwd=folder)
    for reader, (_, shown, told) in [("groff", groff), ("mandoc", mandoc)]:
        shown, told = re.sub(".\b", "", shown.decode(errors="replace")), told.decode(errors="replace")
        if leaks(shown + told):
            yield f"{reader} leaks {leaks(shown + told)}"
        if re.search(r"not defined|unknown|undefined|cannot|can't|unsafe", told):
            yield f"{reader} says {told[:200]!r}"
        # In the title line groff takes a `%` for the number of the page.
        is_number = reader == "groff" and key in TITLE and "%" in text
        if ink("before") in ink(page) and not is_number and not shows(shown, text):
            yield f"{reader} does not show the text"


def refusal(given):
    """What is wrong with the way a description is refused; None where it is not refused."""
    status, page, told = run([CLIDOC, "check"], given)
    if not status:
        return None
    fits = status == 1 and not page and told.count(b"\n") == 1 and not commands(told.decode().rstrip("\n"))
    return [] if fits else [("check", f"status {status}, {page!r}, {told!r}")]


def pages(key, text, folder):
    """What is wrong with the pages of a description, each with its form."""
    if any(unicodedata.category(c) == "Cc" and c not in "\t\n" for c in text):
        yield "check", "a control character passes"
    shown = visible(key, text)
    for form in FORMS:
        status, page, told = run([CLIDOC, *form.split()], description(key, text))
        page = page.decode()
        if status or told:
            yield form, f"status {status}, {told!r}"
        elif form == "html":
            other = run([CLIDOC, form], description(key, tame(key, text)))[1].decode()
            if elements(page) != elements(other):
                yield form, "a text makes an element"
        elif form.startswith("man"):
            yield from ((form, fault) for fault in on_manual(key, page, shown, folder))
        else:
            yield from ((form, fault) for fault in on_console(page, shown))


def main():
    step = int(sys.argv[1]) if len(sys.argv) > 1 else 1
    os.environ["CANARY"] = os.environ["HOME"] = "leaked-by-the-environment"
    chosen = hostile_texts.TEXTS[::step]
    cases = [(key, text) for key in KEYS for text in chosen]
    with tempfile.TemporaryDirectory() as folder, concurrent.futures.ThreadPoolExecutor() as pool:
        (pathlib.Path(folder) / "CANARY").write_text("leaked-by-a-file\n")

        def judged(case):
            refused = refusal(description(*case))
            return refused is not None, list(pages(*case, folder)) if refused is None else refused

        told = list(pool.map(judged, cases))
    refused, wrong = sum(is_refused for is_refused, _ in told), 0
    for (key, text), (_, faults) in zip(cases, told):
        for form, fault in faults:
            wrong += 1
            print(f"{key} {text!r}: {form}: {fault}")
    print(f"{len(chosen)} texts at {len(KEYS)} keys: {refused} refused, {len(FORMS) * (len(cases) - refused)} pages read, {wrong} faults")
    sys.exit(1 if wrong else 0)


main()
