"""How an option is written in place of its names and its value: names, words for values, and what stands between."""
import re

BRACKETS = {"[": "]", "(": ")", "<": ">", "{": "}"}
# Where a name may begin: at the start, and after these.
PLACE = r"(?<![^ ,|\[(<{])"
RUN = r"[^ ,=|\[\]()<>{}]"
NAME = rf"-*(?!-){RUN}{RUN}*"
TOKEN = re.compile(rf"{PLACE}(?P<lead>--\[no-\])(?P<rest>{NAME})|{PLACE}(?=-)(?P<name>{NAME})|(?P<word>[A-Za-z0-9_-]+)|(?P<other>.)")
METAVAR = re.compile(r"[A-Z][A-Z0-9_-]*")


def tokens(syntax):
    """The pieces of the text with their styles, and, of a name, what it is called."""
    for match in TOKEN.finditer(syntax):
        if match["lead"]:
            yield match.start(), "T", match["lead"], None
            yield match.start(), "L", match["rest"], "--" + match["rest"]
        elif match["name"]:
            yield match.start(), "L", match["name"], match["name"]
        else:
            yield match.start(), "M" if METAVAR.fullmatch(match[0]) else "T", match[0], None


def depths(syntax):
    """How many brackets are open at each character; -1 from the first that is closed in vain, or at all where some stay open."""
    open_ones, found = [], []
    for c in syntax:
        if c in BRACKETS.values() and (not open_ones or open_ones.pop() != c):
            return None
        found.append(len(open_ones))
        if c in BRACKETS:
            open_ones.append(BRACKETS[c])
    return None if open_ones else found


def pieces(syntax):
    at, cut = depths(syntax), [-1]
    cut += [place for place, c in enumerate(syntax) if c == "," and not at[place]] + [len(syntax)]
    return [syntax[start + 1:end].strip(" ") for start, end in zip(cut, cut[1:])]


def is_syntax(syntax):
    return depths(syntax) is not None and all(piece.strip() for piece in pieces(syntax))


def names(syntax):
    """What it is called outside of brackets."""
    at = depths(syntax)
    return [name for place, _, _, name in tokens(syntax) if name and not at[place]]


def styled(syntax):
    return [(style, text) for _, style, text, _ in tokens(syntax)]


def document(syntax):
    """The whole, as the list of options shows it."""
    return ([("L", "    ")] if syntax.startswith("--") else []) + styled(syntax)


def usage(syntax, has_brackets):
    """The piece that a usage line shows."""
    all_pieces = pieces(syntax)
    more = [piece for piece in all_pieces if [style for style, _ in styled(piece)] != ["L"]]
    piece = (more or all_pieces)[0]
    at = depths(piece)
    has_bar = any(c == "|" and not at[place] for place, c in enumerate(piece))
    return [("T", "("), *styled(piece), ("T", ")")] if has_bar and has_brackets else styled(piece)
