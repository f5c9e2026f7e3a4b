"""What `replay` is asked for, and what its answers say."""
import re
import unicodedata

import texts

# What `White_Space` of Unicode has besides the control characters.
BLANKS = set("\u0020\u0085\u00a0\u1680\u2028\u2029\u202f\u205f\u3000") | {chr(code) for code in range(0x2000, 0x200b)}
PLAIN = {"\\": "\\\\", " ": "\\s", "\n": "\\n", "\t": "\\t", "\r": "\\r"}


def word(text):
    return "'" + "".join(PLAIN.get(c) or (f"\\u{ord(c):06x}" if c in BLANKS or unicodedata.category(c) == "Cc" else c) for c in text)


def plain(text):
    """The document of a text that stands as it is."""
    return "-" if text is None else f"[ T{word(text)} ]"


def styled(parts):
    return "-" if parts is None else "[ " + " ".join(style + word(text) for style, text in parts) + " ]"


def help_of(table):
    """The help of an item, with what is said of it in square brackets."""
    said = [("default", "default", str), ("possible values", "values", ", ".join), ("env", "env" if "syntax" in table else "", str), ("aliases", "aliases", ", ".join)]
    return styled(texts.noted(table.get("help"), [f"[{words}: {shown(table[key])}]" for words, key, shown in said if key in table]))


def page(form, answer):
    """The page that an answer spells; an answer that is not a text stands for itself."""
    if not answer.startswith("'"):
        return answer
    escapes = {"\\\\": "\\", "\\s": " ", "\\n": "\n", "\\t": "\t", "\\r": "\r"}
    text = re.sub(r"\\u[0-9a-f]{6}|\\.", lambda m: escapes.get(m[0]) or chr(int(m[0][2:], 16)), answer[1:])
    return text + "\n" if form == "usage" else text
