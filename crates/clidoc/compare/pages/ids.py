"""The ids of a page."""
import re


def spelled(name):
    """A name in an id: ASCII letters, digits, `-` and `_`, and for every other byte a dot and two hex digits."""
    return "".join(
        chr(byte) if re.match(rb"[A-Za-z0-9_-]", bytes([byte])) else f".{byte:02x}" for byte in name.encode()
    )


def of_level(names):
    return ":".join(map(spelled, names))


class Numbered:
    """Ids below one level. The second with one id, and each later one, has its number after it."""

    def __init__(self, names):
        self.level, self.counts = of_level(names), {}

    def fresh(self, mark, word):
        wanted = self.level + mark + spelled(word)
        self.counts[wanted] = self.counts.get(wanted, 0) + 1
        return wanted if self.counts[wanted] == 1 else f"{wanted}::{self.counts[wanted]}"

    def of_entry(self, word):
        return self.fresh("::", word)

    def of_heading(self, title):
        return self.fresh(":::", title)
