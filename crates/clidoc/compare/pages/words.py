"""The fixed words, and titles."""

WORDS = {
    "usage": "Usage",
    "arguments": "Arguments",
    "options": "Options",
    "commands": "Commands",
    "contents": "Contents",
    "notes": "Notes",
    "default": "default",
    "possible_values": "possible values",
    "env": "env",
    "aliases": "aliases",
    "command": "COMMAND",
    "name": "Name",
    "synopsis": "Synopsis",
    "description": "Description",
    "see_also": "See also",
}


def title(text):
    """A title without the colon at its end, and the white space in front of that."""
    return text.removesuffix(":").rstrip()


def words_of(top):
    """The fixed words of a description."""
    return {key: title(text) for key, text in {**WORDS, **top.get("words", {})}.items()}


def same_title(text, other):
    """Whether two titles are the same except for case."""
    return title(text).casefold() == title(other).casefold()
