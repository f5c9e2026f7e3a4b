"""The styled parts of texts: what stands between backquotes, lines of code in topics, and the notes after a help."""
import itertools
import re

# A backquote that stands beside no other one.
SINGLE = re.compile(r"(?<!`)`(?!`)")


def joined(parts):
    """The parts that are not empty; what follows a part of its own style belongs to it."""
    whole = []
    for style, text in parts:
        if text and whole and whole[-1][0] == style:
            whole[-1] = style, whole[-1][1] + text
        elif text:
            whole.append((style, text))
    return whole


def has_fence(text):
    return any(line.startswith("```") for line in text.split("\n"))


def line_parts(line):
    """What stands between the first single backquote of a line and the second, between the third and the fourth, and so on."""
    if line.startswith("    "):
        return [("T", line)]
    cut = SINGLE.split(line)
    if len(cut) % 2 == 0:
        cut[-2:] = ["`".join(cut[-2:])]
    return [("L" if index % 2 else "T", piece) for index, piece in enumerate(cut)]


def lines_parts(lines):
    parts = []
    for number, line in enumerate(lines):
        parts += ([("T", "\n")] if number else []) + line_parts(line)
    return parts


def parts(text):
    return joined([("T", text)] if has_fence(text) else lines_parts(text.split("\n"))) or [("T", "")]


def noted(text, notes):
    """A help with notes after its first paragraph."""
    if not notes:
        return None if text is None else parts(text)
    if text is None:
        return [("T", " ".join(notes))]
    first, between, rest = text.rstrip(" \n").partition("\n\n")
    if not first + between:
        return [("T", " ".join(notes))]
    styled = (lambda part: [("T", part)]) if has_fence(text) else (lambda part: lines_parts(part.split("\n")))
    return joined(styled(first) + [("T", "\n " + " ".join(notes))] + styled(between + rest))


def kinds(text):
    """The lines of a topic except those of fences, each with whether it is code."""
    is_fenced, found = False, []
    for line in text.split("\n"):
        has_ink = bool(line.strip(" "))
        if line.startswith("```"):
            is_fenced = not is_fenced
        elif is_fenced:
            found.append((True, line if has_ink else ""))
        elif has_ink and line.startswith("    "):
            found.append((True, line[4:]))
        else:
            found.append((False, line if has_ink else ""))
    return found


def stretches(text):
    """Lines of one kind that follow one another: whether they are code, and the lines."""
    return [(is_code, [line for _, line in lines]) for is_code, lines in itertools.groupby(kinds(text), key=lambda each: each[0])]


def empty_lines(lines):
    """How many empty lines are at the start of these."""
    return len(list(itertools.takewhile(lambda line: not line, lines)))


def chunks(text):
    """Stretches without empty lines beside code, each with whether it is code, whether an empty line was left out before it, and its lines."""
    whole, found, left_out = stretches(text), [], False
    for place, (is_code, lines) in enumerate(whole):
        front = empty_lines(lines) if not is_code and place > 0 else 0
        kept = lines[front:]
        back = empty_lines(reversed(kept)) if not is_code and place + 1 < len(whole) else 0
        kept = kept[:len(kept) - back]
        if kept:
            if not is_code and place > 0 and not front:
                kept[0] = kept[0].lstrip(" ")
            found.append((is_code, bool(found) and (left_out or front > 0), kept))
        left_out = back > 0 or front > 0 and not kept
    return found
