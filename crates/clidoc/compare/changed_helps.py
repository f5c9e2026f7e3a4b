#!/usr/bin/env python3
"""Drafts of help texts that were changed at random: each is a description that `clidoc check` takes, or names no program.

    compare/changed_helps.py FOLDER [COUNT [SEED]]

FOLDER has the texts, NAME.txt (`helps_corpus.py`). A text is cut, and pieces of it and of others, brackets, marks and odd
characters are put in or taken out. Prints how many drafts were taken, named no program and failed, and keeps each text of
the last kind in FOLDER as failed-NUMBER. Ends with status 1 if there is one.
"""
import collections
import pathlib
import random
import sys

sys.dont_write_bytecode = True

import tried

PIECES = ["\n", "  ", "\t", "--", "-x", "[", "]", "<", ">", ",", "=", "Usage: ", "Options:\n", "`", "```", '"""', "\\", "'''",
          "\x1b[1m", "\b", "\r", "{a,b}", "\xad", "\u202e", "\ufffe", "\U0001f600", "- ", "    ", "# ", "\0", "...", " -x  y"]


def changed(chances, texts):
    text = chances.choice(texts)
    if chances.random() < 0.6:
        start = chances.randrange(len(text))
        text = text[start : start + chances.randrange(1, 4000)]
    for _ in range(chances.randrange(1, 30)):
        at, turn = chances.randrange(len(text) + 1), chances.random()
        if turn < 0.5:
            text = text[:at] + chances.choice(PIECES) + text[at:]
        elif turn < 0.8:
            text = text[:at] + text[at + chances.randrange(1, 20) :]
        else:
            other = chances.choice(texts)
            start = chances.randrange(len(other))
            text = text[:at] + other[start : start + chances.randrange(1, 200)] + text[at:]
    return text.encode()


def main(folder, count="1000", seed="1"):
    folder, chances = pathlib.Path(folder), random.Random(int(seed))
    texts = [file.read_text(errors="replace") for file in sorted(folder.glob("*.txt"))]
    given = [changed(chances, texts) for _ in range(int(count))]
    words = [["draft", *(["--name", "app"] if chances.random() < 0.7 else [])] for _ in given]
    drafts = tried.runs(list(zip(words, given)))
    made = [at for at, (status, _, _) in enumerate(drafts) if status == 0]
    judged = dict(zip(made, tried.runs([(["check"], drafts[at][1]) for at in made])))
    ends = collections.Counter()
    for at, (status, _, said) in enumerate(drafts):
        if status == 1 and b"no usage line names the program" in said:
            ends["without a name"] += 1
        elif status == 0 and judged[at][0] == 0:
            ends["taken"] += 1
        else:
            ends["failed"] += 1
            (folder / f"failed-{at}").write_bytes(given[at])
            print(f"{at}: {(judged[at][2] if at in judged else said).decode(errors='replace').strip()}")
    print(", ".join(f"{ends[it]} {it}" for it in ("taken", "without a name", "failed")))
    return 1 if ends["failed"] else 0


if __name__ == "__main__":
    if not 2 <= len(sys.argv) <= 4:
        sys.exit(__doc__)
    sys.exit(main(*sys.argv[1:]))
