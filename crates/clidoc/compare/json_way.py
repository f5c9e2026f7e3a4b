#!/usr/bin/env python3
"""Writes descriptions as JSON by `clidoc json`, and compares what is made of that with what is made of them.

    compare/json_way.py [COUNT [SEED]]

Takes those of `examples/`, and of the random ones from SEED (1), in TOML, the first COUNT (500) that are no longer than
`LONGEST`. What `json` writes has to be JSON in which no key stands twice, and `json` of that the same bytes. Its pages
have to be those of the description, in each of `FORMS`, and `check` has to report the same of both, except for places.
The program is that of `tried.py`.
Prints the counts, and the first description of each difference. Ends with status 1 if there is one.
"""
import collections
import itertools
import json
import random
import re
import sys
import tomllib

sys.dont_write_bytecode = True

import describing
import page_cases
import tried

FORMS = ["usage", "full", "man --deep", "markdown --deep", "html", "check"]
# In bytes: `check` takes seconds for a longer one of these, of which each text has faults.
LONGEST = 4096
# Where a line that is reported stands, and other lines that it names.
PLACE = re.compile(rb"(?m)^-:\d+:\d+: |(?<=line )\d+")


def descriptions(count, seed):
    """What each is called, and its text."""
    for file in sorted(page_cases.EXAMPLES.iterdir()):
        yield file.name, file.read_bytes()
    yield from itertools.islice(random_ones(seed), count)


def random_ones(seed):
    chances = random.Random(seed)
    for name, table in page_cases.cases(sys.maxsize, seed):
        if (page_cases.EXAMPLES / name).exists():
            continue
        text = describing.Writer(chances).document(table)
        if tomllib.loads(text) != table:
            sys.exit(f"the text says something else than\n{table}\n{text}")
        if len(text.encode()) <= LONGEST:
            yield name, text.encode()


def once(pairs):
    """The object of these keys, of which none stands twice."""
    if len({key for key, _ in pairs}) < len(pairs):
        raise ValueError("a key stands twice")
    return dict(pairs)


def is_json(text):
    try:
        return isinstance(json.loads(text, object_pairs_hook=once), dict)
    except ValueError:
        return False


def seen(form, ran):
    """What a run gave, except for places."""
    status, output, reported = ran
    return status, output, sorted(PLACE.sub(b"", reported).splitlines()) if form == "check" else reported


def differences(names, given, made):
    """The name and form of each difference between the runs on descriptions, by form, and those on their JSON."""
    for name, (status, text, reported), again in zip(names, given["json"], made["json"]):
        if status != 0 or reported or not is_json(text):
            yield name, "not JSON"
        if again != (0, text, b""):
            yield name, "json"
    for form in FORMS:
        for name, one, other in zip(names, given[form], made[form]):
            if seen(form, one) != seen(form, other):
                yield name, form


def all_forms(texts):
    """What is made of the texts in each form."""
    forms = ["json", *FORMS]
    ran = iter(tried.runs([(form.split(), text) for form in forms for text in texts]))
    return {form: [next(ran) for _ in texts] for form in forms}


def main():
    count, seed = (list(map(int, sys.argv[1:])) + [500, 1][len(sys.argv) - 1 :])[:2]
    cases = dict(descriptions(count, seed))
    given = all_forms(list(cases.values()))
    made = all_forms([text for _, text, _ in given["json"]])
    found = collections.defaultdict(list)
    for name, form in differences(cases, given, made):
        found[form].append(name)
    good = sum(status == 0 for form in FORMS for status, _, _ in given[form])
    print(f"{len(cases)} descriptions, {len(cases) * len(FORMS)} pages and checks, {good} of them with status 0")
    for form, names in found.items():
        print(f"{form}: {len(names)} differ, such as {names[0]}:\n{cases[names[0]].decode()}")
    print(f"{sum(map(len, found.values()))} differ")
    return 1 if found else 0


if __name__ == "__main__":
    sys.exit(main())
