"""Writes the parser of an argparse program as a description that clidoc reads, in JSON: `clidoc_argparse.dump(parser)`.

What a description cannot carry is left out: the text under the title of a group, types, and prefixes except `-`.
"""

import argparse, inspect, json, re, textwrap


def dump(parser, file=None):
    asking = [Level(parser).option(one) for one in parser._actions if isinstance(one, argparse._HelpAction)]
    made = {"name": parser.prog, "help_option": asking, **Level(parser).table()}
    print(json.dumps(made, indent=2, ensure_ascii=False), file=file)


class Level:
    """A parser, which is a level of the description."""
    def __init__(self, parser):
        self.parser = parser

    def table(self):
        parser, own = self.parser, [self.parser._positionals, self.parser._optionals]
        titled = [{"title": group.title, **self.entries(group._group_actions)}
                  for group in parser._action_groups if group not in own]
        lists = [one for one in parser._actions if isinstance(one, argparse._SubParsersAction)]
        return without_empty({
            "about": self.text(parser.description),
            "footer": self.text(parser.epilog),
            "usage": parser.usage and parser.usage % {"prog": parser.prog},
            "command_required": False if lists and not lists[0].required else None,
            **self.entries([one for group in own for one in group._group_actions]),
            "group": [group for group in titled if len(group) > 1],
        })

    def commands(self, action):
        """The commands of a list of parsers, each with all its names."""
        helps = {one.dest: one.help for one in action._choices_actions}
        for one in dict.fromkeys(action.choices.values()):
            name, *aliases = [name for name, other in action.choices.items() if other is one]
            said = {"name": name, "aliases": aliases, **self.shown(helps.get(name), {})}
            yield without_empty({**said, **Level(one).table()})

    def entries(self, actions):
        """Options, choices, positional values and commands under one title."""
        lists = [one for one in actions if isinstance(one, argparse._SubParsersAction)]
        plain = [one for one in actions if one not in lists and not isinstance(one, argparse._HelpAction)]
        choices = [group for group in self.parser._mutually_exclusive_groups
                   if group._group_actions and all(one in plain and one.option_strings for one in group._group_actions)]
        chosen = [one for group in choices for one in group._group_actions]
        return without_empty({
            "option": [self.option(one) for one in plain if one.option_strings and one not in chosen],
            "choice": [without_empty({"required": group.required,
                                      "option": [self.option(one, True) for one in group._group_actions]})
                       for group in choices],
            "positional": [self.positional(one) for one in plain if not one.option_strings],
            "command": [one for found in lists for one in self.commands(found)],
        })

    def option(self, action, is_chosen=False):
        counted = (argparse._AppendAction, argparse._AppendConstAction, argparse._CountAction)
        may = {} if is_chosen else {"required": action.required, "repeated": isinstance(action, counted)}
        return {**spelling(action), **self.said(action, not action.required), **without_empty(may)}

    def positional(self, action):
        word, optional = action.metavar or action.dest, action.nargs in ("?", "*", argparse.REMAINDER)
        made = {"value": " ".join(word) if isinstance(word, tuple) else bare(word), **self.said(action, optional)}
        required = {"required": False} if optional and "default" not in made else {}
        return {**made, **required, **without_empty({"repeated": action.nargs not in (None, "?", 1)})}

    def said(self, action, optional):
        """The values, what a shell offers, the default and the help."""
        default = action.default if isinstance(action.default, (list, tuple)) else [action.default]
        is_said = all(isinstance(one, (str, int, float)) and one not in (argparse.SUPPRESS, "") for one in default)
        tells = optional and action.nargs != 0 and default and is_said
        return without_empty({
            "default": " ".join(map(str, default)) if tells and "%(default)" not in str(action.help) else None,
            "values": action.nargs != 0 and action.choices and [str(one) for one in action.choices],
            "hint": action.nargs != 0 and not action.choices and action.type in (int, float) and "none",
            **self.shown(action.help, vars(action)),
        })

    def shown(self, help, words):
        return {"hidden": True} if help is argparse.SUPPRESS else {"help": self.text(help, words)}

    def text(self, said, words=None):
        """A text as argparse shows it: its lines are one, unless the parser keeps them, with an indent as code."""
        is_filled = said and (words is not None or "%(prog)" in said)
        filled = said % {**(words or {}), "prog": self.parser.prog} if is_filled else said or ""
        keeps = issubclass(self.parser.formatter_class, argparse.RawDescriptionHelpFormatter)
        trimmed = inspect.cleandoc if filled.rstrip(" ").endswith("\n") else textwrap.dedent
        return re.sub("(?m)^ ", " " * 5, trimmed(filled).strip("\n")) if keeps else " ".join(filled.split())


def spelling(action):
    """An option's names and its value, or a syntax where these cannot say it."""
    short = [name[1:] for name in action.option_strings if name[:2] != "--" and len(name) == 2]
    long = [name[2:] for name in action.option_strings if name[:2] == "--"]
    if max(len(short), len(long)) < 2 and len(short + long) == len(action.option_strings) and action.nargs in (None, 0):
        return without_empty({"short": "".join(short), "long": "".join(long), "value": bare(value(action))})
    names = ["--[no-]" + name[2:] if "--no-" + name[2:] in action.option_strings else name
             for name in action.option_strings if name[:5] != "--no-" or name[5:] not in long]
    return {"syntax": " ".join(filter(None, [", ".join(names), value(action)]))}


def value(action):
    """The words for what an option takes, as argparse shows them."""
    words = action.metavar if isinstance(action.metavar, tuple) else [action.metavar or action.dest.upper()]
    if isinstance(action.nargs, int) and action.nargs > 0:
        return " ".join(words if len(words) == action.nargs else words * action.nargs)
    more = {0: "", "?": f"[{words[0]}]", "*": f"[{words[0]} ...]", "+": f"{words[0]} [{words[-1]} ...]"}
    return more.get(action.nargs, words[0])


def bare(word):
    """A word without the brackets that each page puts around it."""
    return word[1:-1] if word[:1] == "<" and word.find(">") == len(word) - 1 else word


def without_empty(table):
    return {key: value for key, value in table.items() if value or (key, value) == ("command_required", False)}
