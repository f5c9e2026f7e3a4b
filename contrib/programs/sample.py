"""A parser with what argparse knows, for the comparison of what `clidoc_argparse` makes of it."""

import argparse
import sys

sys.path.insert(0, sys.path[0] + "/..")
import clidoc_argparse


def parser():
    made = argparse.ArgumentParser(
        prog="depot", description="Keeps files in a depot.", epilog="See %(prog)s.conf for settings.")
    made.add_argument("--version", action="version", version="1", help="show the version and exit")
    made.add_argument("-v", "--verbose", action="count", default=0, help="say more")
    made.add_argument("-n", metavar="COUNT", type=int, default=3, help="try so many times")
    made.add_argument("--color", nargs="?", choices=["never", "auto", "always"], const="always", help="colours")
    made.add_argument("--edit", action=argparse.BooleanOptionalAction, help="edit the message")
    made.add_argument("--point", nargs=2, metavar=("X", "Y"), help="where to begin")
    made.add_argument("--secret", help=argparse.SUPPRESS)
    network = made.add_argument_group("network")
    network.add_argument("-H", "--host", required=True, help="the depot to use")
    network.add_argument("--port", default=80, help="its port (%(default)s); 100%% safe")
    how = made.add_mutually_exclusive_group(required=True)
    how.add_argument("-a", "--all", action="store_true", help="all files")
    how.add_argument("--only", action="append", metavar="GLOB", help="these alone")
    commands = made.add_subparsers(title="commands", required=True)
    save = commands.add_parser("save", aliases=["put", "s"], help="save files", description="Saves\nfiles.")
    save.add_argument("files", nargs="+", metavar="FILE", help="what to save")
    save.add_argument("target", nargs="?", default="main", help="where to")
    tag = commands.add_parser("tag", help="work with tags",
                              formatter_class=argparse.RawDescriptionHelpFormatter,
                              description="""
        Works with tags:

        - each has a name;
        - none has two.
        """)
    tags = tag.add_subparsers()
    tags.add_parser("rename", help="rename a tag").add_argument("old")
    return made


if __name__ == "__main__":
    clidoc_argparse.dump(parser())
