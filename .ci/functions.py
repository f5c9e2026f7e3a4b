"""The functions of a crate: where they stand, by the toolchain's own tokens, and what a check calls them."""
import collections
import json
import pathlib
import re
import shutil
import subprocess

import common

# Lines are counted from 0. A function has:
#   module   the words of the path of the module that it stands in
#   path     its file, below the crate's folder
#   head     the line of its `fn`
#   first    the line of the brace that opens its body
#   last     the line of the brace that closes it
#   marks    the lines of its attributes `#[cycle(..)]`
#   cycle    the name of the cycle of calls that it is in, or None
#   block    the impl or the trait that it stands in, or None
Function = collections.namedtuple("Function", "module name path head first last marks cycle is_const block")
# `type` is the name of the type, or of a trait that is declared. `words` are the names in the head of an impl, without
# its own parameters.
Block = collections.namedtuple("Block", "type is_inherent words")
ITEMS = ("fn", "impl", "trait", "mod", "struct", "enum")
# What an impl's name leaves out of the words of its head.
UNNAMED = {"mut", "const", "dyn", "fn", "Self"}


def rattle(*words):
    """What a call of the toolchain's own program, which stands beside `rt`, prints."""
    program = pathlib.Path(shutil.which("rt")).resolve().with_name("rattle")
    return subprocess.run([program, *words], stdout=subprocess.PIPE, encoding="utf-8", check=True).stdout


def tokens_of(files):
    """For each file its tokens that are code, not a comment, a clause or a text: each with its line."""
    for part in re.split(r"(?m)^file \d+\n", rattle("fmt", "--tokens", *files))[1:]:
        rows = (row.split(" ", 4) for row in part.splitlines())
        yield [(json.loads(text), int(line) - 1) for line, _, _, kind, text in rows if kind == "Code"]


class Reader:
    """Reads a file's functions out of its tokens, and the types that it declares, each with its module."""

    def __init__(self, path, tokens):
        self.path, self.functions, self.types = path, [], []
        # For each brace that is open the item that it opened, and how deep in brackets it stood.
        self.open = []
        # The tokens since an item began, each with how deep in brackets it stands.
        self.head, self.depth = [], 0
        for text, line in tokens:
            self.take(text, line)

    def take(self, text, line):
        if text == "{":
            self.open.append((self.item(line), self.depth))
            self.head, self.depth = [], 0
        elif text == "}":
            item, self.depth = self.open.pop()
            self.head = []
            if isinstance(item, Function):
                self.functions.append(item._replace(last=line))
        elif text == ";" and not self.depth:
            self.item(line)
            self.head = []
        else:
            self.head.append((text, line, self.depth))
            self.depth += (text in ("(", "[")) - (text in (")", "]"))

    def item(self, line):
        """The item whose head was read: a function, an impl or a trait, the name of a module, otherwise None."""
        around = [item for item, _ in self.open]
        words = [text for text, _, depth in self.head if not depth and text not in ("(", "[")]
        at = next((at for at, word in enumerate(words) if word in ITEMS), None)
        if at is None or any(isinstance(item, Function) for item in around):
            return None
        word, rest = words[at], words[at + 1 :]
        if word in ("struct", "enum"):
            self.types.append((rest[0], self.module()))
        if word == "fn":
            return self.function(rest[0], "const" in words[:at], line, around)
        if word == "trait":
            return Block(rest[0], False, {rest[0]})
        return impl_of(rest) if word == "impl" else rest[0] if word == "mod" else None

    def function(self, name, is_const, line, around):
        texts = [text for text, _, _ in self.head]
        marks = [at for at in range(len(texts)) if texts[at : at + 3] == ["[", "cycle", "("]]
        cycle = texts[marks[0] + 3] if marks else None
        head = next(line for text, line, _ in self.head if text == "fn")
        block = next((item for item in around if isinstance(item, Block)), None)
        lines = [self.head[at][1] for at in marks]
        return Function(self.module(), name, self.path, head, line, line, lines, cycle, is_const, block)

    def module(self):
        file = re.sub(r"^src/(lib|main)\.rt$|^src/|\.rt$", "", self.path)
        return [*filter(None, file.split("/")), *(item for item, _ in self.open if isinstance(item, str))]


def impl_of(head):
    """The impl that has these words after `impl`."""
    parameters = head[: after_angles(head)] if head[0] == "<" else []
    own = {word for before, word in zip(parameters, parameters[1:]) if before in ("<", ",", "const")}
    head = head[len(parameters) :]
    depth, type, is_inherent, words = 0, "", True, set()
    for before, word, after in zip(["", *head], head, [*head[1:], ""]):
        depth += (word == "<") - (word == ">" and before != "-")
        if word == "where" and not depth:
            break
        if word == "for" and not depth:
            is_inherent = False
        elif word.isidentifier() and after != ":":
            type = word if not depth else type
            words |= {word} - own - UNNAMED
    return Block(type, is_inherent, words)


def after_angles(words):
    """How many of these words stand up to the end of the angle brackets that the first one opens."""
    depth = 0
    for at, word in enumerate(words):
        depth += (word == "<") - (word == ">" and words[at - 1] != "-")
        if not depth:
            return at + 1


def sources_of(name):
    """The texts of a crate's files of code, by their paths below its folder."""
    folder = common.TOP / "crates" / name
    return {str(it.relative_to(folder)): it.read_text(encoding="utf-8") for it in sorted(folder.glob("src/**/*.rt"))}


class Crate:
    """A crate, and its functions by what a check calls them."""

    def __init__(self, name):
        self.name, self.folder, self.texts = name, common.TOP / "crates" / name, sources_of(name)
        tokens = tokens_of([self.folder / path for path in self.texts])
        readers = [Reader(path, of_file) for path, of_file in zip(self.texts, tokens)]
        # The modules that declare a type of a name.
        self.homes = collections.defaultdict(list)
        for type, module in (it for reader in readers for it in reader.types):
            self.homes[type].append(module)
        self.functions = [self.in_its_cycle(it) for reader in readers for it in reader.functions]
        free = [it for it in self.functions if not is_of_trait(it)]
        self.by_name = {"::".join([name, *self.place_of(it)]): it for it in free}

    def in_its_cycle(self, function):
        """The function with the cycle of its calls of itself, which has no mark. The folder of its proof shows it."""
        *owner, name = self.place_of(function)
        is_cycle = not function.cycle and self.folder.joinpath("proofs", *owner, f"+{name}").is_dir()
        return function._replace(cycle=name) if is_cycle else function

    def home_of(self, function):
        """The module that declares the type of a method, or None where several may."""
        homes = self.homes[function.block.type]
        return function.module if function.module in homes else homes[0] if len(homes) == 1 else None

    def place_of(self, function):
        """The words of the function's name after that of the crate, which are those of its folder in proofs/. They
        are not known of one in an impl of a trait: a check makes a name for that impl out of its words."""
        if not function.block:
            return [*function.module, function.name]
        return [*(self.home_of(function) or function.module), function.block.type, function.name]

    def asked(self, function):
        """What `rt check --only` takes for the function: its name, or the module of one in an impl of a trait. No
        word stands for the whole crate."""
        return "::".join(function.module if is_of_trait(function) else self.place_of(function))

    def unit_of(self, function):
        """A word for what is proved at once: the function, or the cycle that it is in."""
        return f"+{function.cycle}" if function.cycle else f"{function.path}:{function.head}"

    def unit_named(self, name):
        """The unit of the function or of the cycle that a check calls so, or None. A closure's goals are those of the
        function that it stands in."""
        name = re.sub(r"\bfn::(\w+)::.*", r"\1", name.replace("/", "::"))
        *owner, last = name.split("::")
        if last.startswith("+"):
            return last
        if name in self.by_name:
            return self.unit_of(self.by_name[name])
        found = [it for it in self.functions if it.name == last and self.can_be_of(it, owner)]
        # For one type `From<u8>` and `From<&[u8; 2]>` may both fit, and then it is the one with more words.
        most = max((len(it.block.words) for it in found), default=0)
        found = [it for it in found if len(it.block.words) == most]
        return self.unit_of(found[0]) if len(found) == 1 else None

    def can_be_of(self, function, owner):
        """Whether the function stands in an impl of a trait whose name, the last of these words, has all its words."""
        plain = lambda word: word.replace("_", "").lower()
        is_there = is_of_trait(function) and owner[:-1] == [self.name, *function.module]
        return is_there and all(plain(word) in plain(owner[-1]) for word in function.block.words)

    def unit_at(self, path, line):
        """The unit of the function in whose head or body a line stands, or None."""
        there = (it for it in self.functions if it.path == path and it.head <= line <= it.last)
        return next(map(self.unit_of, there), None)

    def with_bodies_at(self, places):
        """The functions in whose bodies one of these lines stands, each of which is a path and a number."""
        return [it for it in self.functions if any(it.path == path and it.first < at < it.last for path, at in places)]

    def with_cycles(self, functions):
        """These functions, and those that are in a cycle with one of them."""
        units = {self.unit_of(it) for it in functions}
        return [it for it in self.functions if self.unit_of(it) in units]

    def can_be_bare(self, function):
        """Whether the body may be left out: where it has steps, callers know the contract alone, and the place of its
        proof is known."""
        is_placed = not function.block or not is_of_trait(function) and self.home_of(function) is not None
        return is_placed and not function.is_const and function.last - function.first > 1


def is_of_trait(function):
    return bool(function.block) and not function.block.is_inherent
