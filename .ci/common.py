"""What the scripts share: the crates of crates.txt, each of whose lines names a crate and those that it uses; the modules of a library; and how
wrong words are refused."""
import pathlib
import re
import sys

TOP = pathlib.Path(__file__).resolve().parent.parent


def lines(top=TOP):
    """The line of each crate, by its name, as it stands there."""
    told = (top / "crates.txt").read_text(encoding="utf-8").splitlines()
    return {name[1]: line for line in told if (name := re.match(r"\s*(\w+)", line))}


def uses(top=TOP):
    """The crates and libraries that each crate uses."""
    return {name: line.partition("#")[0].partition(":")[2].split() for name, line in lines(top).items()}


def with_those_below(names, used):
    """These crates and all below them, lowest first, where `uses` says what each uses."""
    found = []

    def visit(name):
        if name in used and name not in found:
            for below in used[name]:
                visit(below)
            found.append(name)

    for name in names:
        visit(name)
    return found


# Crates that are not libraries for others: tests, equations, and callers.
NO_LIBRARIES = re.compile(r"\w+_tests|rows|callers")


def libraries(top=TOP):
    """The crates that others may call, in the order of crates.txt."""
    return [name for name in lines(top) if (top / "crates" / name / "src" / "lib.rt").exists() and not NO_LIBRARIES.fullmatch(name)]


def modules(library, top=TOP):
    """Each file of a library with the words of its module's path, and whether all of that path is public."""
    root = top / "crates" / library / "src"

    def visit(file, path, public):
        text = file.read_text(encoding="utf-8")
        yield path, public, text
        folder = root.joinpath(*path)
        for word, name in re.findall(r"(?m)^(pub )?mod (\w+);", text):
            yield from visit(folder / f"{name}.rt", path + [name], public and bool(word))

    return list(visit(root / "lib.rt", [], True))


def handed_on(files):
    """The names that public modules re-export from private ones."""
    names = set()
    for _, public, text in files:
        if public:
            for group in re.findall(r"(?m)^pub use \w+(?:::\w+)*::(\{[^}]*\}|\w+);", text):
                names.update(re.findall(r"\w+", group))
    return names


def refuse(script, why):
    """Ends with the status of wrong words."""
    print(f"{script}: {why}", file=sys.stderr)
    sys.exit(2)


def top_of(script):
    """The repository that a script is to look at: the folder that its one word names, otherwise this one."""
    words = sys.argv[1:]
    if len(words) > 1 or not all((pathlib.Path(word) / "crates").is_dir() for word in words):
        refuse(script, "expected nothing, or the folder of a repository")
    return pathlib.Path(words[0]) if words else TOP
