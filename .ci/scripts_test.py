#!/usr/bin/env python3
"""Tests of the scripts, most on copies in a temporary folder: some seconds.

`.ci/run`, `.ci/mutants`, `test` and `install` call the toolchain's `rt`, and `release` calls `install`. Here stand-ins take their place.
"""
import importlib.machinery
import importlib.util
import os
import pathlib
import re
import shutil
import subprocess
import sys
import tarfile
import tempfile
import time
import unittest

TOP = pathlib.Path(__file__).resolve().parent.parent


def copy_script(folder, name):
    """Copies a script, and what scripts share."""
    for it in (name, ".ci/common.py"):
        (folder / it).parent.mkdir(parents=True, exist_ok=True)
        shutil.copy(TOP / it, folder / it)


def copy_to(folder, crates):
    """A repository with these crates of this one, its lists and its scripts."""
    for name in crates:
        shutil.copytree(TOP / "crates" / name, folder / "crates" / name, ignore=shutil.ignore_patterns("out", "must-fail", "mutants"))
    for name in ("crates.txt", "README.md"):
        shutil.copy(TOP / name, folder / name)
    copy_script(folder, "vendor")
    shutil.copytree(TOP / "docs", folder / "docs", ignore=shutil.ignore_patterns("pictures"))


class InFolder(unittest.TestCase):
    def setUp(self):
        held = tempfile.TemporaryDirectory()
        self.addCleanup(held.cleanup)
        self.folder = pathlib.Path(held.name)

    def change(self, path, old, new):
        """The first place of a text in a file of the folder becomes another."""
        text = (self.folder / path).read_text(encoding="utf-8")
        self.assertIn(old, text)
        (self.folder / path).write_text(text.replace(old, new, 1), encoding="utf-8")


class Refusals(InFolder):
    def setUp(self):
        super().setUp()
        copy_to(self.folder, [path.name for path in (TOP / "crates").iterdir() if (path / "src").exists()])

    def told(self):
        asked = subprocess.run([sys.executable, TOP / ".ci" / "refusals.py", self.folder], capture_output=True, text=True)
        return asked.returncode, asked.stdout

    def test_finds_a_call_of_a_new_crate_with_a_new_error(self):
        source = self.folder / "crates" / "fresh" / "src" / "lib.rt"
        source.parent.mkdir(parents=True)
        source.write_text("pub mod made;\n")
        made = "pub enum Lack {\n    Memory,\n}\n\npub type Made = Result<u8, Lack>;\n\n"
        calls = "pub fn make(size: usize) -> Made {}\n\npub fn copy(\n    size: usize,\n) -> Result<Vec<u8>, crate::made::Lack>\n    ensures {}\n{}\n"
        (source.parent / "made.rt").write_text(made + calls)
        with (self.folder / "crates.txt").open("a") as listed:
            listed.write("fresh:\n")
        self.assertEqual(self.told(), (1, "fresh::made::copy has no row\nfresh::made::make has no row\n"))

    def test_finds_a_row_that_is_left_out(self):
        page = next((self.folder / "docs").rglob("REFUSALS.md"))
        rows = page.read_text(encoding="utf-8").splitlines(keepends=True)
        page.write_text("".join(row for row in rows if "`bpaf_doc::Doc::text`" not in row), encoding="utf-8")
        self.assertEqual(self.told(), (1, "bpaf_doc::Doc::text has no row\n"))

    def test_finds_a_test_that_went(self):
        for source in (self.folder / "crates" / "library_tests" / "src").rglob("*.rt"):
            source.write_text(source.read_text(encoding="utf-8").replace("#[test]\n", ""), encoding="utf-8")
        status, told = self.told()
        self.assertEqual(status, 1)
        self.assertIn("bpaf_doc::Doc::text: crate library_tests has no test", told)


class Callers(InFolder):
    def setUp(self):
        super().setUp()
        for name in ("callers", "clidoc", "clidoc_engine", "bpaf_help"):
            shutil.copytree(TOP / "crates" / name, self.folder / "crates" / name, ignore=shutil.ignore_patterns("out"))
        shutil.copytree(TOP / "examples", self.folder / "examples")
        shutil.copy(TOP / "README.md", self.folder)
        (self.folder / "docs").mkdir()
        shutil.copy(TOP / "docs" / "guide.md", self.folder / "docs")

    def told(self):
        asked = subprocess.run([sys.executable, TOP / ".ci" / "callers.py", self.folder], capture_output=True, text=True)
        return asked.returncode, asked.stdout

    def test_finds_a_description_that_is_not_its_file(self):
        self.assertEqual(self.told()[0], 0, self.told())
        self.change("examples/greet.toml", "Whom to greet", "Whom")
        self.assertEqual(self.told(), (1, "README.md does not show examples/greet.toml\n"))
        self.change("README.md", "Whom to greet\"", "Whom\"         ")
        self.assertEqual(self.told()[0], 0, self.told())
        self.change("README.md", "-l, --loud  In", "-l, --loud  in")
        self.assertEqual(self.told(), (1, "README.md does not show the page of greet.toml in docs/guide.md\n"))
        self.change("README.md", "-l, --loud  in", "-l, --loud  In")
        self.change("examples/fetch.toml", "Say nothing", "Say little")
        self.assertEqual(self.told(), (1, "crates/clidoc/data/fetch.toml is not examples/fetch.toml\n"))

    def test_finds_that_the_program_holds_another_description_of_itself(self):
        self.change("examples/clidoc.toml", "Print the version", "Print a version")
        self.assertEqual(self.told(), (1, "crates/clidoc_engine/src/own.rt does not hold examples/clidoc.toml\n"))

    def test_finds_a_caller_that_is_not_proved(self):
        self.change("crates/bpaf_help/CALLING.md", "#![tactic(auto)]\n\n", "#![tactic(auto)]\n\n// mine\n")
        status, told = self.told()
        self.assertEqual(status, 1)
        self.assertIn("bpaf_help/CALLING.md: no file of callers has its caller 1", told)

    def test_writes_callers_anew(self):
        copy_script(self.folder, ".ci/callers.py")
        self.change("crates/callers/src/usage.rt", "let mut doc", "let mut made")
        self.assertEqual(self.told()[0], 1)
        asked = subprocess.run([sys.executable, self.folder / ".ci" / "callers.py", "write"], capture_output=True, text=True)
        self.assertEqual((asked.returncode, self.told()[0]), (0, 0), asked.stdout)


class Keys(InFolder):
    def setUp(self):
        super().setUp()
        copy_to(self.folder, ["description_toml"])

    def told(self):
        asked = subprocess.run([sys.executable, TOP / ".ci" / "keys.py", self.folder], capture_output=True, text=True)
        return asked.returncode, asked.stdout

    def test_finds_a_key_without_a_row_and_a_row_without_a_key(self):
        self.assertEqual(self.told()[0], 0, self.told())
        self.change("docs/keys.md", "| **`text`** |", "| **`body`** |")
        self.assertEqual(self.told(), (1, "[[topic]]: text has no row\n[[topic]]: body is no key\n"))
        self.change("crates/description_toml/src/decode/topics.rt", '["title", "text"]', '["title", "body"]')
        self.assertEqual(self.told()[0], 0, self.told())

    def test_finds_a_key_in_a_row_of_several(self):
        self.change("docs/keys.md", "`help`, `env`, `required`, `repeated` |", "`help`, `env`, `repeated` |")
        self.assertEqual(self.told(), (1, "[[help_option]]: required has no row\n"))

    def test_finds_another_order(self):
        self.change("docs/keys.md", "| `header` |", "| `footer_` |")
        self.change("docs/keys.md", "| `footer` |", "| `header` |")
        self.change("docs/keys.md", "| `footer_` |", "| `footer` |")
        self.assertEqual(self.told(), (1, "The top: its keys are not in the order of DESCRIPTION_KEYS, or one has two rows\n"))

    def test_finds_a_new_kind_of_table(self):
        source = self.folder / "crates/description_toml/src/decode/fresh.rt"
        source.write_text('const FRESH_KEYS: [&str; 1] = ["age"];\n\nfn fresh() {\n    check_keys(teller, table, &FRESH_KEYS);\n}\n')
        self.assertEqual(self.told(), (1, "FRESH_KEYS is of no table of the page\n"))


class Examples(InFolder):
    def setUp(self):
        super().setUp()
        copy_to(self.folder, ["bpaf_roff", "bpaf_doc", "bpaf_meta", "rows"])

    def told(self):
        asked = subprocess.run([sys.executable, TOP / ".ci" / "examples.py", self.folder], capture_output=True, text=True)
        return asked.returncode, asked.stdout

    def test_finds_an_example_that_no_row_has(self):
        self.assertEqual(self.told()[0], 0, self.told())
        path = "crates/bpaf_doc/specs/Console/Margin.antt"
        self.change(path, "≡ 3\n", "≡ 4\n")
        status, told = self.told()
        self.assertEqual(status, 1)
        self.assertRegex(told, path + r":\d+: no row has term_length \(.*\) ≡ 4\n")

    def test_finds_one_of_several_lines_and_a_row_that_goes_on(self):
        self.change("crates/bpaf_doc/specs/Console/Layout.antt", 'codes "a\\nbc"\n-- e.g. column', 'codes "a\\nbc" ++ []\n-- e.g. column')
        self.change("crates/rows/proofs/Roff.antt", 'codes "a b"\n', 'codes "a b" ++ []\n')
        self.assertEqual((self.told()[0], self.told()[1].count("no row has")), (1, 2))


class InCopy(InFolder):
    """Scripts that look at the repository that they stand in, on a small one."""

    def setUp(self):
        super().setUp()
        for name in ("proved", "crates", "prose"):
            copy_script(self.folder, f".ci/{name}.py")
        self.write("crates.txt", "low:\nhigh: low toml\n")
        self.write("crates/low/src/lib.rt", "//! What is\n//! low. More of it.\n\npub mod made;\nmod shut;\npub use shut::Held;\n")
        self.write("crates/high/src/lib.rt", "//! High.\n\nfn none() {}\n")
        self.write("crates/low/src/made.rt", self.MADE)
        self.write("crates/low/src/shut.rt", self.SHUT)
        self.write("docs/PROVED.md", "# Proved\n\n<!-- made: low -->\n<!-- end -->\n")
        self.write("docs/ARCHITECTURE.md", "# Map\n\n<!-- made: crates -->\n<!-- end -->\n")
        self.write("docs/lists/CONTRACTS.md", "")

    MADE = """/// Says it.
pub fn say(word: &str) -> Result<(), AllocError>
    requires { is_free word }

    // Why.
    ensures ok { OnOk result (
        said word.now) }
    ensures err { OnErr result True }
{
    ensures_nothing()
}

pub fn plain() {}

fn own()
    ensures { True }
{}
"""
    SHUT = """pub struct Held;

struct Hidden;

impl Held {
    pub fn new() -> Held
        ensures { True }
    {
        Held
    }

    pub fn kept(&self) -> bool
        ensures { True }
    {
        true
    }
}

impl From<u8> for Held {
    ghost from_gives = { λ byte held. held ≡ byte };

    fn from(byte: u8) -> Held {
        Held
    }
}

impl Hidden {
    pub fn new() -> Hidden
        ensures { True }
    {
        Hidden
    }
}
"""

    def write(self, path, text):
        file = self.folder / path
        file.parent.mkdir(parents=True, exist_ok=True)
        file.write_text(text, encoding="utf-8")

    def read(self, path):
        return (self.folder / path).read_text(encoding="utf-8")

    def told(self, name, *words):
        asked = subprocess.run([sys.executable, self.folder / ".ci" / f"{name}.py", *words], capture_output=True, text=True)
        return asked.returncode, asked.stdout


class Proved(InCopy):
    ROWS = ["| `made::say` | `requires` | `ok`, `err` |", "| `Held::new`, `kept` |  | `ensures` |", "| `From<u8> for Held` |  | `from_gives` |"]

    def test_writes_what_the_sources_say(self):
        self.assertEqual(self.told("proved")[0], 1)
        self.assertEqual(self.told("proved", "write"), (0, "1 tables of clauses and 4 contracts are as the sources say\n"))
        self.assertEqual(self.read("docs/PROVED.md").splitlines()[5:8], self.ROWS)
        listed = self.read("docs/lists/CONTRACTS.md")
        self.assertIn("// made\nfn say(word: &str) -> Result<(), AllocError>\n    requires { is_free word }\n", listed)
        self.assertIn("    ensures ok { OnOk result (\n        said word.now) }\n    ensures err { OnErr result True }\n\n", listed)
        self.assertIn("impl From<u8> for Held\n    ghost from_gives = { λ byte held. held ≡ byte };\n", listed)
        self.assertEqual(self.told("proved")[0], 0)

    def test_finds_what_is_stale(self):
        self.told("proved", "write")
        self.write("crates/low/src/made.rt", self.MADE.replace("ensures err", "ensures kept"))
        status, told = self.told("proved")
        self.assertEqual(status, 1)
        self.assertIn("PROVED.md: stale: | `made::say` | `requires` | `ok`, `err` |\n", told)
        self.assertIn("PROVED.md: missing: | `made::say` | `requires` | `ok`, `kept` |\n", told)
        self.assertIn("CONTRACTS.md: stale:     ensures err { OnErr result True }\n", told)

    def test_finds_a_crate_without_a_table(self):
        self.write("crates/high/src/lib.rt", self.MADE)
        self.assertIn("PROVED.md: crate high has no table\n", self.told("proved", "write")[1])


class Crates(InCopy):
    def test_writes_what_the_sources_say(self):
        self.assertEqual(self.told("crates")[0], 1)
        self.assertEqual(self.told("crates", "write"), (0, "2 crates stand in docs/ARCHITECTURE.md\n"))
        rows = ["| `low` | What is low |  |", "| `high` | High | `low` |"]
        self.assertEqual(self.read("docs/ARCHITECTURE.md").splitlines()[5:7], rows)
        self.assertEqual(self.told("crates")[0], 0)
        self.write("crates.txt", "low:\nhigh: toml\n")
        self.assertEqual(self.told("crates"), (1, f"missing: {rows[1].replace('`low`', '')}\nstale: {rows[1]}\n"))


class Prose(InCopy):
    def test_finds_long_lines_and_odd_words(self):
        self.assertEqual(self.told("prose")[0], 0, self.told("prose"))
        code = "It is `behind` here, and ``told `it` ``.\n\n```text\nbehind\n```\n\n    behind\n"
        self.write("docs/plain.md", f"# Plain\n\n{code}<!-- made: low -->\n| behind |\n<!-- end -->\n")
        self.assertEqual(self.told("prose")[0], 0, self.told("prose"))
        self.write("docs/plain.md", f"# Plain\n\n{code}\n| what is told |\n\nIt is\nhanded\non, {'far ' * 30}away.\n")
        self.assertEqual(self.told("prose"), (1, "docs/plain.md:15: 129 columns\n"
            "docs/plain.md:11: 'told'; write: reported, said\ndocs/plain.md:14: 'handed on'; write: pass on, re-export\n"))

    def test_finds_odd_words_in_comments(self):
        code = "const A: &str = r#\"\"// told\"#;\nconst B: char = '\"'; // Plain, as \"this\".\nconst C: &str = \"\\\"// told\";\n"
        self.write("crates/low/src/plain.rt", f"//! It is `told`, handed\n{code}// on.\nfn behind() {{}}\n")
        self.write("crates/low/specs/Plain.antt", "-- as `behind`\ntold : List ℕ\ntold = codes \"-- told\"\n")
        self.assertEqual(self.told("prose")[0], 0, self.told("prose"))
        self.write("crates/low/src/plain.rt", f"/// It is handed\n/// on.\n{code}const D: u8 = 0; // What is told.\n")
        self.write("crates/low/specs/Plain.antt", "told : List ℕ\n  -- Behind so many\n  -- bytes.\n")
        self.assertEqual(self.told("prose"), (1, "crates/low/src/plain.rt:1: 'handed on'; write: pass on, re-export\n"
            "crates/low/src/plain.rt:6: 'told'; write: reported, said\ncrates/low/specs/Plain.antt:2: 'Behind'; write: after\n"
            "crates/low/specs/Plain.antt:2: 'so many bytes'; write: that many\n"))

    def test_finds_links_that_lead_nowhere(self):
        self.write("docs/plain.md", "# A `plain` [page]\n\n[a](PROVED.md) [b](#a-plain-page) [c](https://x.org) [d](../crates/low)\n")
        self.assertEqual(self.told("prose")[0], 0, self.told("prose"))
        self.write("docs/other.md", "[a](lost.md) [b](plain.md#plain) [c](plain.md#a-plain-page) `[d](code.md)`\n")
        self.assertEqual(self.told("prose"), (1, "docs/other.md: lost.md leads nowhere\ndocs/other.md: plain.md#plain leads nowhere\n"))

    def test_counts_words(self):
        row = "| one - two | `three four` |\n"
        self.write("docs/DECISIONS.md", f"# Made\n\n<!-- made: low -->\n{row * 900}<!-- end -->\n\n{row * 749}")
        self.assertEqual(self.told("prose")[0], 0, self.told("prose"))
        self.write("docs/DECISIONS.md", f"# Made\n\n{row * 750}")
        self.assertEqual(self.told("prose"), (1, "docs/DECISIONS.md: 3001 words, and 3000 are the most\n"))
        self.write("docs/DECISIONS.md", "# Made\n")
        self.write("docs/more.md", f"# More\n\n{row * 9000}")
        self.assertRegex(self.told("prose")[1], r"^all pages: 360\d\d words, and 34000 are the most\n$")


class Vendor(InFolder):
    def setUp(self):
        super().setUp()
        self.ours, self.theirs = self.folder / "ours", self.folder / "theirs"
        self.theirs.mkdir()
        copy_to(self.ours, ["bpaf_roff", "bpaf_doc"])

    def call(self, *words):
        asked = subprocess.run([sys.executable, self.ours / "vendor", self.theirs, *words], capture_output=True, text=True)
        return asked.returncode, asked.stdout, asked.stderr

    def held(self):
        return {str(path.relative_to(self.theirs)): path.read_bytes() for path in self.theirs.rglob("*") if path.is_file()}

    def test_copies_a_crate_and_those_below_it(self):
        status, told, _ = self.call("bpaf_doc")
        self.assertEqual((status, told.splitlines()[1:]), (0, ["bpaf_roff:", "bpaf_doc: bpaf_roff memchr unicode_width ucd_table"]))
        held = self.held()
        for name in ("bpaf_roff", "bpaf_doc"):
            for part in ("src", "specs", "proofs"):
                for path in (self.ours / "crates" / name / part).rglob("*"):
                    if path.is_file():
                        self.assertEqual(held[str(path.relative_to(self.ours))], path.read_bytes())
        self.assertEqual(self.call("bpaf_doc")[0], 0)
        self.assertEqual(self.held(), held)

    def test_brings_a_newer_version(self):
        self.call("bpaf_doc")
        (self.ours / "crates/bpaf_roff/src/lib.rt").write_text("// newer\n")
        shutil.rmtree(self.ours / "crates/bpaf_doc/proofs")
        self.assertEqual(self.call("bpaf_roff")[0], 0)
        self.assertEqual(self.held()["crates/bpaf_roff/src/lib.rt"], b"// newer\n")
        self.assertFalse((self.theirs / "crates/bpaf_doc/proofs").exists())

    def test_refuses_to_overwrite_a_change(self):
        self.call("bpaf_doc")
        (self.theirs / "crates/bpaf_roff/src/lib.rt").write_text("// mine\n")
        (self.ours / "crates/bpaf_doc/src/lib.rt").write_text("// newer\n")
        held = self.held()
        status, _, told = self.call("bpaf_doc")
        self.assertEqual(status, 1)
        self.assertIn("crates/bpaf_roff/src/lib.rt", told)
        self.assertEqual(self.held(), held)

    def test_refuses_what_is_not_there(self):
        self.assertEqual(self.call("no_crate")[::2], (2, "vendor: no crate no_crate stands in crates.txt\n"))
        self.assertEqual(self.call()[::2], (2, "vendor: expected FOLDER and the names of crates\n"))
        self.assertEqual(self.held(), {})


class WrongWords(InFolder):
    WRONG = (
        (".ci/run", "x"),
        (".ci/rows.py", "write"),
        (".ci/prose.py", "x"),
        (".ci/proved.py", "x"),
        (".ci/crates.py", "x"),
        (".ci/keys.py", "no_folder"),
        (".ci/examples.py", "no_folder"),
        (".ci/callers.py", "no_folder"),
        (".ci/refusals.py", ".", "x"),
        (".ci/mutants", "no_crate"),
        ("test", "no_crate"),
        ("install",),
        ("install", "--help"),
        ("release", "--helf"),
        ("release", "x", "x"),
        ("speed", "no such case"),
    )

    def test_are_refused_at_once(self):
        for script, *words in self.WRONG:
            asked = subprocess.run([TOP / script, *words] if os.access(TOP / script, os.X_OK) else [sys.executable, TOP / script, *words], **self.how())
            self.assertEqual((asked.returncode, asked.stdout), (2, ""), script)
            self.assertIn(f"{pathlib.Path(script).stem}: ", asked.stderr)

    def test_help_of_release_is_its_head(self):
        asked = subprocess.run([TOP / "release", "--help"], **self.how())
        self.assertEqual((asked.returncode, asked.stderr), (0, ""))
        self.assertIn("\n    ./release [FOLDER] ", asked.stdout)

    def how(self):
        return {"capture_output": True, "text": True, "cwd": TOP}


class OverStandIn(InFolder):
    """Calls of scripts where `rt`, or another command, is a stand-in: a shell script."""

    def stand_in(self, name, script):
        place = self.folder / "bin" / name
        place.parent.mkdir(exist_ok=True)
        place.write_text(f"#!/bin/sh\n{script}\n")
        place.chmod(0o755)

    def call(self, *words, **more):
        path = {"PATH": f"{self.folder / 'bin'}:/usr/bin:/bin"}
        asked = subprocess.run([*words], capture_output=True, text=True, env={**os.environ, **path, **more})
        return asked.returncode, asked.stdout, asked.stderr


class Run(OverStandIn):
    JOBS = "echo $RT_JOBS >> jobs"

    def test_gives_each_step_a_job_at_least(self):
        copy_script(self.folder, ".ci/run")
        for path in ("test", ".ci/mutants"):
            (self.folder / path).write_text(f"#!/bin/sh\n{self.JOBS}\n")
            (self.folder / path).chmod(0o755)
        for path in ("callers", "refusals", "keys", "examples", "proved", "crates", "prose", "scripts_test"):
            (self.folder / ".ci" / f"{path}.py").write_text("")
        self.stand_in("rt", "echo '9 passed, 0 failed'")
        # What reports how much memory is free.
        self.stand_in("awk", "echo 0")
        status, told, _ = self.call(self.folder / ".ci" / "run", RT_JOBS="")
        self.assertEqual((status, told.splitlines()[-1]), (0, "9 passed, 0 failed"))
        self.assertEqual((self.folder / "jobs").read_text(), "1\n1\n1\n")


class Tests(OverStandIn):
    def setUp(self):
        super().setUp()
        copy_script(self.folder, "test")
        (self.folder / "crates.txt").write_text("some_tests: app_engine\napp: app_engine # a program\napp_engine:\n")
        held = {"some_tests/src/lib.rt": "#[test]\n", "app_engine/src/lib.rt": "\n", "app/src/main.rt": "\n", "app/stdin": "in\n"}
        for path, text in {**held, "app/stdout": "read:in\n", "app/args": "full\n", "app/status": "3\n"}.items():
            (self.folder / "crates" / path).parent.mkdir(parents=True, exist_ok=True)
            (self.folder / "crates" / path).write_text(text)

    # It stands for the run of a program: for each case it says in its words how it ends, and whether the output is the stored one, or
    # prints it where none is stored.
    CASES = """cd "$5"; for case in *.args; do case "$(cat $case)" in %s) how='%s';; *) how='ended status=0 runners=1';; esac
        name=${case%%.args}; sed s/^/read:/ $name > out; [ -f $name.stdout ] || { echo "== $name"; cat out; }
        [ -f $name.stdout ] && how="$how output=$(cmp -s out $name.stdout && echo expected || echo differs)"
        echo "case=$name run=$how proved=no" >&2; done"""

    def told(self, tests, program):
        self.stand_in("rt", f'case "$*" in *--test) {tests};; *) {program};; esac')
        status, told, _ = self.call(self.folder / "test")
        return status, told

    def test_counts_what_passed(self):
        tests = "echo 'tests: 2'; echo 'test a::b ... ok'; echo 'test c ... ok'"
        status, told = self.told(tests, self.CASES % ("full", "ended status=3 runners=1"))
        self.assertEqual((status, told.splitlines()[-1]), (0, "3 passed, 0 failed"))

    def test_counts_what_failed(self):
        tests = "echo 'tests: 2'; echo 'test a::b ... ok'; echo 'test c ... FAILED'; exit 101"
        status, told = self.told(tests, self.CASES % ("full", "ended status=1 runners=1"))
        self.assertEqual((status, told.splitlines()[-1]), (1, "1 passed, 2 failed"))
        self.assertIn("case=stored run=ended status=1 ", told)

    def test_counts_what_does_not_run(self):
        status, told = self.told("exit 1", self.CASES % ("full", "fault"))
        self.assertEqual((status, told.splitlines()[-1]), (1, "0 passed, 2 failed"))
        (self.folder / "crates/app/stdout").write_text("other\n")
        status, told = self.told("echo 'tests: 1'; echo 'test a::b ... ok'", self.CASES % ("full", "ended status=3 runners=1"))
        self.assertEqual((status, told.splitlines()[-1]), (1, "1 passed, 1 failed"))
        self.assertIn("output=differs", told)

    def told_of_examples(self, examples, guide):
        self.stand_in("rt", self.CASES % ("man", "ended status=1 runners=1"))
        for path, text in {"crates/clidoc/src/main.rt": "\n", "docs/guide.md": guide, **examples}.items():
            (self.folder / path).parent.mkdir(parents=True, exist_ok=True)
            (self.folder / path).write_text(text)
        (self.folder / "crates.txt").write_text("clidoc:\n")
        status, told, _ = self.call(self.folder / "test")
        self.assertEqual(status, 1)
        return told

    def test_runs_each_example_in_each_form(self):
        calls = "".join(f"```console\n$ clidoc full app.toml\n{page}\n```\n" for page in ("read:x", "another"))
        told = self.told_of_examples({"examples/one.toml": "1\n", "examples/two.toml": "2\n"}, f"```toml\nx\n```\n{calls}")
        self.assertEqual(told.splitlines()[-1], "30 passed, 3 failed")
        self.assertIn("it fails: one-man\n    it fails: two-man\n    it fails: guide-1\n", told)

    def test_compares_examples_in_json(self):
        examples = {"examples/one.toml": "1\n", "examples/one.json": "1\n", "examples/two.toml": "2\n", "examples/two.json": "3\n"}
        told = self.told_of_examples(examples, "```json\nx\n```\n```console\n$ clidoc full app.json\nread:x\n```\n")
        self.assertEqual(told.splitlines()[-1], "44 passed, 18 failed")
        self.assertEqual(set(re.findall("it fails: ([a-z]+-one-.*)", told)), {"json-one-man"})
        self.assertNotIn("it fails: guide", told)

    def test_ends_hints_and_nothing_else(self):
        hints = "sleep 60 & names=$!; wait $tool; wait $names; echo $? > ended"
        tests = f"setsid sleep 1 & tool=$!; {hints}; echo 'tests: 1'; echo 'test a::b ... ok'"
        begun = time.monotonic()
        status, told = self.told(tests, self.CASES % ("full", "ended status=3 runners=1"))
        self.assertEqual((status, told.splitlines()[-1]), (0, "2 passed, 0 failed"))
        self.assertEqual((self.folder / "crates/some_tests/ended").read_text(), f"{128 + 15}\n")
        self.assertLess(time.monotonic() - begun, 30)


class Install(OverStandIn):
    def setUp(self):
        super().setUp()
        self.ours, self.prefix = self.folder / "ours", self.folder / "prefix"
        copy_to(self.ours, [path.name for path in (TOP / "crates").iterdir() if (path / "src").exists()])
        copy_script(self.ours, "install")
        shutil.copytree(TOP / "examples", self.ours / "examples")
        self.gives("page")

    def gives(self, page):
        """Lets the stand-in make a program that writes this page."""
        program = f"mkdir -p out; printf '#!/bin/sh\\necho {page} $1\\n' > out/clidoc; chmod +x out/clidoc"
        self.stand_in("rt", f'basename "$PWD" >> ../proved; case "$1 $4 $5" in "run -- --version") {program};; esac')

    def install(self):
        return self.call(self.ours / "install", self.prefix)

    def held(self):
        paths = [path for path in self.prefix.rglob("*") if path.is_file()] if self.prefix.is_dir() else []
        return {str(path.relative_to(self.prefix)): (path.read_text(), path.stat().st_ino) for path in paths}

    def test_installs_once(self):
        status, told, _ = self.install()
        self.assertEqual(status, 0)
        proved = (self.ours / "crates" / "proved").read_text().split()
        for below, above in (("bpaf_roff", "bpaf_doc"), ("description", "description_toml"), ("watched", "clidoc_engine"), ("clidoc_engine", "clidoc")):
            self.assertLess(proved.index(below), proved.index(above))
        self.assertNotIn("replay", proved)
        self.assertIn(f"0:00 at {proved[1]}, 2 of {len(proved)} crates\n", told)
        held = self.held()
        self.assertEqual(sorted(held), ["bin/clidoc", "share/man/man1/clidoc.1"])
        self.assertEqual(held["share/man/man1/clidoc.1"][0], "page man\n")
        self.assertEqual(self.install()[0], 0)
        self.assertEqual(self.held(), held)
        self.gives("newer")
        self.assertEqual(self.install()[0], 0)
        self.assertEqual(self.held()["share/man/man1/clidoc.1"][0], "newer man\n")

    def refused(self):
        status, told, why = self.install()
        self.assertEqual((status, told, why.count("\n"), self.held()), (1, "", 1, {}))
        return why

    def test_refuses_in_one_line(self):
        self.stand_in("uname", "echo Linux aarch64")
        self.assertIn("x86-64 alone, and this is Linux aarch64", self.refused())
        (self.folder / "bin" / "uname").unlink()
        (self.folder / "bin" / "rt").unlink()
        self.assertIn("rt, the command of the toolchain, is not found", self.refused())
        self.gives("page")
        self.prefix.write_text("a file")
        self.assertIn("cannot be written", self.refused())

    def test_leaves_nothing_of_what_is_not_proved(self):
        self.stand_in("rt", "echo 'fn of::it: not proved'; exit 1")
        status, _, why = self.install()
        self.assertEqual((status, self.held()), (1, {}))
        self.assertRegex(why, r"^fn of::it: not proved\ninstall: \w+ is not proved, so nothing was installed\n$")


class Release(OverStandIn):
    """A release is made of a commit of a repository whose `install` is a stand-in."""

    def setUp(self):
        super().setUp()
        self.ours = self.folder / "ours"
        for path in ("release", "LICENSE-MIT", "LICENSE-APACHE", "crates/clidoc_engine/src/own.rt"):
            (self.ours / path).parent.mkdir(parents=True, exist_ok=True)
            shutil.copy(TOP / path, self.ours / path)
        (self.ours / "install").write_text('#!/bin/sh\nmkdir -p $1/bin $1/share/man/man1\necho GLIBC_2.34 > $1/bin/clidoc\necho page > $1/share/man/man1/clidoc.1\n')
        (self.ours / "install").chmod(0o755)
        self.git("init", "-q")
        self.git("add", ".")
        self.git("-c", "user.name=somebody", "-c", "user.email=somebody@here", "commit", "-q", "-m", "all")
        # It shows what a package would have in the place of the package.
        self.stand_in("dpkg-deb", 'cat "$3/DEBIAN/control" "$3/usr/share/doc/clidoc/copyright" > "$4"')

    def git(self, *words):
        subprocess.run(["git", "-C", self.ours, *words], check=True)

    def released(self, **more):
        status, told, why = self.call(self.ours / "release", self.folder / "out", **{"DEBEMAIL": "", "DEBFULLNAME": "", **more})
        self.assertEqual((status, why), (0, ""), told)
        return next((self.folder / "out").glob("*.deb"))

    def test_has_a_version_of_its_own_and_licences(self):
        package = self.released()
        version = (self.ours / "crates/clidoc_engine/src/own.rt").read_text().split('"clidoc ')[1].split("\\n")[0]
        self.assertRegex(package.name, rf"^clidoc_{version}\+\d{{8}}\.\d{{4}}_amd64\.deb$")
        self.assertGreater([int(it) for it in version.split(".")], [0, 9, 28])
        self.assertIn("Maintainer: The authors of clidoc <authors@clidoc.invalid>\n", package.read_text())
        self.assertIn((TOP / "LICENSE-MIT").read_text(), package.read_text())
        with tarfile.open(next((self.folder / "out").glob("*.tar.gz"))) as archive:
            held = {name.split("/", 1)[1] for name in archive.getnames() if "/" in name}
        self.assertLessEqual({"bin/clidoc", "share/doc/clidoc/LICENSE-MIT", "share/doc/clidoc/LICENSE-APACHE"}, held)

    def test_has_the_maintainer_that_is_set(self):
        self.assertIn("Maintainer: The authors of clidoc <me@here>\n", self.released(DEBEMAIL="me@here").read_text())
        self.assertIn("Maintainer: Me <me@here>\n", self.released(DEBEMAIL="me@here", DEBFULLNAME="Me").read_text())
        self.assertIn("Maintainer: Me <me@here>\n", self.released(DEBEMAIL="Me <me@here>").read_text())


class Speed(OverStandIn):
    def test_says_what_is_missing(self):
        copy_script(self.folder, "speed")
        status, told, why = self.call(sys.executable, self.folder / "speed", "options, usage", PATH=str(self.folder / "bin"))
        self.assertEqual((status, told, why.count("\n")), (1, "", 1))
        self.assertIn("crates/clidoc/out/clidoc", why)
        self.assertIn("no valgrind", why)


# It stands for `rt`. Of a body `wrong` a goal is open, no report names `unsaid`, `same` is proved, and `stray` does not compile. Of `odd` a
# goal is open in a report alone.
STAND_IN = r"""
import pathlib, re, sys
if sys.argv[1] == "must-fail":
    for edit in pathlib.Path("crates/one/must-fail").iterdir():
        told = {"same": "NOT REFUSED: it is proved", "odd": "NOT REFUSED: it is proved"}
        print(f"rt: must-fail one/{edit.name}: {told.get(re.search('new: (.*)', edit.read_text())[1], 'refused')}")
    sys.exit()
bodies = re.findall(r"fn (\w+)\(\) \{\n    (\w+)", pathlib.Path("src/lib.rt").read_text())
if sys.argv[1] == "try" and "stray" not in dict(bodies).values():
    sys.exit("test passes ... " + ("FAILED" if "wrong" in dict(bodies).values() else "ok"))
if "stray" in dict(bodies).values():
    sys.exit("src/lib.rt:1:1: error[unknown-name]: stray")
if sys.argv[-1] == "":
    sys.exit("only=0 proved=0")
with pathlib.Path(__file__).with_name("seen").open("w") as told:
    for file in [*sorted(pathlib.Path("src").rglob("*.rt")), *sorted(pathlib.Path("proofs").rglob("*.antt"))]:
        print(file, file.read_text(), sep="\n", file=told)
asked = [it.removeprefix("--only=") for it in sys.argv if it.startswith("--only=")]
if asked:
    with pathlib.Path(__file__).with_name("asked").open("a") as told:
        print(*asked, file=told)
    bodies = [it for it in bodies if it[0] in asked]
    if "d" in asked:
        sys.exit(2)
for name, body in bodies:
    open = "`search` did not prove `returns`"
    told = {"wrong": open, "odd": open, "unsaid": "it calls `one::a`, which is not proved"}
    print(f"fn one::{name}:", "no proof: " + told[body] if body in told else "proved")
pathlib.Path("out/incremental").mkdir(parents=True, exist_ok=True)
sys.exit(1 if {"wrong", "odd", "unsaid"} & set(dict(bodies).values()) else 0)
"""


class Mutants(InFolder):
    """The mutants of a crate `one`, tried by a stand-in for `rt`. The sources are read by the toolchain's own program."""

    def setUp(self):
        super().setUp()
        for name in ("mutants", "functions.py", "common.py"):
            self.write(f".ci/{name}", (TOP / ".ci" / name).read_text(encoding="utf-8"))
        self.write("bin/rt", f"#!{sys.executable}{STAND_IN}").chmod(0o755)
        (self.folder / "bin" / "rattle").symlink_to(pathlib.Path(shutil.which("rt")).resolve().with_name("rattle"))
        self.write("crates/one/src/lib.rt", "\n".join(f"fn {name}() {{\n    {name}_body\n}}\n" for name in "abcd"))

    def write(self, path, text):
        file = self.folder / path
        file.parent.mkdir(parents=True, exist_ok=True)
        file.write_text(text, encoding="utf-8")
        return file

    def mutant(self, name, old, new, more=""):
        self.write(f"crates/one/mutants/{name}.edit", f"file: src/lib.rt\nold: {old}\nnew: {new}\n{more}")

    def told(self, *words, **more):
        path = {"PATH": f"{self.folder / 'bin'}:{os.environ['PATH']}"}
        words = [sys.executable, self.folder / ".ci" / "mutants", *words]
        asked = subprocess.run(words, capture_output=True, text=True, env={**os.environ, **path, **more})
        return asked.returncode, asked.stdout.splitlines()

    def module(self, name):
        """A script over this folder as a module. It does nothing when it is imported."""
        for it in ("common", "functions"):
            sys.modules.pop(it, None)
        folder = str(self.folder / ".ci")
        sys.path.insert(0, folder)
        self.addCleanup(sys.path.remove, folder)
        loader = importlib.machinery.SourceFileLoader(name, f"{folder}/{name}")
        made = importlib.util.module_from_spec(importlib.util.spec_from_loader(name, loader))
        loader.exec_module(made)
        return made

    def test_tells_what_does_not_apply(self):
        self.mutant("twice", "_body", "wrong")
        self.mutant("never", "e_body", "wrong")
        self.mutant("untested", "a_body", "wrong", "test: one holds\n")
        self.write("crates/one/src/of/calls.rt", "#[test]\nfn passes(rt: HostRuntime) {}\n")
        self.mutant("tested", "a_body", "wrong", "test: one passes\ntest: one of::calls::passes\n")
        self.mutant("astray", "a_body", "wrong", "test: one of::rows::passes\n")
        status, told = self.told("--applies")
        self.assertEqual(status, 1)
        faults = ["no test of::rows::passes", "'e_body' stands 0 times", "'_body' stands 4 times", "crate one has no test holds"]
        for line, why in zip(told, faults, strict=True):
            self.assertIn(why, line)

    def test_tries_together_and_what_is_not_named_alone(self):
        for number, new in enumerate(["wrong", "wrong", "unsaid", "wrong"]):
            self.mutant(f"of_{'abcd'[number]}", f"{'abcd'[number]}_body", new)
        self.mutant("other_of_a", "a_body", "wrong")
        status, told = self.told()
        self.assertEqual((status, told[-1]), (0, "5 refused, 0 let through, 0 compile no more, 0 differ"))
        self.assertEqual(told[1:4], ["one/of_a: refused", "one/of_b: refused", "one/of_d: refused"])
        self.assertEqual(told[-2], "one/of_c: refused 'rt must-fail' says: refused")

    def test_leaves_out_the_bodies_of_others(self):
        called = "fn loose() {\n    called\n}\n\n#[cycle(round)]\nfn round() {\n    called\n}\n\npub(super) struct Held;\n"
        self.write("crates/one/src/low.rt", f"{called}\nimpl Held {{\n    const fn kept() {{\n        called\n    }}\n}}\n")
        self.write("crates/one/src/up.rt", "impl Held {\n    fn far(\n        &self,\n    )\n        ensures {}\n    {\n        called\n    }\n}\n")
        self.write("crates/one/src/of.rt", "impl Eq for Held {\n    fn eq() {\n        called\n    }\n}\n\ntrait Of {\n    fn of();\n}\n\nfn law()\n    ensures {}\n{}\n")
        for path in ("a", "low/loose", "low/+round"):
            self.write(f"crates/one/proofs/{path}/Answers.antt", "held\n")
        self.mutant("of_a", "a_body", "wrong")
        self.assertIn("1 refused, 0 let through", self.told()[1][-1])
        seen = (self.folder / "bin" / "seen").read_text().split("proofs/", 1)
        for text in ("    wrong\n", "const fn kept() {\n        called", "fn eq() {\n        called", "fn of();", "{}\n{}\n", "    {\nunreachable!()\n    }"):
            self.assertIn(text, seen[0])
        self.assertEqual((seen[0].count("unreachable!()"), seen[0].count("cycle")), (6, 0))
        proofs = [line for line in ("proofs/" + seen[1]).splitlines() if line.startswith("proofs/") or line in ("held", "far_spec = ?")]
        holes = [f"proofs/{name}/Proof.antt" for name in ("b", "c", "d", "low/Held/far", "low/loose", "low/round")]
        self.assertEqual(proofs, ["proofs/a/Answers.antt", "held", *holes[:4], "far_spec = ?", *holes[4:]])
        self.assertIn("use Rattle.one.proofs.low.Held.far.Statement.{statement}\n\npub far_spec : {M : Type 1} → statement M\n", seen[1])

    def test_checks_over_a_run_what_was_changed_alone(self):
        self.write("bin/rtlib.py", "class Crate:\n    def __init__(self, *_):\n        pass\n\n    def stamp(self):\n        return 'same'\n")
        self.write("run/crates/low/out/rlib/low.rlib/format", "")
        for name, new in zip("abc", ["wrong", "same", "wrong"]):
            self.mutant(f"of_{name}", f"{name}_body", new)
        status, told = self.told("--over", self.folder / "run")
        self.assertEqual((status, told[-1]), (1, "2 refused, 1 let through, 0 compile no more, 0 differ"))
        self.assertEqual((self.folder / "bin" / "asked").read_text(), "a b c\nb\n")
        self.mutant("of_d", "d_body", "wrong")
        self.assertIn("3 refused, 1 let through", self.told("--over", self.folder / "run")[1][-1])

    def test_has_one_lane_where_there_are_no_jobs(self):
        self.mutant("of_a", "a_body", "wrong")
        self.assertIn("1 refused, 0 let through", self.told("one", RT_JOBS="0")[1][-1])

    def test_says_what_is_let_through_and_what_compiles_no_more(self):
        for name, new in zip("abcd", ["same", "stray", "wrong", "wrong"]):
            self.mutant(f"of_{name}", f"{name}_body", new)
        status, told = self.told("one")
        self.assertEqual((status, told[-1]), (1, "2 refused, 1 let through, 1 compile no more, 0 differ"))
        self.assertIn("one/of_a: LET THROUGH: 'rt must-fail' says: NOT REFUSED: it is proved", told)
        self.assertIn("one/of_b: COMPILES NO MORE: src/lib.rt:1:1: error[unknown-name]: stray", told)

    def test_tries_by_a_test_what_no_proof_refuses(self):
        self.write("crates/one/src/calls.rt", "#[test]\nfn passes(rt: HostRuntime) {}\n")
        for name, new in zip("abc", ["same", "stray", "wrong"]):
            self.mutant(f"of_{name}", f"{name}_body", new, "test: one passes\n")
        told = self.told("one")[1]
        self.assertEqual(told[1], "one/of_a: LET THROUGH: a test that it names passes, or did not run")
        self.assertEqual(told[2], "one/of_b: COMPILES NO MORE: src/lib.rt:1:1: error[unknown-name]: stray")
        self.assertEqual(told[3:], ["one/of_c: refused by a test", "1 refused, 1 let through, 1 compile no more, 0 differ"])

    def test_fails_where_the_command_refuses_no_drawn_one(self):
        self.mutant("of_a", "a_body", "odd")
        status, told = self.told("one", "--seed", "7")
        self.assertEqual(told[0], "tried by 'rt must-fail' too, drawn by --seed 7: one/of_a")
        self.assertEqual(told[1:3], ["one/of_a: refused", "one/of_a: DIFFERS: 'rt must-fail' says: NOT REFUSED: it is proved"])
        self.assertEqual((status, told[-1]), (1, "1 refused, 0 let through, 0 compile no more, 1 differ"))

    def test_draws_one_in_fifty_by_a_seed(self):
        of = self.module("mutants")
        mutants = [of.Mutant("one", number, [], [("one", "holds")] * (number % 2)) for number in range(202)]
        drawn = [of.draw(mutants, seed) for seed in (1, 1, 2)]
        self.assertEqual([len(it) for it in drawn], [3, 3, 3])
        self.assertFalse([it for it in drawn[0] if it.tests])
        self.assertEqual(drawn[0], drawn[1])
        self.assertNotEqual(drawn[0], drawn[2])

    def test_knows_functions_by_the_names_in_a_report(self):
        text = 'fn first() {\n    "fn none() {"; // }\n    all(|it| { it })\n}\n\npub struct Held<A>(A);\n\n'
        text += "impl<'a, A: Of> From<&'a [A; 2]> for Held<A> {\n    ghost from_gives = { λ x. x };\n\n    fn from() {\n        it\n    }\n}\n\n"
        text += "impl<A> From<u8> for Held<A> {\n    fn from() {\n        it\n    }\n}\n\n"
        text += "impl<A> Held<A> {\n    fn first(&self) -> [A; 2]\n        ensures { {} }\n    {\n        it\n    }\n}\n"
        self.write("crates/one/src/low.rt", text)
        crate = self.module("functions.py").Crate("one")
        heads = {name: crate.unit_named(f"one::low::{name}") for name in ("first", "fn::first::all+FnMut::call_mut", "HeldFromU8::from", "Held/first")}
        self.assertEqual(list(heads.values()), [f"src/low.rt:{line}" for line in (0, 0, 16, 22)])
        self.assertEqual([crate.unit_named(it) for it in ("one::low::Held::from", "one::first", "one::low::+round")], [None, None, "+round"])
        self.assertEqual([crate.unit_at("src/low.rt", line) for line in (3, 4, 12, 24)], ["src/low.rt:0", None, "src/low.rt:10", "src/low.rt:22"])


unittest.main()
