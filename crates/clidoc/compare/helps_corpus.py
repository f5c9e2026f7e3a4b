#!/usr/bin/env python3
"""Makes the texts that `helps.py` reads: what programs of Debian 12 print when they are asked for help.

    compare/helps_corpus.py FOLDER ROOM [shown | others | NAME..]

Writes for each program of a set, those that are `shown` or the `others`, or for each that is named, FOLDER/NAME.txt,
and beside it what a person reads there, NAME.names and NAME.values, from `helps_truth.txt` (`helps.py` says what they
hold). A package that is not installed is downloaded by `apt-get`, with what it needs, and unpacked into ROOM, where
it stays; nothing is installed. Run `apt-get update` first.
Prints each program with its package and version: another one prints another text. Ends with status 1 where a program
prints nothing.
"""
import os
import pathlib
import re
import subprocess
import sys

TRUTH = pathlib.Path(__file__).resolve().parent / "helps_truth.txt"
# Programs, their package, and the call where it is not `NAME --help`.
SHOWN = """
ls cp sort head cut date du install od split dd | coreutils
tar | tar; grep | grep; find | findutils; xz | xz-utils; gcc | gcc; make | make; sed | sed; apt | apt; rsync | rsync
curl | curl | curl --help all
ssh | openssh-client | ssh
python3 | python3-minimal | /usr/bin/python3 --help
git-log | git | git log -h; git-commit | git | git commit -h; git-clone | git | git clone -h
git-branch | git | git branch -h; git-add | git | git add -h; git-rebase | git | git rebase -h
pip | python3-pip
http | httpie
yamllint | yamllint; flake8 | flake8; codespell | codespell; borg | borgbackup
glances | glances; meson | meson; mypy | mypy
pytest | python3-pytest | python3 -m pytest --help
ansible-playbook | ansible-core
gh | gh; hugo | hugo; podman | podman; skopeo | skopeo; buildah | buildah; restic | restic; rclone | rclone
etcdctl | etcd-client
kubectl | kubernetes-client
docker | docker.io
rg | ripgrep
fdfind | fd-find
batcat | bat
tldr | tealdeer
hyperfine | hyperfine; sd | sd; zoxide | zoxide; lsd | lsd; bindgen | bindgen; hexyl | hexyl
"""
# Those that the rules of a draft were not made from.
OTHERS = """
numfmt | coreutils; diff | diffutils; wget | wget; gpg | gpg; less | less; lsblk | util-linux; mount | mount
systemctl | systemd; strace | strace; cmake | cmake; jq | jq; tree | tree; gdb | gdb-minimal
perl | perl-base | perl -h
psql | postgresql-client-15 | /usr/lib/postgresql/15/bin/psql --help
vim | vim-tiny | vim.tiny --help
dpkg | dpkg; man | man-db; git-grep | git | git grep -h; git-fetch | git | git fetch -h
pip-install | python3-pip | pip install --help
pylint | pylint; isort | isort; gallery-dl | gallery-dl; virtualenv | virtualenv
docker-run | docker.io | docker run --help
gh-pr-create | gh | gh pr create --help
cargo | cargo; b3sum | b3sum; sq | sq; cbindgen | cbindgen
"""


def programs(table):
    """The name, the package and the call of each program."""
    for entry in re.split(r"[;\n]", table):
        names, package, call = [it.strip() for it in (entry + "||").split("|")[:3]]
        for name in names.split():
            yield name, package, call or f"{name} --help"


def run(words, **how):
    return subprocess.run(words, stdin=subprocess.DEVNULL, capture_output=True, timeout=600, check=False, **how)


def missing(packages):
    """These packages, and what they need that is not installed."""
    planned = run(["apt-get", "-s", "install", "--no-install-recommends", *packages]).stdout.decode()
    return sorted({*packages, *re.findall(r"(?m)^Inst (\S+)", planned)})


def unpacked(packages, room):
    """Puts the files of the packages into the room."""
    debs = room / "debs"
    debs.mkdir(parents=True, exist_ok=True)
    wanted = [it for it in missing(packages) if not list(debs.glob(f"{it}_*.deb"))] if packages else []
    if wanted and (ran := run(["apt-get", "download", *wanted], cwd=debs)).returncode:
        sys.exit(ran.stderr.decode())
    for name in wanted:
        run(["dpkg", "-x", next(debs.glob(f"{name}_*.deb")), room])


def version(package, room):
    """The version of the package in the room, or of the installed one."""
    if found := list((room / "debs").glob(f"{package}_*.deb")):
        return found[0].name.split("_")[1].replace("%3a", ":")
    return run(["dpkg-query", "-W", "-f", "${Version}", package]).stdout.decode()


def surroundings(room):
    """The environment of a program: the files of the room first, and a terminal of 80 columns without colours."""
    home = room / "home"
    home.mkdir(exist_ok=True)
    usr = room / "usr"
    return {
        "PATH": f"{usr}/bin:{usr}/sbin:/usr/bin:/bin",
        "LD_LIBRARY_PATH": f"{usr}/lib/x86_64-linux-gnu:{room}/lib/x86_64-linux-gnu",
        "PYTHONPATH": f"{usr}/lib/python3/dist-packages",
        "PYTHONDONTWRITEBYTECODE": "1",
        "HOME": str(home), "LC_ALL": "C.UTF-8", "TERM": "dumb", "COLUMNS": "80", "PAGER": "cat", "GIT_PAGER": "cat",
    }


def truths():
    """For each program, the rows of names that a person reads in its text, and those of the words for values."""
    found = {}
    for line in TRUTH.read_text(encoding="utf-8").splitlines():
        if line.startswith("== "):
            found[line[3:]] = names, values = [], []
            continue
        read, _, word = line.partition("\t")
        names += read.split()
        values += [f"{name}\t{word}" for name in read.split() if word]
    return found


def main():
    folder, room = (pathlib.Path(it).resolve() for it in sys.argv[1:3])
    named = set(sys.argv[3:]) or {"shown"}
    sets = [("shown", SHOWN), ("others", OTHERS)]
    chosen = [it for kind, table in sets for it in programs(table) if named & {kind, it[0]}]
    folder.mkdir(parents=True, exist_ok=True)
    unpacked(sorted({package for _, package, _ in chosen if not version(package, room)}), room)
    silent, known = 0, truths()
    for name, package, call in chosen:
        ran = run(call.split(), env=surroundings(room), cwd=room / "home")
        text = ran.stdout if ran.stdout.strip() else ran.stderr
        (folder / f"{name}.txt").write_bytes(text)
        for kind, rows in zip(("names", "values"), known[name]):
            (folder / f"{name}.{kind}").write_text("".join(f"{row}\n" for row in rows), encoding="utf-8")
        silent += not text.strip()
        print(f"{name}: {call}; {package} {version(package, room)}; status {ran.returncode}, {text.count(10)} lines")
    return 1 if silent else 0


if __name__ == "__main__":
    sys.exit(main())
