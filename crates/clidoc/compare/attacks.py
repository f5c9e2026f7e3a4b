#!/usr/bin/python3
"""Runs `clidoc all` on folders into which others have put things, on runs that are killed, and on disks that are full.

    compare/attacks.py PROGRAM [KILLS]

- In the place of each page, and of a file beside it, stands a link, a hard link, a link that leads nowhere, a FIFO, a
  folder or a file of another owner. What a link leads to keeps its bytes, and the page is whole.
- Two runs write into one folder at once, and each page is whole.
- KILLS (200) runs are killed at a random moment: each page is whole, of before or of now, at most one file is beside
  a place, and the next run reports it.
- A disk has room for only a number of pages of 4 KiB: each page is whole, and nothing is beside it. Needs root.

Prints counts and what did not hold. Ends with status 1 where something did not.
"""
import collections
import os
import pathlib
import random
import subprocess
import sys
import tempfile

INPUT = b"name = 'app'\nabout = '''\n" + b"".join(b"Line %d of what is said.\n\n" % n for n in range(100)) + b"'''\n"
PAGES = ("app.1", "app.md", "app.html")
OLD, VICTIM = b"a page of before\n", b"what others have\n"
counts, faults = collections.Counter(), []


def run(program, folder):
    how = {"input": INPUT, "capture_output": True, "timeout": 300}
    return subprocess.run([program, "all", "--into", folder], **how)


def fault_unless(holds, words):
    if not holds:
        faults.append(words)


def beside(folder):
    return [it for it in os.listdir(folder) if it.endswith(".new")]


def pages_of(program, room):
    folder = room / "whole"
    folder.mkdir()
    assert run(program, folder).returncode == 0
    return {name: (folder / name).read_bytes() for name in PAGES}


def plant(kind, place, victim):
    if kind == "link":
        place.symlink_to(victim)
    elif kind == "hard link":
        place.hardlink_to(victim)
    elif kind == "link to nothing":
        place.symlink_to(victim.with_name("nothing"))
    elif kind == "FIFO":
        os.mkfifo(place)
    elif kind == "folder":
        place.mkdir()
    else:
        place.write_bytes(OLD)
        os.chown(place, 65534, 65534)


def planted(program, room, want):
    kinds = ["link", "hard link", "link to nothing", "FIFO", "folder"] + ["foreign owner"] * (os.geteuid() == 0)
    for kind in kinds:
        for name in [*PAGES, *(f".{page}.new" for page in PAGES), *(f".{page}.00000000.new" for page in PAGES)]:
            with tempfile.TemporaryDirectory(dir=room) as one:
                folder, victim = pathlib.Path(one) / "site", pathlib.Path(one) / "victim"
                folder.mkdir()
                victim.write_bytes(VICTIM)
                plant(kind, folder / name, victim)
                ran = run(program, folder)
                counts[kind] += 1
                is_taken = kind == "folder" and name in PAGES
                fault_unless(ran.returncode == int(is_taken), f"{kind} {name}: status {ran.returncode} {ran.stderr}")
                fault_unless(victim.read_bytes() == VICTIM, f"{kind} {name}: written through")
                fault_unless(not victim.with_name("nothing").exists(), f"{kind} {name}: a file made elsewhere")
                for page in PAGES if not is_taken else ():
                    found = folder / page
                    is_whole = found.is_file() and not found.is_symlink() and found.read_bytes() == want[page]
                    fault_unless(is_whole, f"{kind} {name}: {page} is not whole")
                    fault_unless(found.stat().st_uid == os.geteuid(), f"{kind} {name}: {page} is of another owner")


def are_whole(folder, want, words, may_lack):
    for page in PAGES:
        found = folder / page
        bytes_found = found.read_bytes() if found.exists() else None
        fault_unless(bytes_found in (want[page], OLD) or may_lack and bytes_found is None, f"{words}: {page} in part")


def at_once(program, room, want):
    for number in range(20):
        folder = room / f"two{number}"
        folder.mkdir()
        words = [program, "all", "--into", folder]
        runs = [subprocess.Popen(words, stdin=subprocess.PIPE, stderr=subprocess.DEVNULL) for _ in range(2)]
        for each in runs:
            each.stdin.write(INPUT)
            each.stdin.close()
        fault_unless([each.wait() for each in runs] == [0, 0], "two runs: a status")
        are_whole(folder, want, "two runs", False)
        fault_unless(not beside(folder), "two runs: something is left")
        counts["two runs at once"] += 1


def killed(program, room, want, kills, seconds):
    folder, rolls = room / "killed", random.Random(1)
    folder.mkdir()
    for number in range(kills):
        for page in PAGES:
            (folder / page).write_bytes(OLD)
        each = subprocess.Popen([program, "all", "--into", folder], stdin=subprocess.PIPE, stderr=subprocess.DEVNULL)
        each.stdin.write(INPUT)
        each.stdin.close()
        try:
            each.wait(rolls.uniform(0.3, 1.1) * seconds)
        except subprocess.TimeoutExpired:
            each.kill()
            each.wait()
            counts["killed"] += 1
        are_whole(folder, want, "killed", False)
        left = beside(folder)
        counts["killed, with a file beside"] += bool(left)
        fault_unless(len(left) <= 1, f"killed: {len(left)} files are left")
        if left:
            ran = run(program, folder)
            fault_unless(left[0].encode() in ran.stderr and ran.returncode == 0, f"killed: not told: {ran.stderr}")
            (folder / left[0]).unlink()


def full(program, room, want):
    disk = room / "disk"
    disk.mkdir()
    for kib in range(4, 4 * (sum(map(len, want.values())) // 4096 + 6), 4):
        words = ["mount", "-t", "tmpfs", "-o", f"size={kib}k", "tmpfs", disk]
        if subprocess.run(words, capture_output=True).returncode:
            return print("no disk can be mounted")
        try:
            ran = run(program, disk)
            counts["full disks" if ran.returncode else "disks with room"] += 1
            fault_unless(ran.returncode == 0 or b"no storage space" in ran.stderr, f"disk {kib}: {ran.stderr}")
            are_whole(disk, want, f"disk {kib}", True)
            fault_unless(not beside(disk), f"disk {kib}: something is left")
        finally:
            subprocess.run(["umount", disk], check=True)


def main():
    program, kills = os.path.abspath(sys.argv[1]), int(sys.argv[2]) if sys.argv[2:] else 200
    with tempfile.TemporaryDirectory() as folder:
        room = pathlib.Path(folder)
        before = os.times()
        want = pages_of(program, room)
        seconds = max(0.02, os.times().elapsed - before.elapsed)
        planted(program, room, want)
        at_once(program, room, want)
        killed(program, room, want, kills, seconds)
        full(program, room, want)
    print(dict(counts))
    print("\n".join(faults) or "all held")
    sys.exit(bool(faults))


main()
