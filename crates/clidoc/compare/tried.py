"""Runs `clidoc` many times: the built program, or one that `rt try` compiles with checks, unproved.

`CLIDOC` in the environment names the program; otherwise it is `out/clidoc`, and where that is not there, `rt try` runs all
calls after one compilation.
"""
import concurrent.futures
import os
import pathlib
import re
import subprocess
import tempfile

CRATE = pathlib.Path(__file__).resolve().parent.parent
PROGRAM = os.environ.get("CLIDOC") or CRATE / "out" / "clidoc"
ENDED = re.compile(rb"case=call-(\d+) run=(\S+)(?: status=(\d+))?.*")


def runs(calls):
    """For each call, which is its words and its standard input, the status, the output, and what was reported."""
    if not os.path.exists(PROGRAM):
        return tried(calls)
    with concurrent.futures.ThreadPoolExecutor(2) as pool:
        return list(pool.map(lambda call: run(*call), calls))


def run(words, given):
    done = subprocess.run([PROGRAM, *words], input=given, capture_output=True, check=False)
    return done.returncode, done.stdout, done.stderr


def tried(calls):
    with tempfile.TemporaryDirectory() as room:
        for number, (words, given) in enumerate(calls):
            case = pathlib.Path(room) / f"call-{number}"
            case.write_bytes(given)
            case.with_suffix(".args").write_text("".join(f"{word}\n" for word in words))
        command = ["rt", "try", "--seconds", "600", "--cases", room]
        ran = subprocess.run(command, cwd=CRATE, capture_output=True, check=False)
    parts = re.split(rb"(?m)^== call-(\d+)\n", ran.stdout)
    outputs = dict(zip(map(int, parts[1::2]), parts[2::2]))
    reports, lines = {}, []
    for line in ran.stderr.splitlines(keepends=True):
        ended = ENDED.fullmatch(line.rstrip(b"\n"))
        if not ended:
            lines.append(line)
            continue
        status = int(ended[3]) if ended[2] == b"ended" else None
        reports[int(ended[1])], lines = (status, b"".join(lines)), []
    if len(reports) < len(calls):
        raise OSError(ran.stderr.decode(errors="replace")[-2000:])
    return [(reports[it][0], outputs.get(it, b""), reports[it][1]) for it in range(len(calls))]
