#!/usr/bin/env python3
"""Times the bundle of a log, clones of the log and of its bundle, and the log written anew, by the built program. Usage:
bench/anew.py [COMMITS], behind `make proved`; a million where none is given.

Each work is a run of the program of its own, so its time holds a load of what it reads. The least of three runs is told.
"""
import os
import sys
import tempfile

import spawn
from history import lines
from pull import chain
from store import PROGRAM, run

TIMES = 3


def one(words, text, out):
    """The seconds of one run of the program with these words, and the most memory in MB."""
    with tempfile.TemporaryFile() as given:
        given.write(text)
        taken, memory, status = spawn.run([PROGRAM, *words], given, out)
    if status != 0:
        sys.exit(f"anew: {words[-1]} ended with {status}")
    return taken, memory


def least(what, words, to, made, text=b""):
    """Tells the least of some runs, which put into the file `to`; the file `made` is removed before each."""
    told = []
    for _ in range(TIMES):
        if os.path.exists(made):
            os.remove(made)
        with open(to, "wb") as out:
            told.append(one(words, text, out))
    with open(to, "rb") as out:
        put = out.read(80)
    line = put.split(b"\n")[0].decode() if put.startswith(b"ok") else f"{os.path.getsize(to)} bytes"
    print(f"{what}: {min(t for t, _ in told):.3f} s, {max(m for _, m in told):.0f} MB, {line}", flush=True)


def measure(kind, history, commits, folder):
    log, bundle, new, told = (os.path.join(folder, it) for it in ("log", "bundle", "new", "told"))
    run(log, "".join(line + "\n" for line in history(commits, 1000)).encode())
    taken = min(run(log, b"0 status\n")[0] for _ in range(TIMES))
    print(f"{kind}: {commits} commits with a flush each 1000, {os.path.getsize(log)} bytes; a load {taken:.3f} s", flush=True)
    least(f"{kind}: its bundle", [log, "--", "bundle"], bundle, bundle)
    least(f"{kind}: a clone of the log", [new, log, "--", "run"], told, new, b"0 clone\n")
    least(f"{kind}: a clone of the bundle", [new, f"bundle:{bundle}", "--", "run"], told, new, b"0 clone\n")
    least(f"{kind}: written again", [log, "--", "compact"], told, f"{log}.new")


def main():
    commits = int(sys.argv[1]) if len(sys.argv) > 1 else 1_000_000
    for kind, history in (("a chain", chain), ("three merges of ten", lines)):
        with tempfile.TemporaryDirectory() as folder:
            measure(kind, history, commits, folder)


if __name__ == "__main__":
    main()
