#!/usr/bin/env python3
"""Times a pull by the built program: of 1,000 new commits, onto a clone of a log beside it. Usage: bench/pull.py
[COMMITS], behind `make proved`; a million where none is given, a multiple of 1,000.

Each line is given when the one before it was answered, and timed by itself. The mirror's log is read by the first line
that asks it, and once more by each pull: what the first ask takes longer than the second is that reading, which is
taken off.
"""
import os
import subprocess
import sys
import tempfile
import time

from history import lines, name
from store import PROGRAM, run

MORE = 1000


def chain(commits, each):
    """Lines of a history without merges."""
    for i in range(commits):
        yield f"0 add {name(i)} {name(i - 1)}" if i else f"0 add {name(i)}"
        if (i + 1) % each == 0:
            yield f"0 flush {name(i)}"


def unnamed(text):
    """Commits of master whose names a clone doesn't store: with one child, which is no merge, and named by no flush."""
    parents_of, heads = {}, []
    for line in text:
        _, verb, own, *parents = line.split(" ")
        if verb == "flush":
            heads.append(own)
        else:
            parents_of[own] = parents
    reached, waiting = set(heads), list(heads)
    children = {}
    while waiting:
        parents = parents_of[waiting.pop()]
        for p in parents:
            children.setdefault(p, []).append(len(parents))
            if p not in reached:
                reached.add(p)
                waiting.append(p)
    heads = set(heads)
    return [own for own in parents_of if children.get(own) == [1] and own not in heads]


def timed(log, mirror, asked):
    """How long each of these lines takes in one run, with its last reply."""
    child = subprocess.Popen([PROGRAM, log, mirror, "--", "run"], stdin=subprocess.PIPE, stdout=subprocess.PIPE)
    told = []
    for line in asked:
        begun = time.monotonic()
        child.stdin.write(line.encode() + b"\n")
        child.stdin.flush()
        reply = child.stdout.readline().decode().strip()
        told.append((time.monotonic() - begun, reply))
        if not reply.startswith("ok"):
            sys.exit(f"pull: {line[:60]} is answered by '{reply}'")
    child.stdin.close()
    if child.wait() != 0:
        sys.exit(f"pull: the program ended with {child.returncode}")
    return told


def measure(kind, history, commits, folder):
    there, here = os.path.join(folder, "there"), os.path.join(folder, "here")
    text = list(history(commits + MORE, 1000))
    cut = text.index(f"0 flush {name(commits - 1)}") + 1
    run(there, "".join(line + "\n" for line in text[:cut]).encode())
    told = timed(here, there, ["0 clone"])
    print(f"{kind}: a clone of {commits} commits: {told[0][0]:.3f} s", flush=True)
    run(there, "".join(line + "\n" for line in text[cut:]).encode())
    some = unnamed(text[:cut])
    middle = len(some) // 2
    asked = ["0 status", f"0 id {some[middle]}", f"0 id {some[middle + 1]}", "0 pull", "0 pull", "0 status"]
    told = timed(here, there, asked)
    load, first, second, pull, again, sizes = (taken for taken, _ in told)
    reading = first - second
    print(f"{kind}: the program's start and a load of the clone: {load:.3f} s")
    print(f"{kind}: the mirror's log read: {reading:.3f} s, a name found then {second * 1e6:.0f} us")
    print(f"{kind}: a pull of {MORE} commits: {pull:.3f} s, without the reading {pull - reading:.3f} s; {told[3][1]}")
    print(f"{kind}: a pull of nothing new: {again:.3f} s, without the reading {again - reading:.3f} s")
    print(f"{kind}: {told[5][1]}", flush=True)


def main():
    commits = int(sys.argv[1]) if len(sys.argv) > 1 else 1_000_000
    if commits < 1000 or commits % 1000:
        sys.exit("pull: the number of commits is a multiple of 1000")
    with tempfile.TemporaryDirectory() as folder:
        words = [PROGRAM, os.path.join(folder, "new"), "--", "run"]
        done = subprocess.run(words, input=b"0 pull\n", stdout=subprocess.PIPE)
        if done.stdout == b"err syntax\n":
            sys.exit("pull: the program doesn't know pull")
    for kind, history in (("a chain", chain), ("three merges of ten", lines)):
        for _ in range(3):
            with tempfile.TemporaryDirectory() as folder:
                measure(kind, history, commits, folder)


if __name__ == "__main__":
    main()
