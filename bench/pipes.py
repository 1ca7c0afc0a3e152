#!/usr/bin/env python3
"""Times mirrors behind pipes by the built program, in turn with the same ones at their paths. Usage: bench/pipes.py [COMMITS], behind
`make proved`; a million where none is given, a multiple of 1,000.

A clone is timed from the start of its processes to their end, all else from a line to its reply, behind one that lets the mirror read
its log. Of three times in turn the least is told. Names are printed too where both ends have one processor. Then the same is asked behind
a pipe whose answers come 20 ms late (bench/late.py), with the number of ways there and back: what is asked ahead shares one.
"""
import os
import random
import shutil
import subprocess
import sys
import tempfile
import time
from pathlib import Path

from history import lines, name
from pull import MORE, chain, unnamed
from store import PROGRAM, run

TIMES = 3
NAMES = 100_000
LATE = 20
SINGLE = 25
RELAY = Path(__file__).with_name("late.py")


class Behind:
    """A server of a log behind two named pipes, and the word that names it as a mirror."""

    def __init__(self, log, folder, late=None):
        to, come = Path(folder, "to"), Path(folder, "from")
        for pipe in (to, come):
            pipe.unlink(missing_ok=True)
            os.mkfifo(pipe)
        self.word, self.counted = f"pipe:{to}:{come}", Path(folder, "counted")
        self.counted.write_text("0\n", encoding="ascii")
        serve = [PROGRAM, "none", log, "--", "serve"]
        relay = [] if late is None else [sys.executable, RELAY, str(late), self.counted]
        self.child = subprocess.Popen(["sh", "-c", 'exec "$@" < "$0" > "${0%to}from"', to, *relay, *serve])

    def trips(self):
        return int(self.counted.read_text(encoding="ascii"))

    def __enter__(self):
        return self

    def __exit__(self, *_):
        self.child.terminate()
        self.child.wait()


class Run:
    """A run of the program beside a mirror, which is given a line when the one before it was answered."""

    def __init__(self, log, word):
        self.child = subprocess.Popen([PROGRAM, log, word, "--", "run"], stdin=subprocess.PIPE, stdout=subprocess.PIPE, bufsize=0)

    def say(self, line):
        """The seconds from a line to its reply, and the last line of that."""
        begun = time.perf_counter()
        self.child.stdin.write(line.encode() + b"\n")
        told = b""
        while not told.endswith(b"\n") or not told[told.rfind(b"\n", 0, -1) + 1 :].startswith((b"ok", b"err")):
            more = os.read(self.child.stdout.fileno(), 1 << 20)
            if not more:
                sys.exit(f"pipes: the program ended at {line[:60]}")
            told = told[-60:] + more
        taken, last = time.perf_counter() - begun, told.splitlines()[-1].decode()
        if not last.startswith("ok"):
            sys.exit(f"pipes: {line[:60]} is answered by '{last}'")
        return taken, last

    def __enter__(self):
        return self

    def __exit__(self, *_):
        self.child.stdin.close()
        if self.child.wait() != 0:
            sys.exit(f"pipes: the program ended with {self.child.returncode}")


class Place:
    """A log, a clone of it, and what is asked of that."""

    def __init__(self, kind, history, commits, folder):
        self.kind, self.folder = kind, folder
        self.there, self.here, self.new = (Path(folder, it) for it in ("there", "here", "new"))
        text = list(history(commits + MORE, 1000))
        cut = text.index(f"0 flush {name(commits - 1)}") + 1
        run(self.there, "".join(line + "\n" for line in text[:cut]).encode())
        self.later = "".join(line + "\n" for line in text[cut:]).encode()
        self.lazy = unnamed(text[:cut])
        random.Random(5).shuffle(self.lazy)

    def behind(self, late=None):
        return Behind(self.there, self.folder, late)

    def clone(self, word, begun):
        """The seconds since then at which a clone is done."""
        self.new.unlink(missing_ok=True)
        done = subprocess.run([PROGRAM, self.new, word, "--", "run"], input=b"0 clone\n", stdout=subprocess.PIPE, check=True)
        if not done.stdout.startswith(b"ok"):
            sys.exit(f"pipes: a clone is answered by {done.stdout!r}")
        return time.perf_counter() - begun

    def clone_at_path(self):
        return self.clone(self.there, time.perf_counter())

    def clone_behind(self):
        begun = time.perf_counter()
        with self.behind() as mirror:
            return self.clone(mirror.word, begun)

    def line(self, word, line):
        """The seconds of a line in a run over a copy of the clone, behind one that asks for a name."""
        shutil.copy(self.here, self.new)
        with Run(self.new, word) as ran:
            ran.say(f"0 id {self.lazy[0]}")
            return ran.say(line)[0]

    def line_at_path(self, line):
        return self.line(self.there, line)

    def line_behind(self, line):
        with self.behind() as mirror:
            return self.line(mirror.word, line)

    def line_on_one(self, line):
        """The same with both ends on one processor, where none wakes another one."""
        processors = os.sched_getaffinity(0)
        os.sched_setaffinity(0, {min(processors)})
        try:
            return self.line_behind(line)
        finally:
            os.sched_setaffinity(0, processors)

    def on_one(self, what, line):
        taken = min(self.line_on_one(line) for _ in range(TIMES))
        print(f"{self.kind}: {what}: behind a pipe with both ends on one processor {taken:.3f} s", flush=True)

    def in_turn(self, what, at_path, behind, aim):
        taken = [(at_path(), behind()) for _ in range(TIMES)]
        path, pipe = (min(times) for times in zip(*taken))
        print(f"{self.kind}: {what}: at the path {path:.3f} s, behind a pipe {pipe:.3f} s, {pipe / path:.2f} times (aim {aim})", flush=True)

    def late(self, what, log, asked):
        """Lines behind a late pipe, each told with its ways there and back, those of one kind together."""
        shutil.copy(log, self.new) if log else self.new.unlink(missing_ok=True)
        with self.behind(LATE) as mirror, Run(self.new, mirror.word) as ran:
            if log:
                ran.say(f"0 id {self.lazy[0]}")
            before, taken = mirror.trips(), 0
            for line in asked:
                seconds, last = ran.say(line)
                taken += seconds
            trips = mirror.trips() - before
        print(f"{self.kind}, {LATE} ms late: {what}: {trips} ways, {taken:.3f} s; {last}", flush=True)


def measure(kind, history, commits, folder):
    place = Place(kind, history, commits, folder)
    place.in_turn(f"a clone of {commits} commits", place.clone_at_path, place.clone_behind, "1.3")
    place.clone_at_path()
    shutil.copy(place.new, place.here)
    names = min(NAMES, commits)
    printed = f"0 query top(all,{names})"
    place.in_turn(f"the {names} newest names printed", lambda: place.line_at_path(printed), lambda: place.line_behind(printed), "3")
    place.on_one(f"the {names} newest names printed", printed)
    lazy = place.lazy[1:]
    place.late("a clone", None, ["0 clone"])
    place.late(f"{names} names printed", place.here, [printed])
    place.late(f"{SINGLE} drawn names found", place.here, [f"0 id {own}" for own in lazy[:SINGLE]])
    place.late("is one an ancestor of the other", place.here, [f"0 count inter({lazy[SINGLE]},ancestors({lazy[SINGLE + 1]}))"])
    run(place.there, place.later)
    place.in_turn(f"a pull of {MORE} commits", lambda: place.line_at_path("0 pull"), lambda: place.line_behind("0 pull"), "none")
    place.late(f"a pull of {MORE} commits", place.here, ["0 pull"])


def main():
    commits = int(sys.argv[1]) if len(sys.argv) > 1 else 1_000_000
    if commits < 1000 or commits % 1000:
        sys.exit("pipes: the number of commits is a multiple of 1000")
    for kind, history in (("a chain", chain), ("three merges of ten", lines)):
        with tempfile.TemporaryDirectory() as folder:
            measure(kind, history, commits, folder)


if __name__ == "__main__":
    main()
