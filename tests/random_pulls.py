"""Drawn runs that pull: the built program against plain_store.py, line by line, and the bytes of the log at the end of
each run.

A log pulls from others, which are real logs too and grow meanwhile by runs of their own: by commits of their own, by
those that the first one added, and by its names with other parents. In most runs it is a clone of one of them. Now and
then it runs beside a stranger: a log that is like the cloned one, but for what was changed in it.
"""
import random
import shutil
import subprocess
import sys
import tempfile
import threading
from collections import Counter
from pathlib import Path

import plain_store
import random_anew
from pipe_peers import Peers
from random_lines import Lines

ENDS = ("ok", "err")


class Differs(Exception):
    """What was told in place of what was wanted."""


class Run:
    """A run of the program beside a plain store, some of its mirrors behind pipes. A line is given when the one before it
    was answered, so that other logs may grow between two."""

    def __init__(self, program, log, mirrors, cache, draw):
        self.peers = Peers(program, draw, log.parent, mirrors)
        words = [program, log, *self.peers.words, "--", "run", "--cache", str(cache)]
        self.log, self.said = log, []
        self.child = subprocess.Popen(words, stdin=subprocess.PIPE, stdout=subprocess.PIPE)
        self.watch = threading.Timer(120, self.child.kill)
        self.watch.start()
        data = log.read_bytes() if log.exists() else b""
        self.store = plain_store.Store(data, plain_store.LIMITS, map(plain_store.mirror_of, mirrors))

    def told(self, line):
        """The program's reply: its last line says how it went."""
        self.child.stdin.write(line.encode() + b"\n")
        self.child.stdin.flush()
        told = []
        while not told or not told[-1].startswith(ENDS):
            given = self.child.stdout.readline().decode()
            if not given:
                break
            told.append(given.rstrip("\n"))
        return told

    def say(self, line):
        """What both answer; silent lines have no answer."""
        self.said.append(line)
        wanted = self.store.line(line) if line and not line.startswith("#") else []
        try:
            told = self.told(line) if wanted else self.child.stdin.write(line.encode() + b"\n") and []
        except BrokenPipeError:
            told = ["the program ended"]
        if told != wanted:
            raise Differs(f"told {told}, wanted {wanted}")
        return wanted[-1] if wanted else ""

    def end(self):
        status = self.kill()
        if status != 0:
            raise Differs(f"status {status}")
        if self.log.read_bytes() != self.store.log():
            raise Differs("the logs differ")

    def kill(self):
        """The status of the program at the end of its input."""
        try:
            self.child.communicate()
        except BrokenPipeError:
            pass
        self.watch.cancel()
        self.peers.end()
        return self.child.wait()


def world_of(log):
    return plain_store.read_log(log.read_bytes())[1]


def copies(draw, rows, known, wrong):
    """Adds of some of these rows that the known names lack, each with its parents, or, where it is to go wrong, with
    others."""
    known, lines = set(known), []
    for name, parents in rows:
        if name in known or not set(parents) <= known or draw.random() < 0.3:
            continue
        if draw.random() < wrong:
            parents = draw.sample(sorted(known), min(len(known), draw.choice([0, 1, 2])))
        lines.append(" ".join(["0 add", name, *parents]))
        known.add(name)
    return lines[: draw.choice([1, 3, 20])]


def renamed(rows, old, new):
    """The rows with another name for a commit."""
    other = lambda name: new if name == old else name
    return [(other(name), [other(p) for p in parents]) for name, parents in rows]


def strange(draw, rows, named, cloned):
    """Rows of master that are like these, but for something of the cloned ones, of which these ids have a name, or of
    the newer ones."""
    kind, at = draw.randrange(9), draw.randrange(cloned)
    if kind == 0:
        return rows[: draw.randrange(len(rows))]
    if kind == 1:
        return renamed(rows, rows[at][0], "f" * 40)
    if kind == 2:
        name, parents = rows[at]
        before = [row[0] for row in rows[:at]]
        others = draw.sample(before, min(len(before), draw.choice([0, 1, 2])))
        return rows[:at] + [(name, others)] + rows[at + 1 :]
    if kind < 6:
        # A cloned commit has another name, and its own comes again at the end. Where a clone of the stranger needs no
        # name for it, only the row at the end is wrong; so it is mostly the last cloned one, on which another comes.
        old = rows[draw.choice([max(named), max(named), draw.choice(sorted(named))])][0]
        rows = renamed(rows[: draw.choice([cloned, cloned, len(rows)])], old, "e" * 40)
        return [*rows, ("d" * 40, [rows[-1][0]]), (old, ["d" * 40])]
    if kind == 6:
        return [*rows, ("c" * 40, [rows[at][0]]), ("b" * 40, ["c" * 40, rows[0][0]])]
    if kind == 7 and len(rows) > cloned:
        return renamed(rows, rows[draw.randrange(cloned, len(rows))][0], "a" * 40)
    return rows


class Scene:
    """A log that pulls, and the logs that it pulls from."""

    def __init__(self, program, draw, folder):
        self.program, self.draw, self.folder = program, draw, folder
        self.here = Path(folder, "here")
        self.mine, self.theirs = Lines(draw), Lines(draw)
        self.remotes = [Path(folder, "there")]
        self.seen = Counter()
        self.grow(self.remotes[0], draw.choice([5, 40, 100]))
        for number in range(draw.choice([0, 0, 1, 2])):
            copy = Path(folder, f"copy{number}")
            shutil.copy(self.remotes[0], copy)
            self.remotes.append(copy)
        self.is_clone = draw.random() < 0.7
        if not self.is_clone and draw.random() < 0.5:
            self.remotes.append(Path(folder, "apart"))
            self.grow(self.remotes[-1], 30)
        self.wrong = draw.choice([0, 0, 0, 0.05, 0.2])

    def run_apart(self, log, lines):
        """A run over one of the remotes, without mirrors."""
        text = "".join(line + "\n" for line in lines).encode()
        done = subprocess.run([self.program, log, "--", "run"], input=text, capture_output=True, timeout=1800)
        if done.returncode != 0:
            raise Differs(f"a run over {log.name} ended with {done.returncode}")

    def grow(self, log, count, more=()):
        """A remote grows by drawn commits, and by these lines: a few of what it has then go to master."""
        draw, world = self.draw, world_of(log) if log.exists() else plain_store.World([], [])
        lines = list(more)
        known = list(world.parents) + [line.split(" ")[2] for line in more]
        for _ in range(count):
            name = draw.choice(self.theirs.names)
            if name in known:
                name = f"{draw.randrange(1 << 24, 1 << 32):040x}"
            recent = known[-draw.choice([1, 1, 2, 5, 40]) :]
            parents = draw.sample(recent, min(len(recent), draw.choice([0, 1, 1, 1, 1, 1, 1, 2, 2, 3])))
            lines.append(" ".join(["0 add", name, *parents]))
            known.append(name)
        heads = draw.sample(known[-6:], min(len(known[-6:]), draw.choice([0, 1, 1, 1, 2])))
        self.run_apart(log, [*lines, " ".join(["0 flush", *heads])])

    def beside(self):
        """Mirrors for a run, in any order. Where names may have to be asked one that is there is among them."""
        some = self.draw.sample(self.remotes, self.draw.randint(1, len(self.remotes)))
        some += [Path(self.folder, "missing")] * self.draw.choice([0, 0, 0, 1, 2])
        if not self.is_clone and self.draw.random() < 0.2:
            some = [Path(self.folder, "missing")] * self.draw.choice([0, 1, 2])
        self.draw.shuffle(some)
        return [self.bundle_of(remote) or remote for remote in some]

    def bundle_of(self, remote):
        """Now and then a bundle of what a remote has, in its place."""
        if not remote.exists() or self.draw.random() > 0.15:
            return None
        return f"bundle:{random_anew.bundled(self.program, remote, ())}"

    def draw_line(self, run):
        """A line of the log's own. Where names have to be asked no mirror is dropped, so that one goes on answering.
        What isn't to be a clone is none."""
        while True:
            line = self.mine.line()
            is_clone = line.lower().endswith(" clone") and not run.store.worlds[-1].parents
            if not is_clone and not (self.is_clone and " drop" in line):
                return line

    def pull(self, run):
        """A pull, of a session that mostly has nothing pending; and what to do about a conflict."""
        session = self.draw.choice([0, 0, 1, self.draw.randrange(16)])
        if self.draw.random() < 0.8:
            run.say(f"{session} {self.draw.choice(['discard', 'discard', 'flush'])}")
        before = len(run.store.payloads)
        told = run.say(f"{session} pull")
        kind = " ".join(told.split(" ")[:3 if "mismatch" in told else 2])
        self.seen[kind + " and stored" * (len(run.store.payloads) > before)] += 1
        if "conflict" in told and self.draw.random() < 0.6:
            run.say("15 discard")
            run.say(f"15 strip {told.split(' ')[2]}")
            run.say("15 pull")

    def take(self, run, remote):
        """Rows of a remote are added here, the same or otherwise, and perhaps stored."""
        world = run.store.view(0)
        for line in copies(self.draw, self.rows_of(remote), world.parents, self.wrong):
            run.say(line)
        if self.draw.random() < 0.7:
            run.say("0 flush")

    def give(self, run, remote):
        """Rows of this log come to a remote, the same or otherwise, and more on top of them."""
        newest = run.store.worlds[-1]
        lines = copies(self.draw, newest.others, world_of(remote).parents, self.wrong)
        self.grow(remote, self.draw.choice([0, 2]), lines)

    def rows_of(self, remote):
        world = world_of(remote)
        return world.master + world.others

    def step(self, run):
        draw, remote = self.draw, self.draw.choice(self.remotes)
        kind = draw.random()
        if kind < 0.25:
            self.grow(remote, draw.choice([0, 1, 3, 20]))
        elif kind < 0.4:
            self.take(run, remote)
        elif kind < 0.55:
            self.give(run, remote)
        else:
            self.mine.known = list(run.store.view(0).parents) or self.mine.names[:1]
            for _ in range(draw.choice([1, 5, 15])):
                run.say(self.draw_line(run))
        if draw.random() < 0.7:
            self.pull(run)

    def stranger(self):
        """A run beside a log that isn't quite the one that was cloned, whose names aren't asked; how many lines it
        had."""
        rows = world_of(self.remotes[0]).master
        store = plain_store.Store(self.here.read_bytes(), plain_store.LIMITS)
        if store.cloned == 0:
            return 0
        world = plain_store.World(strange(self.draw, rows, store.named, store.cloned), [])
        payloads = [plain_store.payload(plain_store.World([], []), world)] if world.master else []
        log = Path(self.folder, "stranger")
        log.write_bytes(plain_store.log_of(payloads))

        def ask(run):
            self.pull(run)
            for line in ("1 status", "2 levels", "0 count all", "0 count heads(all)"):
                run.say(line)

        return self.beside_run([log], ask)

    def turn(self, first):
        """A run of drawn steps; how many lines it had."""

        def go_on(run):
            if first and self.is_clone:
                run.say("0 clone")
            for _ in range(self.draw.choice([2, 5, 9])):
                self.step(run)

        return self.beside_run(self.beside(), go_on)

    def beside_run(self, mirrors, say):
        """A run over the log beside these mirrors; how many lines it had."""
        run = Run(self.program, self.here, mirrors, self.draw.choice([1, 2, 5, 1000]), self.draw)
        try:
            say(run)
            run.end()
        except Differs as differs:
            raise Differs("\n".join([*run.said, f"== {differs}"])) from differs
        finally:
            run.kill()
        return len(run.said)

    def play(self):
        count = 0
        for turn in range(self.draw.choice([1, 2, 3])):
            count += self.turn(turn == 0)
            if self.is_clone and self.draw.random() < 0.8:
                count += self.stranger()
        there = [remote for remote in self.remotes if remote.exists()]
        return count + random_anew.check(self.program, self.draw, self.folder, self.here, there, world_of(there[0]).master)


def pulls(program, runs, seed):
    """Whether all lines of so many scenes are answered alike."""
    count, seen = 0, Counter()
    for run in range(runs):
        with tempfile.TemporaryDirectory() as folder:
            scene = Scene(program, random.Random(seed * 9_000_011 + run), folder)
            try:
                count += scene.play()
            except (Differs, random_anew.Differs) as differs:
                print(f"random_runs: the pulls of run {run} of seed {seed} differ; the lines were:\n{differs}")
                return False
            seen += scene.seen
    print(f"random_runs: {count} lines of logs that pull are answered as by plain worlds")
    print("random_runs: " + ", ".join(f"{number} {what}" for what, number in sorted(seen.items())))
    return True


if __name__ == "__main__":
    sys.exit(0 if pulls(sys.argv[1], int(sys.argv[2]), int(sys.argv[3])) else 1)
