"""Followers beside writers, for the part `follow` of clib.sh: follow.py PART FOLLOW CLIB PROGRAM FOLDER, where FOLLOW is the program of
tests/follow.c and CLIB that of tests/clib.c over the library, and PROGRAM the built one. Each ends with status 1 where a follower was
refused, or answered what no moment between had. PYTHONPATH has bindings/python, and SEGDAG_LIBRARY the library.
"""
import os
import random
import statistics
import subprocess
import sys
import threading
import time
from pathlib import Path

import segdag
from random_lines import Lines

FOLLOW, CLIB, PROGRAM, FOLDER = (os.path.abspath(word) for word in sys.argv[2:6])
CHANGES = int(os.environ.get("CHANGES", "10000"))  # of a writer whose replies are compared, and of one that never pauses
HISTORIES, LINES = int(os.environ.get("HISTORIES", "17")), 600  # of drawn lines, 10,200
READERS, KILLS = 3, 10  # followers of one that never pauses, and how often that one is killed
ROWS = int(os.environ.get("ROWS", "100000"))  # of the log whose reloads are measured
ROUNDS, LEAST = 15, 5  # how often a reload is measured, and how many times faster than a load it has to be
NOBODY = 65534
HANGS = 1800  # seconds behind which something is taken to hang


def fail(text):
    sys.exit(f"follow: {text}")


def fresh(kind):
    path = Path(FOLDER, kind)
    path.unlink(missing_ok=True)
    return path


def name(number):
    return f"{number:040x}"


def named(number):
    return number.to_bytes(20, "big")


def run(log, lines, *mirrors):
    text = "".join(line + "\n" for line in lines).encode()
    done = subprocess.run([PROGRAM, log, *mirrors, "--", "run"], input=text, stdout=subprocess.PIPE, timeout=HANGS)
    if done.returncode != 0:
        fail(f"the program ended with status {done.returncode}")
    return done.stdout.decode()


def chain(first, last):
    """Lines that put a chain's rows into master, one change."""
    return [*(f"0 add {name(k)} {name(k - 1) if k > 1 else ''}".rstrip() for k in range(first, last + 1)), f"0 flush {name(last)}"]


# A writer whose replies are compared.


class History:
    """Drawn changes, each of which stores one more payload: rows on top of others that are there, moves to master, and strips."""

    def __init__(self, seed):
        self.draw, self.count, self.parents, self.children = random.Random(seed), 0, {}, {}
        self.master, self.others, self.heads = [], [], set()

    def change(self):
        """The lines of a change."""
        if self.master and len(self.others) > 3 and self.draw.random() < 0.15:
            return [self.strip()]
        lines = [self.row() for _ in range(self.draw.choice([1, 1, 1, 2, 5]))]
        return [*lines, self.flush()]

    def row(self):
        self.count += 1
        near = [*self.master[-5:], *self.others]
        of = sorted(self.heads) if len(self.heads) > 8 else near
        parents = self.draw.sample(of, min(len(of), self.draw.choice([4, 5]) if len(self.heads) > 8 else self.draw.choice([0, 1, 1, 1, 2])))
        self.parents[self.count], self.children[self.count] = parents, set()
        for parent in parents:
            self.children[parent].add(self.count)
        self.others.append(self.count)
        self.heads = (self.heads - set(parents)) | {self.count}
        return " ".join(["0 add", *map(name, [self.count, *parents])])

    def flush(self):
        if len(self.others) < 20 and self.draw.random() < 0.5:
            return "0 flush"
        head = self.draw.choice(self.others)
        reached, near = set(), [head]
        while near:
            row = near.pop()
            if row in self.others and row not in reached:
                reached.add(row)
                near += self.parents[row]
        self.others = [row for row in self.others if row not in reached]
        self.master += sorted(reached)
        return f"0 flush {name(head)}"

    def strip(self):
        row = self.draw.choice(self.others)
        gone, near = set(), [row]
        while near:
            below = near.pop()
            gone.add(below)
            near += self.children[below] - gone
        self.others = [other for other in self.others if other not in gone]
        for other in gone:
            for parent in self.parents[other]:
                self.children[parent].discard(other)
        may_be = self.heads.union(*(self.parents[other] for other in gone)) - gone
        self.heads = {other for other in may_be if not self.children[other]}
        return f"0 strip {name(row)}"

    def question(self):
        row = name(self.draw.randint(1, max(1, self.count)))
        asked = [f"count ancestors({row})", f"id {row}", "count merges(all)", "query top(all,3)", "count all", f"query children({row})"]
        return self.draw.choice(asked)


class Writer:
    """A run of the program, which is given lines that are answered, and waited for."""

    def __init__(self, log):
        self.child = subprocess.Popen([PROGRAM, log, "--", "run"], stdin=subprocess.PIPE, stdout=subprocess.PIPE, text=True)

    def ask(self, lines):
        self.child.stdin.write("".join(line + "\n" for line in lines))
        self.child.stdin.flush()
        return [self.reply() for _ in lines]

    def reply(self):
        told = [self.child.stdout.readline()]
        while told[-1] and not told[-1].startswith(("ok", "err")):
            told.append(self.child.stdout.readline())
        return "".join(told)

    def end(self):
        self.child.communicate()
        return self.child.returncode


class Told(threading.Thread):
    """A writer, asked behind each change: what it tells then of its sizes and heads and to a drawn question, by the number of changes."""

    def __init__(self, log):
        super().__init__()
        self.history, self.told, self.bad = History(1), [None], None
        self.writer, self.status = Writer(log), None
        self.began = self.ended = 0

    def run(self):
        for _ in range(CHANGES):
            lines, question = self.history.change(), self.history.question()
            self.told.append(None)
            self.began += 1
            replies = self.writer.ask([*lines, "0 status", "0 query heads(all)", f"0 {question}"])
            if not all(reply.startswith("ok") for reply in replies[: len(lines) + 1]):
                self.bad = f"{lines}: {replies}"
                break
            self.told[self.began] = (*replies[-3:], question)
            self.ended = self.began
        self.status = self.writer.end()


class Seen:
    """A follower beside a writer whose replies are kept: which of its versions each session is on."""

    def __init__(self, log, writer, seed):
        self.log, self.writer, self.draw = log, writer, random.Random(seed)
        self.reader, self.versions, self.newest = segdag.follow(log, cache=4), {}, 0

    def version(self, store, session, least, most):
        """The version between these two that the session answers of, whole."""
        seen = store.line(f"{session} status"), store.line(f"{session} query heads(all)")
        for version in range(least, most + 1):
            while self.writer.ended < version and self.writer.is_alive():
                time.sleep(0.0005)
            told = self.writer.told[version]
            if told and told[:2] == seen and store.line(f"{session} {told[3]}") == told[2]:
                return version
        return fail(f"between {least} and {most} changes it answered {seen}")

    def reload(self):
        """A drawn session is reloaded, and another one is where it was."""
        session, least = self.draw.randrange(16), max(1, self.writer.ended)
        if self.draw.random() < 0.3:
            self.reader.refresh()
        if not self.reader.line(f"{session} reload").startswith("ok reloaded 0"):
            fail("a reload was refused")
        self.versions[session] = self.newest = self.version(self.reader, session, max(least, self.newest), self.writer.began)
        other = self.draw.choice(sorted(self.versions))
        self.version(self.reader, other, self.versions[other], self.versions[other])

    def load(self):
        least = max(1, self.writer.ended)
        with segdag.follow(self.log) as store:
            self.version(store, 3, least, self.writer.began)


def compared():
    """A follower beside a writer: what it answers behind each reload is what the writer answered at one moment of it."""
    log = fresh("compared")
    log.write_bytes(b"")
    writer = Told(log)
    seen, reloads, loads, found = Seen(log, writer, 2), 0, 0, set()
    writer.start()
    while writer.ended == 0 and writer.is_alive():
        time.sleep(0.001)
    while writer.is_alive() and writer.ended > 0:
        seen.reload()
        found.add(seen.newest)
        reloads += 1
        if reloads % 50 == 0:
            seen.load()
            loads += 1
        time.sleep(seen.draw.random() * 0.004)
    writer.join()
    if writer.ended < CHANGES or writer.status != 0:
        fail(f"the writer was refused, or failed: {writer.bad}")
    seen.reload()
    if seen.newest != CHANGES:
        fail(f"behind all changes it is on version {seen.newest}")
    seen.load()
    print(f"follow: {reloads} reloads and {loads} loads beside {CHANGES} changes, on {len(found)} versions of them: each answers what the writer did")


def import_killed(log):
    """An import that flushes each row, and is killed at drawn moments and goes on: how often."""
    draw, kills = random.Random(3), 0
    while True:
        writer = subprocess.Popen([CLIB, "import", log, str(CHANGES), "1"], stdout=subprocess.DEVNULL)
        try:
            status = writer.wait(draw.random() * 2 if kills < KILLS else HANGS)
        except subprocess.TimeoutExpired:
            writer.kill()
            writer.wait()
            kills += 1
            continue
        if status != 0:
            fail(f"beside followers an import ended with status {status}")
        return kills


def busy():
    """Followers beside a writer that never pauses, and is killed: none is refused."""
    log = fresh("busy")
    log.write_bytes(b"")
    began = time.monotonic()
    readers = [subprocess.Popen([FOLLOW, "beside", log, str(CHANGES)], stdout=subprocess.PIPE, text=True) for _ in range(READERS)]
    try:
        kills = import_killed(log)
        told = [reader.communicate(timeout=HANGS)[0].split() for reader in readers]
    finally:
        for reader in readers:
            reader.kill()
    if any(reader.returncode for reader in readers):
        fail(f"beside a writer that never pauses {[reader.returncode for reader in readers]} came, {told}")
    turns, moved, opened = (sum(int(it[k]) for it in told) for k in range(3))
    reloads = f"{turns} reloads, {moved} of them with something new, and {opened} loads"
    took = f"{time.monotonic() - began:.0f} s of {CHANGES} flushes by a writer that was killed {kills} times"
    print(f"follow: {READERS} followers, {reloads} in {took}: none was refused")


def is_answered(line):
    return line != "" and not line.startswith("#")


class Halves:
    """A run with sixteen sessions, and another one whose odd sessions are a follower's: drawn lines get the same replies."""

    def __init__(self, seed):
        self.lines, self.logs = Lines(random.Random(seed)), [fresh("one"), fresh("two")]
        self.logs[1].write_bytes(b"")
        self.whole, self.even = (Writer(log) for log in self.logs)
        self.odd, self.sent, self.refused = segdag.follow(self.logs[1], cache=1), 0, 0

    def say(self, line):
        session, _, command = line.partition(" ")
        is_odd = session in map(str, range(1, 16, 2))
        if is_odd and command.split(" ")[0] in ("flush", "strip", "clone", "pull"):
            self.refused += 1
            return raises(segdag.ReadOnly, self.odd.line, line)
        wanted = self.whole.ask([line])[0]
        self.odd.refresh()
        self.sent += 1
        return wanted == (self.odd.line(line) if is_odd else self.even.ask([line])[0])

    def run(self):
        for line in filter(is_answered, (self.lines.line() for _ in range(LINES))):
            if not self.say(line):
                fail(f"a follower's sessions answer something else to {line}")
        self.odd.close()
        if (self.whole.end(), self.even.end()) != (0, 0) or self.logs[0].read_bytes() != self.logs[1].read_bytes():
            fail("the program failed, or left another log")


def drawn():
    """A follower's sessions answer as sessions of the writer's process would."""
    sent = refused = 0
    for seed in range(HISTORIES):
        halves = Halves(seed)
        halves.run()
        sent, refused = sent + halves.sent, refused + halves.refused
    print(f"follow: {sent} drawn lines, half the sessions a follower's: the replies of a single process; {refused} changes were refused")


# A follower alone.


def raises(error, call, *words):
    try:
        call(*words)
    except error:
        return True
    return False


def anew():
    """A log that is written anew while it is followed: what was read stays, and the new file answers the same."""
    log = fresh("anew")
    run(log, chain(1, 50))
    with segdag.follow(log) as reader:
        run(log, [*chain(51, 60), f"0 add {name(70)} {name(3)}", "0 flush"])
        subprocess.run([PROGRAM, log, "--", "compact"], check=True, stdout=subprocess.DEVNULL)
        if reader.refresh() != 2 or reader.sizes() != (50, 0, 0) or reader.reload() != 0 or reader.sizes() != (60, 1, 0):
            fail("two changes aren't taken")
        names = list(reader.query("all"))
        os.replace(f"{log}.new", log)
        if not (raises(segdag.Replaced, reader.refresh) and raises(segdag.Replaced, reader.reload) and list(reader.query("all")) == names):
            fail("a log that was written anew isn't told, or takes something away")
    with segdag.follow(log) as reader:
        if list(reader.query("all")) != names or reader.refresh() != 0:
            fail("the log that was written anew answers something else")
    log.unlink()
    if not raises(segdag.NotOpened, segdag.follow, log):
        fail("a log that isn't there is followed")


def changes(reader):
    """Each call that changes something, of a follower's."""
    yield from [(reader.flush,), (reader.flush, named(1)), (reader.strip, named(1)), (reader.clone,), (reader.pull,)]
    yield from ((reader.line, line) for line in ["0 flush", f"3 flush {name(2)}", f"0 strip {name(2)}", "0 clone", "15 pull"])


def only_reads(log):
    """Refuses all changes, as a user who may only read, and leaves the file as it is."""
    os.chmod(log, 0o444)
    data, changed = log.read_bytes(), os.stat(log).st_mtime_ns
    with segdag.follow(log) as reader:
        reader.add(named(99), [named(3)])
        refused = all(raises(segdag.ReadOnly, *change) for change in changes(reader))
        return refused and reader.sizes() == (50, 0, 1) and (log.read_bytes(), os.stat(log).st_mtime_ns) == (data, changed)


def rights():
    """Without rights to write the log is followed, and opened by nobody; the lock is free."""
    log = fresh("rights")
    run(log, chain(1, 50))
    is_root = os.geteuid() == 0
    if is_root:
        os.chmod(FOLDER, 0o711)
        os.chown(log, NOBODY, NOBODY)
    child = os.fork()
    if child == 0:
        if is_root:
            os.setgroups([])
            os.setgid(NOBODY)
            os.setuid(NOBODY)
        os._exit(0 if only_reads(log) and raises(segdag.NotOpened, segdag.open, log) else 1)
    if os.waitpid(child, 0)[1] != 0:
        fail("a user who may only read can't follow, or changed something")
    os.chmod(log, 0o644)
    with segdag.follow(log) as reader, segdag.open(log) as writer:
        writer.add(named(51), [named(50)])
        writer.flush(named(51))
        if not raises(segdag.Locked, segdag.open, log) or reader.reload() != 0 or reader.sizes() != (51, 0, 0):
            fail("a writer can't be opened beside a follower, or isn't followed")
    print(f"follow: changes are refused, also to a user who may only read{', another one than root' if is_root else ''}")


def lazy():
    """A clone's log is followed beside its mirror, which is asked for names."""
    there, log = fresh("there"), fresh("lazy")
    run(there, chain(1, 300))
    log.write_bytes(b"")
    with segdag.follow(log, cache=2, mirrors=[str(there)]) as reader:
        run(log, ["0 clone"], there)
        if reader.reload() != 0 or reader.sizes() != (300, 0, 0) or reader.number(named(21)) != 20:
            fail("a follower takes another clone")
        run(there, chain(301, 320))
        run(log, ["0 pull"], there)
        if reader.reload() != 0 or list(reader.query("all")) != [named(k) for k in range(320, 0, -1)] or reader.number(named(17)) != 16:
            fail("a follower of a clone's log finds other names")
    with segdag.follow(log) as reader:
        if not raises(segdag.NoRemote, reader.number, named(17)):
            fail("a follower finds a name that is stored nowhere")


def alone():
    anew()
    rights()
    lazy()
    print("follow: logs that are written anew, only read, or lazy")


# Time and memory.


def timed(call):
    began = time.perf_counter()
    call()
    return time.perf_counter() - began


def quick():
    """What a reload behind one flush takes beside what a load takes."""
    log = fresh("quick")
    subprocess.run([CLIB, "import", log, str(ROWS), "1000"], check=True, stdout=subprocess.DEVNULL)
    reloads, loads = [], []
    with segdag.open(log) as writer, segdag.follow(log) as reader:
        for turn in range(ROUNDS):
            writer.add(named(turn + 1))
            writer.flush(named(turn + 1))
            reloads.append(timed(reader.reload))
            if reader.sizes() != (ROWS + turn + 1, 0, 0):
                fail(f"after a reload the follower has {reader.sizes()}")
            loads.append(timed(lambda: segdag.follow(log).close()))
    reload, load = statistics.median(reloads), statistics.median(loads)
    print(f"follow: over {ROWS} rows a reload behind one flush takes {reload * 1000:.2f} ms, a load {load / reload:.0f} times as long")
    if load < LEAST * reload:
        fail("a reload isn't that much faster than a load")


def memory():
    """Each call for memory in turn finds none: the call that tells so is made once more, and then all is as ever."""
    log, front = fresh("memory"), fresh("front")
    run(log, [line for first in (1, 21, 41) for line in chain(first, first + 19)])
    calls, told, fails = 0, {}, 0
    while fails <= calls:
        env = {"LD_PRELOAD": os.path.join(FOLDER, "no_memory.so"), "FAIL_ALLOC": str(fails)}
        done = subprocess.run([FOLLOW, "memory", log, front], env=env, stdout=subprocess.PIPE, stderr=subprocess.PIPE, text=True, timeout=HANGS)
        if done.returncode != 0:
            fail(f"where allocation {fails} finds no memory: {done.stdout} {done.stderr}")
        calls = calls or int(done.stderr.split()[-1])
        told[done.stdout.strip()] = told.get(done.stdout.strip(), 0) + 1
        fails += 1
    if calls < 50 or told.get("1", 0) < calls // 2:
        fail(f"of {calls} allocations too few were told: {told}")
    print(f"follow: each of {calls} calls for memory found none: {told['1']} were told, and the call made once more goes on")


{part.__name__: part for part in (drawn, compared, busy, alone, quick, memory)}[sys.argv[1]]()
