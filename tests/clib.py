"""The parts of clib.sh: clib.py PART CLIB PROGRAM FOLDER, where CLIB is the program of tests/clib.c over the library, and PROGRAM the
built one. Each ends with status 1 where the library did something else than the program, or lost what it had acknowledged."""
import os
import random
import subprocess
import sys
import threading
import time
from pathlib import Path

import no_memory
import serve_client
from pipes import asks, grown
from random_lines import Lines

CLIB, PROGRAM, FOLDER = (os.path.abspath(word) for word in sys.argv[2:5])
HISTORIES, RUNS, LINES = int(os.environ.get("HISTORIES", "17")), 3, 200  # 10,200 drawn lines
ROWS, EVERY, KILLS = 100_000, 1_000, 30
CLONES = int(os.environ.get("CLONES", "20"))  # how many logs are cloned beside mirrors
GROWN = 3_000  # how many rows a log has at last beside which another one pulls
BY_LINES = 5_000  # how many of these rows the program imports, too
MASK = (1 << 64) - 1
HANGS = 1800  # seconds behind which something is taken to hang


def fail(text):
    sys.exit(f"clib: {text}")


def run(words, lines):
    text = "".join(line + "\n" for line in lines).encode()
    done = subprocess.run(words, input=text, stdout=subprocess.PIPE, stderr=subprocess.PIPE, timeout=HANGS)
    return done.returncode, done.stdout


def drawn():
    """Drawn lines in several runs over each log: the same replies and the same logs, byte by byte."""
    logs = [Path(FOLDER, word) for word in ("by_library", "by_program")]
    for seed in range(HISTORIES):
        lines = Lines(random.Random(seed))
        for log in logs:
            log.unlink(missing_ok=True)
        for part in range(RUNS):
            sent = [lines.line() for _ in range(LINES)]
            told, wanted = (run([program, log, "--", "run"], sent) for program, log in zip((CLIB, PROGRAM), logs))
            if told != wanted or told[0] != 0:
                Path("clib.lines").write_text("".join(line + "\n" for line in sent))
                fail(f"history {seed}, run {part}: statuses {told[0]} and {wanted[0]}, other replies; clib.lines has the lines")
            if logs[0].read_bytes() != logs[1].read_bytes():
                fail(f"history {seed}, run {part}: other logs")
    print(f"clib: {HISTORIES * RUNS * LINES} drawn lines get the program's replies, and leave its logs")


class Asked:
    """A run over a log beside mirrors, which is given a line when the one before it was answered."""

    def __init__(self, program, log, mirrors, cache):
        words = [program, log, *mirrors, "--", "run", "--cache", str(cache)]
        self.child = subprocess.Popen(words, stdin=subprocess.PIPE, stdout=subprocess.PIPE, text=True)
        self.watch = threading.Timer(HANGS, self.child.kill)
        self.watch.start()

    def reply(self, line):
        self.child.stdin.write(line + "\n")
        self.child.stdin.flush()
        told = [self.child.stdout.readline()]
        while told[-1] and not told[-1].startswith(("ok", "err")):
            told.append(self.child.stdout.readline())
        return "".join(told)

    def end(self):
        self.child.communicate()
        self.watch.cancel()
        return self.child.returncode


class Beside:
    """The library and the program over logs of their own, beside the same mirrors."""

    def __init__(self, folder, seed):
        self.draw = random.Random(seed)
        self.logs = [Path(folder, word) for word in ("by_library", "by_program")]
        self.there, self.other, self.bundle, self.damaged = (Path(folder, word) for word in ("there", "other", "bundle", "damaged"))
        for path in (*self.logs, self.there, self.other, self.bundle):
            path.unlink(missing_ok=True)
        self.rows = serve_client.draw_log(PROGRAM, self.draw, self.there, self.draw.choice([1, 8, 60, 300]))
        self.lines, self.replies = [], 0

    def mirrors(self):
        """Words of mirrors: the log or its bundle, and what isn't there yet, what is no log, or neither."""
        no_memory.bundled(PROGRAM, self.there, self.bundle)
        self.damaged.write_bytes(b"\1 no log")
        words = [self.there, f"bundle:{self.bundle}", self.other, self.damaged, self.other.parent]
        return [self.there, *self.draw.sample(words, self.draw.randrange(4))][:: self.draw.choice([1, -1])]

    def say(self, children, lines):
        for line in lines:
            self.lines.append(line)
            told, wanted = (child.reply(line) for child in children)
            if told != wanted:
                fail("beside mirrors it told\n" + told + "in place of\n" + wanted + "for\n" + "\n".join(self.lines))
            self.replies += 1

    def run(self):
        """A clone that is asked, and pulls beside a log that grows meanwhile, or comes to be there."""
        mirrors, cache = self.mirrors(), self.draw.choice([1, 3, 4096])
        children = [Asked(program, log, mirrors, cache) for program, log in zip((CLIB, PROGRAM), self.logs)]
        self.lines.append(" ".join(map(str, ["beside", *mirrors])))
        self.say(children, asks(self.draw, self.rows))
        for _ in range(3):
            if run([PROGRAM, self.there, "--", "run"], grown(self.draw, self.rows))[0] != 0:
                fail("the mirror's log didn't grow")
            if self.draw.random() < 0.5:
                self.other.write_bytes(self.there.read_bytes())
            lines = ["0 query all", "0 pull", "1 pull", "0 query all", "1 count master", "0 mirrors", f"0 id {self.draw.choice(self.rows)[0].hex()}"]
            self.say(children, self.draw.sample(lines, len(lines)) + ["0 drop 0"] * (self.draw.random() < 0.2))
        if [child.end() for child in children] != [0, 0] or self.logs[0].read_bytes() != self.logs[1].read_bytes():
            fail("beside mirrors it left another log, after\n" + "\n".join(self.lines))


def by_python():
    """The module in Python over a clone."""
    import segdag

    beside = Beside(FOLDER, 7)
    names = [name for name, _ in beside.rows]
    beside.other.write_bytes(b"\1 no log")
    with segdag.open(beside.logs[0], create=True, cache=2, mirrors=[beside.other]) as store:
        try:
            store.clone()
            fail("a clone of what is no log")
        except segdag.Remote:
            store.add_mirror(beside.there)
        if store.clone() != (len(names), 0, 0) or sorted(store.query("all")) != sorted(names):
            fail("the module in Python finds other names in a clone")
        lines = grown(beside.draw, beside.rows)
        run([PROGRAM, beside.there, "--", "run"], lines)
        sizes = store.pull()
        if sizes != (len(names) + len(lines) - 1, 0, 0) or store.number(bytes.fromhex(lines[-1].split()[2])) != sizes.master - 1:
            fail(f"the module in Python pulled {sizes}")


def growing():
    """A clone and pulls beside a log that another process extends, one row at a time: none is refused."""
    there, log = Path(FOLDER, "growing"), Path(FOLDER, "puller")
    with subprocess.Popen([CLIB, "import", there, str(GROWN), "1"], stdout=subprocess.PIPE, text=True) as writer:
        watch = threading.Timer(HANGS, writer.kill)
        watch.start()
        while not writer.stdout.readline().startswith("flushed"):
            if writer.poll() is not None:
                fail("the import beside which it pulls ended")
        done = subprocess.run([CLIB, "pulls", log, there, str(GROWN)], stdout=subprocess.PIPE, text=True, timeout=HANGS)
        writer.communicate()
        watch.cancel()
    if done.returncode or writer.returncode:
        fail(f"beside a log that grows a pull ended with status {done.returncode}, and the import with {writer.returncode}: {done.stdout}")
    return int(done.stdout.split()[1])


def mirrors():
    """Clones, names and pulls beside mirrors: the same replies and logs as the program's with the same words."""
    replies = 0
    for seed in range(CLONES):
        beside = Beside(FOLDER, seed)
        beside.run()
        replies += beside.replies
    by_python()
    pulls = growing()
    print(f"clib: {CLONES} clones that are asked and pull, {replies} lines beside mirrors: the program's replies and logs; {pulls} pulls beside a log that grows")


def answer(text):
    """What a reply of the program tells: the word of a refusal, the names before its last line, or the numbers in it."""
    *names, last = text.splitlines()
    words = last.split()
    return words[1] if words[0] == "err" else names or [int(word) for word in words if word.isdigit()]


def told(call):
    """What a typed call answers, in the same form."""
    import segdag

    try:
        return call()
    except segdag.Refusal as refused:
        return refused.name


def questions(store, draw, session, names):
    """Lines about two drawn commits and about the session, with the typed calls that ask the same."""
    x, y = (draw.choice(names) for _ in range(2))
    a, b = bytes.fromhex(x), bytes.fromhex(y)
    yield f"count inter({x},ancestors({y}))", lambda: [int(store.is_ancestor(a, b, session))]
    yield f"count only({x},{y})", lambda: [store.ahead_behind([(a, b)], session)[0][0]]
    yield f"count only({y},{x})", lambda: [store.ahead_behind([(a, b)], session)[0][1]]
    yield f"query gca(union({x},{y}))", lambda: [name.hex() for name in store.merge_bases(a, b, session)] or [0]
    yield f"query {x}", lambda: [store.id(store.number(a, session), session).hex()]
    yield "status", lambda: [*store.sizes(session)]
    if draw.random() < 0.2:
        yield "reload", lambda: [store.reload(session)]
    if draw.random() < 0.01:
        yield "discard", lambda: [store.discard(session)]


def beside():
    """Typed calls amid drawn lines: each answers what the program's line does, and the logs are the same."""
    import segdag

    logs, asked, refused = [Path(FOLDER, word) for word in ("by_library", "by_program")], 0, 0
    for seed in range(HISTORIES):
        draw = random.Random(seed)
        lines, added = Lines(draw), []
        for log in logs:
            log.unlink(missing_ok=True)
        program = Asked(PROGRAM, logs[1], [], 4096)
        with segdag.open(logs[0], create=True) as store:
            for line in filter(lambda line: line and line[0] != "#", (lines.line() for _ in range(LINES))):
                reply = program.reply(line)
                if store.line(line) != reply:
                    fail(f"history {seed}: another reply to {line}")
                added += line.split()[2:3] if reply.startswith("ok added") else []
                session = draw.choice([0, 0, 0, 0, 0, 1, draw.randrange(16)])
                for line, call in questions(store, draw, session, added if added and draw.random() < 0.9 else lines.names):
                    wanted, got = answer(program.reply(f"{session} {line}")), told(call)
                    if got != wanted:
                        fail(f"history {seed}: a typed call for {session} {line} answers {got} in place of {wanted}")
                    asked, refused = asked + 1, refused + isinstance(got, str)
        if program.end() != 0 or logs[0].read_bytes() != logs[1].read_bytes():
            fail(f"history {seed}: other logs behind typed calls")
    print(f"clib: {asked} typed calls answer what the program's lines do, {refused} of them with its refusals")


def name_of(number):
    """The name that clib.c gives the row with this number."""
    name = bytearray([7] * 20)
    name[:8] = (number * 0x9E3779B97F4A7C15 & MASK).to_bytes(8, "little")
    name[12:] = number.to_bytes(8, "little")
    return name.hex()


def import_lines():
    for number in range(BY_LINES):
        parents = [] if number == 0 else [number - 1, number // 2] if number % 10 == 9 else [number - 1]
        yield " ".join(["0 add", *map(name_of, [number, *parents])])
        if number % EVERY == EVERY - 1:
            yield f"0 flush {name_of(number)}"


def imported(log, seconds=None, rows=ROWS):
    """How many rows an import found, and the last flush that it told, where it is killed after so many seconds."""
    words = [CLIB, "import", log, str(rows), str(EVERY)]
    with subprocess.Popen(words, stdout=subprocess.PIPE, text=True) as process:
        end = threading.Timer(HANGS if seconds is None else seconds, process.kill)
        end.start()
        told = [line.split() for line in process.stdout.read().splitlines(keepends=True) if line.endswith("\n")]
        process.wait()
        end.cancel()
    if seconds is None and process.returncode:
        fail(f"an import ended with status {process.returncode}")
    return (int(told[0][1]) if told else None), (int(told[-1][1]) if told else None)


def killed():
    """An import of rows that is killed at drawn moments: the next one finds each acknowledged flush, and at most one more."""
    whole, log, draw = Path(FOLDER, "whole"), Path(FOLDER, "killed"), random.Random(1)
    began = time.monotonic()
    imported(whole)
    took = time.monotonic() - began
    acknowledged, kills = 0, 0
    while kills < KILLS or acknowledged < ROWS:
        found, told = imported(log, took * draw.random() / 4 if kills < KILLS else None)
        if found is not None and not acknowledged <= found <= acknowledged + EVERY:
            fail(f"kill {kills}: {acknowledged} rows were acknowledged, and {found} found")
        acknowledged, kills = (told if told is not None else acknowledged), kills + 1
        if acknowledged == ROWS and kills < KILLS:
            log.unlink()
            acknowledged = 0
    if whole.read_bytes() != log.read_bytes():
        fail("the log of an import that was killed is another one")
    part, by_lines = Path(FOLDER, "part"), Path(FOLDER, "by_lines")
    imported(part, rows=BY_LINES)
    status, _ = run([PROGRAM, by_lines, "--", "run"], import_lines())
    if status != 0 or part.read_bytes() != by_lines.read_bytes():
        fail("the log of the program's import is another one")
    print(f"clib: {ROWS} rows imported in {took:.2f} s; {KILLS} kills: each acknowledged flush was found, at most one more")


class Closed(no_memory.Lines):
    """Lines over the library, which may also close the store: then what was told before is right, and the log is one of that moment."""

    def came(self, fails):
        status, output, files, _ = self.runs.run(self.text, fails)
        if status in (3, 6, 7) and (self.is_unopened(output, files) or any(self.is_front(k, output, files) for k in range(len(self.lines) + 1))):
            return f"status {status}"
        return super().came(fails)

    def is_unopened(self, output, files):
        return output == b"" and self.runs.is_unchanged(files)

    def is_front(self, k, output, files):
        """Whether the output is that of the first k lines, and the log what they left, or one line more."""
        return self.front(k)[0] == output and files in (self.front(k)[1], self.front(k + 1)[1])

    def front(self, k):
        if ("front", k) not in self.refused:
            _, output, files, _ = self.runs.run(no_memory.joined(self.lines[:k]))
            self.refused["front", k] = (output, files)
        return self.refused["front", k]


def memory():
    """Each call for memory in turn finds none: no reply is wrong, and the log is one of before or behind a line."""
    told, calls, there = {}, 0, Path(FOLDER, "there")
    no_memory.made(PROGRAM, there, no_memory.chain(0x1B))
    alone, beside = (no_memory.Runs(CLIB, FOLDER, words) for words in (["LOG", "--", "run"], ["LOG", there, "--", "run", "--cache", "1"]))
    for what, runs, lines in [*((what, alone, lines) for what, lines in no_memory.longest_cases(2)), ("a clone", beside, no_memory.CLONED)]:
        tried = Closed(what, runs, lines)
        tried.fail_each(told)
        calls += tried.calls
    print(f"clib: each of {calls} calls for memory found none:", ", ".join(f"{came} {told[came]}" for came in sorted(told)))


{"drawn": drawn, "beside": beside, "mirrors": mirrors, "killed": killed, "memory": memory}[sys.argv[1]]()
