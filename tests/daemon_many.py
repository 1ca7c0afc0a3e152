"""The parts of daemon_many.sh: `daemon_many.py PART SERVER PROGRAM FOLDER COUNT`. Each ends with status 1 where the server did something else.

SERVER is segdagd-many, which serves the logs below a folder; PROGRAM is segdag, by which logs are made, locked and looked at.
"""
import atexit
import itertools
import json
import os
import random
import resource
import select
import signal
import socket
import subprocess
import sys
import threading
import time
from contextlib import suppress
from pathlib import Path

import plain_store
from random_lines import Lines

TOP = Path(__file__).resolve().parent.parent
sys.path.insert(0, str(TOP / "tools"))
sys.path.insert(0, str(TOP / "bindings/python"))
from segdag_tools.lines import Socket  # noqa: E402  (the folder is on the path now)
from segdag_tools.refused import Refused  # noqa: E402

PART, SERVER, PROGRAM, FOLDER, COUNT = sys.argv[1], os.path.abspath(sys.argv[2]), os.path.abspath(sys.argv[3]), Path(sys.argv[4]) / sys.argv[1], int(sys.argv[5])
ROOT = FOLDER / "root"
HANGS = 600  # seconds behind which something is taken to hang


def fail(text):
    for said in FOLDER.glob("said*"):
        print(said.read_text(errors="replace")[-3000:], end="")
    sys.exit(f"daemon_many: {PART}: {text}")


def name(number):
    return f"{number:040x}"


class Many:
    """A server over the root, which listens."""

    all = []

    def __init__(self, *options, path="socket", waits=True, root=ROOT, **others):
        self.path, self.said = str(FOLDER / path), FOLDER / f"said{len(Many.all)}"
        words = [SERVER, "--root", str(root), "--socket", self.path, *options]
        with open(self.said, "wb") as said:
            self.process = subprocess.Popen(words, **{"stderr": said, **others})
        Many.all.append(self)
        until = time.monotonic() + HANGS
        while waits:
            with suppress(Refused):
                Socket(self.path).close()
                return
            if self.process.poll() is not None or time.monotonic() > until:
                fail(f"nobody listens: {self.process.poll()}")
            time.sleep(0.02)

    def of(self, log, patience=HANGS):
        """A client that uses a log."""
        one = Socket(self.path, patience=patience)
        if (told := one.ask(f"use {log}").last) != "ok use":
            fail(f"use {log} is told {told}")
        return one

    def end(self, number=signal.SIGTERM, wanted=0):
        if number:
            self.process.send_signal(number)
        status = self.process.wait(HANGS)
        if status != wanted:
            fail(f"the server ended with {status}, and {wanted} was wanted")
        said = self.said.read_text(errors="replace")
        if "Sanitizer" in said or "runtime error" in said:
            fail("a sanitizer found something")
        return said

    def kilobytes(self, word="VmRSS"):
        text = Path(f"/proc/{self.process.pid}/status").read_text()
        return next(int(line.split()[1]) for line in text.splitlines() if line.startswith(word))


def by_program(log, text):
    told = subprocess.run([PROGRAM, log, "--", "run"], input=text, text=True, capture_output=True)
    if told.returncode != 0:
        fail(f"the program ends with {told.returncode} over {log}")
    return told.stdout


def stored(log, names):
    """How many of these names the log has."""
    return by_program(log, "".join(f"0 id {word}\n" for word in names)).count("ok")


def log_names(log):
    """The names in a log's master, by its bytes."""
    return [row[0] for row in plain_store.read_log(Path(log).read_bytes())[1].master]


def store(one, number, parent=None):
    one.must(f"add {name(number)}" + (f" {name(parent)}" if parent else ""))
    return one.must(f"flush {name(number)}").last


def answered(one, line):
    """A reply, or the sentence by which the connection ended."""
    try:
        return one.ask(line).last
    except Refused as refused:
        return str(refused)


def big(path, count, width=3):
    """A log of so many commits, of which each hundredth is a merge."""
    lines, tips = [], [None] * width
    for number in range(1, count + 1):
        parents = [tip for tip in dict.fromkeys(tips)] if number % 100 == 0 else [tips[number % width]]
        lines.append(f"0 add {name(number)} {' '.join(name(parent) for parent in parents if parent)}".rstrip())
        tips = [number] * width if number % 100 == 0 else [*tips[: number % width], number, *tips[number % width + 1 :]]
        if number % 30_000 == 0 or number == count:
            lines.append(f"0 flush {' '.join(name(tip) for tip in dict.fromkeys(tips) if tip)}")
    by_program(path, "".join(line + "\n" for line in lines))


# ---- parts


class Talk:
    """A connection to a drawn log, and the definitions that it is compared with."""

    def __init__(self, served, log, plain, draw):
        self.one, self.plain, self.log, self.lines = served.of(log), plain, log, Lines(draw)
        self.lines.names = [name(number) for number in range(1, 30)]
        self.lines.known = self.lines.names[:8]
        plain.line("0 discard")
        plain.line("0 reload")

    def go_on(self, count):
        texts = [self.lines.command() for _ in range(count)]
        for text, reply in zip(texts, self.one.ask_all(texts)):
            wanted = "".join(line + "\n" for line in self.plain.line("0 " + text))
            if reply.text.decode() + reply.last + "\n" != wanted:
                fail(f"{self.log}: {text!r} is told {reply.text.decode() + reply.last!r}, and {wanted!r} was wanted")
        return count


def drawn():
    """Logs by the thousand of which fifty are open at a time: what clients are answered is what the definitions have, and so are the logs."""
    draw, count, lines = random.Random(5), COUNT, 0
    fronts = []
    for place in range(20):
        path = FOLDER / f"front{place}"
        by_program(path, "".join(f"0 add {name(number)} {name(number - 1) if number > 1 else ''}".rstrip() + "\n" for number in range(1, place + 2)) + f"0 flush {name(place + 1)}\n")
        fronts.append(path.read_bytes())
    for place in range(count):
        folder = ROOT / f"{place % 100:02}"
        folder.mkdir(exist_ok=True)
        if place % 20:
            (folder / f"{place}.log").write_bytes(fronts[place % 20])
    served = Many("--stores", "50", "--threads", "8")
    plains, talks = {}, []
    order = list(range(count))
    draw.shuffle(order)
    for step in range(min(count, 500) * 3):
        if len(talks) < 30 or draw.random() < 0.5:
            if len(talks) >= 30:
                talks.pop(draw.randrange(len(talks))).one.close()
            place = order[step // 2 % count]
            if all(talk.log != f"{place % 100:02}/{place}.log" for talk in talks):
                path = ROOT / f"{place % 100:02}/{place}.log"
                plain = plains.get(place) or plain_store.Store(path.read_bytes() if path.exists() else b"", plain_store.LIMITS)
                plains[place] = plain
                talks.append(Talk(served, f"{place % 100:02}/{place}.log", plain, draw))
        lines += draw.choice(talks).go_on(draw.choice([1, 1, 2, 5]))
    for talk in talks:
        talk.one.close()
    served.end()
    for place, plain in plains.items():
        if (ROOT / f"{place % 100:02}/{place}.log").read_bytes() != plain.log():
            fail(f"log {place} has other bytes")
    return f"{lines} lines over {len(plains)} of {count} logs, of which fifty are open at a time, are answered as by the definitions"


def metric(text, word):
    return next(float(line.split()[1]) for line in text.splitlines() if line.startswith(word + " "))


def names():
    """What isn't below the root, or no log, is refused, and stays as it is."""
    outside = FOLDER / "outside"
    outside.write_bytes(b"")
    (ROOT / "a").mkdir()
    (ROOT / "link").symlink_to("../outside")
    (ROOT / "gone").symlink_to("../nowhere")
    (ROOT / "folder").symlink_to("..")
    os.mkfifo(ROOT / "fifo")
    (ROOT / "page").write_bytes(b"# A page\n")
    (ROOT / "damaged").write_bytes(b"\1\0\0\0\0\0\0\0\5\252")
    served = Many()
    wanted = {
        "name": ["", ".", "..", "a/..", "a/../b", "../outside", "/outside", str(outside), "a//b", "a/", "/", "x" * 256, "a/" * 600 + "b", "a\0b"],
        "file": ["link", "gone", "folder/outside", "fifo", "a", "nowhere/log", "page/log", "folder"],
        "foreign": ["page"],
        "damaged": ["damaged"],
    }
    one = Socket(served.path, patience=60)
    for word, some in wanted.items():
        for text in some:
            if (told := one.ask(f"use {text}").last) != f"err use {word}":
                fail(f"use {text[:50]!r} is told {told}")
    if one.ask("status").last != "err use first" or one.must("use a/log").last != "ok use" or one.must("status").last != "ok 0 0 0":
        fail("behind refusals a log isn't used")
    with subprocess.Popen([PROGRAM, ROOT / "locked", "--", "run"], stdin=subprocess.PIPE, stdout=subprocess.PIPE) as other:
        other.stdin.write(b"0 status\n")
        other.stdin.flush()
        other.stdout.readline()
        beside = served.of("locked")
        if beside.must("status").last != "ok 0 0 0" or beside.ask(f"add {name(1)}").last != "err open locked":
            fail("a log that another process has isn't read beside it, or is written")
        other.stdin.close()
    if store(beside, 1) != "ok flushed 1 0":
        fail("a log that was let go of isn't written")
    # Where a link is put in the place of a log, that isn't the log.
    held = served.of("a/swapped")
    store(held, 1)
    os.rename(ROOT / "a/swapped", ROOT / "a/kept")
    (ROOT / "a/swapped").symlink_to("../../outside")
    if "another file" not in answered(held, f"add {name(2)}") + answered(held, f"flush {name(2)}"):
        fail("a link is taken for the log")
    served.end()
    if outside.read_bytes() != b"" or (FOLDER / "nowhere").exists() or (ROOT / "page").read_bytes() != b"# A page\n":
        fail("a file outside the root was changed")
    return "names that leave the root, links, fifos, folders, files that are no log and damaged ones are refused"


def storing(path, log, first, kept):
    """Stores a commit after the other, and keeps the name of each that was acknowledged."""
    with suppress(Refused), open(kept, "ab", buffering=0) as file:
        one = Socket(path)
        one.must(f"use {log}")
        for number in itertools.count(first):
            one.must(f"add {name(number)}")
            one.must(f"flush {name(number)}")
            file.write(f"{log} {name(number)}\n".encode())


def forked(work, *words):
    pid = os.fork()
    if pid == 0:
        status = 1
        try:
            work(*words)
            status = 0
        finally:
            os._exit(status)
    return pid


def killed():
    """The server is killed at drawn moments under the load of 64 writers: each acknowledged change is there."""
    draw, kept, rounds = random.Random(3), FOLDER / "kept", max(3, COUNT // 2000)
    kept.touch()
    for round_ in range(rounds):
        served = Many("--stores", "20")
        pids = [forked(storing, served.path, f"log{place % 40}", (round_ << 60) + (place << 40) + 1, kept) for place in range(64)]
        before, until = kept.stat().st_size, time.monotonic() + HANGS
        while kept.stat().st_size < before + 2000 and time.monotonic() < until:
            time.sleep(0.02)
        time.sleep(draw.random())
        served.end(signal.SIGKILL, -signal.SIGKILL)
        for pid in pids:
            os.waitpid(pid, 0)
    by_log = {}
    for line in kept.read_text().splitlines():
        log, word = line.split()
        by_log.setdefault(log, []).append(word)
    for log, words in by_log.items():
        if (found := stored(ROOT / log, words)) != len(words):
            fail(f"of {len(words)} changes of {log} that were acknowledged {found} are there")
    total = sum(map(len, by_log.values()))
    if total < 64:
        fail(f"only {total} changes were acknowledged, so this tries nothing")
    return f"behind {rounds} servers that were killed under 64 writers all {total} acknowledged changes of {len(by_log)} logs are there"


def asking(path, log, count):
    one = Socket(path)
    one.must(f"use {log}")
    for _ in range(count):
        one.must("query all")


def waits():
    """Nobody waits for the long question of another, of the same log or of another one; a change isn't behind it either."""
    big(ROOT / "big", 60_000)
    served = Many("--threads", "16")
    pids = [forked(asking, served.path, "big", 10_000) for _ in range(3)]
    time.sleep(1)
    one, took = served.of("big"), []
    for number in range(300):
        began = time.monotonic()
        one.must(f"id {name(number + 1)}")
        took.append(time.monotonic() - began)
    began = time.monotonic()
    writer = served.of("big")
    store(writer, 70_000, 60_000)
    wrote = time.monotonic() - began
    for pid in pids:
        os.kill(pid, signal.SIGKILL)
        os.waitpid(pid, 0)
    took.sort()
    if took[150] > 0.1 or wrote > 20:
        fail(f"beside long questions an id takes {1000 * took[150]:.1f} ms, and a change {wrote:.1f} s")
    served.end()
    return f"beside three clients with long questions an id takes {1000 * took[150]:.2f} ms at the median and {1000 * took[-1]:.0f} at worst, and a change {wrote:.2f} s"


def crowd():
    """A thousand clients of one log that ask and stay: each is answered, and goes on as if its session had never been another's, or is told."""
    served = Many("--followers", "2")
    writer = served.of("log")
    store(writer, 1)
    many = [served.of("log") for _ in range(min(1000, COUNT))]
    began = time.monotonic()
    if any(one.must("status").last != "ok 1 0 0" for one in many) or any(one.must("status").last != "ok 1 0 0" for one in many):
        fail("one of many isn't answered")
    took = time.monotonic() - began
    keeps = many.pop()
    keeps.must("reload")
    keeps.must(f"add {name(9)} {name(1)}")
    store(writer, 2, 1)
    told = [answered(one, "status") for one in many]
    if any(text != "ok 1 0 0" and "session was lent" not in text for text in told) or sum(text == "ok 1 0 0" for text in told) > 48:
        fail(f"behind a change they are told {set(told)}, {sum(text == 'ok 1 0 0' for text in told)} the old version")
    if keeps.must("status").last != "ok 1 0 1" or keeps.must("reload").last != "ok reloaded 1" or keeps.must(f"flush {name(9)} {name(2)}").last != "ok flushed 3 0":
        fail("who had rows pending lost them")
    writers = [served.of("log") for _ in range(40)]
    for number, one in enumerate(writers):
        if not store(one, 100 + number, 9).startswith("ok"):
            fail("one of forty writers isn't answered")
    served.end()
    return f"{len(many)} clients of one log that stay are answered twice within {took:.1f} s, and told of a change; forty writers share its sessions"


def unread():
    """Who takes no replies has no more of them than there is room for, and keeps nobody waiting."""
    big(ROOT / "big", 30_000)
    served = Many("--replies", "4")
    before = served.kilobytes()
    rude = [served.of("big") for _ in range(12)]
    for one in rude:
        one.socket.setblocking(True)
        one.socket.sendall(b"query all\n" * 5)
        one.socket.shutdown(socket.SHUT_WR)
    time.sleep(1)
    for _ in range(8):
        with served.of("big") as one:
            if one.must("query all").text.count(b"\n") != 30_000:
                fail("who reads isn't answered whole")
    peak = served.kilobytes("VmHWM") - before
    ends = []
    for one in rude[:4]:
        one.socket.settimeout(60)
        data = b""
        with suppress(ConnectionError):
            while piece := one.socket.recv(1 << 16):
                data = data[-20:] + piece
        ends.append(data[-14:])
    if not any(end.endswith(b"\nerr ended 20\n") for end in ends):
        fail(f"who takes nothing is told {ends}")
    if peak > 120_000:
        fail(f"replies that nobody takes take {peak} kB")
    served.end()
    return f"twelve clients that take nothing take {peak} kB, and those that read are answered whole"


def removed():
    """A log that is removed or moved: a change is refused and not lost, who comes next has the file that is there, and so a folder."""
    (ROOT / "a").mkdir()
    served = Many()
    by_program(FOLDER / "other", f"0 add {name(7)}\n0 flush {name(7)}\n")
    for what, act in (("removed", os.unlink), ("moved", lambda log: os.rename(log, f"{log}.moved")), ("another", lambda log: os.replace(FOLDER / "other", log)), ("a folder", lambda log: os.rename(ROOT / "a", ROOT / what.replace(" ", "")))):
        one, asks = served.of("a/log"), served.of("a/log")
        one.must("reload")
        one.must(f"add {name(1)}")
        asks.must("status")
        act(ROOT / "a/log")
        (ROOT / "a").mkdir(exist_ok=True)
        if what != "a folder" and "another file" not in (told := answered(one, f"flush {name(1)}")):
            fail(f"behind a log that is {what} a change is told {told}")
        late = served.of("a/log")
        if (told := late.must("status").last) != ("ok 1 0 0" if what == "another" else "ok 0 0 0"):
            fail(f"behind a log that is {what} who comes next is told {told}")
        store(late, 5)
        if name(5) not in log_names(ROOT / "a/log"):
            fail("a change is lost")
        os.unlink(ROOT / "a/log")
    served.end()
    return "a log that is removed, moved or replaced is seen before a change, and by who comes next"


def left():
    """Clients that leave at any moment, in the middle of a line, with rows pending, or without reading: nothing of them is left, and others
    are answered meanwhile."""
    draw, served = random.Random(4), Many("--followers", "2")
    big(ROOT / "log", 3000)
    honest, sizes = served.of("log"), []
    for step in range(COUNT):
        sock = socket.socket(socket.AF_UNIX)
        sock.connect(served.path)
        text = b"".join([b"use log\n", b"add %040x\n" % (1 << 60 | step), b"query all\n" * draw.randrange(3), b"status\n" * draw.randrange(40), b"flu"])
        with suppress(ConnectionError, BlockingIOError, TimeoutError):
            sock.setblocking(False)
            sock.send(text[: draw.choice([0, 3, 9, 60, len(text), len(text)])])
            if draw.random() < 0.3:
                sock.setblocking(True)
                sock.settimeout(0.01)
                sock.recv(draw.choice([1, 100, 5000]))
        sock.close()
        if step % 20 == 0 and honest.must("count all").number != 3000:
            fail("one who stays is answered otherwise")
        if step in (COUNT // 4, COUNT - 1):
            until = time.monotonic() + HANGS
            while sum(link.startswith("socket:") for link in descriptors(served)) > 2 and time.monotonic() < until:
                time.sleep(0.05)
            sizes.append((len(descriptors(served)), served.kilobytes()))
    # A sanitizer, with which fewer come, keeps what is let go of.
    if sizes[1][0] > sizes[0][0] + 8 or sizes[1][1] > sizes[0][1] + (8000 if COUNT >= 1000 else 80_000):
        fail(f"descriptors and kilobytes were {sizes[0]}, and {sizes[1]} at the end")
    for _ in range(40):
        with served.of("log") as one:
            if one.must(f"add {name(1 << 50)} {name(3000)}").last[:8] != "ok added" or not one.must("status").last.endswith(" 1"):
                fail(f"rows of a client that left are there: {one.must('status').last}")
    served.end()
    return f"{COUNT} clients that left at any moment leave nothing, {sizes[1][1] - sizes[0][1]} kB and {sizes[1][0] - sizes[0][0]} descriptors"


def descriptors(served):
    """What those of the server lead to."""
    found = []
    for entry in os.listdir(f"/proc/{served.process.pid}/fd"):
        with suppress(OSError):
            found.append(os.readlink(f"/proc/{served.process.pid}/fd/{entry}"))
    return found


def told_whole(path, text, pieces=1 << 20):
    with socket.socket(socket.AF_UNIX) as sock:
        sock.settimeout(60)
        sock.connect(path)
        for at in range(0, len(text), pieces):
            sock.sendall(text[at : at + pieces])
        sock.shutdown(socket.SHUT_WR)
        data = b""
        while piece := sock.recv(1 << 16):
            data += piece
        return data


def wrong():
    """Lines that are too long, or no command, in pieces; half a line; bytes that are none."""
    served, long = Many(), 16_381
    lines = [b"use log", b"status", b"", b"\r", b"#", b"0 status", b"16 status", b"1", b"x" * long, b"x" * (long + 1), b"x" * long + b"\r", b"status\r\r", b"status\r"]
    lines += [b"status\0", b"\0", b"\xff" * 9, b" # note", b"use log", b"s" * 40_000, b"s" * 200_000, b"status"]
    fine, bad, over = b"ok 0 0 0\n", b"err syntax\n", b"err line 16384\n"
    wanted = b"ok use\n" + b"".join([fine, bad, bad, bad, bad, over, bad, bad, fine, bad, bad, bad, bad, bad, over, over, fine])
    for pieces in (1 << 20, 1000, 7):
        told = told_whole(served.path, b"".join(line + b"\n" for line in lines) + b"add " + name(1).encode(), pieces)
        if told != wanted:
            fail(f"in pieces of {pieces}: {told}")
    if served.of("log").must("status").last != "ok 0 0 0":
        fail("half a line was carried out")
    served.end()
    return "lines that are too long, or none, get the refusals, however they come in pieces"


def ends():
    """How it ends and begins: closed descriptors, a socket that is taken or handed over, words that are wrong, and a signal."""
    ways = [which for count in range(4) for which in itertools.combinations(range(3), count)]
    for place, which in enumerate(ways):
        served = Many(path=f"closed{place}", preexec_fn=lambda which=which: [os.close(number) for number in which])
        one = served.of(f"log{place}")
        store(one, 1)
        store(one, 2, 1)
        served.process.send_signal(signal.SIGTERM)
        while (told := answered(one, "status")) == "ok 2 0 0":
            pass
        if "ended with status 0" not in told and "ended before" not in told or served.process.wait(HANGS) != 0 or stored(ROOT / f"log{place}", [name(1), name(2)]) != 2:
            fail(f"with {which} closed a change is lost, or a client is told {told}")
        if os.path.exists(served.path):
            fail("it left its socket")
    served = Many()
    Many(waits=False).end(None, 16)
    served.end(signal.SIGKILL, -signal.SIGKILL)
    Many().end()
    (FOLDER / "file").write_text("kept")
    Many(path="file", waits=False).end(None, 1)
    for words in (["--slow", "nan"], ["--memory", "-1"], ["--threads", "0"], ["--walk"], ["--clients", "x"]):
        Many(*words, waits=False).end(None, 2)
    Many(root=FOLDER / "nowhere", waits=False).end(None, 9)
    code = (
        "import os, socket, sys\n"
        "sock = socket.socket(socket.AF_UNIX); sock.bind(sys.argv[1]); sock.listen()\n"
        "os.dup2(sock.fileno(), 3); os.set_inheritable(3, True)\n"
        "os.environ.update(LISTEN_PID=str(os.getpid()), LISTEN_FDS='1')\n"
        "os.execv(sys.argv[2], sys.argv[2:])\n"
    )
    with subprocess.Popen([sys.executable, "-c", code, str(FOLDER / "given"), SERVER, "--root", str(ROOT), "--idle", "1"]) as given:
        until = time.monotonic() + HANGS
        told = None
        while told is None and time.monotonic() < until:
            with suppress(Refused), Socket(str(FOLDER / "given"), patience=60) as one:
                one.must("use log0")
                told = one.must("status").last
            time.sleep(0.02)
        if told != "ok 2 0 0":
            fail(f"a socket that is handed over tells {told}")
        if given.wait(HANGS) != 0 or not (FOLDER / "given").exists():
            fail("it doesn't end when nobody was there, or took away a socket that isn't its own")
    return f"with each of {len(ways)} ways to close three descriptors nothing is lost; it ends when it is told, and refuses what is taken"


def starved():
    """With few descriptors clients wait at the door and stores are closed; it takes no time meanwhile, and all are answered."""
    served = Many(preexec_fn=lambda: resource.setrlimit(resource.RLIMIT_NOFILE, (110, 110)))
    for number in range(60):
        with served.of(f"log{number}") as one:
            store(one, 1)
    many = []
    for number in range(60):
        sock = socket.socket(socket.AF_UNIX)
        sock.connect(served.path)
        sock.sendall(f"use log{number}\nstatus\n".encode())
        many.append(sock)
    time.sleep(1)
    ticks = sum(map(int, Path(f"/proc/{served.process.pid}/stat").read_text().rpartition(")")[2].split()[11:13]))
    time.sleep(2)
    took = (sum(map(int, Path(f"/proc/{served.process.pid}/stat").read_text().rpartition(")")[2].split()[11:13])) - ticks) / os.sysconf("SC_CLK_TCK")
    left = set(many)
    while left:
        came = select.select(left, [], [], 60)[0]
        if not came:
            fail(f"{len(left)} of them aren't answered")
        for sock in came:
            data = b""
            while data.count(b"\n") < 2 and (piece := sock.recv(100)):
                data += piece
            if data != b"ok use\nok 1 0 0\n":
                fail(f"one is told {data}")
            sock.close()
        left -= set(came)
    if took > 0.5:
        fail(f"without descriptors it took {took} s within two")
    served.end()
    return f"with room for few clients and stores sixty of each are answered, and waiting took {took:.2f} s of two"


def numbers():
    """Numbers as Prometheus reads them, those of one client, and slow lines, whose file may be moved."""
    slow = FOLDER / "slow"
    served = Many("--metrics", str(FOLDER / "metrics"), "--slow-log", "0", "--json", "--log", str(slow))
    one = served.of("log")
    store(one, 1)
    if one.ask("nonsense").last != "err syntax" or not one.must("stats").last.startswith("ok stats 3 1 "):
        fail(f"a client's numbers are {one.must('stats').last}")

    def read():
        with socket.socket(socket.AF_UNIX) as sock:
            sock.settimeout(60)
            sock.connect(str(FOLDER / "metrics"))
            sock.sendall(b"GET /metrics HTTP/1.0\r\n\r\n")
            data = b""
            while piece := sock.recv(1 << 16):
                data += piece
        head, _, text = data.decode().partition("\r\n\r\n")
        if not head.startswith("HTTP/1.0 200 OK") or f"Content-Length: {len(text)}" not in head:
            fail(f"numbers come behind {head}")
        return text

    other = Many("--metrics", str(FOLDER / "metrics"), path="other", waits=False)
    if other.process.wait(HANGS) != 1 or "Address already in use" not in other.said.read_text():
        fail("a second server takes the place at which the first one tells its numbers")
    read()

    # The follower's session was there before, so it lags until it is asked to go on.
    beside = served.of("log")
    beside.must("status")
    lags = []
    for step in (lambda: None, lambda: store(one, 2, 1), lambda: beside.must("reload")):
        step()
        lags.append(metric(read(), "segdag_follower_lag_bytes"))
    if lags[0] or lags[2] or not 20 < lags[1] < 400:
        fail(f"a follower's lag is told as {lags}")
    beside.close()
    until = time.monotonic() + HANGS
    while metric(text := read(), "segdag_clients") > 1 and time.monotonic() < until:
        time.sleep(0.02)
    wanted = {"segdag_lines_total": 7, "segdag_changes_total": 2, "segdag_uses_total": 2, "segdag_clients": 1, "segdag_line_seconds_count": 7, 'segdag_line_seconds_bucket{le="+Inf"}': 7}
    wanted |= {'segdag_verb_lines_total{verb="add"}': 2, 'segdag_verb_lines_total{verb="other"}': 1, 'segdag_refused_lines_total{refusal="syntax"}': 1}
    for word, value in wanted.items():
        if metric(text, word) != value:
            fail(f"{word} is {metric(text, word)}, and {value} was wanted")
    if metric(text, "segdag_open_stores") < 1 or metric(text, "segdag_resident_bytes") < 1 << 20:
        fail("stores and memory aren't told")
    slow.rename(FOLDER / "slow.old")
    served.process.send_signal(signal.SIGHUP)
    until = time.monotonic() + HANGS
    while not slow.exists() and time.monotonic() < until:
        time.sleep(0.02)
    one.must("status")
    old, new = ([json.loads(line) for line in path.read_text().splitlines()] for path in (FOLDER / "slow.old", slow))
    lines = [f"add {name(1)}", f"flush {name(1)}", "nonsense", "status", f"add {name(2)} {name(1)}", f"flush {name(2)}", "reload", "status"]
    if [entry["line"] for entry in old + new] != lines or new[0]["log"] != "log" or new[0]["reply"] != "ok 2 0 0":
        fail(f"slow lines are {old + new}")
    served.end()
    return "numbers of all and of one client are told, and slow lines, in a file that may be moved"


def told_of(served, text):
    """Waits until the server has said this."""
    until = time.monotonic() + HANGS
    while text not in served.said.read_text(errors="replace"):
        if time.monotonic() > until:
            fail(f"it doesn't say {text}")
        time.sleep(0.02)


def configured(served, path, text, works):
    """Gives the server another configuration, and waits until it goes by it."""
    path.write_text(text)
    served.process.send_signal(signal.SIGHUP)
    until = time.monotonic() + HANGS
    while not works():
        if time.monotonic() > until:
            fail(f"it doesn't go by {text!r}")
        time.sleep(0.02)


def mirrors():
    """Logs that are clones of mirrors, as the configuration has it: what a session clones and pulls all see, and a mirror that fails, lies or is no
    log hurts nobody."""
    up, config = FOLDER / "up", ROOT / "config"
    for folder in (up / "a", ROOT / "a", ROOT / "bad"):
        folder.mkdir(parents=True)
    big(up / "a/log", 300)
    (ROOT / "plain").write_bytes((up / "a/log").read_bytes())
    (FOLDER / "bundle").write_bytes(subprocess.run([PROGRAM, up / "a/log", "--", "bundle"], capture_output=True, check=True).stdout)
    (FOLDER / "damaged").write_bytes(b"\1\0\0\0\0\0\0\0\5\252")
    (FOLDER / "page").write_bytes(b"# A page\n")
    os.mkfifo(FOLDER / "fifo")
    bad = [FOLDER / word for word in ("damaged", "page", "fifo", "nowhere", "up")]
    text = f"# mirrors\n\nmirror a/* {up}/*\nmirror below plain\nmirror second {FOLDER}/nowhere\nmirror second bundle:{FOLDER}/bundle\n"
    config.write_text(text + "".join(f"mirror bad/{path.name} {path}\n" for path in bad))
    served = Many("--config", str(config), "--followers", "2")
    one, other = served.of("a/log"), served.of("a/log")
    if other.must("status").last != "ok 0 0 0" or one.must("clone").last != "ok cloned 300" or other.must("status").last != "ok 0 0 0":
        fail("a log isn't cloned, or another session sees it at once")
    for client in (one, other):
        client.must("reload")
        if sorted(client.must("query all").lines) != [name(number) for number in range(1, 301)] or client.must("count all").number != 300:
            fail("a cloned log's commits have other names")
    for step in (1, 2):
        by_program(up / "a/log", f"0 add {name(300 + step)} {name(299 + step)}\n0 flush {name(300 + step)}\n")
        if one.must("pull").last != f"ok pulled {step} 0" and one.must("status").last != f"ok {300 + step} 0 0":
            fail("a pull tells another thing")
        other.must("reload")
        if other.must(f"id {name(300 + step)}").number != 299 + step or other.must("query heads(all)").lines[0] != name(300 + step):
            fail("what was pulled isn't seen by another session")
    for log in ("second", "below"):
        if (told := served.of(log).ask("clone").last) not in ("ok cloned 300", "ok cloned 302"):
            fail(f"{log} isn't cloned, and tells {told}")
    for path in bad:
        with served.of(f"bad/{path.name}") as lone:
            if not (told := lone.ask("clone").last).startswith("err remote") or store(lone, 7) != "ok flushed 1 0":
                fail(f"a mirror that is {path.name} is told as {told}")
    with served.of("none") as lone:
        if lone.ask("clone").last != "err no-remote" or lone.ask("pull").last != "err no-remote":
            fail("a log without a mirror has one")
    if (told := Socket(served.path).ask("use config").last) != "err use file":
        fail(f"the configuration is told as {told}")
    # The one that failed was put behind the other one.
    with served.of("second") as lone:
        told = [lone.ask(line).last for line in ("mirrors", "drop 1", "pull", "drop 0", "pull")]
        if told[1:] != ["ok dropped 1", "ok pulled 300 0", "ok dropped 0", "err no-remote"] or other.must("mirrors").number != 1:
            fail(f"mirrors are dropped as {told}")
    # Another log in the mirror's place contradicts what is stored, and none can't be asked: the log stays as it is, and others go on.
    os.rename(up / "a/log", up / "a/kept")
    by_program(up / "a/log", f"0 add {name(77)}\n0 flush {name(77)}\n")
    before = (ROOT / "a/log").read_bytes()
    told = one.ask("pull").last
    os.unlink(up / "a/log")
    lost = one.ask("pull").last
    log_bytes = (ROOT / "a/log").read_bytes()
    if not told.startswith("err mismatch") or not lost.startswith("err remote") or log_bytes != before or other.must("count all").number != 302:
        fail(f"a mirror that is another log is told as {told}, and one that went as {lost}")
    os.rename(up / "a/kept", up / "a/log")
    if not one.must("pull").ok or served.of("below").must("count all").number != 300:
        fail("a mirror that is back isn't asked")
    # The configuration is read anew; one that is wrong changes nothing.
    lone = served.of("none")
    configured(served, config, f"mirror none bundle:{FOLDER}/bundle\n", lambda: lone.ask("clone").last == "ok cloned 300")
    config.write_text("mirrors none\n")
    served.process.send_signal(signal.SIGHUP)
    told_of(served, "config:1: ")
    if served.of("none").must("query all").text.count(b"\n") != 300:
        fail("a wrong configuration takes away mirrors")
    served.end()
    for place, wrong in enumerate(("mirror a", "read a b c", "read a user:nobody-of-this-name", "wright a all", "mirror a pipe:3:4", "x" * 5000)):
        (FOLDER / f"wrong{place}").write_text(f"# {place}\n{wrong}\n")
        Many("--config", str(FOLDER / f"wrong{place}"), waits=False).end(None, 2)
    Many("--config", str(FOLDER / "nowhere"), waits=False).end(None, 2)
    return f"logs are cloned and pulled by sessions, from a file, a bundle and a log below the root; {len(bad)} kinds of bad mirrors hurt nobody"


def become_other(groups):
    os.setgroups(groups)
    os.setegid(OTHER)
    os.seteuid(OTHER)


def by_other(served, groups):
    """A connection that another user of the system made, who has these groups."""
    before = os.getgroups()
    become_other(groups)
    try:
        return Socket(served.path, patience=60)
    finally:
        os.seteuid(0)
        os.setegid(0)
        os.setgroups(before)


def reach_as_other():
    """Goes to the folder as the other user."""
    become_other([TEAM])
    os.stat(ROOT)


def untried(text):
    """Says what isn't tried here."""
    if os.environ.get("SKIPPED"):
        with open(os.environ["SKIPPED"], "a", encoding="utf-8") as skipped:
            skipped.write(f"daemon_many: {text}\n")
    return text


OTHER, TEAM = 65_534, 4242  # numbers of a user and of a group that own nothing here


def rights():
    """Who may read and write which log, by the user and the groups of the peer."""
    for folder in (FOLDER.parent, FOLDER):
        folder.chmod(0o711)
    if os.geteuid() != 0 or os.waitpid(forked(reach_as_other), 0)[1] != 0:
        return untried("who runs this can't be another user, or that one doesn't come to its folder, so rights aren't tried")
    for folder in ("open", "shared", "team"):
        (ROOT / folder).mkdir()
    config, text = FOLDER / "config", f"read open/* all\nwrite shared/* user:{OTHER}\nread team/* group:{TEAM}\nwrite team/new* group:{TEAM}\n"
    config.write_text(text)
    served = Many("--config", str(config), "--group", str(OTHER))
    with served.of("open/log") as own, served.of("team/log") as team, served.of("own") as alone:
        for one in (own, team, alone):
            store(one, 1)

    changes = (f"add {name(2)} {name(1)}", f"flush {name(1)}", f"strip {name(1)}", "clone", "pull", "drop 0")
    asked = (
        ((), "open/log", ("status", *changes, "discard", f"id {name(1)}"), ["ok use", "ok 1 0 0", *["err rights"] * 6, "ok discarded 0", "ok 0"]),
        ((), "open/none", (), ["err use file"]),
        ((), "own", ("status",), ["err use rights", "err use first"]),
        ((), "team/log", (), ["err use rights"]),
        ((), "shared/log", (f"add {name(1)}", f"flush {name(1)}"), ["ok use", "ok added N0", "ok flushed 1 0"]),
        ((), "../config", (), ["err use name"]),
        ((TEAM,), "team/log", ("status", *changes[:1]), ["ok use", "ok 1 0 0", "err rights"]),
        ((TEAM,), "team/new", (f"add {name(1)}",), ["ok use", "ok added N0"]),
        ((TEAM,), "own", (), ["err use rights"]),
    )
    for groups, log, lines, wanted in asked:
        with by_other(served, groups) as one:
            if (found := [one.ask(line).last for line in (f"use {log}", *lines)]) != wanted:
                fail(f"with the groups {groups} {log} tells {found}, and {wanted} was wanted")
    if (ROOT / "open/none").exists() or log_names(ROOT / "shared/log") != [name(1)] or served.of("own").must("status").last != "ok 1 0 0":
        fail("who may only read has made a log, a change is lost, or the server's own user is refused")
    # Rights that change are those of who is there, too.
    one = by_other(served, [])
    one.must("use open/log")
    one.must("status")
    configured(served, config, "read shared/* all\n", lambda: one.ask("status").last == "err rights")
    configured(served, config, f"write open/log user:{OTHER}\n", lambda: one.ask("status").last == "ok 1 0 0")
    if one.ask(changes[0]).last != "ok added N1" and one.ask("status").last != "ok 1 0 1":
        fail("a right that is given isn't had")
    served.end()
    return f"{len(asked)} kinds of access by another user and its groups are as the configuration has it, also where it changes"


def by_c(path, log, text, ahead=1000, patience=60_000):
    """What the client in C puts for these lines, and its status."""
    words = [os.environ["CLIENT"], path, log, str(ahead), str(patience)]
    told = subprocess.run(words, input=text, capture_output=True, text=True, timeout=HANGS)
    if "Sanitizer" in told.stderr or "runtime error" in told.stderr or told.returncode >= 97 and told.returncode < 100:
        fail(f"the client in C fails: {told.stderr[-2000:]}")
    return told.stdout, told.returncode


def liar(place, text):
    """The path of a socket at which somebody answers each connection with these bytes, and ends it; or says nothing, for None."""
    path = str(FOLDER / f"liar{place}")
    door = socket.socket(socket.AF_UNIX)
    door.bind(path)
    door.listen()

    def answer():
        while True:
            one = door.accept()[0]
            one.recv(100)
            if text is not None:
                one.sendall(text)
                one.close()

    threading.Thread(target=answer, daemon=True).start()
    return path


def both(what, store, one):
    """The same call of a store and of a connection, which give the same, or raise the same."""
    told = []
    for of in (store, one):
        try:
            found = what(of)
            told.append(list(found) if hasattr(found, "__iter__") else found)
        except segdag.Error as failed:
            told.append((type(failed).__name__, failed.text, failed.id))
    if told[0] != told[1]:
        fail(f"a store gives {told[0]}, and a connection {told[1]}")
    return told[0]


CALLS = 600


def closed_output():
    """With its standard output closed the client in C sends the daemon nothing but lines."""
    door, came = socket.socket(socket.AF_UNIX), bytearray()
    door.bind(str(FOLDER / "records"))
    door.listen()
    words = [os.environ["CLIENT"], str(FOLDER / "records"), "-", "0", "60000"]
    with subprocess.Popen(words, stdin=subprocess.PIPE, preexec_fn=lambda: os.close(1)) as ran:
        ran.stdin.write(b"status\n" * 3)
        ran.stdin.close()
        with door.accept()[0] as one, suppress(ConnectionError):
            while piece := one.recv(1000):
                came += piece
                one.sendall(b"ok 0 0 0\n" * piece.count(b"\n"))
    if bytes(came) != b"status\n" * 3:
        fail(f"with its standard output closed the client in C sends {bytes(came)}")


def written_to(path, log):
    """In a process that closed its standard output a connection is no such descriptor: what is written there is no line of it."""
    text = "import os, sys\nos.close(1)\nimport segdag\none = segdag.connect(sys.argv[1], log=sys.argv[2])\n"
    text += "try:\n    os.write(1, b'add ' + b'7' * 40 + b'\\n')\nexcept OSError:\n    pass\nsys.exit(one.sizes() != segdag.Sizes(0, 0, 0))\n"
    status = subprocess.run([sys.executable, "-c", text, path, log], env={**os.environ, "PYTHONPATH": str(TOP / "bindings/python")}).returncode
    if status:
        fail("what is written to a closed standard output goes to the daemon")


def used_by_child(path, log):
    """A process that was forked off doesn't speak on the connection of who forked it, whose pending commits and replies stay its own."""
    with segdag.connect(path, log=log, patience=HANGS) as one:
        one.add(b"1" * 20)
        if not (child := os.fork()):
            status = 1
            with suppress(segdag.Forked):
                status = 2
                one.add(b"2" * 20)
                status = 1
            os._exit(status - 2)
        status, pending = os.waitstatus_to_exitcode(os.waitpid(child, 0)[1]), one.sizes().pending
        if (status, pending) != (0, 1):
            fail(f"a process that was forked off ends with {status}, and {pending} commits are pending")


def in_python(served):
    """segdag.connect: its calls beside those of a store, drawn."""
    draw, ids, raised = random.Random(11), [(number + 1).to_bytes(20, "big") for number in range(60)], 0
    with segdag.open(FOLDER / "store", create=True) as store, segdag.connect(served.path, log="python", patience=HANGS) as one:
        for _ in range(CALLS):
            a, b, c = (draw.choice(ids) for _ in range(3))
            expression = draw.choice(("all", "heads(all)", f"only({a.hex()},{b.hex()})", f"parents({c.hex()})", "nonsense("))
            call = draw.choice((
                lambda of: of.add(a, draw_of(a, ids)), lambda of: of.add(a, draw_of(a, ids)), lambda of: of.flush(), lambda of: of.flush(a), lambda of: of.strip(a),
                lambda of: of.reload(), lambda of: of.discard(), lambda of: of.sizes(), lambda of: of.number(a), lambda of: of.count(expression),
                lambda of: of.query(expression), lambda of: of.merge_bases(a, b), lambda of: of.is_ancestor(a, b), lambda of: of.clone(), lambda of: of.pull(),
                lambda of: of.ahead_behind([(a, b), (b, c)]),
            ))  # fmt: skip
            found = both(call, store, one)
            raised += isinstance(found, tuple)
        if one.line("status") != f"ok {' '.join(map(str, store.sizes()))}\n" or one.line("nonsense") != "err syntax\n":
            fail("a line tells another thing")
    for wanted, words in ((segdag.Argument, {"log": "../x"}), (segdag.NotOpened, {"log": "nowhere/log"}), (segdag.Foreign, {"log": "page"}), (segdag.NotOpened, {"path": "nowhere"})):
        raises(wanted, lambda words=words: segdag.connect(str(FOLDER / words.pop("path")) if "path" in words else served.path, **words))
    raises(segdag.Closed, one.sizes)
    for place, (text, number) in enumerate(((b"err ended 17\n", 17), (b"half", None), (b"", None), (None, None), (b"err ended x\n", None), (b"ok\n", None), (b"ok x y\n", None), (b"ok 1 2 3 4\n", None), (b"err ended 23\n", 23))):
        with segdag.connect(liar(f"p{place}", text), patience=0.5) as lone:
            if raises(segdag.Ended, lone.sizes).number != number or not lone.is_closed:
                fail(f"{text} is told otherwise")
    for place, text in enumerate((b"err\n", b"err unknown " + b"z" * 40 + b"\n")):
        with segdag.connect(liar(f"q{place}", text), patience=0.5) as lone:
            raises(segdag.Refusal, lone.sizes)
    with segdag.connect(served.path, log="python", patience=HANGS) as one:
        raises(segdag.Argument, lambda: one.count("x\ud800"))
        raises(segdag.Refusal, lambda: one.count("x\udce9"))
        one.sizes()
    with segdag.connect(served.path, log="caf\udce9", patience=HANGS) as one:
        one.add(b"1" * 20)
    return raised


def draw_of(id, ids):
    """Parents of a commit, always the same."""
    draw = random.Random(id)
    return draw.sample(ids[: max(0, ids.index(id))], min(ids.index(id), draw.randrange(3)))


def raises(wanted, call):
    try:
        call()
    except wanted as raised:
        return raised
    fail(f"{wanted} isn't raised")


def clients():
    """The clients in C and in Python: what they give is what is answered, and a daemon that lies, stops or says nothing is told as such."""
    draw = random.Random(9)
    plain, lines, deep = plain_store.Store(b"", plain_store.LIMITS), Lines(draw), "d" * 110
    lines.names = [name(number) for number in range(1, 60)]
    lines.known = lines.names[:8]
    texts = [lines.command() for _ in range(1000)]
    (ROOT / "page").write_bytes(b"# A page\n")
    (FOLDER / deep).mkdir()
    served = Many()
    for place, ahead in enumerate((0, 5, 1000)):
        wanted = "".join(line + "\n" for text in texts for line in plain.line("0 " + text)) if not place else wanted
        if by_c(f"{FOLDER}/{deep}/../socket", f"c{place}", "".join(text + "\n" for text in texts), ahead) != (wanted, 0):
            fail(f"the client in C gives another thing, {ahead} lines ahead")
    ends = [by_c(served.path, "../c", ""), by_c("nowhere", "c", ""), by_c(served.path, "-", "status\n")]
    ends += [by_c(liar(f"c{place}", text), "-", "status\n", patience=500) for place, text in enumerate((b"err ended 17\n", b"", b"o", b"x\ny\nok", None))]
    if ends != [("", 2), ("", 4), ("err use first\n", 0), ("", 117), ("", 4), ("", 4), ("", 4), ("", 5)]:
        fail(f"daemons that lie are told as {ends}")
    closed_output()
    written_to(served.path, "written")
    used_by_child(served.path, "forked")
    raised = in_python(served)
    served.end()
    return f"{3 * len(texts)} lines by the client in C, and {CALLS} calls by that in Python, of which {raised} are refused, give what is answered"


def memory():
    """Logs by the thousand asked at random, with a bound on what stores take."""
    draw, count = random.Random(8), COUNT
    by_program(FOLDER / "front", "".join(f"0 add {name(number)} {name(number - 1) if number > 1 else ''}".rstrip() + "\n" for number in range(1, 200)) + f"0 flush {name(199)}\n")
    data = (FOLDER / "front").read_bytes()
    for place in range(count):
        (ROOT / f"{place}").write_bytes(data)
    served, took = Many("--memory", "16"), []
    before = served.kilobytes()
    for _ in range(2 * count):
        began = time.monotonic()
        with served.of(f"{draw.randrange(count)}") as one:
            if one.must("status").last != "ok 199 0 0":
                fail("a log has other commits")
        took.append(time.monotonic() - began)
    grown = served.kilobytes() - before
    took.sort()
    if grown > 48_000:
        fail(f"with 16 MB for stores it grew by {grown} kB")
    served.end()
    return f"{count} logs asked at random with 16 MB for stores: {1000 * took[count]:.2f} ms at the median from connecting to the reply, and {grown} kB more"


with suppress(ImportError):
    import segdag

PARTS = [drawn, names, killed, left, waits, crowd, unread, removed, wrong, ends, starved, numbers, memory, mirrors, rights, clients]

if __name__ == "__main__":
    ROOT.mkdir(parents=True)
    atexit.register(lambda: [served.process.kill() for served in Many.all])
    begun = time.monotonic()
    told = next(part for part in PARTS if part.__name__ == PART)()
    print(f"daemon_many: {told} ({time.monotonic() - begun:.1f} s)")
