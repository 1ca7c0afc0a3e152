#!/usr/bin/env python3
"""Times tools/segdagd: lines a second of 1, 4 and 16 clients beside the program's own pipe, and how long a merge base takes.

Usage: bench/daemon.py [COMMITS [LINES]], behind `make proved`; SEGDAG may say where the program is. Each client is a
process that sends as far ahead as its socket takes, and the same process measures the pipe. What a kind of line is
answered through the pipe, and through the daemon by each number of clients, stands in one row; each is the better of two. The merge base is
asked through the pipe too, in turn with the daemon, and an echo in Python tells what a line through a socket costs alone. Two minutes with 50,000 lines.
"""
import os
import random
import select
import shutil
import socket
import subprocess
import sys
import tempfile
import time
from contextlib import suppress
from pathlib import Path

from history import lines, name

TOP = Path(__file__).resolve().parent.parent
PROGRAM = os.environ.get("SEGDAG") or str(TOP / "crates/segdag/out/segdag")
SEGDAGD = TOP / "tools/segdagd"
SHARE, LATENCY = 0.5, 0.2  # the aims: of the pipe's lines a second, and milliseconds
TURNS = 2  # of which each number of lines is the best


def carry(to, back, text, count):
    """Sends the text while it reads replies, until there are so many. Each has one letter k, in its `ok`, and no name has any."""
    waiting, at = select.poll(), 0
    both = select.POLLIN | select.POLLOUT
    waiting.register(back, both if to == back else select.POLLIN)
    if to != back:
        waiting.register(to, select.POLLOUT)
    for place in {to, back}:
        os.set_blocking(place, False)
    while count > 0:
        for place, event in waiting.poll():
            if event & select.POLLOUT:
                at += os.write(to, text[at : at + 65536])
                if at == len(text):
                    waiting.modify(to, select.POLLIN) if to == back else waiting.unregister(to)
            if event & ~select.POLLOUT:
                piece = os.read(back, 65536)
                if not piece:
                    sys.exit("daemon: it ended before it replied")
                count -= piece.count(b"k")


def client(path, given):
    """A process that says when it has a session, waits to be told to go on, sends what the file has, and says when it is done."""
    text = memoryview(Path(given).read_bytes())
    count = bytes(text).count(b"\n")
    with socket.socket(socket.AF_UNIX, socket.SOCK_STREAM) as sock:
        sock.connect(path)
        sock.sendall(b"status\n")
        sock.recv(100)
        print("ready", flush=True)
        sys.stdin.readline()
        carry(sock.fileno(), sock.fileno(), text, count)
        print("done", flush=True)


def by_pipe(log, text):
    """How many lines a second the program answers through its pipe."""
    with subprocess.Popen([PROGRAM, log, "--", "run"], stdin=subprocess.PIPE, stdout=subprocess.PIPE, bufsize=0) as ran:
        ran.stdin.write(b"0 status\n")
        ran.stdout.read(100)
        prefixed = b"".join(b"0 " + line for line in text.splitlines(True))
        begun = time.perf_counter()
        carry(ran.stdin.fileno(), ran.stdout.fileno(), memoryview(prefixed), text.count(b"\n"))
        taken = time.perf_counter() - begun
        ran.stdin.close()
    return text.count(b"\n") / taken


def by_clients(path, files):
    """How many lines a second the daemon answers, to a client for each file at once."""
    words = [sys.executable, os.path.abspath(__file__), "client", path]
    ran = [subprocess.Popen([*words, file], stdin=subprocess.PIPE, stdout=subprocess.PIPE, bufsize=0) for file in files]
    for process in ran:
        process.stdout.readline()
    begun = time.perf_counter()
    for process in ran:
        process.stdin.write(b"\n")
    for process in ran:
        process.stdout.readline()
    taken = time.perf_counter() - begun
    for process in ran:
        process.communicate()
    return sum(Path(file).read_bytes().count(b"\n") for file in files) / taken


def kinds(draw, commits, count):
    """Lines of each kind, those of one client for each number."""
    some = lambda: draw.randrange(commits)
    near = lambda: (lambda i: (i, max(0, i - draw.randrange(1, 200))))(some())
    pair = lambda i, j: f"gca(union({name(i)},{name(j)}))"
    yield "status", lambda _: ["status"] * count
    yield "id of a name", lambda _: [f"id {name(some())}" for _ in range(count)]
    yield "add, a flush each thousand", lambda k: added(commits + 1_000_000 * (1 + k), min(count, 30_000))
    yield "near merge base, counted", lambda _: [f"count {pair(*near())}" for _ in range(count)]
    yield "near merge base by name", lambda _: [f"query {pair(*near())}" for _ in range(count // 4)]


def added(first, count):
    """A chain of so many commits that nobody else has."""
    for i in range(first, first + count):
        yield f"add {name(i)}" + (f" {name(i - 1)}" if i > first else "")
        if i % 1000 == 999:
            yield f"flush {name(i)}"


def whole(reply):
    return reply.startswith(b"ok ") or b"\nok " in reply


def through(to, back, line):
    """The reply to a line that is written to one descriptor, read from another."""
    os.write(to, line)
    reply = os.read(back, 1 << 16)
    while not whole(reply):
        reply += os.read(back, 1 << 16)
    return reply


def asked(to, back, draw, commits, prefix=b""):
    """Milliseconds of near merge bases, each from its line to its reply, the least first."""
    taken = []
    for _ in range(2000):
        i = draw.randrange(commits)
        line = prefix + f"query gca(union({name(i)},{name(max(0, i - draw.randrange(1, 200)))}))\n".encode()
        begun = time.perf_counter()
        through(to, back, line)
        taken.append(1000 * (time.perf_counter() - begun))
    return sorted(taken)


def asked_at(path, draw, commits):
    """The same through a socket at this path."""
    with socket.socket(socket.AF_UNIX, socket.SOCK_STREAM) as sock:
        sock.connect(path)
        through(sock.fileno(), sock.fileno(), b"status\n")
        return asked(sock.fileno(), sock.fileno(), draw, commits)


def asked_by_pipe(log, draw, commits):
    """The same through the program's own pipe."""
    with subprocess.Popen([PROGRAM, log, "--", "run"], stdin=subprocess.PIPE, stdout=subprocess.PIPE, bufsize=0) as ran:
        to, back = ran.stdin.fileno(), ran.stdout.fileno()
        through(to, back, b"0 status\n")
        taken = asked(to, back, draw, commits, b"0 ")
        ran.stdin.close()
    return taken


def echo(path):
    """A process at this path that answers each line of one client by a reply as long as a merge base's."""
    with socket.socket(socket.AF_UNIX, socket.SOCK_STREAM) as door:
        door.bind(path)
        door.listen(1)
        print("ready", flush=True)
        with door.accept()[0] as sock:
            while sock.recv(1 << 16):
                sock.send(b"0" * 40 + b"\nok 1\n")


def asked_of_echo(path, draw, commits):
    words = [sys.executable, os.path.abspath(__file__), "echo", path]
    with subprocess.Popen(words, stdout=subprocess.PIPE, bufsize=0) as ran:
        ran.stdout.readline()
        taken = asked_at(path, draw, commits)
    os.unlink(path)
    return taken


def asked_beside(path, draw, commits, others):
    """The same of the daemon, beside so many busy clients."""
    with tempfile.NamedTemporaryFile(dir=os.path.dirname(path)) as given:
        given.write(b"".join(b"id %s\n" % name(draw.randrange(commits)).encode() for _ in range(300_000 if others else 1)))
        given.flush()
        words = [sys.executable, os.path.abspath(__file__), "client", path, given.name]
        ran = [subprocess.Popen(words, stdin=subprocess.PIPE, stdout=subprocess.PIPE, bufsize=0) for _ in range(others)]
        for process in ran:
            process.stdout.readline()
            process.stdin.write(b"\n")
        taken = asked_at(path, draw, commits)
        for process in ran:
            process.kill()
            process.communicate()
    return taken


def told(what, taken):
    print(f"| {what} | {taken[len(taken) // 2]:.3f} | {taken[len(taken) * 99 // 100]:.3f} |", flush=True)


def latencies(log, path, draw, commits):
    """A merge base through the program's pipe, an echo and the daemon in turn, and through the daemon beside others."""
    print(f"\nA near merge base, from its line to its reply (aim: {LATENCY} ms at the median, alone).\n")
    print("| Through | median, ms | 99th of a hundred, ms |\n|---|---|---|", flush=True)
    for _ in range(TURNS):
        told("the program's pipe", asked_by_pipe(log, draw, commits))
        told("an echo in Python, which answers nothing", asked_of_echo(path + ".echo", draw, commits))
        daemon = begin(log, path)
        told("the daemon", asked_beside(path, draw, commits, 0))
        daemon.terminate()
        daemon.wait()
    daemon = begin(log, path)
    for others in (3, 15):
        told(f"the daemon, beside {others} busy clients", asked_beside(path, draw, commits, others))
    daemon.terminate()
    daemon.wait()


def begin(log, path):
    """A daemon, which listens."""
    daemon = subprocess.Popen([sys.executable, SEGDAGD, log, "--socket", path], env=dict(os.environ, SEGDAG=PROGRAM))
    while True:
        with suppress(OSError), socket.socket(socket.AF_UNIX, socket.SOCK_STREAM) as sock:
            sock.connect(path)
            return daemon
        time.sleep(0.01)


def throughput(log, path, folder, make):
    """Lines a second by the pipe, and by 1, 4 and 16 clients, each over a copy of the log."""
    files, copy = [os.path.join(folder, f"lines{k}") for k in range(16)], log + ".copy"
    for k, file in enumerate(files):
        Path(file).write_text("".join(line + "\n" for line in make(k)))
    rows = []
    for _ in range(TURNS):
        shutil.copyfile(log, copy)
        row = [by_pipe(copy, Path(files[0]).read_bytes())]
        for clients in (1, 4, 16):
            shutil.copyfile(log, copy)
            daemon = begin(copy, path)
            row.append(by_clients(path, files[:clients]))
            daemon.terminate()
            daemon.wait()
        rows.append(row)
    return [max(column) for column in zip(*rows)]


def main():
    commits = int(sys.argv[1]) if len(sys.argv) > 1 else 1_000_000
    count = int(sys.argv[2]) if len(sys.argv) > 2 else 200_000
    draw = random.Random(1)
    with tempfile.TemporaryDirectory() as folder:
        log, path = os.path.join(folder, "log"), os.path.join(folder, "socket")
        text = "".join(line + "\n" for line in lines(commits, 1000)).encode()
        subprocess.run([PROGRAM, log, "--", "run"], input=text, stdout=subprocess.DEVNULL, check=True)
        print(f"Lines a second over {commits:,} commits, and the share of the pipe's (aim: {SHARE:.0%}; load {os.getloadavg()[0]:.1f}).\n")
        print("| Line | the program's pipe | 1 client | 4 clients | 16 clients |\n|---|---|---|---|---|", flush=True)
        for kind, make in kinds(draw, commits, count):
            pipe, *shared = throughput(log, path, folder, make)
            print(f"| {kind} | {pipe:,.0f} | " + " | ".join(f"{number:,.0f}, {number / pipe:.0%}" for number in shared) + " |", flush=True)
        latencies(log, path, draw, commits)


if __name__ == "__main__":
    {"client": client, "echo": echo}[sys.argv[1]](*sys.argv[2:]) if sys.argv[1:2] in (["client"], ["echo"]) else main()
