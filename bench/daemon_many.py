#!/usr/bin/env python3
"""Times `segdagd --root`, by clients in C: lines a second of 1, 4 and 16 clients beside the program's own pipe; a near merge base alone and beside
others; many connections of which a hundredth ask; and many logs, asked at random, with memory bounded.

Usage: bench/daemon_many.py [COMMITS [LINES [CONNECTIONS [LOGS]]]], behind `make proved lib` and `sh tools/segdagd_build.sh out`; SEGDAG and SERVER may
say where the program and segdagd-many are. 1,000,000 commits, 200,000 lines, 10,000 connections and 100,000 logs are what it is for: ten
minutes, a million descriptors (`ulimit -n`) and six gigabytes of disk in $TMPDIR. Each number of lines is the better of two.
"""
import os
import random
import resource
import shutil
import socket
import subprocess
import sys
import tempfile
import time
from contextlib import suppress
from pathlib import Path

from daemon import PROGRAM, TOP, TURNS, by_pipe, kinds
from history import lines, name

SERVER = os.environ.get("SERVER") or str(TOP / "out/segdagd-many")
AHEAD = 1000  # lines that a client sends ahead
EACH = 99  # commits of each of many logs
MEMORY = 1024  # megabytes for their stores


class Served:
    """The server over a folder."""

    def __init__(self, folder, *options):
        self.path = os.path.join(folder, "socket")
        self.process = subprocess.Popen([SERVER, "--root", os.path.join(folder, "root"), "--socket", self.path, *options])
        while True:
            with suppress(OSError), socket.socket(socket.AF_UNIX) as sock:
                sock.connect(self.path)
                return
            time.sleep(0.01)

    def __enter__(self):
        return self

    def __exit__(self, *raised):
        self.process.terminate()
        self.process.wait()

    def megabytes(self):
        text = Path(f"/proc/{self.process.pid}/status").read_text()
        return next(int(line.split()[1]) for line in text.splitlines() if line.startswith("VmRSS")) >> 10


class Client:
    """A client in C, which has a session and waits to be told to go on."""

    def __init__(self, folder, served, log, file, ahead=AHEAD):
        words = [os.path.join(folder, "client"), served.path, log, file, str(ahead)]
        self.process = subprocess.Popen(words, stdin=subprocess.PIPE, stdout=subprocess.PIPE, bufsize=0)
        if self.process.stdout.readline() != b"ready\n":
            sys.exit("daemon_many: a client has no session")

    def go_on(self):
        self.process.stdin.write(b"\n")

    def took(self):
        """Microseconds of all its lines, and at the median and the 99th of a hundred of each."""
        return [float(word) for word in self.process.stdout.readline().split()]

    def end(self):
        self.process.kill()
        self.process.communicate()


def write(path, some):
    Path(path).write_text("".join(f"{line}\n" for line in some))
    return str(path)


def throughput(folder, log, files):
    """Lines a second by the pipe, and by 1, 4 and 16 clients, each over a copy of the log."""
    copy, rows = os.path.join(folder, "root/copy"), []
    for _ in range(TURNS):
        shutil.copyfile(log, copy)
        row = [by_pipe(copy, Path(files[0]).read_bytes())]
        for clients in (1, 4, 16):
            shutil.copyfile(log, copy)
            with Served(folder) as served:
                ran = [Client(folder, served, "copy", file) for file in files[:clients]]
                begun = time.perf_counter()
                for one in ran:
                    one.go_on()
                for one in ran:
                    one.took()
                taken = time.perf_counter() - begun
                for one in ran:
                    one.end()
            row.append(sum(Path(file).read_bytes().count(b"\n") for file in files[:clients]) / taken)
        rows.append(row)
    return [max(column) for column in zip(*rows)]


def alone(folder, commits, draw):
    """A near merge base by name, from its line to its reply, alone and beside busy clients."""
    pairs = lambda count: (f"query gca(union({name(i)},{name(max(0, i - draw.randrange(1, 200)))}))" for i in (draw.randrange(commits) for _ in range(count)))
    few, many = write(os.path.join(folder, "few"), pairs(3000)), write(os.path.join(folder, "many"), pairs(1_000_000))
    with Served(folder) as served:
        for others in (0, 3, 15):
            busy = [Client(folder, served, "log", many) for _ in range(others)]
            one = Client(folder, served, "log", few, 0)
            for client in (*busy, one):
                client.go_on()
            _, median, late = one.took()
            print(f"| a near merge base, beside {others} busy clients | {median:.0f} | {late:.0f} |", flush=True)
            for client in (*busy, one):
                client.end()


def through(sock, line):
    """The reply to a line, which is short."""
    sock.sendall(line)
    reply = b""
    while not reply.endswith(b"\n"):
        piece = sock.recv(1 << 16)
        if not piece:
            sys.exit("daemon_many: a connection ended")
        reply += piece
    return reply


def told(what, taken):
    taken.sort()
    print(f"| {what} | {1e6 * taken[len(taken) // 2]:.0f} | {1e6 * taken[len(taken) * 99 // 100]:.0f} |", flush=True)


def connections(folder, commits, count, draw):
    """So many connections to one log, of which a hundredth ask in turn."""
    with Served(folder, "--clients", str(count + 16)) as served:
        before, many, taken = served.megabytes(), [], []
        for _ in range(count):
            many.append(socket.socket(socket.AF_UNIX))
            many[-1].connect(served.path)
            through(many[-1], b"use log\n")
        asking = many[:: max(1, count // 100)]
        for step in range(50 * len(asking)):
            begun = time.perf_counter()
            through(asking[step % len(asking)], b"id %s\n" % name(draw.randrange(commits)).encode())
            taken.append(time.perf_counter() - begun)
        told(f"`id` of a name, {count:,} connections of which {len(asking)} ask, {served.megabytes() - before} MB", taken)
        for sock in many:
            sock.close()


def many_logs(folder, count, draw):
    """So many logs, each asked at random by a new connection, with a bound on what stores take."""
    text = "".join(f"{line}\n" for line in lines(EACH, EACH)).encode()
    one, root = os.path.join(folder, "one"), os.path.join(folder, "root")
    subprocess.run([PROGRAM, one, "--", "run"], input=text, stdout=subprocess.DEVNULL, check=True)
    data = Path(one).read_bytes()
    for place in range(count):
        os.makedirs(os.path.join(root, f"{place % 1000:03}"), exist_ok=True)
        with open(os.path.join(root, f"{place % 1000:03}/{place}"), "wb") as file:
            file.write(data)
    with Served(folder, "--memory", str(MEMORY)) as served:
        taken = []
        for _ in range(min(count, 50_000)):
            place = draw.randrange(count)
            begun = time.perf_counter()
            with socket.socket(socket.AF_UNIX) as sock:
                sock.connect(served.path)
                through(sock, b"use %03d/%d\n" % (place % 1000, place))
                through(sock, b"status\n")
            taken.append(time.perf_counter() - begun)
        told(f"`status` from connecting on, of {count:,} logs at random, {served.megabytes()} MB in all", taken)


def main():
    commits, count, links, logs = (int(word) for word in (sys.argv[1:] + ["1000000", "200000", "10000", "100000"][len(sys.argv) - 1 :]))
    most = resource.getrlimit(resource.RLIMIT_NOFILE)[1]
    resource.setrlimit(resource.RLIMIT_NOFILE, (most, most))
    draw = random.Random(1)
    with tempfile.TemporaryDirectory() as folder:
        sources = [TOP / "bench/daemon.c", TOP / "bindings/client/segdag_client.c"]
        subprocess.run([os.environ.get("CC", "cc"), "-std=c11", "-O2", *sources, "-o", os.path.join(folder, "client")], check=True)
        os.mkdir(os.path.join(folder, "root"))
        log = os.path.join(folder, "root/log")
        text = "".join(line + "\n" for line in lines(commits, 1000)).encode()
        subprocess.run([PROGRAM, log, "--", "run"], input=text, stdout=subprocess.DEVNULL, check=True)
        print(f"Lines a second over {commits:,} commits, and the share of the pipe's (load {os.getloadavg()[0]:.1f}).\n")
        print("| Line | the program's pipe | 1 client | 4 clients | 16 clients |\n|---|---|---|---|---|", flush=True)
        for kind, make in kinds(draw, commits, count):
            files = [write(os.path.join(folder, f"lines{k}"), make(k)) for k in range(16)]
            pipe, *shared = throughput(folder, log, files)
            print(f"| {kind} | {pipe:,.0f} | " + " | ".join(f"{number:,.0f}, {number / pipe:.0%}" for number in shared) + " |", flush=True)
        print("\nMicroseconds from line to reply.\n\n| What | median | 99th of a hundred |\n|---|---|---|", flush=True)
        alone(folder, commits, draw)
        connections(folder, commits, links, draw)
        many_logs(folder, logs, draw)


if __name__ == "__main__":
    main()
