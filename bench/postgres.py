#!/usr/bin/env python3
"""A log in PostgreSQL beside one in a file, in one run: flushes, reloads and a load.

    PYTHONPATH=tests python3 bench/postgres.py SEGDAG-POSTGRES SEGDAG FOLDER

All servers and the file are on one disk of one machine, the standby, too; lines go through a pipe in each case. Beside a flush stands what the
engine alone takes for an insert of as many bytes and its COMMIT, by libpq. Medians, in milliseconds, with the least and the greatest of the
middle nine tenths.
"""
import ctypes
import statistics
import subprocess
import sys
import threading
import time
from pathlib import Path
from typing import Callable, Dict, List, Sequence

from postgres_lib import Front, Server, create, execute, name_of, need
from postgres_standby import pair

TIMES = 200


def told(what: str, times: Sequence[float]) -> float:
    """A line of the table; the median."""
    ordered = sorted(1000 * it for it in times)
    cut = len(ordered) // 20
    print(f"| {what} | {statistics.median(ordered):.2f} | {ordered[cut]:.2f} to {ordered[-1 - cut]:.2f} |", flush=True)
    return statistics.median(ordered)


class Alone(Front):
    """The program over a file, which is asked as the other is."""

    def __init__(self, segdag: str, log: Path) -> None:  # pylint: disable=super-init-not-called
        pipe = subprocess.PIPE
        self.process = subprocess.Popen([segdag, str(log), "--", "run"], stdin=pipe, stdout=pipe, stderr=pipe, bufsize=0)


class Chain:
    """A store that is given rows and flushes, one behind another."""

    def __init__(self, what: str, front: Front) -> None:
        self.what, self.front, self.number = what, front, 0
        self.took: List[float] = []

    def flush(self, rows: int) -> None:
        """Adds so many rows, and takes the time of the flush alone."""
        for _ in range(rows):
            parent = f" {name_of(self.number)}" if self.number else ""
            self.number += 1
            need(self.front.ask(f"0 add {name_of(self.number)}{parent}").startswith("ok"), "an add")
        began = time.perf_counter()
        need(self.front.ask(f"0 flush {name_of(self.number)}").startswith("ok flushed"), "a flush")
        self.took.append(time.perf_counter() - began)


class Engine:
    """libpq alone: rows of so many bytes, each a transaction."""

    def __init__(self, server: Server) -> None:
        self.pq = ctypes.CDLL("libpq.so.5")
        for name in ("PQconnectdb", "PQexec", "PQexecParams"):
            getattr(self.pq, name).restype = ctypes.c_void_p
        server.admin("create table if not exists alone (at bigserial primary key, bytes bytea); grant all on alone, alone_at_seq to writer")
        self.link = ctypes.c_void_p(self.pq.PQconnectdb(server.words().encode()))

    def run(self, text: bytes) -> None:
        """A statement of no parameters."""
        self.pq.PQclear(ctypes.c_void_p(self.pq.PQexec(self.link, text)))

    def put(self, size: int) -> float:
        """How long an insert and its COMMIT take."""
        data = bytes(range(256)) * (size // 256 + 1)
        values, sizes, formats = (ctypes.c_char_p * 1)(data), (ctypes.c_int * 1)(size), (ctypes.c_int * 1)(1)
        began = time.perf_counter()
        self.run(b"begin")
        result = ctypes.c_void_p(self.pq.PQexecParams(self.link, b"insert into alone (bytes) values ($1)", 1, None, values, sizes, formats, 1))
        need(self.pq.PQresultStatus(result) == 1, "an insert of the engine")
        self.pq.PQclear(result)
        self.run(b"commit")
        return time.perf_counter() - began


def together(program: str, server: Server, log: str, writers: int, seconds: float) -> float:
    """Flushes a second of so many writers at once, each of one commit."""
    create(program, server, log)
    stop, counts = time.monotonic() + seconds + 1, [0] * writers
    fronts = [Front(program, server.words(), log) for _ in range(writers)]
    for front in fronts:
        front.ask("0 mirrors")
    began = time.monotonic()
    stop = began + seconds

    def write(which: int) -> None:
        while time.monotonic() < stop:
            name = name_of((which + 1) << 64 | counts[which])
            need(fronts[which].ask(f"0 add {name}").startswith("ok"), "an add")
            need(fronts[which].ask(f"0 flush {name}").startswith("ok flushed"), "a flush")
            counts[which] += 1

    threads = [threading.Thread(target=write, args=(which,)) for which in range(writers)]
    for thread in threads:
        thread.start()
    for thread in threads:
        thread.join()
    for front in fronts:
        front.close()
    return sum(counts) / (time.monotonic() - began)


def reloads(writer: Front, reader: Front, base: int) -> List[float]:
    """How long a reload behind one flush takes."""
    took = []
    for turn in range(TIMES):
        need(writer.ask(f"0 add {name_of(base + turn)}").startswith("ok") and writer.ask("0 flush").startswith("ok"), "a flush")
        began = time.perf_counter()
        need(reader.ask("0 reload") == "ok reloaded 0\n", "a reload")
        took.append(time.perf_counter() - began)
        writer.ask(f"0 strip {name_of(base + turn)}")
        reader.ask("0 reload")
    return took


def load(start: Callable[[], Front], wanted: str) -> float:
    """How long it takes from the start until a line is answered."""
    began = time.perf_counter()
    with start() as front:
        need(front.ask("0 status") == wanted, "a load")
        took = time.perf_counter() - began
        front.close()
    return took


def large(segdag: str, path: Path, count: int) -> None:
    """A log of so many commits."""
    with subprocess.Popen([segdag, str(path), "--", "run"], stdin=subprocess.PIPE, stdout=subprocess.DEVNULL, text=True) as running:
        assert running.stdin
        for number in range(1, count + 1):
            parents = {number - 1, number // 2 if number % 10 == 0 else number - 1} - {0}
            running.stdin.write(f"0 add {name_of(number)}" + "".join(f" {name_of(it)}" for it in sorted(parents)) + "\n")
            if number % 50000 == 0 or number == count:
                running.stdin.write(f"0 flush {name_of(number)}\n")


def compare(program: str, segdag: str, servers: Dict[str, Server], folder: Path) -> None:
    """Flushes of a commit and of a thousand over a file and over each server, and the engine alone, in turn."""
    for rows, times in ((1, TIMES), (1000, 40)):
        chains, engines = [Chain("a file", Alone(segdag, folder / f"file{rows}.log"))], []
        for what, server in servers.items():
            create(program, server, f"log{rows}")
            chains.append(Chain(what, Front(program, server.words(), f"log{rows}")))
            engines.append((what, Engine(server), []))
        for turn in range(times):
            for chain in chains:
                chain.flush(rows)
            size = 99 if rows == 1 else 28073
            for _, engine, took in engines:
                took.append(engine.put(size))
        medians = {chain.what: told(f"flush of {rows}, {chain.what}", chain.took) for chain in chains}
        for what, _, took in engines:
            alone = told(f"insert of {size} bytes and COMMIT, {what}", took)
            print(f"| flush of {rows} over that, {what} | {medians[what] / alone:.2f} | |", flush=True)
        for chain in chains:
            chain.front.close()


def loads(program: str, segdag: str, server: Server, folder: Path) -> None:
    """An import and loads of a million commits."""
    count = 1000000
    large(segdag, folder / "large.log", count)
    create(program, server, "large")
    began = time.perf_counter()
    execute([program, server.words(), "large", "--", "import", folder / "large.log"])
    print(f"| import of {(folder / 'large.log').stat().st_size} bytes | {1000 * (time.perf_counter() - began):.0f} | |", flush=True)
    wanted = f"ok {count} 0 0\n"
    here, there = [], []
    for _ in range(7):
        here.append(load(lambda: Alone(segdag, folder / "large.log"), wanted))
        there.append(load(lambda: Front(program, server.words("reader"), "large", "follow"), wanted))
    ratio = told("start and load of a million commits, PostgreSQL", there) / told("start and load of a million commits, a file", here)
    print(f"| ratio | {ratio:.2f} | |", flush=True)


def main() -> None:
    """All of it."""
    program, segdag, folder = sys.argv[1], sys.argv[2], Path(sys.argv[3])
    folder.chmod(0o777)
    place = folder / "pair"
    place.mkdir()
    place.chmod(0o777)
    server = Server(folder, 5440).make("autovacuum = on\nshared_buffers = 128MB\nmax_wal_size = 1GB\n")
    first, second = pair(place)
    servers = {"PostgreSQL": server, "a primary and its standby": first}
    try:
        compare(program, segdag, servers, folder)
        for what, it in servers.items():
            for writers in (1, 4, 16):
                print(f"| flushes a second of {writers} writers, {what} | {together(program, it, f'w{writers}', writers, 5):.0f} | |", flush=True)
        create(program, server, "reload")
        with Front(program, server.words(), "reload") as writer, Front(program, server.words("reader"), "reload", "follow") as reader:
            need(writer.ask(f"0 add {'f' * 40}").startswith("ok") and writer.ask(f"0 flush {'f' * 40}").startswith("ok"), "the first")
            told("reload behind one flush, PostgreSQL", reloads(writer, reader, 1 << 80))
        loads(program, segdag, server, folder)
    finally:
        for it in (server, second, first):
            it.kill()


main()
