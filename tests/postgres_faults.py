#!/usr/bin/env python3
"""A log in PostgreSQL, while servers, writers and lines between them fail.

    postgres_faults.py SEGDAG-POSTGRES SEGDAG FOLDER [PART]...

The promise: what was acknowledged is there; what was told not to be stored isn't; all else is there whole or not at all; and the rows are a
lawful log.
"""
import random
import threading
import time
from contextlib import suppress
from pathlib import Path
from typing import Callable, List, Optional, Set

from postgres_lib import Ended, Failed, Front, Server, create, execute, exported, main_of, name_of, need, program_answers, tell
from postgres_proxy import MODES, Drawn, Proxy, Triggers


class Worker(threading.Thread):
    """A writer that stores a chain of commits, one flush each, and goes on behind each fault as the codes say: what is unknown is looked for
    before it is tried again."""

    def __init__(self, number: int, program: Path, words: Callable[[], str], count: int, *more: str) -> None:
        super().__init__(daemon=True)
        self.number, self.program, self.words, self.count, self.more = number, program, words, count, more
        self.front: Optional[Front] = None
        self.acknowledged: List[str] = []
        self.lies: List[str] = []
        self.faults = self.unknown = 0
        self.broken: List[Exception] = []
        self.stop = threading.Event()

    def name(self, place: int) -> str:
        """The name of its commit at this place."""
        return name_of((self.number + 1) << 64 | place)

    def run(self) -> None:
        try:
            place = 0
            while place < self.count and not self.stop.is_set():
                place = self.turn(place)
            if self.front:
                self.front.close()
        except Exception as error:  # pylint: disable=broad-except
            self.broken.append(error)

    def turn(self, place: int) -> int:
        """Tries to store the commit at this place; the next place."""
        name, denied = self.name(place), "nothing was begun"
        try:
            if self.front is None:
                self.front = Front(self.program, self.words(), "main", "run", *self.more)
            if self.is_there(name):
                return place + 1
            parent = [self.name(place - 1)] if place else []
            reply = self.front.ask(" ".join(["0 add", name, *parent]))
            need(reply.startswith("ok "), f"an add behind a reload: {reply}")
            denied = ""
            reply = self.front.ask(f"0 flush {name}")
            if reply.startswith("ok flushed"):
                self.acknowledged.append(name)
                return place + 1
            need(reply in ("err gone\n", "err stale\n", "err locked\n", "err database\n"), f"a flush: {reply}")
            denied = reply
        except Ended as ended:
            self.front = None
            denied = denied or (str(ended) if ended.word not in ("unsure", "") else "")
            self.unknown += not denied
        self.faults += 1
        return self.look(place, name, denied)

    def look(self, place: int, name: str, denied: str) -> int:
        """Looks whether the commit is there, behind a flush that failed: where it was told that it isn't that would be a lie."""
        while not self.stop.is_set():
            try:
                if self.front is None:
                    self.front = Front(self.program, self.words(), "main", "run", *self.more)
                there = self.is_there(name)
                if there and denied:
                    self.lies.append(f"{name} ({denied.strip()})")
                return place + 1 if there else place
            except Ended as ended:
                self.front = None
                need(ended.word in ("", "not-opened", "stale", "gone", "unsure", "database"), f"an open or a reload: {ended}")
                time.sleep(0.05)
        return place

    def is_there(self, name: str) -> bool:
        """Whether the newest version has it, by a session that has nothing pending; the writing one sees it, too."""
        assert self.front
        while not (self.front.ask("0 reload").startswith("ok") and self.front.ask("1 reload").startswith("ok")):
            if self.stop.is_set():
                return False
            time.sleep(0.05)
        return self.front.ask(f"1 id {name}").startswith("ok")


def started(count: int, flushes: int, program: Path, words: Callable[[], str], *more: str) -> List[Worker]:
    """Workers that have begun."""
    workers = [Worker(number, program, words, flushes, *more) for number in range(count)]
    for worker in workers:
        worker.start()
    return workers


def joined(workers: List[Worker], seconds: float = 120) -> None:
    """Waits for workers, each of which has to come to its end."""
    end = time.monotonic() + seconds
    for worker in workers:
        worker.join(max(0.1, end - time.monotonic()))
        if worker.broken:
            raise Failed(f"a worker broke: {worker.broken[0]}")
        need(not worker.is_alive(), "a worker didn't come to its end")
        need(not worker.lies, f"it was told that {worker.lies[:1]} isn't stored, and it is")


def check(program: Path, segdag: Path, server: Server, folder: Path, names: Set[str]) -> int:
    """The log as it is: lawful, by the program, and with all of these names. How many rows it has."""
    path = folder / "checked.log"
    path.write_bytes(exported(program, server, folder))
    wanted = sorted(names)
    status, told = program_answers(segdag, path, [f"0 id {it}" for it in wanted])
    need(status == 0, f"the program refuses the exported log with {status}")
    missing = [name for name, reply in zip(wanted, told.splitlines()) if not reply.startswith("ok")]
    need(not missing and len(told.splitlines()) == len(wanted), f"{len(missing)} acknowledged commits are missing, as {missing[:1]}")
    need(server.admin("select count(*) from segdag.faults('main')") == "0", "the rows have faults")
    return int(server.admin("select count(*) from segdag.change"))


def acknowledged(workers: List[Worker]) -> Set[str]:
    """All that was acknowledged."""
    return {name for worker in workers for name in worker.acknowledged}


# ---- a line that is cut

# What is wanted of a flush, and whether it is there afterwards, where the line is cut so: of what was begun and did nothing another try is made.
WANTED = {"begin": "ok", "lock": "ok", "rows": "ok", "store": "gone", ("store", "behind"): "ok", ("commit", "before"): "gone",
          ("commit", "half"): "gone", ("commit", "behind"): "ok"}


def outcome(front: Front, name: str) -> str:
    """What a flush of a new commit comes to: ok, or the word of its failure."""
    try:
        need(front.ask(f"0 add {name}").startswith("ok added"), "an add was refused")
        reply = front.ask(f"0 flush {name}").split()
        return "ok" if reply[0] == "ok" else reply[1]
    except Ended as ended:
        return ended.word


def one_cut(program: Path, server: Server, proxy: Proxy, name: str, triggers: Triggers) -> str:
    """A flush over a line that is cut so; whether its commit is there has to be as it was told."""
    direct = server.words()
    words = direct.replace(str(server.folder), str(proxy.folder))
    with Front(program, words, "main", "run", "--patience", "3") as front:
        front.ask("0 mirrors")
        proxy.plan = triggers
        told = outcome(front, name)
        # What is answered before its COMMIT may be told before this is on the line.
        end = time.monotonic() + 2
        while triggers.wanted and time.monotonic() < end:
            time.sleep(0.01)
        proxy.plan = Triggers()
    need(not triggers.wanted, f"the line wasn't cut at {triggers.wanted}")
    with Front(program, direct) as front:
        is_there = front.ask(f"0 id {name}").startswith("ok")
    need(told == "unsure" or is_there == (told == "ok"), f"the flush told '{told}', and its commit is {'there' if is_there else 'missing'}")
    return told


def cut(program: Path, _segdag: Path, folder: Path) -> None:
    """Each message of a flush, cut in each way; and then the look for what became of a COMMIT, too."""
    server = Server(folder).make()
    proxy = Proxy(folder / "proxy", folder / ".s.PGSQL.5432")
    try:
        create(program, server)
        number = 0
        for kind in ("begin", "lock", "rows", "store", "commit"):
            for mode in MODES:
                number += 1
                told = one_cut(program, server, proxy, name_of(number), Triggers((kind, mode)))
                wanted = WANTED.get((kind, mode), WANTED.get(kind, told))  # type: ignore[call-overload]
                need(told == wanted and told in ("ok", "gone"), f"a line that was cut {mode} {kind} gave {told}, not {wanted}")
        for mode in MODES:
            for again in (("begin", "before"), ("lock", "behind"), ("look", mode), ("commit", mode)):
                number += 1
                told = one_cut(program, server, proxy, name_of(number), Triggers(("commit", mode), again))
                need(told in ("ok", "gone"), f"a line that was cut {mode} commit and then at {again} gave {told}")
        unsure(program, server, proxy, name_of(number + 1))
        tell(f"{number + 1} flushes whose line was cut before, in and behind each message: each told rightly whether it is stored")
    finally:
        proxy.close()
        server.kill()


def unsure(program: Path, server: Server, proxy: Proxy, name: str) -> None:
    """Behind a COMMIT whose answer is lost the server can't be reached: that is told, and the store is closed."""
    class Shuts(Triggers):
        """Lets nobody through once the line was cut."""

        def __call__(self, kind: str) -> Optional[str]:
            mode = super().__call__(kind)
            proxy.is_shut = proxy.is_shut or mode is not None
            return mode

    told = one_cut(program, server, proxy, name, Shuts(("commit", "behind")))
    proxy.is_shut = False
    need(told == "unsure", f"an end that isn't known was told as '{told}'")


# ---- servers and writers that end

def killed(program: Path, segdag: Path, folder: Path, flushes: int = 40, kills: int = 3) -> None:
    """Four writers over a line that is cut at drawn messages, while the server is killed and started, and writers are."""
    server = Server(folder).make()
    proxy = Proxy(folder / "proxy", folder / ".s.PGSQL.5432")
    proxy.plan = drawn = Drawn(1, 0.05)
    draw = random.Random(2)
    try:
        create(program, server)
        words = server.words().replace(str(folder), str(proxy.folder))
        workers = started(4, flushes, program, lambda: words)
        for _ in range(kills):
            time.sleep(draw.uniform(0.5, 1.5))
            victim = draw.choice(workers).front
            if victim:
                victim.process.kill()
            time.sleep(draw.uniform(0.1, 0.5))
            server.kill()
            server.start()
        joined(workers, 30 + flushes)
        proxy.plan = Triggers()
        names = acknowledged(workers)
        rows = check(program, segdag, server, folder, names)
        need(rows >= len(names) and drawn.cuts > 3, f"{rows} rows and {drawn.cuts} cuts")
        tell(f"4 writers, {rows} flushes, {len(names)} acknowledged, none missing and no lie: the server killed {kills} times, a writer as often, "
             f"the line cut {drawn.cuts} times, {sum(it.faults for it in workers)} faults")
    finally:
        proxy.close()
        server.kill()


def ended(program: Path, segdag: Path, folder: Path, flushes: int = 40, times: int = 40) -> None:
    """Four writers whose backends are cancelled and terminated at drawn moments."""
    server = Server(folder).make()
    draw = random.Random(3)
    try:
        create(program, server)
        workers = started(4, flushes, program, server.words)
        for _ in range(times):
            time.sleep(draw.uniform(0, 0.06))
            call = draw.choice(["pg_cancel_backend", "pg_terminate_backend"])
            server.admin(f"select {call}(pid) from pg_stat_activity where usename = 'writer' order by random() limit 1")
        joined(workers)
        rows = check(program, segdag, server, folder, acknowledged(workers))
        faults = sum(it.faults for it in workers)
        tell(f"4 writers, {rows} flushes, {times} backends cancelled or terminated, {faults} faults: none missing and no lie")
    finally:
        server.kill()


def full(program: Path, segdag: Path, folder: Path) -> None:
    """The server's disk is full, and has room again."""
    place = folder / "small"
    place.mkdir(exist_ok=True)
    try:
        execute(["mount", "-t", "tmpfs", "-o", "size=112m,mode=777", "none", place])
    except (Failed, OSError):
        tell("no small file system can be made here, so a full disk isn't tried")
        return
    server = Server(folder, 5432, place / "data").make("autovacuum = off\n")
    try:
        create(program, server)
        workers = started(2, 400, program, server.words, "--patience", "1")
        time.sleep(0.5)
        with suppress(OSError), open(place / "filler", "wb", buffering=0) as filler:
            while filler.write(bytes(1 << 16)):
                pass
        end = time.monotonic() + 25
        while not sum(it.faults for it in workers) and time.monotonic() < end:
            # The log of the server has room in the segment that it made: it is told to begin the next one.
            execute([server.bin / "psql", "-Xqd", server.words("admin"), "-c", "select pg_switch_wal()"], wants=None)
            time.sleep(0.3)
        faults = sum(it.faults for it in workers)
        (place / "filler").unlink()
        server.kill()
        server.start()
        for worker in workers:
            worker.stop.set()
        joined(workers)
        rows = check(program, segdag, server, folder, acknowledged(workers))
        need(faults > 0, "the disk was full, and nobody was told")
        tell(f"a full disk: {rows} flushes, {faults} told, none missing and no lie")
    finally:
        server.kill()
        execute(["umount", "-l", place], wants=None)


def many(program: Path, segdag: Path, folder: Path) -> None:
    """Thousands of flushes."""
    for number, (part, size) in enumerate(((killed, (600, 40)), (ended, (600, 600)))):
        place = folder / f"many{number}"
        place.mkdir()
        place.chmod(0o777)
        part(program, segdag, place, *size)  # type: ignore[operator]


if __name__ == "__main__":
    main_of({"cut": cut, "killed": killed, "ended": ended, "full": full, "many": many})
