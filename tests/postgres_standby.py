#!/usr/bin/env python3
"""A log over a primary and its synchronous standby: what is sure on two machines when one of them fails.

    postgres_standby.py SEGDAG-POSTGRES SEGDAG FOLDER [PART]...
"""
import signal
import threading
import time
from pathlib import Path
from typing import List, Tuple

from postgres_faults import acknowledged, check, joined, started
from postgres_lib import Ended, Front, Server, create, main_of, name_of, need, tell

SYNCHRONOUS = "synchronous_standby_names = 'second'\n"


def pair(folder: Path) -> Tuple[Server, Server]:
    """A primary that waits for its standby, and that."""
    first, second = Server(folder, 5432).make(), Server(folder, 5433)
    stand_by(first, second)
    return first, second


def stand_by(first: Server, second: Server) -> None:
    """Makes the second the standby for which the first waits. Once it is the primary it waits for none."""
    second.follow(first, "second", "synchronous_standby_names = ''\n")
    first.setting("synchronous_standby_names", "'second'")
    end = time.monotonic() + 20
    while first.admin("select sync_state from pg_stat_replication") != "sync":
        need(time.monotonic() < end, "the standby isn't synchronous")
        time.sleep(0.05)


class Asked(threading.Thread):
    """A line whose reply is waited for beside others."""

    def __init__(self, front: Front, line: str) -> None:
        super().__init__(daemon=True)
        self.front, self.line, self.reply = front, line, ""
        self.start()

    def run(self) -> None:
        try:
            self.reply = self.front.ask(self.line)
        except Ended as ended:
            self.reply = f"ended {ended.word}\n"

    def waits(self, seconds: float) -> bool:
        """Whether there is no reply for so long."""
        self.join(seconds)
        return self.is_alive()

    def came(self, seconds: float = 30) -> str:
        """The reply, which has to come."""
        need(not self.waits(seconds), f"no reply to '{self.line}'")
        return self.reply


def pending(front: Front, number: int) -> Asked:
    """A flush of a new commit, that was begun."""
    need(front.ask(f"0 add {name_of(number)}").startswith("ok added"), "an add was refused")
    return Asked(front, f"0 flush {name_of(number)}")


def sees(front: Front, number: int) -> bool:
    """Whether it sees a commit, by a session with nothing pending, without taking what came."""
    return front.ask(f"1 id {name_of(number)}").startswith("ok")


def stopped(program: Path, _segdag: Path, folder: Path) -> None:
    """While the standby is stopped nothing is acknowledged, whatever becomes of the COMMIT, and nobody is told what isn't sure."""
    first, second = pair(folder)
    try:
        create(program, first)
        with Front(program, first.words(), "main", "run", "--patience", "60") as writer, \
                Front(program, first.words("reader"), "main", "follow", "--patience", "1") as reader:
            need(pending(writer, 1).came().startswith("ok flushed"), "the first flush wasn't acknowledged")
            need(reader.ask("1 reload") == "ok reloaded 0\n" and sees(reader, 1), "a follower doesn't see what is sure")
            for number, call in ((2, "pg_cancel_backend"), (3, "pg_terminate_backend")):
                second.signal(signal.SIGSTOP)
                flush = pending(writer, number)
                need(flush.waits(0.7), f"a flush was answered without the standby: {flush.reply}")
                need(reader.ask("1 reload") == "ok reloaded 0\n" and not sees(reader, number), "a follower sees what isn't sure")
                first.admin(f"select {call}(pid) from pg_stat_activity where wait_event = 'SyncRep' and usename = 'writer'")
                need(flush.waits(0.7), f"a flush was answered without the standby, behind {call}: {flush.reply}")
                need(reader.ask("1 reload") == "err stale\n", f"a follower reloads what isn't sure behind {call}")
                need(not sees(reader, number) and sees(reader, 1), f"a follower sees what isn't sure behind {call}")
                with Front(program, first.words("reader"), "main", "follow", "--patience", "1") as late:
                    need(Asked(late, "1 status").came() == "ended stale\n", "a follower was opened over what isn't sure")
                second.signal(signal.SIGCONT)
                need(flush.came().startswith("ok flushed"), f"the standby is there again, and the flush was told {flush.reply}")
                need(reader.ask("1 reload") == "ok reloaded 0\n" and sees(reader, number), "a follower doesn't see what is sure by now")
        tell("a standby that is stopped: nothing is acknowledged or shown to others meanwhile, also where COMMIT is cancelled or its backend ended")
    finally:
        second.signal(signal.SIGCONT)
        second.kill()
        first.kill()


def promoted(program: Path, segdag: Path, folder: Path, flushes: int = 60, before: int = 60) -> None:
    """The primary is killed under load, and its standby is promoted; the old one comes back."""
    first, second = pair(folder)
    both = first.words("writer", "", "logs", second)
    try:
        create(program, first)
        reader = Front(program, first.words("reader", "", "logs", second), "main", "follow", "--patience", "2")
        workers = started(4, flushes, program, lambda: both, "--patience", "20")
        end = time.monotonic() + 60
        while len(acknowledged(workers)) < before:
            need(time.monotonic() < end, "the workers don't come on")
            time.sleep(0.02)
        need(reader.ask("1 reload").startswith("ok"), "a follower can't reload")
        first.kill()
        second.promote()
        joined(workers)
        names = acknowledged(workers)
        rows = check(program, segdag, second, folder, names)
        need(reader.ask("1 reload").startswith("ok"), "a follower doesn't go on over the new primary")
        seen = reader.ask("1 status")
        comes_back(program, first, second, reader, seen)
        tell(f"the primary killed behind {before} acknowledged flushes of 4 writers, and its standby promoted: {rows} rows, {len(names)} "
             "acknowledged, none missing; the old primary coming back acknowledges nothing, and is followed no more")
    finally:
        first.kill()
        second.kill()


def comes_back(program: Path, first: Server, second: Server, reader: Front, seen: str) -> None:
    """The old primary runs again, alone: nobody is told anything by it."""
    first.start()
    with Front(program, first.words(), "main", "run", "--patience", "1") as late:
        need(Asked(late, "0 status").came() == "ended stale\n", "a writer was opened over the old primary")
    second.admin("select count(pg_terminate_backend(pid)) from pg_stat_activity where usename = 'reader'")
    need(reader.ask("1 reload") == "err stale\n" and reader.ask("1 status") == seen, "a follower went back to the old primary")
    first.kill()
    need(reader.ask("1 reload").startswith("ok"), "a follower doesn't go on where the old primary is gone")
    reader.close()


def unsure(program: Path, segdag: Path, folder: Path) -> None:
    """A change that only the primary has is not acknowledged, and gone with it: who wrote it is told so, and who saw nothing of it goes on."""
    first, second = pair(folder)
    try:
        create(program, first)
        both = first.words("writer", "", "logs", second)
        writer = Front(program, both, "main", "run", "--patience", "20")
        need(pending(writer, 1).came().startswith("ok flushed"), "the first flush wasn't acknowledged")
        second.signal(signal.SIGSTOP)
        # More than the line to the standby holds, so that it can't have what comes behind.
        first.admin("select count(pg_logical_emit_message(false, 'fill', repeat(md5(i::text), 32768))) from generate_series(1, 12) i;"
                    "set synchronous_commit = local; create table filled ()")
        flush = pending(writer, 2)
        need(flush.waits(0.5), "a flush was answered without the standby")
        first.kill()
        second.signal(signal.SIGCONT)
        second.promote()
        need(flush.came() == "ended gone\n", f"a change that only the lost primary had was told as {flush.reply}")
        with Front(program, both) as again:
            need(sees(again, 1) and not sees(again, 2), "the new primary has another past")
            need(pending(again, 2).came().startswith("ok flushed"), "the change can't be made again")
        check(program, segdag, second, folder, {name_of(1), name_of(2)})
        tell("a change that only the lost primary had is told not to be stored")
    finally:
        second.signal(signal.SIGCONT)
        second.kill()
        first.kill()


def many(program: Path, segdag: Path, folder: Path) -> None:
    """The same with a thousand flushes."""
    promoted(program, segdag, folder, 500, 800)


PARTS = {"stopped": stopped, "unsure": unsure, "promoted": promoted, "many": many}

if __name__ == "__main__":
    main_of(PARTS)
