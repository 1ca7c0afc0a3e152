#!/usr/bin/env python3
"""Bugs that are planted in the shim, each of which the tests have to see; and the shim without them, which has to pass the same.

    postgres_planted.py SEGDAG-POSTGRES SEGDAG FOLDER [PART]...

$PLANTS is a folder with a folder for each bug, which has the program that was built with it.
"""
import os
import signal
from pathlib import Path
from typing import Callable

from postgres_drawn import in_turn
from postgres_faults import acknowledged, check, joined, one_cut, started
from postgres_lib import Failed, Front, Server, create, main_of, name_of, need, tell
from postgres_proxy import Proxy, Triggers
from postgres_standby import pair, pending


def planted(bug: str) -> Path:
    """The program with this bug."""
    return Path(os.environ["PLANTS"]) / bug / "segdag-postgres"


def is_seen(bug: str, what: Callable[[Path], object], sound: Path) -> None:
    """The bug makes this fail, and without it nothing fails."""
    what(sound)
    try:
        what(planted(bug))
    except Failed as failed:
        tell(f"the bug {bug} is seen: {failed}")
        return
    raise Failed(f"the bug {bug} isn't seen")


def lines(program: Path, _segdag: Path, folder: Path) -> None:
    """What one server and a line that is cut show."""
    server = Server(folder).make()
    proxy = Proxy(folder / "proxy", folder / ".s.PGSQL.5432")
    numbers = iter(range(1, 100))
    try:
        create(program, server)

        def told_rightly(mode: str) -> Callable[[Path], object]:
            return lambda it: one_cut(it, server, proxy, name_of(next(numbers)), Triggers(("commit", mode)))

        is_seen("EARLY_OK", told_rightly("before"), program)
        is_seen("NO_LOOK", told_rightly("behind"), program)

        def takes_what_came(it: Path) -> None:
            name = name_of(next(numbers))
            with Front(it, server.words()) as writer, Front(it, server.words()) as other:
                other.ask("0 status")
                for line, told in ((f"0 add {name}", "ok added"), (f"0 flush {name}", "ok flushed")):
                    need(writer.ask(line).startswith(told), f"'{line}' isn't {told}")
                other.ask("0 reload")
                found = other.ask(f"0 id {name}")
                need(found.startswith("ok "), f"behind a reload what another writer stored is told '{found.strip()}'")
            in_turn(it, server, folder, next(numbers), 300)

        is_seen("BEHIND", takes_what_came, program)
    finally:
        proxy.close()
        server.kill()


def locks(program: Path, segdag: Path, folder: Path) -> None:
    """Four writers at once over tables without a key."""
    server = Server(folder).make()
    try:
        server.admin("alter table segdag.change drop constraint change_pkey")

        def one_log(it: Path) -> None:
            server.admin("delete from segdag.log; delete from segdag.change")
            create(program, server)
            workers = started(4, 15, it, server.words, "--patience", "1")
            for worker in workers:
                worker.join(8)
                worker.stop.set()
            joined(workers)
            check(program, segdag, server, folder, acknowledged(workers))

        is_seen("NO_LOCK", one_log, program)
    finally:
        server.kill()


def standbys(program: Path, _segdag: Path, folder: Path) -> None:
    """A primary whose standby is stopped."""
    first, second = pair(folder)
    numbers = iter(range(1, 100))
    try:
        create(program, first)

        def waits(it: Path, is_cancelled: bool) -> None:
            with Front(it, first.words(), "main", "run", "--patience", "20") as front:
                front.ask("0 mirrors")
                second.signal(signal.SIGSTOP)
                try:
                    flush = pending(front, next(numbers))
                    need(flush.waits(0.5), f"without the standby a flush was told {flush.reply.strip()}")
                    if is_cancelled:
                        first.admin("select pg_cancel_backend(pid) from pg_stat_activity where wait_event = 'SyncRep' and usename = 'writer'")
                        need(flush.waits(0.5), f"a flush whose COMMIT warned was told {flush.reply.strip()}")
                finally:
                    second.signal(signal.SIGCONT)
                need(flush.came().startswith("ok flushed"), "the standby is there again, and the flush failed")

        is_seen("ASYNCHRONOUS", lambda it: waits(it, False), program)
        is_seen("WARNING_IGNORED", lambda it: waits(it, True), program)
    finally:
        second.signal(signal.SIGCONT)
        second.kill()
        first.kill()


if __name__ == "__main__":
    main_of({"lines": lines, "locks": locks, "standbys": standbys})
