"""The words of segdagd, and what is done before it serves: the log is held, the program has loaded it, and the socket is there."""
from __future__ import annotations

import argparse
import grp
import math
import os
import resource
import sys
from contextlib import suppress

from .. import found
from ..files import check_log, fill_low
from ..refused import Refused
from .doors import check_free, given_door, hold_log, own_door
from .runs import Run, ending, say
from .server import Daemon

LIMIT = 1 << 30  # bytes that one run of the program reads
LEAST_RUN = 1 << 16  # the least such limit: the longest line has room, and in a sixteenth of it what the daemon itself sends at the end
MOST_CLIENTS = 1024  # connections at a time: who is behind them waits at the door
OWN = 24  # descriptors that the daemon has for itself


class Options(argparse.Namespace):
    """What the words say. `file` is where the log is, and None where that is in a database; `words` are those of the program."""

    log: str
    remotes: list[str]
    postgres: str | None
    socket: str | None
    group: int | None
    idle: float | None
    slow: float
    idle_client: float
    spill: int
    spill_all: int
    force: bool
    cache: int | None
    run_bytes: int
    order: str | None
    file: str | None
    most: int
    words: list[str]


def group_of(name: str) -> int:
    """The number of a group, or a refusal."""
    try:
        return int(name) if name.isdigit() else grp.getgrnam(name).gr_gid
    except KeyError:
        raise argparse.ArgumentTypeError(f"there is no group {name}") from None


def seconds(text: str) -> float:
    """A number of seconds, or a refusal."""
    value = float(text)
    if not 0 <= value < math.inf:
        raise argparse.ArgumentTypeError(f"{text} isn't a time: a number of seconds, 0 or more, was expected")
    return value


def whole_number(text: str) -> int:
    """A whole number from 1 on, or a refusal."""
    if not text.isascii() or not text.isdigit() or not 0 < int(text) < 1 << 40:
        raise argparse.ArgumentTypeError(f"{text} isn't a whole number of at least 1")
    return int(text)


def options_of(words: list[str]) -> Options:
    """What these words say; the process ends where they are no usage."""
    parser = argparse.ArgumentParser(
        prog="segdagd",
        description="Serves a log of segdag to the clients of a Unix socket.",
        epilog="With --root FOLDER in place of LOG it serves the logs below a folder; `segdagd --root . --help` tells its options.",
    )
    option = parser.add_argument
    option("--version", action="version", version=f"segdagd {found.version()}")
    option("log", metavar="LOG", help="the log, which is made where there is none")
    option("remotes", metavar="REMOTE", nargs="*", help="a mirror: the path of a log, or bundle:PATH")
    option("--postgres", metavar="CONNINFO", help="LOG is the name of a log in this database, given as to psql; segdag-postgres is the program")
    option("--socket", metavar="PATH", help="where to listen; not needed if systemd passes a socket")
    option("--group", metavar="NAME", type=group_of, help="members of this group, a name or a number, may connect too (mode 0660 instead of 0600)")
    option("--idle", metavar="SECONDS", type=seconds, help="end when nobody was connected for so long")
    option("--slow", metavar="SECONDS", type=seconds, default=30, help="disconnect a client that reads no reply for this time (30)")
    option("--idle-client", metavar="SECONDS", type=seconds, default=5, help="give the session of a client that was idle for this time to one that waits (5)")
    option("--spill", metavar="MB", type=whole_number, default=256, help="megabytes of replies that a file keeps for one client (256)")
    option("--spill-all", metavar="MB", type=whole_number, default=1024, help="the same for all clients together (1024)")
    option("--force", action="store_true", help="take a file that is no log for an empty one, and write over it")
    option("--cache", metavar="N", type=whole_number, help="how many names of mirrors the program keeps")
    option("--run-bytes", metavar="N", type=int, default=LIMIT, help="for tests: bytes that one run reads at most, 65536 or more")
    option("--order", metavar="FILE", help="for tests: write lines there as they are sent on")
    options = parser.parse_args(words, Options())
    options.file = options.log if options.postgres is None else None
    options.spill, options.spill_all = options.spill << 20, options.spill_all << 20
    options.run_bytes = min(max(options.run_bytes, LEAST_RUN), LIMIT)
    return options


def room() -> int:
    """How many connections there may be at a time."""
    soft, hard = resource.getrlimit(resource.RLIMIT_NOFILE)
    wanted = 2 * MOST_CLIENTS + 64
    if soft != resource.RLIM_INFINITY and soft < wanted:
        with suppress(ValueError, OSError):
            resource.setrlimit(resource.RLIMIT_NOFILE, (wanted if hard == resource.RLIM_INFINITY else min(wanted, hard), hard))
        soft = resource.getrlimit(resource.RLIMIT_NOFILE)[0]
    # Each may have a file for its replies, where there are enough; and one more may come in than these.
    return max(1, min(MOST_CLIENTS, (soft - 2 * OWN) // 2 if soft > 6 * OWN else soft - OWN)) - 1 or 1


def program_for(options: Options) -> str:
    """The path of the program, or of that whose logs are in PostgreSQL."""
    if options.file is not None:
        return found.program()
    path = found.other_program("segdag-postgres")
    if path is None:
        raise Refused("there is no program segdag-postgres: docs/POSTGRES.md says how it is built", 1)
    return path


def serve(options: Options) -> int:
    """Serves until the end; the status."""
    door = given_door()
    if door is None and options.socket is None:
        raise Refused("--socket PATH is missing, and systemd passed no socket", 2)
    options.most = room()
    if door is None and options.socket is not None:
        check_free(options.socket, options.group)
    files = [] if options.file is None else [options.file]
    # A log in a database has any number of writers.
    held = tuple(hold_log(path, options.group) for path in files)
    if not options.force:
        for path in (*files, *(path for path in options.remotes if not path.startswith(("bundle:", "pipe:")))):
            check_log(path)
    if options.postgres is not None:
        # By its environment, since others see the words of a program.
        os.environ["SEGDAG_POSTGRES"] = options.postgres
    cache = [] if options.cache is None else ["--cache", str(options.cache)]
    options.words = [program_for(options), options.log, *options.remotes, "--", "run", *cache]
    run = Run(options.words, held, options.file)
    status = run.load()
    if status is not None:
        raise Refused(f"{options.log}: {ending(status)}", status)
    if door is None and options.socket is not None:
        door = own_door(options.socket, options.group)
    assert door is not None
    return Daemon(options, door, held, run).serve()


def serve_many(words: list[str]) -> None:
    """Becomes the server of many logs."""
    roots = (word[len("--root=") :] if word.startswith("--root=") else word for word in words)
    is_database = any(word.startswith(("postgresql:", "postgres:")) for word in roots)
    name, more = ("segdagd-many-postgres", " postgres") if is_database else ("segdagd-many", "")
    path = found.other_program(name)
    if path is None:
        raise Refused(f"{found.tool(name)} isn't there: `sh tools/segdagd_build.sh out{more}` builds it of the library in out", 1)
    os.execv(path, ["segdagd", *words])


def main() -> int:
    """Serves as the words say; the status."""
    fill_low()
    words = sys.argv[1:]
    try:
        if any(word == "--root" or word.startswith("--root=") for word in words):
            serve_many(words)
        return serve(options_of(words))
    except Refused as refused:
        say(str(refused))
        return refused.status or 1
