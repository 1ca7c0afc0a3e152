"""`git segdag daemon start|stop|status`: a store that stays loaded, so that a question doesn't pay for a load."""
from __future__ import annotations

import os
import signal
import stat
import sys
import time
from contextlib import suppress
from subprocess import DEVNULL, Popen

from ..found import program, tool
from ..refused import Refused
from .shared import rights, share

# What types alone need isn't loaded.
TYPE_CHECKING = False
if TYPE_CHECKING:
    from .place import Place
    from .repository import Objects

LONG = 60  # seconds that a daemon may take to end


def daemon(place: Place, _objects: Objects, words: list[str]) -> int:
    """Begins or ends it, or says whether there is one."""
    if words[0] == "start":
        return start(place, *words[1:])
    if words not in (["stop"], ["status"]):
        raise Refused(f"git segdag daemon takes start, stop or status, and not '{' '.join(words)}'")
    return stop(place) if words == ["stop"] else status(place)


def start(place: Place, idle: str | None = None) -> int:
    if idle is not None and (not idle.isdigit() or int(idle) == 0):
        raise Refused(f"'{idle}' isn't a number of seconds: a whole number of at least 1 was expected")
    with place.changing():
        process = place.keeper()
        if process is not None:
            if not place.answers():
                raise Refused(f"process {process} has the log, and doesn't answer: `git segdag daemon stop` ends it")
            print("the daemon is already running")
            return 0
        place.must_be_log()
        # The program reads no path that isn't UTF-8, and so these are those of their folder.
        words = [sys.executable, tool("segdagd"), "log", "--socket", "socket", *group(place)]
        with open(os.path.join(place.folder, "daemon"), "wb") as told:
            share(told.name, rights(place.common))
            environment = {**os.environ, "SEGDAG": program()}
            more = ["--idle", idle] if idle else []
            child = Popen(words + more, stdin=DEVNULL, stdout=told, stderr=told, start_new_session=True, env=environment, cwd=place.folder)
        # It listens when the log is loaded.
        while place.keeper() is None:
            if child.poll() is not None:
                with open(told.name, encoding="utf-8", errors="replace") as said:
                    raise Refused(said.read().strip().split("\n")[-1] or f"the daemon ended with status {child.returncode}")
            time.sleep(0.01)
    print("the daemon is running")
    return 0


def group(place: Place) -> list[str]:
    """Who may write the log may ask its daemon: the log's group too, where that may, and whoever starts it is of it."""
    found = os.stat(place.log)
    is_member = os.geteuid() == 0 or found.st_gid in (os.getegid(), *os.getgroups())
    return ["--group", str(found.st_gid)] if found.st_mode & stat.S_IWGRP and is_member else []


def stop(place: Place) -> int:
    print("the daemon has ended" if ended(place) else "no daemon runs")
    return 0


def ended(place: Place) -> bool:
    """Ends the daemon, one that was stopped by a signal too, and says whether there was any."""
    process = place.keeper()
    if process is None:
        return False
    try:
        with suppress(ProcessLookupError):
            os.kill(process, signal.SIGTERM)
            os.kill(process, signal.SIGCONT)
    except PermissionError:
        raise Refused(f"process {process} has the log, and isn't this user's to end") from None
    until = time.monotonic() + LONG
    while place.keeper() is not None or alive(process):
        if time.monotonic() > until:
            raise Refused(f"the daemon (process {process}) was told to stop and is still running")
        time.sleep(0.01)
    return True


def alive(process: int) -> bool:
    """Whether it is there and no child that waits to be looked at."""
    with suppress(ProcessLookupError, FileNotFoundError):
        os.kill(process, 0)
        with open(f"/proc/{process}/stat", "rb") as about:
            return about.read().rpartition(b")")[2].split()[:1] != [b"Z"]
    return False


def status(place: Place) -> int:
    process = place.keeper()
    if process is None:
        print("no daemon runs")
        return 1
    print(f"process {process} has the log" + ("" if place.answers() else ", and doesn't answer"))
    return 0
