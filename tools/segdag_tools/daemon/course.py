"""The program below segdagd, from one run to the next, and the end: what bars the clients' lines, and the daemon's own lines."""
from __future__ import annotations

import os
import re
import select
from time import monotonic
from typing import TYPE_CHECKING, Callable, Sequence

from ..refused import GONE, Refused
from .doors import SESSIONS
from .runs import Group, Own, Run, ending, say

if TYPE_CHECKING:
    from .clients import Client
    from .server import Daemon

SELDOM = 0.1  # seconds between two looks at what is pending, where a run is beyond half its limit
LAST = 5  # seconds in which clients take their last line
DISK = 3  # the program's status where its disk fails, or its log's file isn't at the path any more


class Course:
    """The run that is under way, why no lines are sent on to it, and how all ends."""

    def __init__(self, daemon: Daemon, held: tuple[int, ...], run: Run) -> None:
        self.daemon, self.options, self.epoll, self.held = daemon, daemon.options, daemon.epoll, held
        self.run: Run = run
        # How many changes were acknowledged: the number of the newest version.
        self.changes: int = 0
        self.half: int = daemon.options.run_bytes // 2
        # Why no lines of clients are sent on: to "look" at what is pending, for a new "run", since the log is "gone", or to "stop".
        self.barred: str | None = None
        self.pending: dict[int, int] = {}
        self.is_asked, self.looked, self.looked_at = False, 0.0, 0
        # Since when those who have nothing pending add nothing; and whether a line of a client had no more room in this part of the run.
        self.gathering: float | None = None
        self.is_spent: bool = False
        self.is_pushing: bool = False
        # Lines of the daemon's own for the next run.
        self.later: list[tuple[int, bytes, Callable[[bytes], object]]] = []
        self.status: int | None = None
        self.deadline, self.stopped = 0.0, 0.0
        self.order = open(daemon.options.order, "ab", buffering=0) if daemon.options.order else None

    # Lines to the run.

    def watch(self) -> None:
        """Waits for what comes of the run."""
        self.epoll.register(self.run.back, select.EPOLLIN)
        self.epoll.register(self.run.to, 0)
        self.is_pushing = False

    def watch_input(self) -> None:
        """Waits for room in the program's pipe where there are bytes for it."""
        if not self.run.is_closed and self.is_pushing != bool(self.run.unsent):
            self.is_pushing = not self.is_pushing
            self.epoll.modify(self.run.to, select.EPOLLOUT * self.is_pushing)

    def push(self) -> None:
        """There is room in the program's pipe."""
        self.run.push()
        self.watch_input()

    def send(self, groups: Sequence[Group[Client]], text: bytes) -> None:
        """Sends lines of clients on."""
        self.run.send(groups, text)
        if self.run.unsent:
            self.watch_input()

    def own(self, session: int, word: bytes, then: Callable[[bytes], object]) -> None:
        """Sends a line of the daemon's own."""
        if self.status is not None:
            return
        if self.run.is_closed:
            self.later.append((session, word, then))
            return
        line = b"%d %s" % (session, word)
        self.note(0, line + b"\n")
        self.run.send((Group(Own(session, word, then), 1, 0, False),), line + b"\n")
        self.watch_input()

    def note(self, number: int, lines: bytes) -> None:
        """Writes lines that are sent on to the file that the option --order names, each behind its client's number."""
        if self.order is not None:
            self.order.write(re.sub(rb"(?m)^(?=.)", b"%d " % number, lines))

    def bound(self) -> int:
        """How many bytes of the run there are for lines of clients: the last part is for those who have rows pending then, and for the
        daemon's own lines."""
        return self.options.run_bytes // 16 * (12 if self.gathering is None else 15)

    # What is pending near a run's limit.

    def look(self, now: float) -> None:
        """Goes on with what bars the clients' lines, and near a run's limit looks whether anything is pending."""
        if self.status is not None:
            return
        if not self.barred and self.run.given >= self.half and self.is_time_to_look(now):
            self.barred, self.is_asked = "look", False
        if self.barred and not self.run.afloat:
            self.drained(now)

    def is_time_to_look(self, now: float) -> bool:
        """Some time or bytes behind the last look, while lines come. Where all wait for a few, when these have sent what they wait for."""
        if self.is_spent:
            return True
        if self.gathering is not None:
            return now - self.gathering > self.options.slow or not any(client.is_settling for client in self.daemon.sessions.served)
        more = self.run.given - self.looked_at
        return more > 0 and now - self.looked >= SELDOM or more >= self.options.run_bytes // 64

    def drained(self, now: float) -> None:
        """Lines of clients are barred, and none is under way."""
        if self.barred == "look" and not self.is_asked:
            self.is_asked = True
            for session in range(SESSIONS):
                self.ask_pending(session)
        elif self.barred == "look" and any(self.pending.values()):
            self.barred, self.looked, self.looked_at = None, now, self.run.given
            self.gather(now)
        elif not self.run.is_closed:
            self.barred = "stop" if self.barred == "stop" else "run"
            self.epoll.unregister(self.run.to)
            self.run.close()

    def ask_pending(self, session: int) -> None:
        """Asks how many rows are pending in a session."""
        self.own(session, b"status", lambda reply: self.pending.update({session: int(reply.split()[-1])}))

    def gather(self, now: float) -> None:
        """Near the limit those who have nothing pending add nothing, until all have nothing. Who takes too long is let go of."""
        if self.gathering is None and self.run.given < self.options.run_bytes // 4 * 3 and not self.is_spent:
            return
        is_late = self.gathering is not None and (self.is_spent or now - self.gathering > self.options.slow)
        if self.gathering is None:
            self.gathering, self.is_spent = now, False
        for client in list(self.daemon.sessions.served):
            client.is_settling = client.session is not None and self.pending[client.session] > 0
            client.holds_adds = not client.is_settling
            if is_late and client.is_settling:
                self.daemon.sessions.dismiss(client, 8)

    # Another log, another run.

    def is_replaced(self) -> bool:
        """Whether another file than the program's stands at the log's path, or none."""
        if self.status is not None or self.run.is_closed or self.barred == "gone":
            return self.barred == "gone"
        if self.run.is_at_path():
            return False
        self.begin_anew()
        return True

    def begin_anew(self) -> None:
        """Another log stands in place of the one that the run has. Who has seen that is told, and behind what is under way a new run begins,
        over what is there."""
        self.barred = self.barred if self.barred == "stop" else "gone"
        self.changes += 1
        for client in list(self.daemon.lobby.clients.values()):
            if client.base is not None or client.session is not None:
                self.daemon.sessions.dismiss(client, GONE)

    def run_ended(self) -> None:
        """The program puts nothing more."""
        self.epoll.unregister(self.run.back)
        if not self.run.is_closed:
            self.epoll.unregister(self.run.to)
        status = self.run.end()
        if status == 0 and self.barred == "run":
            self.begin_run()
        elif status == DISK and not self.run.is_at_path():
            self.begin_elsewhere()
        else:
            self.finish(status)

    def begin_elsewhere(self) -> None:
        """The program ended at a change, since the log's file isn't at its path any more. Lines of the daemon's own that it didn't answer are
        for the next run."""
        if self.barred == "stop" or not self.has_folder():
            self.finish(GONE)
            return
        self.later += [group.owner.line for group in self.run.groups if isinstance(group.owner, Own)]
        self.begin_anew()
        self.begin_run()

    def has_folder(self) -> bool:
        """Whether the folder of the log's file is there: one that was removed may still be this process's own. A database has none."""
        if self.options.file is None:
            return True
        try:
            return os.stat(os.path.dirname(self.options.file) or ".").st_nlink > 0
        except OSError:
            return False

    def begin_run(self) -> None:
        """A new run, with each session on the newest version."""
        if self.order is not None:
            self.order.write(b"new run\n")
        self.barred, self.gathering, self.looked_at, self.is_spent = None, None, 0, False
        try:
            self.run = Run(self.options.words, self.held, self.options.file)
        except Refused as refused:
            say(str(refused))
            self.finish(refused.status or 1)
            return
        status = self.run.load()
        if status is not None:
            self.finish(status)
            return
        self.watch()
        for client in self.daemon.lobby.clients.values():
            client.holds_adds = client.is_settling = False
            client.base = None if client.base is None else self.changes
        later, self.later = self.later, []
        for session, word, then in later:
            self.own(session, word, then)
        self.daemon.sessions.give()

    # The end.

    def is_open(self) -> bool:
        """Whether clients may still come in."""
        return self.barred != "stop" and self.status is None

    def told_to_end(self) -> None:
        """A signal came. Behind a second one it doesn't wait for what is under way."""
        if self.barred == "stop" and self.status is None:
            self.run.kill()
        self.stop()

    def stop(self) -> None:
        """Ends when the replies under way are out."""
        if self.is_open():
            self.barred, self.stopped = "stop", monotonic()
            self.daemon.lobby.shut()

    def look_after_end(self, now: float) -> None:
        """Ends the program where it takes too long to end, and all where the log's folder is gone."""
        if self.barred == "stop" and self.status is None and now - self.stopped > self.options.slow:
            self.run.kill()
        if self.status is None and not self.has_folder():
            say(f"{self.options.file}: its folder is gone")
            self.finish(GONE)

    def finish(self, status: int) -> None:
        """Tells each client that the program ended."""
        if self.barred != "stop":
            self.daemon.lobby.shut()
        if status > 1 and status != GONE:
            say(f"{self.options.log}: {ending(status)}")
        self.status, self.deadline = status, monotonic() + min(LAST, self.options.slow)
        for client in list(self.daemon.lobby.clients.values()):
            self.daemon.sessions.dismiss(client, status)
