"""The sixteen sessions of segdagd: who has one, who waits for one, and whose is lent meanwhile."""
from __future__ import annotations

from collections import deque
from functools import partial
from time import monotonic
from typing import TYPE_CHECKING

from .clients import Client
from .doors import SESSIONS

if TYPE_CHECKING:
    from .server import Daemon

LENT = 17  # what a client is told whose session was lent, where it could tell


class Sessions:
    """Which sessions are free, which clients have one, in the order of their turns, and which wait for one."""

    def __init__(self, daemon: Daemon) -> None:
        self.daemon, self.course = daemon, daemon.course
        self.free = deque(range(SESSIONS))
        self.served: deque[Client] = deque()
        self.waiting: deque[Client] = deque()
        # How many sessions will be free soon, or may be: they are let go of, or asked whether they can be lent.
        self.coming = 0
        # Clients whose session couldn't be renewed.
        self.retries: list[Client] = []

    def meet(self, client: Client) -> None:
        """The first line of a client is there, so it is given a session or waits for one."""
        client.is_known = True
        line = client.lines[client.at]
        if line is not None and line.rstrip(b"\r") == b"nowait":
            client.is_hasty = True
            client.passed(1)
        self.wait(client)

    def wait(self, client: Client) -> None:
        """A client is given a session, or waits for one."""
        self.waiting.append(client)
        self.give()
        self.lend()

    def give(self) -> None:
        """Gives the free sessions to those who wait."""
        if not self.free or not self.waiting or self.course.barred in ("stop", "gone") or self.course.is_replaced():
            return
        while self.free and self.waiting and not self.course.is_spent:
            client = self.waiting.popleft()
            client.session = self.free.popleft()
            client.prefix = b"%d " % client.session
            client.holds_adds = self.course.gathering is not None
            if client.is_hasty:
                client.is_hasty = False
                client.take(b"ok session\n")
            self.served.append(client)
            self.renew(client)

    def lend(self) -> None:
        """For those who wait asks the sessions that are idle for longest whether anything is pending in them. Who still has none in view and
        asked not to wait is told so."""
        lacking = len(self.waiting) - len(self.free) - self.coming
        if lacking > 0 and self.course.status is None:
            # The more wait, the sooner.
            before = monotonic() - self.daemon.options.idle_client / lacking
            idle = sorted((client for client in self.served if client.is_idle(before)), key=Client.since)
            for client in idle[:lacking]:
                client.is_asked = True
                self.coming += 1
                self.ask_whether_empty(client)
        for client in list(self.waiting)[len(self.free) + self.coming :]:
            if client.is_hasty:
                self.waiting.remove(client)
                client.tell(b"err busy %d\n" % SESSIONS)
                self.daemon.lobby.settle(client)

    def ask_whether_empty(self, client: Client) -> None:
        """Asks the session of a client whether anything is pending in it."""
        if client.session is not None:
            self.course.own(client.session, b"status", partial(self.lent, client, client.session))

    def lent(self, client: Client, session: int, reply: bytes) -> None:
        """Takes the session of a client for another one, if it can be: nothing is pending in it or under way for it."""
        client.is_asked = False
        client.is_keeping = int(reply.split()[-1]) > 0
        if client.session != session or client.is_keeping or not client.is_quiet():
            self.coming -= 1
            self.lend()
            return
        self.served.remove(client)
        client.session, client.is_ready, client.is_lent = None, False, True
        self.freed(session)

    def resume(self, client: Client) -> None:
        """A client whose session was lent has lines again. It goes on where it can't tell: when nothing was stored since. What others store in
        a database isn't known here."""
        client.is_lent = False
        if client.base == self.course.changes and self.daemon.options.file is not None:
            self.wait(client)
        else:
            self.dismiss(client, LENT)

    def retry(self) -> None:
        """Tries once more to renew the sessions that couldn't be."""
        retries, self.retries = self.retries, []
        for client in retries:
            self.renew(client)

    def renew(self, client: Client) -> None:
        """Brings the session of a client to the newest version."""
        if client.session is not None:
            self.course.own(client.session, b"reload", partial(self.renewed, client))

    def renewed(self, client: Client, reply: bytes) -> None:
        """The client's lines may be sent on, where its session could be brought to the version that the client expects."""
        if reply != b"ok reloaded 0\n":
            self.retries.append(client)
        elif client.base not in (None, self.course.changes):
            self.dismiss(client, LENT)
        else:
            client.base, client.active = self.course.changes, monotonic()
            client.is_ready = client.session is not None
            self.daemon.lobby.settle(client)

    def release(self, client: Client) -> None:
        """Takes the session of a client, and lets what is pending in it go."""
        session, client.session, client.is_ready = client.session, None, False
        if session is not None:
            self.served.remove(client)
            self.coming += 1
            self.course.own(session, b"discard", partial(self.freed, session))
        elif client in self.waiting:
            self.waiting.remove(client)

    def freed(self, session: int, _reply: bytes = b"") -> None:
        """A session is free from now on."""
        self.coming -= 1
        self.free.append(session)
        self.give()

    def dismiss(self, client: Client, status: int) -> None:
        """Tells a client by its last line that the run has ended for it."""
        client.tell(b"err ended %d\n" % status)
        self.release(client)
        self.daemon.lobby.settle(client)
