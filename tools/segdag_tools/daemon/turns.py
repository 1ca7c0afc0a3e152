"""Lines of segdagd's clients on their way to the program, by turns, and the replies on their way back."""
from __future__ import annotations

import select
from time import monotonic
from typing import TYPE_CHECKING, Sequence

from ..refused import NO_ROOM
from .clients import STORES, STORING, Client, Full
from .doors import SESSIONS
from .runs import Group, Own

if TYPE_CHECKING:
    from .server import Daemon

LEAST, MOST = 4, 512  # lines under way at a time, by how long they take
TURN = 32  # lines of one turn of a client that has many: each turn costs the same few calls, whatever it has
QUICK, LONG = 0.002, 0.010  # seconds of lines from their way in to their reply: below the one more, above the other fewer go at a time


class Turns:
    """How many lines go at a time, and whose are next."""

    def __init__(self, daemon: Daemon) -> None:
        self.daemon, self.course, self.sessions, self.lobby = daemon, daemon.course, daemon.sessions, daemon.lobby
        self.window, self.answered = 16, 0

    def is_still(self, data: bytes) -> bool:
        """Whether nothing is under way, and a line of these bytes may go before the next turn: all others have sent what they may."""
        course, run = self.course, self.course.run
        is_held = run.afloat or course.barred or course.gathering is not None or course.status is not None
        return not is_held and run.given + len(data) + 5 < course.half

    def pass_on(self, client: Client, line: bytes) -> None:
        """Sends the line of a client on that is alone."""
        if line.startswith(STORING) and self.course.is_replaced():
            return
        text, group = client.next_alone(line)
        self.course.note(client.number, text)
        self.course.send((group,), text)

    def pump(self) -> None:
        """Sends lines of clients on, by turns."""
        course, run = self.course, self.course.run
        most = self.window if course.gathering is None else min(self.window, SESSIONS)
        room = most - run.afloat
        if course.barred or course.status is not None or run.unsent or room < max(1, most // 4):
            return
        served = self.sessions.served
        ready = [client for client in served if client.lines and client.may_send()][:room]
        if not ready or any(client.is_moving for client in ready) and course.is_replaced():
            return
        groups, pieces = self.round(ready, room)
        if not groups:
            return
        course.send(groups, b"".join(pieces))
        if len(served) > 1:
            # The next round begins behind the last one of this.
            served.rotate(-1 - served.index(groups[-1].owner))
        for group in groups:
            client = group.owner
            # Another one goes on to be read as it was: it has more lines, or all along had room for some.
            if client.lines[client.at] is None if client.lines else not client.mask & select.EPOLLIN:
                self.lobby.settle(client)

    @staticmethod
    def shares(ready: list[Client], room: int) -> list[tuple[Client, int]]:
        """These clients, each with how many lines it may send. Who has no more than an even share is first, with all of it. The others
        have what is left in turns."""
        if len(ready) == 1:
            return [(ready[0], room)]
        share = max(1, room // len(ready))
        turns = [(client, share) for client in ready if client.waiting() <= share]
        return turns + [(client, max(share, TURN)) for client in ready if client.waiting() > share]

    def round(self, ready: list[Client], room: int) -> tuple[list[Group[Client]], list[bytes]]:
        """So many of the next lines of these clients, while there is room for them in the run: groups for it, and the bytes."""
        left = self.course.bound() - self.course.run.given
        groups: list[Group[Client]] = []
        pieces: list[bytes] = []
        for client, most in self.shares(ready, room):
            # Its next line can go. Whether more can is looked at where there are more.
            count = client.fitting(client.pick(min(most, room)) if client.waiting() > 1 else 1, left)
            if not count:
                self.course.is_spent = True
                break
            piece, some = client.next_lines(count)
            self.course.note(client.number, piece)
            groups += some
            pieces.append(piece)
            left -= len(piece)
            room -= count
            if not room:
                break
        return groups, pieces

    def replied(self) -> None:
        """Takes replies from the program to their clients."""
        course = self.course
        before, pieces = course.run.afloat, course.run.replies()
        if pieces is None:
            course.run_ended()
            return
        self.adapt(before, course.run.afloat, pieces)
        touched: dict[Client, None] = {}
        for group, data in pieces:
            owner = group.owner
            group.size += len(data)
            is_done = group.moves and not group.left and data[data.rfind(b"\n", 0, -1) + 1 :].startswith(b"ok")
            if not is_done or group.moves != STORES or not course.is_replaced():
                left = owner.send_now(data) if len(pieces) == 1 else data
                if isinstance(owner, Client):
                    self.keep(owner, left)
                else:
                    owner.take(left)
            if not group.left:
                if is_done:
                    course.changes += group.moves == STORES
                    owner.base = course.changes
                owner.answered(group.count, group.heavy, group.size)
                self.answered += group.count
            if isinstance(owner, Client):
                touched[owner] = None
        for client in touched:
            self.lobby.settle(client)
        if self.daemon.options.file is None and any(b"err replaced\n" in data for _group, data in pieces):
            course.begin_anew()

    def keep(self, owner: Client, data: bytes) -> None:
        """Keeps replies for their client. Where there is no room for them, one client gets no more: the one itself that has as much as one may
        have, and else the one for which replies wait longest."""
        while data:
            try:
                owner.take(data)
                return
            except Full as full:
                others = (client for client in self.lobby.clients.values() if client.outbox.is_spilled())
                cut = owner if full.is_own else min(others, key=lambda client: client.outbox.since, default=owner)
                cut.cut(b"err ended %d\n" % NO_ROOM)
                self.sessions.release(cut)
                self.lobby.settle(cut)
                if cut is owner:
                    return

    def adapt(self, before: int, after: int, pieces: Sequence[tuple[Group[Client | Own], bytes]]) -> None:
        """More lines go at a time where they are quick, or the program had done nearly all of them before their replies were read. Fewer go
        where they took long and most are still to be done."""
        took = monotonic() - pieces[0][0].sent if pieces else 0
        if before >= self.window // 4 * 3 and (took < QUICK or after <= self.window // 8):
            self.window = min(MOST, self.window + self.window // 4 + 1)
        elif after > self.window // 2 and took > LONG:
            self.window = max(LEAST, self.window // 2)
