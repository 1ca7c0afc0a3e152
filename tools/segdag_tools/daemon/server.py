"""One store for many processes: lines of the clients of a Unix socket go to one run of segdag, and the replies back.

Who connects has one of the sixteen sessions, and speaks the lines of docs/COMMANDS.md without the session's number in front.
docs/DAEMON.md is the protocol of the socket on a page.
"""
from __future__ import annotations

import os
import select
import signal
import sys
from time import monotonic
from typing import TYPE_CHECKING

from .course import SELDOM, Course
from .doors import Door
from .lobby import Lobby
from .runs import Run
from .sessions import Sessions
from .turns import Turns

if TYPE_CHECKING:
    from .command import Options

FOLDER = 5  # seconds between two looks whether the log's folder is there, while nobody is connected
SIGNALS = (signal.SIGTERM, signal.SIGINT, signal.SIGHUP)


class Daemon:
    """The loop over what its parts wait for: the clients of the lobby, the run, and signals. (Of a socket that waits for nothing epoll still tells
    that it is broken, which `selectors` has no word for.)"""

    def __init__(self, options: Options, door: Door, held: tuple[int, ...], run: Run) -> None:
        self.options, self.epoll = options, select.epoll()
        self.course = Course(self, held, run)
        self.lobby = Lobby(self, door)
        self.sessions = Sessions(self)
        self.turns = Turns(self)
        self.ticked = monotonic()
        self.woken, self.waker = os.pipe()
        os.set_blocking(self.waker, False)
        os.set_blocking(self.woken, False)

    def serve(self) -> int:
        """Serves until the end; the status."""
        signal.set_wakeup_fd(self.waker)
        for number in SIGNALS:
            signal.signal(number, lambda *_: None)
        self.epoll.register(self.woken, select.EPOLLIN)
        self.epoll.register(self.lobby.door.sock, select.EPOLLIN)
        self.course.watch()
        while self.course.status is None or self.lobby.clients and monotonic() < self.course.deadline:
            self.turn()
        self.lobby.leave_all()
        show("\n")
        return self.course.status

    def turn(self) -> None:
        """What came, and what is to be done behind that."""
        comes, course, clients = False, self.course, self.lobby.clients
        for place, event in self.epoll.poll(self.pause()):
            client = clients.get(place)
            if client is not None:
                self.lobby.heard(client, event)
            elif place == course.run.back:
                self.turns.replied()
            elif place == course.run.to:
                course.push()
            elif place == self.woken:
                os.read(self.woken, 1 << 10)
                course.told_to_end()
            else:
                comes = True
        if comes and course.status is None:
            # Behind all else, so that no event of this turn is taken for one of a connection that is new.
            self.lobby.accept()
        now = monotonic()
        if now - self.ticked >= 1:
            self.tick(now)
        elif self.sessions.waiting:
            self.sessions.lend()
        if course.barred or course.run.given >= course.half:
            course.look(now)
        self.turns.pump()

    def pause(self) -> float:
        """How many seconds to wait for an event at most."""
        if self.course.gathering is not None or self.sessions.waiting:
            return SELDOM
        if self.lobby.clients or self.course.status is not None or self.course.barred:
            return 1
        return 1 if self.options.idle is not None else FOLDER

    def tick(self, now: float) -> None:
        """What is looked at each second."""
        seconds, self.ticked = now - self.ticked, now
        show(f"{len(self.lobby.clients)} clients, {self.turns.answered / seconds:.0f} lines a second, {len(self.sessions.waiting)} waiting")
        self.turns.answered = 0
        self.lobby.drop_slow(now)
        self.sessions.retry()
        self.sessions.lend()
        if self.lobby.has_room():
            self.lobby.open_door()
        self.course.look_after_end(now)
        if self.lobby.clients:
            self.lobby.used = now
        elif self.options.idle is not None and now - self.lobby.used >= self.options.idle:
            self.course.stop()


def show(text: str) -> None:
    """What goes on, for who sits at a terminal."""
    if sys.stderr.isatty():
        sys.stderr.write(f"\rsegdagd: {text}\x1b[K" if text != "\n" else text)
        sys.stderr.flush()
