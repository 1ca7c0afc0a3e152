"""A run of the program for segdagd: the lines that are under way in it, and whose each reply is."""
from __future__ import annotations

import fcntl
import os
import re
import sys
from collections import deque
from contextlib import suppress
from functools import lru_cache
from subprocess import PIPE, Popen
from time import monotonic
from typing import TYPE_CHECKING, Callable, Generic, Sequence, TypeVar

from ..lines import environment
from ..refused import GONE, Refused, end_of

if TYPE_CHECKING:
    from .clients import Client

PIECE = 1 << 18  # bytes of one read of replies
LAST = (b"ok", b"err")  # how the last line of a reply begins
Owner = TypeVar("Owner", covariant=True)


def say(text: str) -> None:
    """What who started the daemon is to know."""
    print(f"segdagd: {text}", file=sys.stderr, flush=True)


def ending(status: int) -> str:
    """The sentence for a status of the program."""
    return end_of(128 - status if status > 128 else status)


def place_of(path: str) -> tuple[int, int] | None:
    """Which file a path leads to, or None."""
    try:
        found = os.stat(path)
    except OSError:
        return None
    return found.st_dev, found.st_ino


def locked_place(path: str) -> tuple[int, int] | None:
    """The same of a file that a program has the lock of; None where nobody has."""
    try:
        place = os.open(path, os.O_RDONLY | os.O_NONBLOCK | os.O_CLOEXEC)
    except OSError:
        return None
    try:
        found = os.fstat(place)
        fcntl.flock(place, fcntl.LOCK_SH | fcntl.LOCK_NB)
    except BlockingIOError:
        return found.st_dev, found.st_ino
    finally:
        os.close(place)
    return None


@lru_cache(maxsize=None)
def replies(count: int) -> re.Pattern[bytes]:
    """An expression for so many replies: a name has neither letter of these, and the last line, `ok` or `err`, begins with one or has it."""
    return re.compile(rb"(?:[^or]*[or][^\n]*\n){%d}" % count)


class Own:
    """A line of the daemon's own, by its session and its word, and what is done with its reply."""

    base: int | None = None

    def __init__(self, session: int, word: bytes, then: Callable[[bytes], object]) -> None:
        self.line, self.then, self.reply = (session, word, then), then, b""

    def take(self, data: bytes) -> None:
        """Bytes of the reply."""
        self.reply += data

    @staticmethod
    def send_now(data: bytes) -> bytes:
        """What is left of the bytes of a reply: all, since nobody waits for them elsewhere."""
        return data

    def answered(self, _count: int, _heavy: int, _size: int) -> None:
        """The reply is whole."""
        self.then(self.reply)


class Group(Generic[Owner]):
    """Lines of one owner that are sent on at once: how many there are and how many still wait for a reply, how many may be heavy, whether
    the last one may move the session to the newest version, how many bytes their replies have so far, and when they were sent."""

    __slots__ = ("owner", "count", "left", "heavy", "moves", "size", "sent")

    def __init__(self, owner: Owner, count: int, heavy: int, moves: int) -> None:
        self.owner, self.heavy, self.moves = owner, heavy, moves
        self.count = self.left = count
        self.size, self.sent = 0, monotonic()


class Run:
    """The program behind pipes, and the lines that are under way in it. It keeps what is `held` open until it ends. `file` is where its log
    is, and None where that is in a database."""

    def __init__(self, words: Sequence[str], held: tuple[int, ...], file: str | None) -> None:
        try:
            # In a session of its own: a key that ends the daemon from its terminal doesn't end the program.
            # Signals that Python ignores stay ignored: a file that may not grow is a disk that fails, and ends nobody.
            self.process = Popen(
                words, stdin=PIPE, stdout=PIPE, pass_fds=held, env=environment(), bufsize=0, start_new_session=True, restore_signals=False
            )
        except OSError as error:
            raise Refused(f"{words[0]} can't be started: {error.strerror}") from error
        assert self.process.stdin is not None and self.process.stdout is not None
        self.input, self.output = self.process.stdin, self.process.stdout
        self.file = file
        self.place: tuple[int, int] | None = None
        self.to, self.back = self.input.fileno(), self.output.fileno()
        self.groups: deque[Group[Client | Own]] = deque()
        self.afloat = 0
        self.unsent, self.carry, self.given = bytearray(), b"", 0
        # Where replies are read to. It is kept: room of this size that is taken for each read costs more than all else about that.
        self.room = memoryview(bytearray(PIECE))
        self.rooms = (self.room,)
        self.is_closed = False
        for place in (self.to, self.back):
            with suppress(OSError):
                fcntl.fcntl(place, getattr(fcntl, "F_SETPIPE_SZ", 1031), PIECE)

    def load(self) -> int | None:
        """Waits until the log is loaded; the status where the program ended before."""
        with suppress(BrokenPipeError):
            self.send((Group(Own(0, b"status", len), 1, 0, False),), b"0 status\n")
        reply = b""
        while not reply.endswith(b"\n"):
            piece = os.read(self.back, PIECE)
            if not piece:
                return self.end()
            reply += piece
        if reply == b"err disk\n":
            return self.end()
        self.groups.clear()
        self.afloat = 0
        if self.file is not None:
            self.place = locked_place(self.file)
        if self.file is not None and self.place is None:
            # It was moved while it was loaded.
            self.end()
            return GONE
        for place in (self.to, self.back):
            os.set_blocking(place, False)
        return None

    def send(self, groups: Sequence[Group[Client | Own]], data: bytes) -> None:
        """Sends the lines of these groups on."""
        self.groups += groups
        for group in groups:
            self.afloat += group.count
        self.given += len(data)
        self.unsent += data
        self.push()

    def push(self) -> None:
        """Writes what the pipe takes."""
        try:
            while self.unsent:
                del self.unsent[: os.write(self.to, self.unsent[:PIECE])]
        except BlockingIOError:
            pass
        except BrokenPipeError:
            # It has ended; its last replies are still to be read.
            self.unsent.clear()

    def replies(self) -> list[tuple[Group[Client | Own], bytes]] | None:
        """The next pieces of replies, each with the group that it belongs to and whether that one is answered by it. None at the end."""
        try:
            count = os.readv(self.back, self.rooms)
        except BlockingIOError:
            return []
        if not count:
            return None
        data = self.carry + self.room[:count]
        cut = data.rfind(b"\n") + 1
        self.carry = data[cut:]
        if data.endswith(b"\nerr disk\n") or data == b"err disk\n":
            cut -= len(b"err disk\n")  # No reply: the program ends.
        return self.pieces(data, cut)

    def pieces(self, data: bytes, cut: int) -> list[tuple[Group[Client | Own], bytes]]:
        """The bytes up to `cut`, by groups."""
        pieces: list[tuple[Group[Client | Own], bytes]] = []
        at = 0
        whole = data.startswith(LAST) + data.count(b"\nok", 0, cut) + data.count(b"\nerr", 0, cut)
        while at < cut:
            # So many replies end from here on.
            group = self.groups[0]
            left = group.left if group.left < whole else whole
            whole -= left
            group.left -= left
            self.afloat -= left
            if group.left:
                pieces.append((group, data[at:cut]))
                break
            # Behind the reply to the last line of all nothing comes.
            found = replies(left).match(data, at) if self.afloat else None
            stop = found.end() if found else cut
            pieces.append((group, data[at:stop]))
            at = stop
            self.groups.popleft()
        return pieces

    def is_at_path(self) -> bool:
        """Whether the file at the log's path is the one that the program has. A log in a database is at no path."""
        return self.file is None or place_of(self.file) == self.place

    def kill(self) -> None:
        """Ends it at once, whatever it does. What it acknowledged is stored."""
        self.process.kill()

    def close(self) -> None:
        """No more lines come, so it ends."""
        if not self.is_closed:
            self.is_closed, self.to = True, -1
            self.input.close()

    def end(self) -> int:
        """Its status, 128 and the signal's number where one ended it."""
        self.close()
        self.output.close()
        status = self.process.wait()
        return status if status >= 0 else 128 - status
