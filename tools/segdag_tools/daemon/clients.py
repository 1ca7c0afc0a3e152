"""One client of segdagd: the lines that came from it and wait for their turn, and the replies that it hasn't taken yet."""
from __future__ import annotations

import os
import tempfile
from contextlib import suppress
from select import EPOLLIN, EPOLLOUT
from time import monotonic
from typing import IO, TYPE_CHECKING, Iterator, cast

from .runs import Group

if TYPE_CHECKING:
    import socket

LINE = 16_384 - 3  # bytes of a client's line: one of the program has 16,384, and the longest session's number and a space are three
TOO_LONG = b"err line 16384\n"
PIECE = 1 << 16  # bytes of one call of the system, and of lines that wait, before no more is read
FIRST = 1 << 12  # the same of a client without a session
UNREAD = 1 << 16  # with so many bytes of replies not taken, no line of the client is sent on
KEPT = 1 << 20  # bytes of replies that are kept in memory; what is more goes to a file
SPARE = 1 << 26  # bytes of all clients together that memory takes where files take no more
SETTLING = (b"flush", b"discard")  # lines behind which there may be nothing pending
STORING = (b"flush", b"strip", b"clone", b"pull")  # lines that may make a new version, on which the session is then
MOVING = (*STORING, b"reload")  # all behind which it is on the newest version
HEAVY = (b"query", b"count", b"pull", b"clone", b"strip")  # lines that may take long, or have large replies
AHEAD = 32  # such lines of one client under way at most, where their replies are small
SMALL, LARGE = 1 << 12, 1 << 16  # replies below the one let more heavy lines go ahead, those above the other one alone
HASH, RETURN, L, N, P, Q = b"#\rlnpq"
STORES = 2  # of a group: its last line may make a new version


class Full(Exception):
    """There is no room for a client's replies: `is_own` where it has as many as one may have, whatever others have."""

    def __init__(self, is_own: bool) -> None:
        super().__init__()
        self.is_own = is_own


class Room:
    """How many bytes of replies that aren't taken all clients may have together: in files, and in memory where a file takes no more."""

    def __init__(self, files: int, memory: int = SPARE) -> None:
        self.files, self.memory = files, memory


class Outbox:
    """Replies that weren't taken: the first in memory, what comes behind a megabyte in a file without a name, and in memory again what is
    behind a file that takes no more."""

    def __init__(self, limit: int, room: Room) -> None:
        self.limit, self.room, self.held, self.tail, self.size = limit, room, bytearray(), bytearray(), 0
        self.file: IO[bytes] | None = None
        self.begin, self.end = 0, 0
        self.since = 0.0  # since when there was always something

    def put(self, data: bytes) -> None:
        """Takes bytes of replies, or raises Full."""
        if not self.size:
            self.since = monotonic()
        if self.begin == self.end and not self.tail and self.size + len(data) <= KEPT:
            self.held += data
        elif self.size + len(data) > self.limit + KEPT or self.end + len(data) > self.limit:
            raise Full(True)
        elif self.tail or not self.write(data):
            if self.room.memory < len(data):
                raise Full(False)
            self.room.memory -= len(data)
            self.tail += data
        self.size += len(data)

    def write(self, data: bytes) -> bool:
        """Puts bytes to the file; False where it takes no more."""
        if self.room.files < len(data):
            return False
        try:
            if self.file is None:
                self.file = tempfile.TemporaryFile(buffering=0)
            if os.pwrite(self.file.fileno(), data, self.end) != len(data):
                return False
        except OSError:
            return False
        self.room.files -= len(data)
        self.end += len(data)
        return True

    def is_spilled(self) -> bool:
        """Whether it has of what there is for all together."""
        return self.end > 0 or bool(self.tail)

    def refill(self) -> None:
        """Takes a piece of the file to memory, or what is behind the file."""
        if self.file is not None and self.begin < self.end:
            self.held += os.pread(self.file.fileno(), min(PIECE, self.end - self.begin), self.begin)
            self.begin += len(self.held)
            if self.begin == self.end:
                self.drop_file()
        else:
            self.held += self.tail[:PIECE]
            del self.tail[: len(self.held)]
            self.room.memory += len(self.held)

    def give(self, sock: socket.socket) -> int:
        """Sends what the socket takes, up to four pieces, so that others have their turn; how many bytes that were."""
        before = self.size
        for _ in range(4):
            if not self.held and self.size:
                self.refill()
            try:
                count = sock.send(self.held)
            except BlockingIOError:
                break
            del self.held[:count]
            self.size -= count
            if not self.size:
                break
        return before - self.size

    def drop_file(self) -> None:
        """Lets go of what the file has."""
        if self.file is not None:
            self.file.close()
        self.room.files += self.end
        self.size -= self.end - self.begin
        self.file, self.begin, self.end = None, 0, 0

    def cut(self, line: bytes) -> None:
        """Lets go of all that has no place in memory, and ends with this line behind a whole one."""
        self.drop_tail()
        end = self.held.rfind(b"\n") + 1
        self.held = self.held[:end] + (b"" if end else b"\n") + line
        self.size = len(self.held)

    def drop_tail(self) -> None:
        """Lets go of what the file has, and of what is behind it."""
        self.drop_file()
        self.room.memory += len(self.tail)
        self.size -= len(self.tail)
        self.tail = bytearray()

    def close(self) -> None:
        """Lets go of all."""
        self.drop_tail()
        self.held.clear()
        self.size = 0


class Client:
    """A connection. It has a session from the moment on at which one is free, and lines are sent on once that is renewed."""

    def __init__(self, sock: socket.socket, number: int, limit: int, room: Room) -> None:
        self.sock, self.number = sock, number
        self.session: int | None = None
        self.prefix = b""
        self.is_ready = self.is_known = self.is_over = self.is_told = self.is_gone = False
        # It asked not to wait. Its session was lent to another one; whether it may be is being asked; something is pending in it.
        self.is_hasty = self.is_lent = self.is_asked = self.is_keeping = False
        # Which version its session is on, by a number of the daemon's own, and when a line of it was answered.
        self.base: int | None = None
        self.active = 0.0
        # Whole lines, of which the first `at` were sent on; one that is too long is None. `part` is what stands behind the last line feed.
        self.lines: list[bytes | None] = []
        self.at, self.queued = 0, 0
        self.part, self.is_skipping = b"", False
        # A line among these may be heavy, or None. No line that adds may be sent on, or none behind the next one that stores or lets go.
        self.is_mixed = self.holds_adds = self.is_settling = False
        # One among them may move the session.
        self.is_moving = False
        self.afloat, self.heavy, self.ahead = 0, 0, 1
        self.outbox, self.moved, self.mask = Outbox(limit, room), 0.0, 0
        self.came = monotonic()

    def waiting(self) -> int:
        """How many lines of it weren't sent on yet."""
        return len(self.lines) - self.at

    def is_quiet(self) -> bool:
        """Nothing of it is under way in either direction. Half a line is none yet."""
        return not (self.afloat or self.lines or self.outbox.size or self.is_told)

    def since(self) -> float:
        """The moment from which on it is quiet."""
        return max(self.active, self.moved)

    def is_idle(self, before: float) -> bool:
        """It is quiet since before this moment, and its session may be lent, as far as one knows."""
        return self.is_ready and not self.is_asked and not self.is_keeping and self.since() <= before and self.is_quiet()

    def is_done(self) -> bool:
        """It sends nothing more and has all replies, or it had its last word."""
        return not self.outbox.size and (self.is_told or self.is_over and not self.lines and not self.afloat)

    def wanted(self) -> int:
        """What is to be told of its socket."""
        is_open = not self.is_over and not self.is_told and self.queued < (FIRST if self.session is None else PIECE)
        return (EPOLLIN if is_open else 0) | (EPOLLOUT if self.outbox.size else 0)

    def read(self) -> bytes | None:
        """Some bytes that came, if any did; None where the connection is broken."""
        try:
            data = self.sock.recv(FIRST if self.session is None else PIECE)
        except BlockingIOError:
            return b""
        except OSError:
            return None
        if not data:
            # A line that no line feed ends may be half of one, of a client that was killed: it isn't carried out.
            self.is_over, self.part = True, b""
        return data

    def is_alone(self, data: bytes) -> bool:
        """Whether these bytes are one line that may be sent on as it is, and nothing of the client is in front of it or still to be taken."""
        if not self.is_ready or self.lines or self.part or self.is_skipping or self.afloat or self.outbox.size or self.is_told:
            return False
        return 0 < data.find(b"\n") == len(data) - 1 <= LINE and data[0] != HASH and RETURN not in data

    def next_alone(self, line: bytes) -> tuple[bytes, Group[Client]]:
        """The bytes of such a line for the program, and its group. It is now under way."""
        group = Group(self, 1, int(line.startswith(HEAVY)), STORES if line.startswith(STORING) else line.startswith(MOVING))
        self.is_keeping = False
        self.afloat, self.heavy = 1, group.heavy
        return self.prefix + line, group

    def take_in(self, data: bytes) -> None:
        """Cuts bytes into lines. Those that get no reply, empty ones and comments, are left out."""
        data = self.part + data
        parts = data.split(b"\n")
        self.part = parts.pop()
        lines: list[bytes | None] = list(parts)
        if self.is_skipping and lines:
            lines[0], self.is_skipping = None, False
        if self.is_skipping or len(self.part) > LINE + 1:
            self.is_skipping, self.part = True, b""
        if HASH in data or RETURN in data or None in lines or b"" in lines or len(max(parts, key=len, default=b"")) > LINE:
            lines = [judged(line) for line in lines]
            lines = [line for line in lines if line != b""]
        if not lines:
            return
        self.is_mixed = self.is_mixed or None in lines or has_heavy(data)
        self.is_moving = self.is_moving or has_moving(data)
        self.queued += len(data)
        self.lines = self.lines[self.at :] + lines if self.lines else lines
        self.at = 0

    def may_send(self) -> bool:
        """Whether its next line, where it has one, can be sent on."""
        if not self.is_ready or self.outbox.size >= UNREAD:
            return False
        if self.holds_adds or self.is_settling:
            return self.pick(1) > 0
        line = self.lines[self.at]
        return not self.is_mixed or line is not None and self.heavy + line.startswith(HEAVY) <= self.ahead

    def refuse(self) -> None:
        """Answers lines that are too long, when all in front of them are answered."""
        while self.is_ready and self.lines and self.lines[self.at] is None and not self.afloat and self.outbox.size < UNREAD:
            self.take(TOO_LONG)
            self.passed(1)

    def pick(self, most: int) -> int:
        """How many of its next lines are sent on now."""
        left = len(self.lines) - self.at
        count = most if most < left else left
        if not self.is_mixed and not self.holds_adds and not self.is_settling:
            return count
        heavy = self.heavy
        for place in range(count):
            line = self.lines[self.at + place]
            if line is None or self.holds_adds and line.startswith(b"add"):
                return place
            heavy += line.startswith(HEAVY)
            if heavy > self.ahead:
                return place
            if self.is_settling and line.startswith(SETTLING):
                return place + 1
        return count

    def fitting(self, count: int, room: int) -> int:
        """How many of so many next lines have room in these bytes, each with its session's number and its line feed."""
        if count * (LINE + 5) <= room:
            return count
        for place in range(count):
            room -= len(self.prefix) + len(self.lines[self.at + place] or b"") + 1
            if room < 0:
                return place
        return count

    def next_lines(self, count: int) -> tuple[bytes, list[Group[Client]]]:
        """The bytes of the next lines for the program, which are now under way, and the groups that they make."""
        # None of those that may be sent is None.
        lines = cast("list[bytes]", self.lines[self.at : self.at + count])
        text = self.prefix + (b"\n" + self.prefix).join(lines) + b"\n"
        if self.is_moving and has_moving(text):
            groups = list(self.groups(lines))
        else:
            groups = [Group(self, count, self.count_heavy(lines), False)]
        if self.is_settling and lines[-1].startswith(SETTLING):
            self.holds_adds, self.is_settling = True, False
        self.is_keeping = False
        self.afloat += count
        for group in groups:
            self.heavy += group.heavy
        self.passed(count)
        return text, groups

    def groups(self, lines: list[bytes]) -> Iterator[Group[Client]]:
        """These lines in groups, of which none but the last line may move the session."""
        begin = 0
        ends = [end for end, line in enumerate(lines, 1) if line.startswith(MOVING)]
        for end in ends if ends[-1:] == [len(lines)] else [*ends, len(lines)]:
            some = lines[begin:end]
            moves = STORES if some[-1].startswith(STORING) else some[-1].startswith(MOVING)
            yield Group(self, len(some), self.count_heavy(some), moves)
            begin = end

    def count_heavy(self, lines: list[bytes]) -> int:
        """How many of these lines may be heavy."""
        return sum([line.startswith(HEAVY) for line in lines]) if self.is_mixed else 0

    def passed(self, count: int) -> None:
        """So many lines aren't to be sent on any more."""
        self.at += count
        if self.at == len(self.lines):
            self.lines, self.at, self.queued, self.is_mixed, self.is_moving = [], 0, 0, False, False

    def take(self, data: bytes) -> None:
        """Bytes of its replies."""
        if self.is_gone or self.is_told:
            return
        if not self.outbox.size:
            self.moved = monotonic()
        self.outbox.put(data)

    def answered(self, count: int, heavy: int, size: int) -> None:
        """All replies to lines that were sent on at once were taken: of so many lines and heavy ones, and bytes."""
        self.afloat -= count
        self.heavy -= heavy
        self.active = monotonic()
        if size > LARGE:
            self.ahead = 1
        elif heavy and size < SMALL * heavy:
            self.ahead = min(AHEAD, 2 * self.ahead)

    def send_now(self, data: bytes) -> bytes:
        """Sends bytes of its replies at once if none wait; what is left of them."""
        if self.outbox.size or self.is_gone or self.is_told:
            return data
        self.moved = monotonic()
        with suppress(OSError):
            return data[self.sock.send(data) :]
        return data

    def give(self) -> bool:
        """Sends replies as far as the client takes them; False where the connection is broken."""
        try:
            if self.outbox.give(self.sock):
                self.moved = monotonic()
        except OSError:
            return False
        return True

    def tell(self, line: bytes) -> None:
        """The last that it is told: what it sent and what is under way for it isn't answered any more."""
        if self.is_told or self.is_gone:
            return
        if not self.outbox.size:
            self.moved = monotonic()
        try:
            self.outbox.put(line)
        except Full:
            self.outbox.cut(line)
        self.silence()

    def cut(self, line: bytes) -> None:
        """There is no room for its replies: they end here, and this line says so."""
        self.outbox.cut(line)
        self.silence()

    def silence(self) -> None:
        """It had its last word."""
        self.lines, self.at, self.part, self.is_told = [], 0, b"", True

    def close(self) -> None:
        """The connection ends."""
        self.is_gone, self.is_ready = True, False
        self.lines, self.at, self.part = [], 0, b""
        self.outbox.close()
        self.sock.close()


def has_heavy(data: bytes) -> bool:
    """Whether a line of these bytes may be heavy. Each word is looked for behind one of its letters that no name and no `add` has: to look for
    that takes no time."""
    found = (Q in data and b"query" in data) or (N in data and (b"count" in data or b"clone" in data))
    return found or (P in data and (b"pull" in data or b"strip" in data))


def has_moving(data: bytes) -> bool:
    """Whether a line of these bytes may move the session, in the same way."""
    return (L in data and any([word in data for word in MOVING])) or (P in data and b"strip" in data)


def judged(line: bytes | None) -> bytes | None:
    """A line as it is sent on, None where it is too long, and nothing where it gets no reply."""
    if line is None or len(line) - line.endswith(b"\r") > LINE:
        return None
    return b"" if line in (b"", b"\r") or line.startswith(b"#") else line
