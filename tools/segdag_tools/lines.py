"""The line protocol of segdag: a line is asked and its whole reply is taken, over pipes of the program or a socket of its daemon.

    with Program([segdag, log, "--", "run"]) as program:     # lines of session 0; session=None sends them as they stand
        reply = program.ask("query all")                      # reply.ok, reply.last, reply.words, reply.lines, reply.text
        for reply in program.ask_all(["id " + name, ...]):    # sent ahead, so that nobody waits for each
    Socket(path).ask("query all")                             # the same of a daemon: its lines have no session's number
    Socket(path, patience=5)                                  # one that says nothing for five seconds is given up

A reply is whole or the caller gets `Refused`: it ends with a line feed behind a line that begins with `ok` or `err`. One that is cut off, a
program that ends, a pipe that breaks and a line that would be two are refused, with a sentence. While lines wait to be sent, replies
are read: however small the pipes are, neither side waits for the other for good. Python 3.8, its standard library alone.
"""
from __future__ import annotations

import os
import sys
from contextlib import contextmanager
from selectors import EVENT_READ, EVENT_WRITE, PollSelector
from subprocess import DEVNULL, PIPE, Popen
from time import monotonic, sleep

from .refused import Refused, end_of

# What types alone need isn't loaded, and `socket` where one is opened: it takes a seventh of a question's start.
TYPE_CHECKING = False
if TYPE_CHECKING:
    import socket
    from collections.abc import Iterable, Iterator, Sequence
    from os import PathLike
    from typing import IO, NoReturn, TypeVar

    Opened = TypeVar("Opened", bound="Connection")

AHEAD = 1_000  # lines whose replies haven't been read, at most
PIECE = 1 << 16  # bytes of one call of the system


class Reply:
    """What came back to one line: `text` is all in front of the last line, as bytes, and `last` that line without its line feed."""

    __slots__ = ("text", "last")

    def __init__(self, text: bytes, last: str) -> None:
        self.text, self.last = text, last

    @property
    def ok(self) -> bool:
        """Whether it isn't an `err`."""
        return self.last[:2] == "ok"

    @property
    def words(self) -> list[str]:
        """The words of the last line behind its `ok` or `err`."""
        return self.last.split()[1:]

    @property
    def first(self) -> str:
        """The first of these words, which the replies that are asked for it have."""
        words = self.words
        if not words:
            raise Refused(f"the program put '{self.last}', which is no reply to what was asked")
        return words[0]

    @property
    def number(self) -> int:
        """The same where it is a number."""
        if not self.first.isdecimal() or len(self.first) > 20:
            raise Refused(f"the program put '{self.last[:80]}', and a number was asked for")
        return int(self.first)

    @property
    def lines(self) -> list[str]:
        """The lines in front of the last one."""
        return self.text.decode().split("\n")[:-1]


class Connection:
    """Lines to one descriptor, replies from another; both may be one socket. What is asked has `first` in front of it."""

    name: str  # what a refusal is about
    patience: float | None = None  # seconds that nothing may come or go before the other side is given up

    def __init__(self, to: int, back: int, first: str = "") -> None:
        self.to, self.back, self.first = to, back, first
        self.unsent, self.came, self.sought, self.sent = bytearray(), bytearray(), 0, 0
        os.set_blocking(to, False)
        os.set_blocking(back, False)

    def __enter__(self: Opened) -> Opened:
        return self

    def __exit__(self, *_error: object) -> None:
        self.close()

    def ended(self) -> NoReturn:
        """Raises what there is to say where no more comes."""
        raise NotImplementedError

    def close(self) -> int:
        """Ends the connection; the status of a process."""
        raise NotImplementedError

    def ask(self, line: str) -> Reply:
        """The reply to a line, which has no line feed in it."""
        self._put(line)
        return self._reply()

    def must(self, line: str) -> Reply:
        """The same, where an `err` is refused too."""
        reply = self.ask(line)
        if not reply.ok:
            raise Refused(f"{reply.last}, answered to {line[:200]}")
        return reply

    def ask_all(self, lines: Iterable[str]) -> Iterator[Reply]:
        """The reply to each of these lines, in their order. Whoever stops in between stops asking over this connection."""
        left, waiting = iter(lines), 0
        while True:
            while waiting < AHEAD and len(self.unsent) < PIECE:
                line = next(left, None)
                if line is None:
                    break
                self._put(line)
                waiting += 1
            if not waiting:
                return
            yield self._reply()
            waiting -= 1

    def _put(self, line: str) -> None:
        text = os.fsencode(self.first + line)
        if not text or b"\n" in text or text[:1] == b"#":
            # The program gives one reply for each line, but none for one that is empty or a comment.
            raise Refused(f"no line of the program: {line[:200]!r}")
        self.unsent += text + b"\n"
        self.sent += len(text) + 1

    def _reply(self) -> Reply:
        while True:
            begin = self._last()
            end = self.came.find(b"\n", begin) + 1 if begin >= 0 else 0
            if end:
                break
            if not self._move():
                self.ended()
        reply = Reply(bytes(self.came[:begin]), os.fsdecode(bytes(self.came[begin : end - 1])))
        del self.came[:end]
        self.sought = 0
        if reply.last == "err disk":
            self.ended()
        if reply.words[:1] == ["ended"] and not reply.ok:
            self.told_end(reply)
        return reply

    def told_end(self, reply: Reply) -> NoReturn:
        """Raises the last words of a daemon whose program has ended, or that lets go of this client."""
        number = "".join(reply.words[1:])
        if not number.isascii() or not number.isdigit() or len(number) > 3:
            raise Refused(f"{self.name}: it put '{reply.last[:80]}', which is no reply")
        raise Refused(f"{self.name}: {end_of(int(number))}", int(number))

    def _last(self) -> int:
        """Where the last line of the first reply begins, or -1. No name begins with an `o`, and none has an `r`."""
        if self.came.startswith((b"ok", b"err")):
            return 0
        found = self.came.find(b"\nok", self.sought)
        other = self.came.find(b"\nerr", self.sought, found if found >= 0 else len(self.came))
        at = found if other < 0 else other
        # What may be the front of either is looked at again.
        self.sought = max(len(self.came) - 3, 0) if at < 0 else at
        return at + 1 if at >= 0 else -1

    def _move(self) -> bool:
        """Sends or reads some bytes, whichever can be done first. False where no more comes."""
        with PollSelector() as waiting:
            is_one = self.to == self.back
            waiting.register(self.back, EVENT_READ | (EVENT_WRITE if self.unsent and is_one else 0))
            if self.unsent and not is_one:
                waiting.register(self.to, EVENT_WRITE)
            events = waiting.select(self.patience)
        if not events:
            self.close()
            raise Refused(f"{self.name}: it said nothing for {self.patience:g} seconds")
        if any(event & EVENT_READ for _key, event in events):
            return self._take()
        try:
            del self.unsent[: os.write(self.to, self.unsent[:PIECE])]
        except BlockingIOError:
            pass
        except (BrokenPipeError, ConnectionError):
            # What it said before it ended is still to be read.
            self.unsent.clear()
        return True

    def _take(self) -> bool:
        try:
            piece = os.read(self.back, PIECE)
        except BlockingIOError:
            return True
        except ConnectionError:
            return False
        self.came += piece
        return bool(piece)


class Process(Connection):
    """A process that answers lines. `name` is what a refusal is about, and `held` are descriptors that it keeps open until it ends."""

    def __init__(
        self, words: Sequence[str], name: str | None = None, held: tuple[int, ...] = (), first: str = "",
        errors: int | IO[bytes] = DEVNULL, env: dict[str, str] | None = None,
    ) -> None:
        self.name = name or words[0]
        try:
            # Signals that Python ignores stay ignored: a file that may not grow is a disk that fails, and ends nobody.
            self.process = Popen(words, stdin=PIPE, stdout=PIPE, stderr=errors, pass_fds=held, env=env, bufsize=0, restore_signals=False)
        except OSError as error:
            raise Refused(f"{words[0]} can't be started: {error.strerror}") from error
        assert self.process.stdin is not None and self.process.stdout is not None
        self.input, self.output = self.process.stdin, self.process.stdout
        super().__init__(self.input.fileno(), self.output.fileno(), first)

    def ended(self) -> NoReturn:
        status = self.close()
        raise Refused(f"{self.name}: {self.sentence(status) if status else 'it ended before it replied'}", status)

    @staticmethod
    def sentence(status: int) -> str:
        """What to say of a status."""
        return f"it was ended by signal {-status}" if status < 0 else f"it ended with status {status}"

    def close(self) -> int:
        """The status. The process ends by itself when it has no more to read; what it still says is let go."""
        if not self.input.closed:
            self.input.close()
            os.set_blocking(self.back, True)
            while os.read(self.back, PIECE):
                pass
            self.output.close()
        return self.process.wait()


def environment() -> dict[str, str]:
    """The environment of the program. Its memory comes in large pages, where the system has some: a load takes a tenth less time."""
    return {"GLIBC_TUNABLES": "glibc.malloc.hugetlb=1", **os.environ}


class Program(Process):
    """A run of the program, whose words are given; what is asked goes to this session, or says itself to which."""

    def __init__(
        self, words: Sequence[str], name: str | None = None, held: tuple[int, ...] = (), session: int | None = 0, errors: int | IO[bytes] = DEVNULL
    ) -> None:
        first = "" if session is None else f"{session} "
        super().__init__(words, name or "".join(words[1:2]), held, first, errors, environment())

    @staticmethod
    def sentence(status: int) -> str:
        return end_of(status)


@contextmanager
def short(path: str) -> Iterator[str]:
    """The path of a socket in the 108 bytes that the system takes: by way of its folder, where it is longer."""
    if len(os.fsencode(path)) < 100:
        yield path
        return
    folder = os.open(os.path.dirname(path) or ".", os.O_RDONLY | os.O_DIRECTORY)
    try:
        yield f"/proc/self/fd/{folder}/{os.path.basename(path)}"
    finally:
        os.close(folder)


class Socket(Connection):
    """A connection to a daemon that listens at a path: the same lines without a session's number, the same replies."""

    def __init__(self, path: str | PathLike[str], patience: float | None = None) -> None:
        import socket

        self.name, self.socket = str(path), socket.socket(socket.AF_UNIX, socket.SOCK_STREAM)
        try:
            with short(self.name) as way:
                self._connect(way, patience)
        except OSError as error:
            self.socket.close()
            raise Refused(f"{self.name}: nobody answers: {error.strerror or error}") from error
        super().__init__(self.socket.fileno(), self.socket.fileno())
        if patience is not None:
            self.patience = patience

    def _connect(self, path: str, patience: float | None) -> None:
        """Connects. Who has patience waits for so long at a door where as many wait as may, which the system refuses at once."""
        end = monotonic() + (patience or 0)
        if patience is not None:
            self.socket.settimeout(patience)
        while True:
            try:
                return self.socket.connect(path)
            except BlockingIOError:
                if monotonic() >= end:
                    raise
            sleep(0.02)

    def ended(self) -> NoReturn:
        self.close()
        raise Refused(f"{self.name}: the daemon ended before it replied")

    def peer(self) -> int:
        """The number of the process that listens."""
        import socket

        number = self.socket.getsockopt(socket.SOL_SOCKET, socket.SO_PEERCRED, 12)[:4]
        return int.from_bytes(number, sys.byteorder)

    def close(self) -> int:
        self.socket.close()
        return 0
