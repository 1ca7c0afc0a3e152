"""A store of a daemon: the calls of segdag.Store by lines over a Unix socket."""
import fcntl
import os
import re
import socket
import threading
from contextlib import contextmanager
from typing import Callable, Dict, Iterable, Iterator, List, NamedTuple, NoReturn, Optional, Sequence, Tuple, Type, TypeVar

from ._library import OTHERS, library
from .errors import _CLASSES, Argument, Closed, Error, Forked, NoLog, NotOpened, Refusal
from .store import Distance, Path, Sizes, _id

# So many lines are sent ahead of their replies at most: both have room in a socket then.
_AHEAD = 64

# A commit's name in a refusal.
_NAME = re.compile("[0-9a-f]{40}")

# Bytes of a path that the system takes.
_SHORT = 100

_ENDS = {
    0: "the daemon is stopping",
    3: "the log's disk failed; every acknowledged change is stored",
    4: "the log is damaged, longer than 2^30 bytes, or not a log",
    7: "the daemon has too little memory",
    8: "commits were pending for too long: connect again",
    9: "the log can't be opened",
    17: "the connection was idle, its session was lent to another client, and the store has changed since: connect again",
    18: "the file at the log's path is not a log",
    19: "the log was removed or replaced: connect again",
    20: "too many replies were waiting to be read",
    23: "the database can't be reached: the change may be stored; connect again to see",
    24: "the database can't be reached: the change isn't stored",
    25: "another writer stored at the same place: the change isn't stored; connect again",
    26: "the database went back behind what was read from it",
    27: "the database refuses a statement",
}


T = TypeVar("T")


class Ended(Error):
    """The daemon has let go of the connection, or is gone: connect again. `number` is that of its `err ended N`; None where it said nothing."""

    name = "ended"

    def __init__(self, text: str, number: Optional[int] = None) -> None:
        super().__init__(text)
        self.number = number


class NoRight(Refusal):
    """Who connects may not do this with the log, by the daemon's configuration."""

    name = "rights"


# What a refusal is raised as, by its words; those of `use` are of files and names.
_BY_WORDS: Dict[str, Type[Error]] = {library.segdag_code_name(code).decode(): kind for code, kind in _CLASSES.items()}
_BY_WORDS.update({"rights": NoRight, "use rights": NoRight, "use name": Argument, "use file": NotOpened, "open file": NotOpened, "use damaged": NoLog})


class _Reply(NamedTuple):
    """The lines in front of the last one, and the words of that behind its `ok`."""

    lines: List[bytes]
    words: List[str]


def _refuse(text: str) -> NoReturn:
    """Raises what the daemon refuses with, as in "unknown 00..07"."""
    words = text.split() or [""]
    bare = words[1:] if words[0] in ("use", "open") else words
    named = (" ".join(words[:2]), " ".join(bare[:2]), bare[0] if bare else "")
    kind = next((_BY_WORDS[name] for name in named if name in _BY_WORDS), Refusal)
    id = next((bytes.fromhex(word) for word in words[1:] if _NAME.fullmatch(word)), None)
    raise kind(text, id)


def _bytes_of(line: str) -> bytes:
    """A line as it is sent; a name of a file that is no UTF-8 is spelled as Python has it."""
    if not line or line.startswith(("#", "\r")) or "\n" in line:
        raise Argument(f"not a line that the daemon takes: {line[:100]!r}")
    try:
        return f"{line}\n".encode("utf-8", "surrogateescape")
    except UnicodeEncodeError as failed:
        raise Argument(f"not a line that the daemon takes: {line[:100]!r}") from failed


def _number(word: str) -> int:
    """A number of a commit, of which those outside of master are told as N0, N1 and so on."""
    return OTHERS + int(word[1:]) if word.startswith("N") else int(word)


@contextmanager
def _short(path: str) -> Iterator[str]:
    """The path of a socket as the system takes it: by way of its folder, where it is long."""
    if len(os.fsencode(path)) < _SHORT:
        yield path
        return
    folder = os.open(os.path.dirname(path) or ".", os.O_PATH | os.O_DIRECTORY | os.O_CLOEXEC)
    try:
        yield f"/proc/self/fd/{folder}/{os.path.basename(path)}"
    finally:
        os.close(folder)


def _high_socket() -> socket.socket:
    """A socket that is none of the three standard descriptors: a process that closed its own may write there all the same."""
    made = socket.socket(socket.AF_UNIX, socket.SOCK_STREAM)
    if made.fileno() > 2:
        return made
    with made:
        return socket.socket(fileno=fcntl.fcntl(made.fileno(), fcntl.F_DUPFD_CLOEXEC, 3))


class Connection:
    """A session of a daemon's log: pending commits and a version of its own. For any thread, one call at a time, and no process that is forked
    off. What the daemon refuses is raised as a store raises it. Where the daemon lets go of the connection that is Ended, and the next call
    needs another connection."""

    def __init__(self, path: Path, log: Optional[str] = None, patience: Optional[float] = None) -> None:
        self.path, self.log, self._process, self._lock = os.fspath(path), log, os.getpid(), threading.Lock()
        self._socket = _high_socket()
        self._socket.settimeout(patience)
        try:
            with _short(str(self.path)) as short:
                self._socket.connect(short)
        except OSError as failed:
            self._socket.close()
            raise NotOpened(f"{self.path}: {failed.strerror or failed}", errno=failed.errno or 0, call="connect") from failed
        self._replies = self._socket.makefile("rb")
        if log is not None:
            try:
                self._ask(f"use {log}", lambda reply: reply)
            except BaseException:
                self.close()
                raise

    def __repr__(self) -> str:
        return f"<segdag.Connection {self.path!r}, {self.log!r}, {'closed' if self.is_closed else 'open'}>"

    def __enter__(self) -> "Connection":
        return self

    def __exit__(self, *raised: object) -> None:
        self.close()

    def close(self) -> None:
        """Closes it, which may be done twice. What wasn't flushed is gone."""
        if not self.is_closed:
            self._replies.close()
            self._socket.close()

    @property
    def is_closed(self) -> bool:
        return self._socket.fileno() < 0

    # ---- lines

    def _end(self, text: str, number: Optional[int] = None) -> NoReturn:
        self.close()
        raise Ended(f"{self.path}: {text}", number)

    def _reply(self) -> Tuple[List[bytes], str]:
        """The lines of the next reply, and the last one."""
        lines: List[bytes] = []
        while True:
            line = self._replies.readline()
            if not line.endswith(b"\n"):
                self._end("the daemon ended without a reply")
            if line.startswith((b"ok", b"err")):
                last = line[:-1].decode("utf-8", "replace")
                break
            lines.append(line[:-1])
        if last.startswith("err ended "):
            number = int(last.split()[-1]) if last.split()[-1].isdigit() else None
            self._end(_ENDS.get(number if number is not None else -1, last), number)
        return lines, last

    def _told(self, lines: Sequence[str]) -> Iterator[Tuple[List[bytes], str]]:
        """The replies to a few lines, which are sent ahead."""
        sent = [_bytes_of(line) for line in lines]
        if os.getpid() != self._process:
            raise Forked
        with self._lock:
            if self.is_closed:
                raise Closed
            try:
                for at in range(0, len(sent), _AHEAD):
                    some = sent[at : at + _AHEAD]
                    self._socket.sendall(b"".join(some))
                    for _ in some:
                        yield self._reply()
            except OSError as failed:
                self._end(str(failed.strerror or failed))
            except BaseException:
                # The replies that are still to come are nobody's.
                self.close()
                raise

    def _ask_all(self, lines: Sequence[str], read: Callable[[_Reply], T]) -> List[T]:
        """What is read of the replies to these lines; where one can't be read, the daemon isn't one."""
        told = list(self._told(lines))
        for _, last in told:
            if not last.startswith("ok"):
                _refuse(last[4:])
        try:
            return [read(_Reply(lines, last.split()[1:])) for lines, last in told]
        except (ValueError, IndexError, TypeError):
            self._end("a reply can't be read: no daemon of segdag listens here")

    def _ask(self, line: str, read: Callable[[_Reply], T]) -> T:
        return self._ask_all([line], read)[0]

    def line(self, line: str) -> str:
        """The reply to a line of the command language without a session's number; a refusal is one."""
        (lines, last), = self._told([line])
        return "".join(name.decode("utf-8", "replace") + "\n" for name in lines) + last + "\n"

    # ---- changes

    def add(self, id: bytes, parents: Sequence[bytes] = ()) -> int:
        """Adds a pending commit, and gives its number; one that is there with the same parents stays as it is."""
        return self._ask(" ".join(["add", *(_id(one).hex() for one in (id, *parents))]), lambda reply: _number(reply.words[1]))

    def _changed(self, verb: str, ids: Iterable[bytes] = ()) -> Sizes:
        return self._ask(" ".join([verb, *(_id(id).hex() for id in ids)]), lambda reply: Sizes(*map(int, reply.words[1:]), *[0] * (3 - len(reply.words))))

    def flush(self, *heads: bytes) -> Sizes:
        """Stores the pending commits, and moves what the heads reach to master. It is on the disk when this returns."""
        return self._changed("flush", heads)

    def strip(self, *ids: bytes) -> Sizes:
        """Removes these commits outside of master, and their descendants."""
        return self._changed("strip", ids)

    def clone(self) -> Sizes:
        """Stores a mirror's master in a log that has nothing."""
        return self._changed("clone")

    def pull(self) -> Sizes:
        """Stores what is new in a mirror's master."""
        return self._changed("pull")

    def reload(self) -> int:
        """Takes the session to the newest version, and gives how many pending commits it keeps."""
        return self._ask("reload", lambda reply: int(reply.words[1]))

    def discard(self) -> int:
        """Lets the pending commits go, and gives how many they were."""
        return self._ask("discard", lambda reply: int(reply.words[1]))

    # ---- questions

    def sizes(self) -> Sizes:
        """How many commits the session works on."""
        return self._ask("status", lambda reply: Sizes(*map(int, reply.words)))

    def number(self, id: bytes) -> int:
        """The number of a commit. Numbers of those outside of master are OTHERS and more."""
        return self._ask(f"id {_id(id).hex()}", lambda reply: _number(reply.words[0]))

    def count(self, expression: str) -> int:
        """How many members an expression has."""
        return self._ask(f"count {expression}", lambda reply: int(reply.words[0]))

    def query(self, expression: str) -> List[bytes]:
        """The ids of an expression's members, the greatest number first."""
        return self._ask(f"query {expression}", lambda reply: [bytes.fromhex(name.decode()) for name in reply.lines])

    def merge_bases(self, a: bytes, b: bytes) -> List[bytes]:
        """The merge bases of two commits: what both reach, and nothing else that both reach does."""
        return self.query(f"gca(union({_id(a).hex()},{_id(b).hex()}))")

    def is_ancestor(self, a: bytes, b: bytes) -> bool:
        """Whether a is b or an ancestor of b."""
        return self.count(f"inter({_id(a).hex()},ancestors({_id(b).hex()}))") == 1

    def ahead_behind(self, pairs: Iterable[Tuple[bytes, bytes]]) -> List[Distance]:
        """Of each pair, how many commits the first reaches that the second doesn't, and the other way round."""
        named = [(_id(a).hex(), _id(b).hex()) for a, b in pairs]
        lines = [f"count only({one},{other})" for a, b in named for one, other in ((a, b), (b, a))]
        counts = self._ask_all(lines, lambda reply: int(reply.words[0]))
        return [Distance(*both) for both in zip(counts[::2], counts[1::2])]


def connect(path: Path, *, log: Optional[str] = None, patience: Optional[float] = None) -> Connection:
    """Connects to the socket of a daemon, and to the log of this name where it serves many. `patience` is how many seconds nothing has to come
    at most, None for ever."""
    return Connection(path, log, patience)
