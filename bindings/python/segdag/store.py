"""Stores, and the answers to their questions."""
import contextlib
import ctypes
import enum
import operator
import os
import threading
import time
from typing import Any, Callable, Generator, Iterable, Iterator, List, NamedTuple, Optional, Sequence, Tuple, Type, Union

from . import _library
from ._library import ID_SIZE, Ids, Options, ProgressCall, RawDistance, RawSizes, Text, library
from .errors import Argument, Cancelled, Forked, Locked, check

Path = Union[str, "os.PathLike[str]"]

# So many ids are taken from the library at once.
_BLOCK = 4096

# So many seconds are between two looks at a lock that another store has.
_PAUSE = 0.005


class Sizes(NamedTuple):
    """How many commits there are in master, outside of it, and pending."""

    master: int
    others: int
    pending: int = 0


class Distance(NamedTuple):
    """How many commits the first of a pair reaches that the second doesn't, and the other way round."""

    ahead: int
    behind: int


class Stage(enum.IntEnum):
    """What a call is doing when it tells how far it has come: it waits for the log's lock, reads a file, is to build the log's tables, or answers."""

    LOCK = 1
    READ = 2
    LOAD = 3
    ANSWER = 4


class Progress(NamedTuple):
    """How much is done of the whole, which is 0 where it isn't known: milliseconds of a wait, bytes, or answers."""

    stage: Stage
    done: int
    whole: int


Told = Callable[[Progress], object]


class _Watch:
    """Who is told how far calls on a store have come, of which there is one at a time. What he raises cancels the call, which raises it in its
    place."""

    def __init__(self, told: Optional[Told] = None) -> None:
        self._raised: Optional[BaseException] = None
        self._asking: Optional[int] = None
        self.call = ProgressCall()
        if told:
            answers = self._answers(told)
            next(answers)
            self.call = ProgressCall(answers.send)

    def _answers(self, told: Told) -> "Generator[bool, ctypes._Pointer[_library.RawProgress], None]":
        """Whether each call that tells its progress is to be cancelled. It waits within `try`, so that a signal's exception, which comes first of
        all when the library calls, is raised there, and isn't lost where ctypes can't hand it on."""
        is_cancelled = False
        while True:
            try:
                progress = (yield is_cancelled).contents
                self._asking = threading.get_ident()
                is_cancelled = bool(told(Progress(Stage(progress.stage), progress.done, progress.whole)))
            except GeneratorExit:
                return
            except BaseException as raised:
                self._raised, is_cancelled = raised, True
            finally:
                self._asking = None

    def begin(self) -> None:
        """Refuses a call on the store that this thread makes while it is told how far another one has come."""
        if self._asking == threading.get_ident():
            raise Argument("a progress call can't use the same store")

    def end(self) -> Optional[BaseException]:
        """What was raised meanwhile, if anything."""
        raised, self._raised = self._raised, None
        return raised


def _check(code: int, raised: Optional[BaseException]) -> None:
    """Raises what was raised meanwhile, or why the last call of this thread failed, if it did."""
    if raised is not None:
        raise raised
    check(code)


def _number(value: int, what: str, least: int, most: int) -> int:
    """The number, if it is one within these bounds."""
    number = operator.index(value)
    if not least <= number <= most:
        raise Argument(f"{what} has to be from {least} to {most}, and is {number}")
    return number


def _session(session: int) -> int:
    return _number(session, "a session", 0, 15)


def _path(path: Path) -> bytes:
    encoded = os.fsencode(path)
    if b"\0" in encoded:
        raise Argument("a path can't have a NUL")
    return encoded


def _id(id: bytes) -> bytes:
    if not isinstance(id, (bytes, bytearray, memoryview)):
        raise TypeError(f"an id has to be bytes, and is {type(id).__name__}")
    if len(id) != ID_SIZE:
        raise Argument(f"an id has to have {ID_SIZE} bytes, and has {len(id)}")
    return bytes(id)


def _joined(ids: Iterable[bytes]) -> Tuple[bytes, int]:
    all_of = [_id(id) for id in ids]
    return b"".join(all_of), len(all_of)


def _sizes(made: RawSizes) -> Sizes:
    return Sizes(made.master, made.others, made.pending)


@contextlib.contextmanager
def _answer(kind: Type[ctypes.Structure], free: Callable[..., None]) -> Iterator[ctypes.Structure]:
    """Room for what a call answers, which is let go behind it."""
    made = kind()
    try:
        yield made
    finally:
        free(ctypes.byref(made))


def _given(store: object, made: ctypes.c_void_p) -> int:
    """Puts a store there that was opened before."""
    ctypes.memmove(store, ctypes.byref(made), ctypes.sizeof(made))
    return 0


class Members(Iterator[bytes]):
    """The ids of an expression's members, the greatest number first, as they were when it was asked, whatever becomes of the store. They are
    taken from the library a block at a time; `close` lets the rest go, as the end of a `with` does. `len` is how many are left."""

    def __init__(self, cursor: ctypes.c_void_p) -> None:
        self._cursor, self._block, self._at, self._lock = cursor, b"", 0, threading.Lock()

    def __iter__(self) -> "Members":
        return self

    def __next__(self) -> bytes:
        with self._lock:
            if self._at == len(self._block) and not self._more():
                raise StopIteration
            self._at += ID_SIZE
            return self._block[self._at - ID_SIZE : self._at]

    def _more(self) -> bool:
        """Takes the next block, if there is one."""
        if not self._cursor:
            return False
        room, count = ctypes.create_string_buffer(_BLOCK * ID_SIZE), ctypes.c_size_t()
        check(library.segdag_cursor_next(self._cursor, room, _BLOCK, ctypes.byref(count)))
        self._block, self._at = room.raw[: count.value * ID_SIZE], 0
        if count.value == 0:
            self._free()
        return count.value > 0

    def __len__(self) -> int:
        with self._lock:
            return (len(self._block) - self._at) // ID_SIZE + (library.segdag_cursor_left(self._cursor) if self._cursor else 0)

    def __repr__(self) -> str:
        return f"<segdag.Members: {len(self)} left>"

    def __enter__(self) -> "Members":
        return self

    def __exit__(self, *raised: object) -> None:
        self.close()

    def __del__(self) -> None:
        if getattr(self, "_cursor", None):
            self._free()

    def _free(self) -> None:
        cursor, self._cursor = self._cursor, ctypes.c_void_p()
        library.segdag_cursor_close(cursor)

    def close(self) -> None:
        """Lets the rest go, which may be done twice."""
        with self._lock:
            self._block, self._at = b"", 0
            self._free()


class Store:
    """An open log. `session`, 0 to 15, is whose pending commits and version a call works on."""

    def __init__(self, path: Path, opens: Callable[[object], int], mirrors: Iterable[str] = (), watch: Optional[_Watch] = None) -> None:
        """The store that a call of the library opens, which is told where to put it."""
        self._store, self._process, self._lock, self.path = ctypes.c_void_p(), os.getpid(), threading.Lock(), os.fspath(path)
        self._watch = watch or _Watch()
        _check(opens(ctypes.byref(self._store)), self._watch.end())
        for word in mirrors:
            self.add_mirror(word)

    def __repr__(self) -> str:
        return f"<segdag.{type(self).__name__} {self.path!r}, {'open' if self._store else 'closed'}>"

    def __enter__(self) -> "Store":
        return self

    def __exit__(self, *raised: object) -> None:
        self.close()

    def __del__(self) -> None:
        if getattr(self, "_store", None):
            self.close()

    def __reduce_ex__(self, protocol: object) -> str:
        raise TypeError("a store can't be copied: open the log again, or follow it")

    def close(self) -> None:
        """Closes it, which may be done twice. What wasn't flushed is gone. A process that was forked off lets go of the file alone."""
        self._watch.begin()
        with self._lock if os.getpid() == self._process else contextlib.nullcontext():
            store, self._store = self._store, ctypes.c_void_p()
            library.segdag_store_close(store)

    @property
    def is_closed(self) -> bool:
        return not self._store

    def _call(self, function: Callable[..., int], *arguments: object) -> None:
        """Makes a call with the store, which no other thread closes meanwhile. In a process that was forked off the lock may be held by
        a thread that isn't there."""
        if os.getpid() != self._process:
            raise Forked
        self._watch.begin()
        with self._lock:
            code, raised = function(self._store, *arguments), self._watch.end()
        _check(code, raised)

    def _told(self, function: Callable[..., int], session: int, *arguments: object) -> int:
        number = ctypes.c_uint64()
        self._call(function, _session(session), *arguments, ctypes.byref(number))
        return number.value

    def _sized(self, function: Callable[..., int], session: int, *arguments: object) -> Sizes:
        sizes = RawSizes(ctypes.sizeof(RawSizes))
        self._call(function, _session(session), *arguments, ctypes.byref(sizes))
        return _sizes(sizes)

    # ---- the store

    def line(self, line: str) -> str:
        """The reply to a line of the command language, as the program puts it; a refusal is one."""
        text = line.encode()
        with _answer(Text, library.segdag_text_free) as reply:
            self._call(library.segdag_store_line, text, len(text), ctypes.byref(reply))
            return ctypes.string_at(reply.bytes, reply.size).decode()

    def add_mirror(self, word: Path) -> None:
        """Adds a mirror: a log that this one may be a clone of, by its path, or `bundle:PATH`. Its file is read now, before each clone and
        pull, and where all mirrors failed another call, which is then made once more."""
        self._call(library.segdag_mirror_add, _path(word))

    def follow(self) -> "Follower":
        """One more reader of this log in this process, beside the same mirrors."""
        made = ctypes.c_void_p()
        self._call(library.segdag_store_follow, ctypes.byref(made))
        return Follower(self.path, lambda store: _given(store, made))

    # ---- changes

    def add(self, id: bytes, parents: Sequence[bytes] = (), session: int = 0) -> int:
        """Adds a pending commit, and gives its number; one that is there with the same parents stays as it is."""
        joined, count = _joined(parents)
        return self._told(library.segdag_commit_add, session, _id(id), joined, count)

    def flush(self, *heads: bytes, session: int = 0) -> Sizes:
        """Stores the pending commits, and moves what the heads reach to master. It is on the disk when this returns."""
        return self._sized(library.segdag_session_flush, session, *_joined(heads))

    def strip(self, *ids: bytes, session: int = 0) -> Sizes:
        """Removes these commits outside of master, and their descendants."""
        return self._sized(library.segdag_session_strip, session, *_joined(ids))

    def clone(self, session: int = 0) -> Sizes:
        """Stores a mirror's master in a log that has nothing."""
        return self._sized(library.segdag_session_clone, session)

    def pull(self, session: int = 0) -> Sizes:
        """Stores what is new in a mirror's master."""
        return self._sized(library.segdag_session_pull, session)

    def reload(self, session: int = 0) -> int:
        """Takes the session to the newest version, and gives how many pending commits it keeps."""
        return self._told(library.segdag_session_reload, session)

    def discard(self, session: int = 0) -> int:
        """Lets the pending commits go, and gives how many they were."""
        return self._told(library.segdag_session_discard, session)

    # ---- questions

    def sizes(self, session: int = 0) -> Sizes:
        """How many commits the session works on."""
        return self._sized(library.segdag_session_sizes, session)

    def number(self, id: bytes, session: int = 0) -> int:
        """The number of a commit. Numbers of those outside of master are OTHERS and more."""
        return self._told(library.segdag_commit_number, session, _id(id))

    def id(self, number: int, session: int = 0) -> bytes:
        """The id of the commit with this number."""
        id = ctypes.create_string_buffer(ID_SIZE)
        self._call(library.segdag_commit_id, _session(session), _number(number, "a number of a commit", 0, 2**64 - 1), id)
        return id.raw

    def count(self, expression: str, session: int = 0) -> int:
        """How many members an expression has."""
        text = expression.encode()
        return self._told(library.segdag_query_count, session, text, len(text))

    def query(self, expression: str, session: int = 0) -> Members:
        """The ids of an expression's members, the greatest number first, as they are now."""
        text, cursor = expression.encode(), ctypes.c_void_p()
        self._call(library.segdag_query_open, _session(session), text, len(text), ctypes.byref(cursor))
        return Members(cursor)

    def merge_bases(self, a: bytes, b: bytes, session: int = 0) -> List[bytes]:
        """The merge bases of two commits: what both reach, and nothing else that both reach does."""
        with _answer(Ids, library.segdag_ids_free) as ids:
            self._call(library.segdag_commit_merge_bases, _session(session), _id(a), _id(b), ctypes.byref(ids))
            found = ctypes.string_at(ids.ids, ids.count * ID_SIZE) if ids.count else b""
        return [found[at : at + ID_SIZE] for at in range(0, len(found), ID_SIZE)]

    def is_ancestor(self, a: bytes, b: bytes, session: int = 0) -> bool:
        """Whether a is b or an ancestor of b."""
        answer = ctypes.c_bool()
        self._call(library.segdag_commit_is_ancestor, _session(session), _id(a), _id(b), ctypes.byref(answer))
        return answer.value

    def ahead_behind(self, pairs: Iterable[Tuple[bytes, bytes]], session: int = 0) -> List[Distance]:
        """Of each pair, how many commits the first reaches that the second doesn't, and the other way round."""
        joined, count = _joined(id for a, b in pairs for id in (a, b))
        distances, done = (RawDistance * max(1, count // 2))(), ctypes.c_size_t()
        self._call(library.segdag_commit_ahead_behind, _session(session), joined, count // 2, distances, ctypes.byref(done))
        return [Distance(it.ahead, it.behind) for it in distances[: done.value]]


class Follower(Store):
    """A log that another store may be writing, opened without its lock and for asking it alone: a flush, a strip, a clone and a pull are
    refused as ReadOnly. What was stored since is taken by `refresh` and by each reload, which raise Replaced where another file stands at
    the path by then, and NoLog where the file is no log any more; it answers what it had all the same."""

    def __enter__(self) -> "Follower":
        return self

    def refresh(self) -> int:
        """Takes what was stored since, and gives how many changes came. Each session stays where it is until it is reloaded."""
        count = ctypes.c_uint64()
        self._call(library.segdag_store_refresh, ctypes.byref(count))
        return count.value


def open(
    path: Path,
    *,
    log: Optional[str] = None,
    create: bool = False,
    read_only: bool = False,
    any_file: bool = False,
    wait: Optional[float] = 0,
    cache: int = 4096,
    most_bytes: int = 2**30,
    mirrors: Iterable[str] = (),
    progress: Optional[Told] = None,
) -> Store:
    """Opens the log at this path with its lock, beside these mirrors. It has to be there, unless `create`. `wait` is how many seconds to wait
    at most while another store has it, None for ever. `read_only` takes it beside others that only read; `any_file`
    takes a file that begins as no log does for one in which nothing is stored, and the first change writes over it. `progress` is told how far
    this call and later ones have come, by the thread that makes them: where it answers something true the call raises Cancelled, and what
    it raises the call raises. It makes no call on this store.

    A path `postgresql://..` is a database, in which the log is the one named `log`; `create` makes it where it isn't there."""
    if _is_database(path, log):
        if read_only or any_file or wait != 0 or progress:
            raise ValueError("read_only, any_file, wait and progress can't be used with a log in a database")
        return _databases().opened(path, log, create, cache=cache, mirrors=mirrors)
    flags = _library.CREATE * bool(create) | _library.READ_ONLY * bool(read_only) | _library.ANY_FILE * bool(any_file)
    _number(0 if wait is None else int(1000 * wait), "milliseconds of a wait", 0, 2**32 - 1)
    watch, began = _Watch(progress), time.monotonic()
    opening = _opening(path, flags, cache, most_bytes, watch)
    while True:
        try:
            return Store(path, opening, mirrors, watch)
        except Locked:
            waited = time.monotonic() - began
            if wait is not None and waited >= wait:
                raise
        if progress and progress(Progress(Stage.LOCK, int(1000 * waited), int(1000 * (wait or 0)))):
            raise Cancelled("the wait for the lock was cancelled")
        time.sleep(_PAUSE)


def follow(
    path: Path,
    *,
    log: Optional[str] = None,
    cache: int = 4096,
    most_bytes: int = 2**30,
    mirrors: Iterable[str] = (),
    progress: Optional[Told] = None,
) -> Follower:
    """Follows the log at this path, which has to be there, beside whoever writes it, and beside these mirrors; `progress` is that of `open`, and so is a
    path that is a database with the name of its log."""
    if _is_database(path, log):
        if progress:
            raise ValueError("progress can't be used with a log in a database")
        return _databases().follow(path, log, cache=cache, mirrors=mirrors)
    watch = _Watch(progress)
    return Follower(path, _opening(path, _library.FOLLOW, cache, most_bytes, watch), mirrors, watch)


def _is_database(path: Path, log: Optional[str]) -> bool:
    """Whether the path is the URL of a database, which has logs by their names; a file is one log."""
    found = isinstance(path, str) and path.startswith(("postgresql://", "postgres://"))
    if found != (log is not None):
        raise ValueError("log= is missing: a log in a database has a name" if found else "log= names a log in a database, and this is a file")
    return found


def _databases() -> Any:
    """The module that opens logs in databases, which a program that has files alone needs not."""
    try:
        import segdag_postgres  # pylint: disable=import-outside-toplevel,import-error
    except ModuleNotFoundError as error:
        raise ImportError("logs in databases need the module segdag_postgres, of the package segdag-postgres or bindings/postgres") from error
    return segdag_postgres


def _opening(path: Path, flags: int, cache: int, most_bytes: int, watch: _Watch) -> Callable[[object], int]:
    """The call of the library that opens a log so. It doesn't wait: a signal would have to."""
    options = Options(
        ctypes.sizeof(Options),
        flags,
        0,
        _number(cache, "a cache", 1, 65536),
        _number(most_bytes, "a limit of bytes", 1, 2**30),
        watch.call,
    )
    encoded = _path(path)
    return lambda store: library.segdag_store_open(encoded, ctypes.byref(options), store)
