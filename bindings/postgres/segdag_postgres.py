"""Logs in PostgreSQL, for any number of writers on any machines.

    import segdag

    with segdag.open("postgresql://forge@primary,standby/logs", log="main") as store:
        store.add(child, [parent])
        store.flush(child)                      # is stored on the primary, and on its synchronous standby where it has one
    with segdag.follow("postgresql://reader@standby/logs", log="main") as reader:
        reader.wait(30)                         # until something was stored, or for half a minute
        reader.reload()

`segdag` goes to `open` and `follow` of this module where a path is such a URL. What is opened is a segdag.Store or a segdag.Follower, and raises the errors of `segdag`, whose text has what the database said; Unsure, Gone,
Raced, Stale and Database are for these alone. The library is libsegdag_postgres.so, which has all that libsegdag.so has: SEGDAG_LIBRARY is
its path.
"""
import ctypes
from contextlib import suppress
from typing import Callable, Iterable

from segdag import Follower, NotEmpty, Store
from segdag._library import library
from segdag.errors import check


def _load() -> ctypes.CDLL:
    """The library's calls with their types."""
    if not hasattr(library, "segdag_postgres_open"):
        raise ImportError("the library was built without PostgreSQL: set SEGDAG_LIBRARY to the path of libsegdag_postgres.so")
    text, store, number = ctypes.c_char_p, ctypes.c_void_p, ctypes.c_uint32
    for name, arguments in {
        "create": [text, text],
        "open": [text, text, number, ctypes.POINTER(store)],
        "follow": [text, text, number, ctypes.POINTER(store)],
        "wait": [store, number, ctypes.POINTER(ctypes.c_uint64)],
        "patience": [store, number],
    }.items():
        call = getattr(library, f"segdag_postgres_{name}")
        call.argtypes, call.restype = arguments, ctypes.c_int
    return library


_library = _load()


class _Database:
    """What a store over a database has beside others."""

    _call: Callable[..., None]

    def patience(self, seconds: float) -> None:
        """For how long it tries to get a connection again, and waits for what came to be sure."""
        self._call(_library.segdag_postgres_patience, int(seconds * 1000))

    def wait(self, seconds: float) -> int:
        """Waits until something was stored, for so long at most, and gives how many changes came."""
        count = ctypes.c_uint64()
        self._call(_library.segdag_postgres_wait, int(seconds * 1000), ctypes.byref(count))
        return count.value


class DatabaseStore(_Database, Store):
    """A log in PostgreSQL, opened for writing beside other writers."""


class DatabaseFollower(_Database, Follower):
    """A log in PostgreSQL, opened for asking it alone, over a primary or a standby."""


def create(conninfo: str, log: str) -> None:
    """Makes an empty log of this name; NotEmpty where there is one."""
    check(_library.segdag_postgres_create(conninfo.encode(), log.encode()))


def open(conninfo: str, log: str, *, cache: int = 4096, mirrors: Iterable[str] = ()) -> DatabaseStore:
    """Opens the log of this name for writing, beside these mirrors."""
    return DatabaseStore(log, lambda store: _library.segdag_postgres_open(conninfo.encode(), log.encode(), cache, store), mirrors)


def opened(conninfo: str, log: str, made: bool, *, cache: int, mirrors: Iterable[str]) -> DatabaseStore:
    """The same for `segdag.open`, which makes the log before where it is asked to and there is none."""
    if made:
        with suppress(NotEmpty):
            create(conninfo, log)
    return open(conninfo, log, cache=cache, mirrors=mirrors)


def follow(conninfo: str, log: str, *, cache: int = 4096, mirrors: Iterable[str] = ()) -> DatabaseFollower:
    """Follows the log of this name, beside these mirrors."""
    return DatabaseFollower(log, lambda store: _library.segdag_postgres_follow(conninfo.encode(), log.encode(), cache, store), mirrors)
