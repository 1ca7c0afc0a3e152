"""The rights of the files beside the log: those that git gives its own by core.sharedRepository."""
from __future__ import annotations

import os
import stat
from contextlib import contextmanager, suppress

from .repository import config

# What types alone need isn't loaded.
TYPE_CHECKING = False
if TYPE_CHECKING:
    from collections.abc import Iterator

GROUP, ALL = 0o660, 0o664
# A log in which nothing is stored. Of an empty file the program makes sure of the entry first, by the file's whole path, which it only can where
# that is UTF-8: here it is done for it.
NO_CHANGE = b"\0"
WORDS = {"umask": 0, "group": GROUP, "all": ALL, "world": ALL, "everybody": ALL, "0": 0, "1": GROUP, "2": ALL}


def rights(common: str) -> int:
    """What files of the repository get besides the umask's rights; below zero, the rights that they have in place of these."""
    value = config(os.path.join(common, "config"), "core.sharedrepository")
    if value is None:
        return 0
    if value in WORDS:
        return WORDS[value]
    try:
        number = int(value, 8)
    except ValueError:
        return GROUP if value.lower() in ("true", "yes", "on") else 0
    # Git reads no repository in which the owner couldn't write.
    return {0: 0, 1: GROUP, 2: ALL}.get(number, -(number & 0o666))


def shared(mode: int, given: int) -> int:
    """The mode that git gives a file or folder that has this one."""
    more = abs(given)
    if not mode & stat.S_IWUSR:
        more &= ~0o222
    if mode & stat.S_IXUSR:
        more |= (more & 0o444) >> 2
    mode = mode & ~0o777 | more if given < 0 else mode | more
    if stat.S_ISDIR(mode):
        mode |= (mode & 0o444) >> 2
        mode |= stat.S_ISGID if mode & 0o060 else 0
    return mode


def share(path: str, given: int) -> None:
    """Gives a new file or folder the rights that git would give it."""
    if given:
        mode = os.stat(path).st_mode
        if shared(mode, given) != mode:
            os.chmod(path, stat.S_IMODE(shared(mode, given)))


def made(path: str, given: int, content: bytes = b"") -> None:
    """Makes a file with these rights, neither more nor fewer at any moment. Nothing where it is there."""
    import tempfile  # It takes milliseconds to load, which a question doesn't pay.

    mask = os.umask(0o077)
    os.umask(mask)
    place, fresh = tempfile.mkstemp(dir=os.path.dirname(path))
    try:
        os.write(place, content)
        os.fchmod(place, 0o666 & ~mask)
        share(fresh, given)
        with suppress(FileExistsError):
            os.link(fresh, path)
    finally:
        os.close(place)
        os.unlink(fresh)


def keep_entries(folder: str) -> None:
    """Makes sure of the names of the files in a folder."""
    place = os.open(folder, os.O_RDONLY)
    try:
        os.fsync(place)
    finally:
        os.close(place)


@contextmanager
def as_(path: str) -> Iterator[None]:
    """Files that are made meanwhile have no right that this file hasn't."""
    mask = os.umask(~os.stat(path).st_mode & 0o777)
    try:
        yield
    finally:
        os.umask(mask)
