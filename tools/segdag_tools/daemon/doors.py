"""The door of segdagd: its listening socket, and the files by which it alone holds that and the log."""
from __future__ import annotations

import errno
import fcntl
import os
import socket
import stat
from contextlib import suppress
from time import monotonic, sleep

from ..lines import short
from ..refused import Refused

SESSIONS = 16
LAST = 5  # seconds in which a run ends by itself whose daemon was killed
WAITING = 4096  # connections that wait at the door
RUNNING = 16  # the status where another program works on the log


class Door:
    """The listening socket, with the path that it is at where it is the daemon's own."""

    def __init__(self, sock: socket.socket, path: str | None = None) -> None:
        self.sock, self.path = sock, path
        sock.setblocking(False)
        self.place = place_of(path) if path else None

    def shut(self) -> list[socket.socket]:
        """Takes the path away, and answers the sockets of those who had come by then."""
        if self.path is None:
            return []
        if place_of(self.path) == self.place:
            with suppress(OSError):
                os.unlink(self.path)
        came: list[socket.socket] = []
        with suppress(OSError):
            while len(came) < SESSIONS:
                came.append(self.sock.accept()[0])
        self.sock.close()
        return came


def place_of(path: str) -> tuple[int, int, int] | None:
    """Which entry stands at a path, a link too, or None."""
    try:
        found = os.lstat(path)
    except OSError:
        return None
    return found.st_dev, found.st_ino, found.st_mode


def locked(path: str, seconds: float, group: int | None) -> int | None:
    """A descriptor by which this process alone holds a file, or None where another one goes on holding it. Who is of the group may hold it
    later."""
    try:
        place = os.open(path, os.O_RDWR | os.O_CREAT | os.O_NOFOLLOW, 0o600)
        if group is not None and os.fstat(place).st_uid == os.geteuid():
            os.fchown(place, -1, group)
            os.fchmod(place, 0o660)
    except OSError as error:
        raise Refused(f"{path}: {error.strerror}", 9) from error
    end = monotonic() + seconds
    while True:
        try:
            fcntl.flock(place, fcntl.LOCK_EX | fcntl.LOCK_NB)
            return place
        except BlockingIOError:
            if monotonic() >= end:
                os.close(place)
                return None
        sleep(0.05)


def given_door() -> Door | None:
    """The socket that systemd listens at for this process, or None."""
    pid, count = os.environ.pop("LISTEN_PID", ""), os.environ.pop("LISTEN_FDS", "")
    os.environ.pop("LISTEN_FDNAMES", None)
    if pid != str(os.getpid()):
        return None
    if count != "1":
        raise Refused(f"{count} sockets were handed over, and it takes one", 1)
    try:
        sock = socket.socket(fileno=3)
        is_listening = sock.getsockopt(socket.SOL_SOCKET, socket.SO_ACCEPTCONN)
    except OSError as error:
        raise Refused(f"descriptor 3 isn't a socket: {error.strerror}", 1) from error
    if sock.family != socket.AF_UNIX or sock.type != socket.SOCK_STREAM or not is_listening:
        raise Refused("the socket that systemd passed isn't a listening Unix stream socket")
    sock.set_inheritable(False)
    return Door(sock)


def is_live(path: str) -> bool:
    """Whether somebody listens at the path, where there may be a socket that somebody left."""
    with socket.socket(socket.AF_UNIX, socket.SOCK_STREAM) as sock, short(path) as way:
        sock.setblocking(False)
        try:
            sock.connect(way)
        except OSError as error:
            return error.errno not in (errno.ECONNREFUSED, errno.ENOENT)
    return True


def own_door(path: str, group: int | None) -> Door:
    """A socket at the path, which nobody else can reach at any moment: but for a group, where one is named."""
    sock = socket.socket(socket.AF_UNIX, socket.SOCK_STREAM)
    before = os.umask(0o177)
    try:
        # What a folder's own list of rights would add is taken away by the descriptor's mode.
        os.fchmod(sock.fileno(), 0o600)
        if os.path.lexists(path):
            os.unlink(path)
        with short(path) as way:
            sock.bind(way)
        if group is not None:
            os.chown(path, -1, group)
            os.chmod(path, 0o660)
        sock.listen(WAITING)
    except OSError as error:
        raise Refused(f"{path}: {error.strerror or error}") from error
    finally:
        os.umask(before)
    return Door(sock, path)


def check_free(path: str, group: int | None) -> None:
    """Refuses a path where something else is, or somebody listens. Nobody else takes it while this process runs."""
    with suppress(FileNotFoundError):
        if not stat.S_ISSOCK(os.lstat(path).st_mode):
            raise Refused(f"{path} is there and no socket")
    if locked(path + ".lock", 0, group) is None or is_live(path):
        raise Refused(f"{path}: somebody serves there", RUNNING)


def hold_log(log: str, group: int | None) -> int:
    """Holds the log for this process and its runs. A run whose daemon was killed ends by itself, so there is some time for that."""
    held = locked(os.path.realpath(log) + ".lock", LAST, group)
    if held is None:
        raise Refused(f"{log}: another daemon serves it", RUNNING)
    return held
