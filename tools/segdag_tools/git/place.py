"""Where the log is, and who may work on it.

The folder `segdag` of the repository's own folder has the log and a lock beside it, which stays where `compact` puts another file in the
log's place. Whoever changes the log holds the lock alone, until the program has ended, whatever becomes of the script; whoever loads it to ask shares it.
The program locks the log's file itself, where it is of a version that does. Where a daemon listens, it has the log, and is asked.
"""
from __future__ import annotations

import fcntl
import os
import sys
from contextlib import contextmanager, suppress

from ..files import BUNDLE
from ..found import program
from ..lines import Program, Socket
from ..refused import Refused
from .shared import NO_CHANGE, keep_entries, made, rights, share

# What types alone need isn't loaded.
TYPE_CHECKING = False
if TYPE_CHECKING:
    from collections.abc import Callable, Iterator
    from typing import TypeVar

    from ..lines import Connection, Reply

    Done = TypeVar("Done")

BUSY, OLDER, DAMAGED = 16, 2, 4  # statuses of the program: another one has the log; it doesn't know these words; no log, or a part of one
MUTE, SLOW = 5, 30  # seconds in which a daemon answers who comes, and a question
SYNC = 600  # the same where the log is changed, or a session waited for


def told(text: str, end: str = "") -> None:
    """What is under way, for who sits at a terminal."""
    if sys.stderr.isatty():
        print(f"\rgit segdag: {text}", end=end, file=sys.stderr, flush=True)


class Lost(Refused):
    """The daemon ended, or says nothing."""


class Daemon(Socket):
    """A connection to the daemon, which is given up where nothing comes for `patience` seconds."""

    def __init__(self, path: str, patience: float = MUTE) -> None:
        super().__init__(path, MUTE)
        self.patience = patience

    def _reply(self) -> Reply:
        try:
            return super()._reply()
        except Refused as refused:
            told = f"{self.name}: the daemon is stopping" if refused.status == 0 else str(refused)
            raise Lost(told, refused.status) from refused


class Place:
    """The log of a repository. `common` is the folder that its worktrees share."""

    # Another log than the repository's own, by the word that named it.
    where: str | None = None

    def __init__(self, common: str) -> None:
        self.common, self.folder = common, os.path.join(common, "segdag")
        self.log = os.path.join(self.folder, "log")
        self.socket = os.path.join(self.folder, "socket")
        # It stood here, where a clone of the same machine links it.
        self.old = os.path.join(common, "objects/info/segdag")
        # Whether a daemon is looked for.
        self.asks_daemon = True

    def is_begun(self) -> bool:
        """Whether there is a log of the repository's own with commits."""
        with suppress(FileNotFoundError):
            return os.path.getsize(self.log) > 1
        return os.path.exists(self.old)

    @contextmanager
    def locked(self, how: int) -> Iterator[int | None]:
        """The descriptor of the lock; None where there is none and none can be made, so that nobody changes the log."""
        lock = self._lock(how)
        try:
            yield lock
        finally:
            if lock is not None:
                os.close(lock)

    def _lock(self, how: int) -> int | None:
        path, alone = os.path.join(self.folder, "lock"), how == fcntl.LOCK_EX
        while True:
            try:
                if not os.path.exists(path):
                    made(path, rights(self.common))
                lock = os.open(path, os.O_RDWR | os.O_CLOEXEC)
            except OSError:
                if alone:
                    raise
                try:
                    lock = os.open(path, os.O_RDONLY | os.O_CLOEXEC)
                except OSError:
                    return None
            try:
                fcntl.flock(lock, how | fcntl.LOCK_NB)
            except BlockingIOError:
                told("another one works on the log; this one waits", "\n")
                fcntl.flock(lock, how)
            if is_at(lock, path):
                return lock
            # Meanwhile the file was moved, or another put in its place.
            os.close(lock)

    @contextmanager
    def changing(self) -> Iterator[int]:
        """The descriptor of the lock, for who changes the log. A log of the old place has been moved, and there is one."""
        if not os.path.isdir(self.folder):
            os.makedirs(self.folder, exist_ok=True)
            share(self.folder, rights(self.common))
        with self.locked(fcntl.LOCK_EX) as lock:
            self._take_over()
            if not os.path.exists(self.log):
                self.end_daemon()
                made(self.log, rights(self.common), NO_CHANGE)
            if os.path.getsize(self.log) < 2:
                # Whoever made it may have been killed before this.
                keep_entries(self.folder)
            assert lock is not None
            yield lock

    def end_daemon(self) -> None:
        """Ends the daemon where one runs: the log that it has isn't at its path, or won't be."""
        if self.keeper() is not None:
            from .daemon import ended

            ended(self)

    def _take_over(self) -> None:
        if os.path.exists(self.log) or not os.path.exists(self.old):
            return
        with open(self.old, "rb") as old:
            fcntl.flock(old, fcntl.LOCK_EX)
            if os.fstat(old.fileno()).st_nlink == 1:
                with suppress(OSError):
                    os.rename(self.old, self.log)
                    return
            # The file is another repository's too, or lies on another disk.
            import shutil
            import tempfile

            with tempfile.NamedTemporaryFile(dir=self.folder, delete=False) as copy:
                shutil.copyfileobj(old, copy)
                copy.flush()
                os.fsync(copy.fileno())
            shutil.copymode(self.old, copy.name)
            share(copy.name, rights(self.common))
            os.replace(copy.name, self.log)
            os.unlink(self.old)

    def must_be_log(self) -> None:
        """Refuses a file that the program would take for an empty log and write over. Nothing is written here."""
        with open(self.log, "rb") as file:
            begin = file.read(len(BUNDLE))
        if begin == BUNDLE:
            raise Refused(f"{self.log} is a bundle, and no log: move it elsewhere, and `git segdag sync` makes a log")
        if len(begin) > 1 and begin[0] > 1:
            raise Refused(f"{self.log} is no log: it begins with {begin[:4]!r}. `git segdag reset` removes it, and `git segdag sync` makes it anew")

    def must_have_commits(self) -> None:
        """Refuses where nothing was taken yet. What lies at the old place is moved by who may."""
        if not os.path.exists(self.log) and os.path.exists(self.old):
            with suppress(OSError), self.changing():
                pass
        try:
            size = os.stat(self.log).st_size
        except FileNotFoundError:
            raise Refused("the log has no commits yet: `git segdag sync` takes them") from None
        if size < 2:
            raise Refused("the log has no commits yet: the repository had none at the last `git segdag sync`, which takes what came since")
        self.must_be_log()

    def daemon(self) -> Daemon | None:
        """A connection to the daemon that has the log, which has a session for it; None where none answers at once."""
        if not self.asks_daemon or not os.path.exists(self.socket):
            return None
        with suppress(Refused):
            lines = Daemon(self.socket)
            lines.must("nowait")
            lines.patience = SLOW
            return lines
        return None

    def keeper(self) -> int | None:
        """The process that holds the daemon's socket, or None. Refused where somebody may, and isn't to be asked."""
        if not os.path.exists(self.socket):
            return None
        try:
            with Daemon(self.socket) as lines:
                return lines.peer()
        except Refused as refused:
            if isinstance(refused.__cause__, PermissionError):
                raise Refused(f"{self.socket}: a daemon may have the log, and doesn't let this user ask: Permission denied") from refused
            if isinstance(refused.__cause__, (TimeoutError, BlockingIOError)):
                raise Refused(f"{self.socket}: a daemon may have the log, and takes nobody: who started it may end it by its number") from refused
        return None

    def must_not_be_served(self) -> None:
        if self.keeper() is not None:
            raise Refused("a daemon has the log: `git segdag daemon stop` ends it")

    def answers(self) -> bool:
        """Whether the daemon says anything."""
        with suppress(Refused), Daemon(self.socket) as lines:
            return bool(lines.ask("nowait"))
        return False

    def changed(self) -> Daemon | None:
        """A connection to the daemon that has the log, for who changes it; it waits for a session. None where none runs."""
        process = self.keeper()
        if process is None:
            return None
        if not self.answers():
            if self.keeper() is None:
                return None
            raise Refused(f"process {process} has the log, and doesn't answer: `git segdag daemon stop` ends it")
        lines = Daemon(self.socket, SYNC)
        lines.must("reload")
        return lines

    def connect(self, held: tuple[int, ...] = ()) -> Connection:
        """A connection to the program that has the log: the daemon's, or a run of its own. It has loaded the log."""
        lines = self.changed()
        if lines is None:
            self.must_be_log()
            with advised():
                return begun(self.log, held)
        return lines

    def _alone(self) -> Program | None:
        """A run over the log for questions; None for who may not write it, and where another process has it."""
        if not os.access(self.log, os.W_OK):
            return None
        try:
            with advised():
                return loaded(self.log, ())
        except Refused as refused:
            if refused.status != BUSY:
                raise
            return None

    @contextmanager
    def asked(self) -> Iterator[Connection]:
        """A connection for questions. Who may not write the log asks a copy of it, and so does who would wait for a daemon that has no session
        to give."""
        lines: Program | Daemon | None = self.daemon()
        if lines is None:
            self.must_have_commits()
            with self.locked(fcntl.LOCK_SH):
                # Who had the lock until now may have begun a daemon.
                lines = self._alone() or self.daemon()
        if lines is not None:
            with lines:
                yield lines
            return
        # They take milliseconds to load, which other questions don't pay.
        import shutil
        import tempfile

        with tempfile.TemporaryDirectory(prefix="segdag-") as folder:
            copy = os.path.join(folder, "log")
            with self.locked(fcntl.LOCK_SH):
                # The front of a log is a log, so what comes behind it meanwhile does no harm.
                shutil.copyfile(self.log, copy)
            with begun(copy) as alone:
                yield alone


@contextmanager
def advised() -> Iterator[None]:
    """Says what to do where the repository's own log is damaged."""
    try:
        yield
    except Refused as refused:
        if refused.status != DAMAGED:
            raise
        raise Refused(f"{refused}: `git segdag reset` removes it, and `git segdag sync` makes it anew", refused.status) from refused


def is_at(descriptor: int, path: str) -> bool:
    """Whether this is the file at the path."""
    try:
        return os.path.samestat(os.fstat(descriptor), os.stat(path))
    except FileNotFoundError:
        return False


def begun(log: str, held: tuple[int, ...] = (), bundle: str | None = None) -> Program:
    """A run of the program over a log, which it has loaded; a bundle may be its mirror."""
    return patient(lambda more: loaded(log, held, *more, bundle=bundle), log)


def loaded(log: str, held: tuple[int, ...], *more: str, bundle: str | None = None) -> Program:
    path = program()
    with readable(log) as (name, ours):
        lines = Program([path, name, *([f"bundle:{bundle}"] if bundle else []), "--", "run", *more], log, (*held, *ours))
    try:
        lines.must("status")
    except Refused as refused:
        if refused.status == 0:
            raise Refused(f"{path}: it ended before it replied, so it isn't segdag, or of another version") from refused
        raise
    return lines


@contextmanager
def readable(path: str) -> Iterator[tuple[str, tuple[int, ...]]]:
    """The path in a word that the program reads, and descriptors that it needs: one that is no UTF-8 goes by way of its folder."""
    try:
        path.encode()
    except UnicodeEncodeError:
        folder = os.open(os.path.dirname(path) or ".", os.O_RDONLY | os.O_DIRECTORY)
        try:
            yield f"/proc/self/fd/{folder}/{os.path.basename(path)}", (folder,)
        finally:
            os.close(folder)
    else:
        yield path, ()


def patient(work: Callable[[list[str]], Done], log: str) -> Done:
    """Does this with no more words for the program, and where another one has the log once more with the word that makes it wait."""
    try:
        return work([])
    except Refused as refused:
        if refused.status != BUSY:
            raise
    told("another program works on the log; this one waits", "\n")
    try:
        return work(["--wait"])
    except Refused as refused:
        if refused.status == OLDER:
            raise Refused(f"{log}: another program works on the log", BUSY) from refused
        raise
