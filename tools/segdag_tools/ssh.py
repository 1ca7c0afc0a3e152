"""A run over a log beside a mirror that another machine serves.

The mirror is the log at the path LOG of HOST, by `ssh -- HOST segdag none LOG -- serve`, or what COMMAND answers (docs/SERVE.md).
It is asked before each REMOTE. The lines come on standard input, and the status is the run's, 2 where the words are no usage, or 18 where
LOCAL or a REMOTE is a file and no log, unless --force says that it is to be written over. What COMMAND leaves behind when it ends is ended
a second later: the run doesn't wait for a mirror that nobody is behind. However this ends it leaves no process and no pipe, unless it is killed
by a signal that can't be caught. The program is found as by all tools; its name on HOST is $SEGDAG_THERE, or segdag.
"""
from __future__ import annotations

import os
import shutil
import signal
import sys
import tempfile
from contextlib import contextmanager, suppress
from threading import Timer
from typing import Iterator, Sequence

from . import found
from .files import check_log, fill_low
from .refused import Refused

USAGE = """segdag-ssh [--force] HOST:LOG LOCAL [REMOTE].. -- run [--cache N]
segdag-ssh [--force] --command COMMAND LOCAL [REMOTE].. -- run [--cache N]"""
ENDING = (signal.SIGHUP, signal.SIGINT, signal.SIGTERM)
LINGERS = 1  # seconds that what a peer left behind has to end
MISUSE, MISSING = 2, 127  # statuses: the words are no usage; there is no program, as a shell has it
Openings = Sequence["tuple[str, int]"]


class Misuse(Refused):
    """The words are no usage."""

    def __init__(self) -> None:
        super().__init__(USAGE, MISUSE)


class Words:
    """What the words say. (`argparse` would take a HOST that begins with a dash for an option.)"""

    def __init__(self, words: list[str]) -> None:
        self.is_forced = words[:1] == ["--force"]
        words = words[self.is_forced :]
        if words[:1] == ["--command"]:
            if len(words) < 5 or not words[1]:
                raise Misuse
            self.peer = ["sh", "-c", words[1]]
            words = words[1:]
        else:
            host, _, log = words[0].partition(":") if words else ("", "", "")
            if len(words) < 4 or not host or not log:
                raise Misuse
            quoted = log.replace("'", "'\\''")
            self.peer = ["ssh", "--", host, f"{os.environ.get('SEGDAG_THERE') or 'segdag'} none '{quoted}' -- serve"]
        self.local, self.rest = words[1], words[2:]

    def check(self) -> None:
        """Refuses a log that is none, if that isn't forced."""
        if self.is_forced:
            return
        check_log(self.local)
        for word in self.rest[: self.rest.index("--") if "--" in self.rest else None]:
            if not word.startswith(("bundle:", "pipe:")):
                check_log(word)


@contextmanager
def no_end() -> Iterator[None]:
    """Signals that end this wait meanwhile."""
    signal.pthread_sigmask(signal.SIG_BLOCK, ENDING)
    try:
        yield
    finally:
        signal.pthread_sigmask(signal.SIG_UNBLOCK, ENDING)


def told_to_end(number: int, _frame: object) -> None:
    """A signal ends this, once."""
    ignore_ending()
    raise SystemExit(128 + number)


def ignore_ending() -> None:
    """Nothing keeps this from its end any more."""
    for number in ENDING:
        signal.signal(number, signal.SIG_IGN)


def forked(words: list[str], opened: Openings = ()) -> int:
    """A process of these words. Its first descriptors are these files, which may be pipes that nobody has opened at the other end yet. It doesn't
    hear of keys that end this process, and a file that may not grow stays a disk that fails."""
    child = os.fork()
    if child != 0:
        return child
    try:
        for number in (signal.SIGHUP, signal.SIGTERM, signal.SIGPIPE):
            signal.signal(number, signal.SIG_DFL)
        for number in (signal.SIGINT, signal.SIGQUIT):
            signal.signal(number, signal.SIG_IGN)
        signal.pthread_sigmask(signal.SIG_UNBLOCK, ENDING)
        for descriptor, (path, flags) in enumerate(opened):
            os.dup2(os.open(path, flags), descriptor)
        os.execvp(words[0], words)
    except OSError as error:
        print(f"segdag-ssh: {words[0]} can't be started: {error.strerror}", file=sys.stderr, flush=True)
    finally:
        os._exit(MISSING)


def descent(top: int) -> list[int]:
    """A process, and those that it began, and these."""
    below: dict[int, list[int]] = {}
    for entry in filter(str.isdigit, os.listdir("/proc")):
        with suppress(OSError), open(f"/proc/{entry}/stat", "rb") as about:
            below.setdefault(int(about.read().rpartition(b")")[2].split()[1]), []).append(int(entry))
    all_ = [top]
    for process in all_:
        all_ += below.get(process, [])
    return all_


def holders(pipe: str) -> list[int]:
    """Processes that can put something into a pipe."""
    all_ = []
    for entry in filter(str.isdigit, os.listdir("/proc")):
        with suppress(OSError):
            if any(os.readlink(f"/proc/{entry}/fd/{place}") == pipe and is_written(entry, place) for place in os.listdir(f"/proc/{entry}/fd")):
                all_.append(int(entry))
    return all_


def is_written(process: str, place: str) -> bool:
    """Whether a process has this descriptor to write."""
    with open(f"/proc/{process}/fdinfo/{place}", "rb") as about:
        flags = next((line.split()[1] for line in about if line.startswith(b"flags:")), b"0")
    return int(flags, 8) & os.O_ACCMODE != os.O_RDONLY


def kill(processes: Sequence[int]) -> None:
    """Ends these, which may have ended."""
    for process in processes:
        with suppress(ProcessLookupError, PermissionError):
            os.kill(process, signal.SIGKILL)


class Link:
    """The run, its peer, and the folder of the pipes between them."""

    def __init__(self) -> None:
        self.folder = os.path.realpath(tempfile.mkdtemp(prefix="segdag-ssh."))
        self.to, self.back = os.path.join(self.folder, "to"), os.path.join(self.folder, "from")
        self.peer: int | None = None
        self.run: int | None = None
        self.timer = Timer(LINGERS, lambda: kill(holders(self.back)))
        self.timer.daemon = True

    def begin(self, program: str, words: Words) -> None:
        """Begins both. The peer waits until the run opens the pipes."""
        if ":" in self.folder:
            raise Refused(f"{self.folder} has a colon, which ends a path behind pipe:", MISUSE)
        for pipe in (self.to, self.back):
            os.mkfifo(pipe, 0o600)
        with no_end():
            self.peer = forked(words.peer, ((self.to, os.O_RDONLY), (self.back, os.O_WRONLY)))
        with no_end():
            self.run = forked([program, words.local, f"pipe:{self.to}:{self.back}", *words.rest])

    def wait(self) -> int:
        """Waits for the end of the run; its status. What a peer that has ended left behind would keep the run waiting."""
        while True:
            child, status = os.wait()
            if child == self.run:
                self.run = None
                return os.WEXITSTATUS(status) if os.WIFEXITED(status) else 128 + os.WTERMSIG(status)
            self.peer = None
            if holders(self.back):
                self.timer.start()

    def leave(self) -> None:
        """Nothing of it is left."""
        self.timer.cancel()
        if self.run is not None:
            with suppress(ProcessLookupError):
                os.kill(self.run, signal.SIGTERM)
        if self.peer is not None:
            kill(descent(self.peer))
        kill(holders(self.back))
        with suppress(ChildProcessError):
            while True:
                os.wait()
        shutil.rmtree(self.folder, ignore_errors=True)


def linked(program: str, words: Words) -> int:
    """The status of the run. Whatever ends it, nothing is left of it."""
    with no_end():
        for number in ENDING:
            signal.signal(number, told_to_end)
        link = Link()
        try:
            try:
                signal.pthread_sigmask(signal.SIG_UNBLOCK, ENDING)
                link.begin(program, words)
                return link.wait()
            finally:
                ignore_ending()
        finally:
            link.leave()


def main() -> int:
    """Does what the words say; the status."""
    # A standard output that was closed takes nothing, so that the run ends with status 6.
    fill_low(os.O_RDONLY)
    try:
        words = Words(sys.argv[1:])
        words.check()
        try:
            program = found.program()
        except Refused as refused:
            raise Refused(str(refused), MISSING) from None
        return linked(program, words)
    except Refused as refused:
        print(refused if isinstance(refused, Misuse) else f"segdag-ssh: {refused}", file=sys.stderr)
        return refused.status or 1
