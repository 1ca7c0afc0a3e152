"""`git segdag --log WHERE QUESTION`: a question that another log answers, as where the repository's own history isn't whole. WHERE is a log's path,
`bundle:PATH`, `socket:PATH` of a daemon, or `postgresql://..?log=NAME`, a log in a database. Where the repository has no log of its own,
`segdag.store` in git's configuration is WHERE. What that log lacks is refused, and nothing is read from the repository in its place."""
from __future__ import annotations

import os
import re
import shutil
import tempfile
from contextlib import contextmanager
from urllib.parse import unquote
from ..files import BUNDLE
from ..found import other_program
from ..lines import Process, environment
from ..refused import Refused
from .place import SLOW, Daemon, Place, begun
from .repository import FRONT, Objects, run, sentence

# What types alone need isn't loaded.
TYPE_CHECKING = False
if TYPE_CHECKING:
    from collections.abc import Iterable, Iterator
    from contextlib import AbstractContextManager
    from typing import NoReturn

    from ..lines import Connection

TAKEN = "a log's path, bundle:PATH, socket:PATH or postgresql://..?log=NAME"
URL = re.compile(r"postgres(?:ql)?://")
WORD = re.compile(r"(bundle|socket):")
# A password, behind the user or among the options.
SECRET = re.compile(r"(?<=//)([^:/@]*):[^/@]*(?=@)|(?<=password=)[^&]*")


class Elsewhere(Place):
    """A log that isn't the repository's own. It is read, and never written."""

    def __init__(self, where: str) -> None:
        super().__init__(os.curdir)
        word = WORD.match(where)
        self.kind = "database" if URL.match(where) else word.group(1) if word else "log"
        self.log = where[word.end() :] if word else where
        self.where = without_secret(where) if self.kind == "database" else where
        if "://" in where and self.kind == "log":
            raise Refused(f"another log is {TAKEN}, and not '{where}'")

    def must_be_log(self) -> None:
        with open(self.log, "rb") as file:
            if file.read(len(BUNDLE)) == BUNDLE:
                raise Refused(f"{self.log} is a bundle, which --log bundle:{self.log} asks")
        super().must_be_log()

    @contextmanager
    def asked(self) -> Iterator[Connection]:
        with {"database": self._database, "socket": self._daemon, "bundle": self._bundle, "log": self._copy}[self.kind]() as lines:
            yield lines

    def _database(self) -> AbstractContextManager[Connection]:
        return Database(self.log)

    @contextmanager
    def _daemon(self) -> Iterator[Connection]:
        with Daemon(self.log) as lines:
            lines.must("nowait")
            lines.patience = SLOW
            yield lines

    @contextmanager
    def _bundle(self) -> Iterator[Connection]:
        self._must_be_there()
        with tempfile.TemporaryDirectory(prefix="segdag-") as folder, begun(os.path.join(folder, "log"), (), os.path.abspath(self.log)) as lines:
            lines.must("pull")
            yield lines

    @contextmanager
    def _copy(self) -> Iterator[Connection]:
        self._must_be_there()
        self.must_be_log()
        with tempfile.TemporaryDirectory(prefix="segdag-") as folder:
            copy = os.path.join(folder, "log")
            shutil.copyfile(self.log, copy)
            with begun(copy) as lines:
                yield lines

    def _must_be_there(self) -> None:
        if not os.path.isfile(self.log):
            raise Refused(f"{self.log}: there is no such file")


class Database(Process):
    """A run of `segdag-postgres`, which follows a log in a database. Who sees its words sees no password."""

    def __init__(self, url: str) -> None:
        connection, log = parts(url)
        program = other_program("segdag-postgres")
        if program is None:
            raise Refused("there is no program segdag-postgres, by which logs in databases are asked: docs/POSTGRES.md says how it is built")
        self.told = tempfile.TemporaryFile()
        given = {**environment(), "SEGDAG_POSTGRES": connection}
        super().__init__([program, log, "--", "follow"], without_secret(url), first="0 ", errors=self.told, env=given)

    def ended(self) -> NoReturn:
        status = self.close()
        self.told.seek(0)
        # What it said last says why, in a line or some more; what stands in front of that are warnings.
        said = " ".join(os.fsdecode(self.told.read()).rpartition("segdag-postgres: ")[2].split())
        raise Refused(f"{self.name}: {said or (self.sentence(status) if status else 'it ended before it replied')}", status)


def parts(url: str) -> tuple[str, str]:
    """The words of a connection, and the log's name."""
    front, _, behind = url.partition("?")
    options = behind.split("&") if behind else []
    logs = [unquote(option[4:]) for option in options if option[:4] == "log="]
    if len(logs) != 1 or not logs[0]:
        raise Refused(f"{without_secret(url)} names no log: ?log=NAME stands behind the database's name")
    rest = "&".join(option for option in options if option[:4] != "log=")
    return f"{front}?{rest}" if rest else front, logs[0]


def without_secret(url: str) -> str:
    return SECRET.sub(r"\1", url)


class Names(Objects):
    """Whole names stand for themselves, whether the repository has them or not."""

    def commits(self, revisions: Iterable[str], by_kind: bool = False) -> list[str | None]:
        revisions = list(revisions)
        asked = [it for it in revisions if not is_name(it)]
        found = iter(super().commits(asked, by_kind) if asked else [])
        return [it if is_name(it) else next(found) for it in revisions]


def is_name(word: str) -> bool:
    return len(word) == FRONT and not set(word) - set("0123456789abcdef")


def configured() -> Elsewhere | None:
    """What `segdag.store` names, or None. A path is a whole one, since commands and hooks begin in many folders."""
    status, where, told = run(["config", "--type=path", "--null", "--get", "segdag.store"])
    if status > 1:
        raise Refused(f"segdag.store: {sentence(told)}")
    if not where[:-1]:
        return None
    found = Elsewhere(where[:-1])
    if found.kind != "database" and not os.path.isabs(found.log):
        raise Refused(f"segdag.store is '{found.where}', and has to name a whole path")
    return found
