"""The repository, as git tells of it."""
from __future__ import annotations

import os
import re
from contextlib import suppress
from subprocess import DEVNULL, PIPE, Popen

from ..lines import Process
from ..refused import Refused

# What types alone need isn't loaded.
TYPE_CHECKING = False
if TYPE_CHECKING:
    from collections.abc import Iterable, Iterator, Sequence

# What was rewritten is gone for good: a server of a partial clone isn't to be asked for it. Older versions of git don't know the
# first word, and are kept from it by the second.
QUIET = {"GIT_NO_LAZY_FETCH": "1", "GIT_ALLOW_PROTOCOL": "none"}
# The commits' own parents, whatever replacements, grafts or a shallow repository tell at this moment: a log keeps what it took.
OWN = {"GIT_NO_REPLACE_OBJECTS": "1", "GIT_GRAFT_FILE": os.devnull, "GIT_SHALLOW_FILE": ""}
# A log holds names of 20 bytes: of a name of SHA-256 the first, which git takes for an abbreviation.
FRONT = 40
FOUND = re.compile(r"([0-9a-f]{40})([0-9a-f]{24})? (commit|tag) [0-9]+")
SHORT = re.compile(r"[0-9a-fA-F]{4,39}")


class Misuse(Refused):
    """Words that are no use of a command."""


def run(words: Sequence[str], text: bytes = b"", env: dict[str, str] | None = None) -> tuple[int, str, str]:
    """The status of a git, what it puts, and what it tells."""
    try:
        child = Popen(["git", *words], stdin=PIPE, stdout=PIPE, stderr=PIPE, env=env)
    except OSError as error:
        raise Refused(f"git can't be started: {error.strerror}") from error
    put, told = child.communicate(text)
    return child.returncode, os.fsdecode(put), os.fsdecode(told)


def sentence(told: str) -> str:
    """What a git that refuses says first."""
    return told.strip().split("\n")[0].replace("fatal: ", "", 1)


def git(*words: str, given: Iterable[str] | None = None) -> list[str] | None:
    """The lines that git puts of the commits' own parents; None where it refuses. It may read the lines of `given`."""
    text = os.fsencode("".join(line + "\n" for line in given or ()))
    status, put, _told = run(words, text, {**os.environ, **OWN})
    return put.split("\n")[:-1] if status == 0 else None


def config(path: str, key: str) -> str | None:
    """The last value of a key in a file of configuration alone, `true` where it stands without one; None where it doesn't stand there."""
    words = ["git", "config", "--null", "--file", path, "--get-regexp", f"^{re.escape(key)}$"]
    with Popen(words, stdin=DEVNULL, stdout=PIPE, stderr=DEVNULL) as child:
        found = os.fsdecode(child.communicate()[0]).split("\0")[:-1]
    if not found:
        return None
    _, has_value, value = found[-1].partition("\n")
    return value if has_value else "true"


def must(*words: str, given: Iterable[str] | None = None) -> list[str]:
    """The same lines of a git that has no reason to refuse."""
    put = git(*words, given=given)
    if put is None:
        raise Refused(f"git {words[0]} failed: commits that references name may be missing from the repository")
    return put


class Objects(Process):
    """Commits of the repository by their revisions, from one `git cat-file`. Names are those of the log, by their first 40 digits."""

    def __init__(self, kind: str = "sha1") -> None:
        self.is_long = kind != "sha1"
        super().__init__(["git", "cat-file", "--batch-check"], "git cat-file", env={**os.environ, **QUIET, **OWN})

    def _last(self) -> int:
        return 0

    def commits(self, revisions: Iterable[str], by_kind: bool = False) -> list[str | None]:
        """For each of these revisions the name of the commit that it stands for, or None. Of several objects whose names begin so git takes the
        commit where its kind is said, as in a range, and else none."""
        revisions = list(revisions)
        # What stands behind a :/ is a text, all of it, and what git finds by that is a commit.
        plain = [it[:2] == ":/" or not by_kind and bool(SHORT.fullmatch(it)) for it in revisions]
        found = self._found(it if is_plain else f"{it}^{{commit}}" for it, is_plain in zip(revisions, plain))
        # Behind the colon of a path all is the path, and a submodule's commit may be there.
        again = [at for at, it in enumerate(revisions) if ":" in it and not plain[at] and not found[at]]
        for at, match in zip(again, self._found(revisions[at] for at in again)):
            found[at] = match
        tags = [at for at, match in enumerate(found) if match and match.group(3) == "tag"]
        for at, match in zip(tags, self._found(f"{name_in(found[at])}^{{commit}}" for at in tags)):
            found[at] = match
        return [name_in(match) for match in found]

    def whole(self, names: Iterable[str]) -> list[str]:
        """The names of these commits as git prints them."""
        names = list(names)
        if not self.is_long:
            return names
        whole = []
        for name, match in zip(names, self._found(names)):
            if match is None:
                raise Refused(f"{name} is the front of no commit's name in this repository, or of several")
            whole.append(match.group(1) + match.group(2))
        return whole

    def must_be_alone(self, names: Iterable[str]) -> None:
        """Refuses where the front of one of these names begins the name of another commit too: a log would take both for one."""
        if not self.is_long:
            return
        names = list(names)
        for name, commit in zip(names, self.commits(names, by_kind=True)):
            if commit is None:
                both = " and ".join(must("rev-parse", f"--disambiguate={name}"))
                raise Refused(f"{both} begin with the same 20 bytes, which are all that a log keeps of a name: it can't have both")

    def _found(self, asked: Iterable[str]) -> list[re.Match[str] | None]:
        return [FOUND.fullmatch(reply.last) for reply in self.ask_all(asked)]

    def commit(self, revision: str, by_kind: bool = False) -> str | None:
        # Two lines would have two answers, and no revision has a line feed.
        return None if "\n" in revision else self.commits([revision], by_kind)[0]

    def named(self, revision: str) -> str:
        name = self.commit(revision)
        if name is None:
            raise Refused(f"Not a valid object name {revision!r}" if "\n" in revision else f"Not a valid object name {revision}")
        return name


def name_in(found: re.Match[str] | None) -> str | None:
    """The name, by its front, in what git found."""
    return found.group(1) if found else None


def common_folder() -> tuple[str, str]:
    """The folder that all worktrees of the repository share, and the kind of its names."""
    status, put, told = run(["rev-parse", "--show-object-format", "--git-common-dir"])
    lines = put.split("\n")[:-1]
    if status != 0 or len(lines) < 2:
        said = "; ".join(line.strip() for line in told.split("\n") if line.strip())
        raise Refused(said[7:] if said[:7] == "fatal: " else said or f"git rev-parse ended with status {status}")
    # The folder's name may have line feeds.
    return "\n".join(lines[1:]), lines[0]


def is_shallow() -> bool:
    return run(["rev-parse", "--is-shallow-repository"])[1] == "true\n"


def other_parents(folder: str) -> str:
    """What git answers by in place of the commits' own parents, in a word or two; nothing where it answers by these."""
    found = ["replaced commits"] if replaces(folder) else []
    if grafts(folder):
        found.append("grafts")
    if is_shallow():
        found.append("a shallow history")
    return " and ".join(found)


def replaces(folder: str) -> bool:
    """Whether commits are replaced by others. Where references stand in files these are looked at, which takes no time."""
    if os.environ.get("GIT_NO_REPLACE_OBJECTS") is not None:
        return False
    base = (os.environ.get("GIT_REPLACE_REF_BASE") or "refs/replace/").rstrip("/")
    return has_references(folder, base) and run(["config", "--type=bool", "core.useReplaceRefs"])[1] != "false\n"


def has_references(folder: str, base: str) -> bool:
    if os.path.exists(os.path.join(folder, "reftable")):
        return bool(git("for-each-ref", "--count=1", base))
    if any(files for _path, _folders, files in os.walk(os.path.join(folder, base))):
        return True
    with suppress(FileNotFoundError), open(os.path.join(folder, "packed-refs"), "rb") as packed:
        return f" {base}/".encode() in packed.read()
    return False


def grafts(folder: str) -> list[str]:
    """The commits that a file of grafts gives other parents. Git seeks a relative path in the top folder of the work tree."""
    path = os.environ.get("GIT_GRAFT_FILE")
    if path is None:
        path = os.path.join(folder, "info/grafts")
    elif not os.path.isabs(path):
        path = os.path.join((git("rev-parse", "--show-toplevel") or ["."])[0], path)
    try:
        with open(path, "rb") as file:
            return [os.fsdecode(line[:40]) for line in file if len(line) > 39 and line[:1] != b"#"]
    except OSError:
        return []


def rows(wanted: Iterable[str], without: Iterable[str]) -> Iterator[list[str]]:
    """The rows of what these commits reach and those don't, parents first: each a name and its own parents, without doubles."""
    yield from listed_rows(["--topo-order", "--reverse"], [*wanted, *(f"^{name}" for name in without)])


def rows_of(names: list[str]) -> list[list[str]]:
    """The rows of these commits alone."""
    return list(listed_rows(["--no-walk=unsorted"], names)) if names else []


def listed_rows(words: Sequence[str], asked_for: Iterable[str]) -> Iterator[list[str]]:
    import tempfile  # It takes milliseconds to load, which a question on what the log has doesn't pay.

    words = ["git", "rev-list", *words, "--parents", "--stdin"]
    with tempfile.TemporaryFile("w+") as asked:
        asked.writelines(f"{name}\n" for name in asked_for)
        asked.seek(0)
        listing = Popen(words, stdin=asked, stdout=PIPE, stderr=DEVNULL, env={**os.environ, **QUIET, **OWN})
    assert listing.stdout is not None
    try:
        for line in listing.stdout:
            yield list(dict.fromkeys([name[:FRONT] for name in line.decode().split()]))
        if listing.wait() != 0:
            why = "this repository is shallow: its first commits lack their parents" if is_shallow() else "commits that branches reach are missing from the repository"
            raise Refused(f"git rev-list failed: {why}")
    finally:
        listing.kill()
        listing.stdout.close()
        listing.wait()
