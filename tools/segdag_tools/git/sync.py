"""`git segdag sync`: what the references have that the log lacks goes into it, and what they lost of the others comes out.

What is published goes to master, for good. Published are the references that `segdag.publish` names, by globs; without it the branches of
remotes and HEAD's upstream, and where there is no branch of a remote `main`, `master` and the branch of a bare repository's HEAD. The rest
stays among the others, and is stripped when no reference reaches it any more. Where that would be more than the log has room for, the
oldest go to master too.
"""
from __future__ import annotations

import os
import re
from collections import deque
from contextlib import suppress
from fnmatch import fnmatchcase
from ..refused import Refused

from .place import Daemon, told
from .repository import git, grafts, must, rows, rows_of
from .store import BLOCK, HEADS, NAMES, Store, blocks, few, gathered, spoilt, union

# What types alone need isn't loaded.
TYPE_CHECKING = False
if TYPE_CHECKING:
    from collections.abc import Iterable, Iterator

    from .place import Place
    from .repository import Objects

NAME = re.compile("[0-9a-f]{40}")
EACH = 10_000  # commits between two flushes
KEPT = 32_768  # new rows that stay among the others, at most
OTHERS = 65_536  # that a log has room for
RUN = 1 << 29  # bytes that one run of the program is sent, which reads twice as many


class References:
    """The commits that references have, those of the published ones apart."""

    def __init__(self, objects: Objects) -> None:
        form = "--format=%(objectname) %(refname) %(HEAD)%(upstream)"
        lines = [line.split(" ", 2) for line in must("for-each-ref", form, "refs/heads", "refs/remotes", "refs/tags")]
        # The HEADs of all worktrees, of which some may be on no branch.
        trees = [line[5:] for line in git("worktree", "list", "--porcelain") or [] if line.startswith("HEAD ")]
        names = objects.commits([name for name, _ref, _more in lines] + trees)
        commits = {ref: commit for (_name, ref, _more), commit in zip(lines, names) if commit}
        follows = next((more[1:] for _name, _ref, more in lines if more[:1] == "*"), "")
        wanted = publishes(commits, follows)
        self.count = len(lines)
        self.published = list(dict.fromkeys(commits[ref] for ref in wanted))
        self.all = list(dict.fromkeys([*self.published, *commits.values(), *filter(None, names[len(lines) :])]))


def publishes(commits: dict[str, str], follows: str) -> list[str]:
    """Which of these references are published; `follows` is HEAD's upstream."""
    globs = git("config", "--get-all", "segdag.publish")
    if globs:
        return [ref for ref in commits if any(fnmatchcase(ref, glob) for glob in globs)]
    found = [ref for ref in commits if ref.startswith("refs/remotes/") or ref == follows]
    if not any(ref.startswith("refs/remotes/") for ref in found):
        found += [ref for ref in ("refs/heads/main", "refs/heads/master") if ref in commits]
        if git("rev-parse", "--is-bare-repository") == ["true"]:
            found += [ref for ref in git("symbolic-ref", "--quiet", "HEAD") or [] if ref in commits]
    return found


def alone(listed: Iterator[list[str]], objects: Objects) -> Iterator[list[str]]:
    """The same rows, none of which has a name whose front is another commit's too."""
    for some in gathered(listed, BLOCK):
        objects.must_be_alone(row[0] for row in some)
        yield from some


def pieces(listed: Iterable[list[str]]) -> Iterator[tuple[list[list[str]], list[str]]]:
    """These rows, some at a time, with those that no other one of them has for a parent. These fit one line: of two the first would store
    among the others what the second moves to master."""
    some: list[list[str]] = []
    heads: dict[str, bool] = {}
    for row in listed:
        some.append(row)
        for part in few(row):
            for parent in part[1:]:
                heads.pop(parent, None)
            heads[part[0]] = True
        if len(some) == EACH or len(heads) == HEADS:
            yield some, list(heads)
            some, heads = [], {}
    if some:
        yield some, list(heads)


class Sync:
    """One sync: the log, by one run of the program after another, and what the repository has."""

    def __init__(self, place: Place, held: tuple[int, ...], objects: Objects) -> None:
        self.place, self.held, self.objects, self.taken = place, held, objects, 0
        self.store = Store(place.connect(held))

    def served_elsewhere(self) -> bool:
        """Whether a daemon has commits of a log that isn't the one at the path any more, which has none."""
        return isinstance(self.store.lines, Daemon) and os.path.getsize(self.place.log) < 2 and self.store.size("all") > 0

    def must_be_right(self) -> None:
        """Refuses where a commit has other parents in the log than in the repository, of those that a former sync may have met so: the first
        ones, and those that are replaced or cut off now."""
        names = self.store.listed("roots(all)") + suspects(self.place.common)
        named = list(dict.fromkeys(filter(None, self.objects.commits(names))))
        there = [name for name, place in zip(named, self.store.places(named)) if place is not None]
        other, lacked = self.store.differing(rows_of(there))
        wrong = other or lacked
        if wrong:
            raise Refused(spoilt(wrong[0]))

    def again(self) -> None:
        """Another run, where this one has read as much as it may. Nothing is pending."""
        if self.store.lines.sent > RUN:
            self.store.lines.close()
            self.store = Store(self.place.connect(self.held))

    def lacking(self, names: list[str]) -> Iterator[list[str]]:
        """The rows of what these reach and the log lacks."""
        lacked = [name for name, place in zip(names, self.store.places(names)) if place is None]
        listed = rows(lacked, self.store.there(self.objects)) if lacked else iter(())
        return alone(listed, self.objects) if self.objects.is_long else listed

    def to_master(self, listed: Iterable[list[str]]) -> None:
        """Adds these rows and moves them to master."""
        for some, heads in pieces(listed):
            self.taken += self.store.add(some)
            self.store.flush(heads)
            told(f"{self.taken} commits")
            self.again()

    def publish(self, tips: list[str]) -> None:
        self.to_master(self.lacking(tips))
        # They may have been among the others, or a sync was killed between the lines of a flush.
        places = self.store.places(tips)
        self.store.flush([name for name, place in zip(tips, places) if place and place[0] == "N"])

    def keep(self, tips: list[str]) -> None:
        """Takes what these reach among the others, as far as there is room: what comes first goes to master."""
        listed = self.lacking(tips)
        kept: deque[list[str]] = deque()
        for row in listed:
            kept.append(row)
            if len(kept) == KEPT + EACH:
                self.to_master([kept.popleft() for _ in range(EACH)])
        # Rows of stand-ins take room too.
        while sum(len(few(row)) for row in kept) > KEPT + EACH:
            self.to_master([kept.popleft() for _ in range(min(EACH, len(kept)))])
        if kept:
            count = sum(len(few(row)) for row in kept)
            self.make_room(OTHERS - count)
            self.taken += self.store.add(kept)
            self.store.lines.must("flush")
            told(f"{self.taken} commits")
            self.again()

    def make_room(self, room: int) -> None:
        """Moves the oldest others to master, so that no more than so many are left."""
        if self.store.size("others") > room:
            self.store.flush(self.store.listed(f"heads(minus(others,top(others,{room})))"))

    def strip(self, tips: list[str]) -> int:
        """Takes out the others that no reference reaches, and answers how many commits these were."""
        heads = self.store.listed("heads(others)")
        if set(heads) <= set(tips):
            return 0
        dead = dict.fromkeys(self.store.listed("others"))
        placed = [name for name, place in zip(tips, self.store.places(tips)) if place and place[0] == "N"]
        for some in blocks(placed, NAMES):
            for name in self.store.listed(f"inter(others,ancestors({union(some)}))"):
                dead.pop(name, None)
        if not dead:
            return 0
        count = self.store.count("all")
        replies = self.store.lines.ask_all([f"query parents({name})" for name in dead])
        roots = [name for name, reply in zip(dead, replies) if not any(parent in dead for parent in reply.lines)]
        for some in blocks(roots, NAMES):
            reply = self.store.lines.ask("strip " + " ".join(some))
            if reply.last.startswith("err empty"):
                # The last commits of a store can't be taken out. They are when others have come.
                return 0
            if not reply.ok:
                raise Refused(f"{reply.last}, answered to a strip")
        self.again()
        return count - self.store.count("all")


def suspects(common: str) -> list[str]:
    """Commits that have other parents for git, or had when a log was taken: replaced ones, grafts, and the ends of a shallow history."""
    base = (os.environ.get("GIT_REPLACE_REF_BASE") or "refs/replace/").rstrip("/")
    found = [ref.rpartition("/")[2] for ref in git("for-each-ref", "--format=%(refname)", base) or []] + grafts(common)
    with suppress(OSError), open(os.path.join(common, "shallow"), encoding="ascii", errors="replace") as file:
        found += file.read().split()
    return [name for name in found if NAME.fullmatch(name)]


def sync(place: Place, objects: Objects, _words: list[str]) -> None:
    """Says how many commits came, how many went, and how many are there."""
    with place.changing() as held:
        taken, gone, count = synced(place, (held,), objects)
        # When a sync came to its end.
        with suppress(OSError):
            os.utime(held)
    left = f", {gone} gone" if gone else ""
    print(f"{taken} new{left}, {count} commits in the log")


def synced(place: Place, held: tuple[int, ...], objects: Objects) -> tuple[int, int, int]:
    """How many commits came to a log, how many went, and how many are there."""
    work = Sync(place, held, objects)
    if work.served_elsewhere():
        work.store.lines.close()
        place.end_daemon()
        work = Sync(place, held, objects)
    begun = os.stat(place.log)
    references = References(objects)
    # A tip that isn't would be taken for one that is there.
    objects.must_be_alone(references.all)
    work.must_be_right()
    gone = work.strip(references.all)
    work.publish(references.published)
    work.keep(references.all)
    gone += work.strip(references.all)
    told(f"{work.taken} commits", "\n")
    count = work.store.count("all")
    work.store.lines.close()
    if not os.path.exists(place.log) or not os.path.samestat(begun, os.stat(place.log)):
        raise Refused(f"{place.log} was removed or replaced meanwhile: `git segdag sync` again takes all")
    return work.taken, gone, count
