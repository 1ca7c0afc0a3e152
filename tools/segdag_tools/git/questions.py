"""The questions of `git segdag`, each by as few lines as it takes."""
from __future__ import annotations

import os
import re
import sys
from contextlib import contextmanager
from ..refused import Refused

from .expressions import Parser, names_of, text_of
from .names import MARK
from .repository import FRONT, git, must, rows
from .store import BLOCK, Store, gathered, union

# What types alone need isn't loaded.
TYPE_CHECKING = False
if TYPE_CHECKING:
    from collections.abc import Iterator

    from .place import Place
    from .repository import Objects

NAME = re.compile(r"\^?[0-9a-f]{40}(?:[0-9a-f]{24})?")
MANY = re.compile(r"--(all|branches|tags|remotes)|--(branches|tags|remotes|glob)=.*")
TAKEN = "--all, --branches, --tags, --remotes and --glob="


@contextmanager
def holding(place: Place, objects: Objects, names: list[str]) -> Iterator[Store]:
    """A store with what these commits reach; what the log lacks is read for the question, and stored nowhere."""
    with place.asked() as lines:
        store = Store(lines)
        lacked = [name for name, where in zip(names, store.places(names)) if where is None]
        if lacked and place.where:
            raise Refused(f"{lacked[0]} isn't in {place.where}")
        if lacked:
            for some in gathered(rows(lacked, store.there(objects)), BLOCK):
                store.add(some)
        yield store


def is_ancestor(place: Place, objects: Objects, words: list[str]) -> int:
    one, other = (objects.named(word) for word in words)
    with holding(place, objects, [one, other]) as store:
        return 0 if store.size(f"inter({one},ancestors({other}))") else 1


def ahead_behind(place: Place, objects: Objects, words: list[str]) -> None:
    base, *names = (objects.named(word) for word in words)
    with holding(place, objects, [base, *names]) as store:
        distances = store.distances((name, base) for name in names)
    for word, (ahead, behind) in zip(words[1:], distances):
        print(word, ahead, behind)


class Revisions:
    """The words of `log` as git reads them: what is reached from, what is left out, and pairs of which the common ancestors are."""

    def __init__(self, objects: Objects, words: list[str]) -> None:
        self.objects = objects
        self.wanted: list[str] = []
        self.left_out: list[str] = []
        self.pairs: list[list[str]] = []
        for word in words:
            if word[:1] == "-":
                self.many(word)
            elif not self.range(word) and not self.one(word):
                self.by_git(word)

    def every(self) -> list[str]:
        return list(dict.fromkeys(self.wanted + self.left_out))

    def one(self, word: str) -> bool:
        """Whether this is a commit, or one with a ^ before it."""
        name = self.objects.commit(word[word[:1] == "^" :])
        if name:
            (self.left_out if word[0] == "^" else self.wanted).append(name)
        return bool(name)

    def range(self, word: str) -> bool:
        """Whether this is A..B or A...B, where either may be missing for HEAD. Git looks at the first two dots."""
        one, dots, other = word.partition("..")
        if not dots or word == ".." or word[:1] == "^":
            return False
        both = other[:1] == "."
        names = list(filter(None, (self.objects.commit(part or "HEAD", by_kind=True) for part in (one, other[both:]))))
        if len(names) < 2:
            return False
        if both:
            self.wanted += names
            self.pairs.append(names)
        else:
            self.left_out.append(names[0])
            self.wanted.append(names[1])
        return True

    def many(self, word: str) -> None:
        """An option that names many: what is no commit is left out. One that changes what stands behind it isn't taken."""
        if not MANY.fullmatch(word):
            raise Refused(f"bad revision {word!r}: of git's options {TAKEN} are taken")
        self.wanted += [name[:FRONT] for name in must("rev-list", "--no-walk", word)]

    def by_git(self, word: str) -> None:
        """What else git takes: A^!, A^@ and A^-."""
        found = None if "\n" in word else git("rev-parse", word, "--")
        if not found or found.pop() != "--" or not all(map(NAME.fullmatch, found)):
            raise Refused(f"bad revision {word!r}" if "\n" in word else f"bad revision '{word}'")
        commits = list(filter(None, self.objects.commits(name.lstrip("^") for name in found)))
        if len(commits) < len(found):
            raise Refused(f"bad revision '{word}'")
        for name, commit in zip(found, commits):
            (self.left_out if name[0] == "^" else self.wanted).append(commit)


class Reach:
    """What revisions name together, over a store that has them all: what some reach and others don't."""

    def __init__(self, store: Store, given: Revisions) -> None:
        self.store, self.given = store, given
        # What both of a pair reach is left out.
        self.shared = [name for pair in given.pairs for name in store.listed(f"gca({union(pair)})")]
        self.left_out = list(dict.fromkeys(given.left_out + self.shared))
        self.few_wanted, self.few_left_out = store.grouped(dict.fromkeys(given.wanted)), store.grouped(self.left_out)

    def all(self) -> str:
        return f"only({union(self.few_wanted)},{union(self.few_left_out)})"

    def only(self, name: str) -> str:
        """What this one reaches of it."""
        return f"only({name},{union(self.few_left_out)})"


def log(place: Place, objects: Objects, words: list[str]) -> None:
    given = Revisions(objects, words)
    if not given.wanted:
        print(0)
        return
    with holding(place, objects, given.every()) as store:
        print(store.count(Reach(store, given).all()))


def query(place: Place, objects: Objects, words: list[str]) -> None:
    tree = Parser(words[0], objects).tree
    with holding(place, objects, list(dict.fromkeys(names_of(tree)))) as store:
        reply = store.lines.ask(f"query {text_of(tree, store)}")
    if not reply.ok:
        raise Refused(f"{reply.last}, answered to {words[0][:200]}")
    sys.stdout.flush()
    sys.stdout.buffer.write("".join(f"{name}\n" for name in objects.whole(reply.lines)).encode() if objects.is_long else reply.text)
