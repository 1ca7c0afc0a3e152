"""Commits, as the program keeps them.

A row of the log has eight parents at most. Of a commit that has more, the row has stand-ins in place of some: rows that have those, seven
each, and stand-ins of their own where that isn't enough. A stand-in is named by the SHA-1 of a text that is no object of git, and has
one parent more, MARK, a row without parents. So `children(MARK)` are the stand-ins, wherever they lie, and an expression can leave
them out. What a commit reaches of others stays the same, and a stand-in is reached through its own commit alone.
"""
from __future__ import annotations

from ..refused import Refused

from .names import MARK, STAND_INS

# What types alone need isn't loaded.
TYPE_CHECKING = False
if TYPE_CHECKING:
    from collections.abc import Iterable, Iterator

    from ..lines import Connection
    from .repository import Objects

PARENTS = 8  # of a row
NAMES = 120  # names of an expression, which has at most 256 parts
FEW = 20  # pairs of which both sides are counted by themselves
SOME = 50  # names of each of two sets in one expression
HEADS = 390  # names of a line, which has at most 16,384 bytes
GONE, BEHIND = 20, 40  # heads of an expression that has both twice
BLOCK = 10_000  # names that are looked for in the repository at once, at most


def name_of(text: str) -> str:
    """The name of a row that stands for no commit: the SHA-1 of a text that is no object of git."""
    from hashlib import sha1  # It takes milliseconds to load, which most questions don't pay.

    return sha1(text.encode()).hexdigest()


def few(row: list[str]) -> list[list[str]]:
    """The same row in rows of eight parents at most, parents first."""
    name, parents = row[0], row[1:]
    if len(parents) <= PARENTS:
        return [row]
    made, count = [[MARK]], 0
    while len(parents) > PARENTS:
        # The first parents stay, since a first parent is asked for. Behind them stand as many stand-ins as are needed.
        room = PARENTS - 1
        kept = max(1, PARENTS - -(-(len(parents) - PARENTS) // (room - 1)))
        level = parents[:kept]
        for at in range(kept, len(parents), room):
            count += 1
            level.append(name_of(f"segdag: stand-in {count} of {name}"))
            made.append([level[-1], *parents[at : at + room], MARK])
        parents = level
    return made + [[name, *parents]]


def union(names: list[str]) -> str:
    """The set of these names, as an expression of little depth."""
    if len(names) < 2:
        return names[0] if names else "minus(all,all)"
    return f"union({union(names[: len(names) // 2])},{union(names[len(names) // 2 :])})"


def blocks(names: list[str], size: int) -> Iterator[list[str]]:
    for at in range(0, len(names), size):
        yield names[at : at + size]


def gathered(listed: Iterable[list[str]], size: int) -> Iterator[list[list[str]]]:
    """What is listed, so many at a time."""
    some = []
    for row in listed:
        some.append(row)
        if len(some) == size:
            yield some
            some = []
    if some:
        yield some


def spoilt(name: str) -> str:
    return f"{name} has other parents in the log than in the repository: `git segdag verify --fix` makes the log anew"


class Store:
    """The commits in a log, by a connection to the program that holds it."""

    def __init__(self, connection: Connection) -> None:
        self.lines, self.sets = connection, 0

    def places(self, names: Iterable[str]) -> list[str | None]:
        """Where each of these is: its number in master, one behind an N among the others and what is pending, None where it isn't there."""
        return [reply.first if reply.ok else None for reply in self.lines.ask_all(f"id {name}" for name in names)]

    def has(self, name: str) -> bool:
        return self.places([name])[0] is not None

    def listed(self, expression: str) -> list[str]:
        """The names of an expression as it stands, the newest first."""
        names = self.lines.must(f"query {expression}").lines
        if any(len(name) != 40 for name in names):
            raise Refused("the program gave malformed names")
        return names

    def size(self, expression: str) -> int:
        return self.lines.must(f"count {expression}").number

    def real(self, expression: str) -> str:
        """The expression without stand-ins, where there are any."""
        return f"minus({expression},{STAND_INS})" if self.has(MARK) else expression

    def count(self, expression: str) -> int:
        return self.size(self.real(expression))

    def counts(self, expressions: Iterable[str]) -> list[int]:
        """How many commits each of these has, asked at once."""
        expressions = list(expressions)
        found = self._sizes(expressions)
        if self.has(MARK):
            # What is empty has no stand-ins, and to look for them takes longer than most counts.
            some = [at for at, count in enumerate(found) if count]
            for at, count in zip(some, self._sizes([f"inter({expressions[at]},{STAND_INS})" for at in some])):
                found[at] -= count
        return found

    def distances(self, pairs: Iterable[tuple[str, str]]) -> list[tuple[int, int]]:
        """Of each pair how many commits the first reaches and the second doesn't, and the other way round. What one reaches alone is counted
        quickly where that is little; of many pairs the other number follows from how many each reaches."""
        pairs = list(pairs)
        if len(pairs) < FEW:
            found = self.counts(part for one, other in pairs for part in (f"only({one},{other})", f"only({other},{one})"))
            return list(zip(found[::2], found[1::2]))
        names = list(dict.fromkeys(name for pair in pairs for name in pair))
        reached = dict(zip(names, self.counts(f"ancestors({name})" for name in names)))
        ahead = self.counts(f"only({one},{other})" for one, other in pairs)
        return [(count, reached[other] - reached[one] + count) for (one, other), count in zip(pairs, ahead)]

    def _sizes(self, expressions: Iterable[str]) -> list[int]:
        """The same of members of all kinds."""
        found = []
        for reply in self.lines.ask_all(f"count {it}" for it in expressions):
            if not reply.ok:
                raise Refused(f"{reply.last}, answered to a count")
            found.append(reply.number)
        return found

    def add(self, some: Iterable[list[str]]) -> int:
        """Adds rows of any number of parents, and answers the rows that were new."""
        parts = [(row, part) for row in some for part in few(row)]
        new = 0
        for (row, part), reply in zip(parts, self.lines.ask_all("add " + " ".join(part) for _row, part in parts)):
            if reply.last.startswith("err full pending"):
                raise Refused(f"more than {reply.words[-1]} commits aren't in the log yet: `git segdag sync` takes them")
            if reply.last.startswith(("err differs", "err conflict", "err twice")):
                raise Refused(spoilt(row[0]))
            if not reply.ok:
                raise Refused(f"{reply.last}, answered to the add of {part[0]}: `git segdag verify` compares the log with the repository")
            # The last of a commit's rows is its own.
            new += reply.first == "added" and part[0] == row[0]
        return new

    def differing(self, some: Iterable[list[str]]) -> tuple[list[str] | None, list[str] | None]:
        """Of these rows, whose commits the log has with their parents where it is right, the first that has other parents in it and the first that
        it lacks; each None where there is none."""
        parts = [(row, part) for row in some for part in few(row)]
        other = lacked = None
        for (row, part), reply in zip(parts, self.lines.ask_all("add " + " ".join(part) for _row, part in parts)):
            if reply.ok and reply.first == "old":
                continue
            if not reply.ok and not reply.last.startswith(("err unknown", "err full")):
                other = other or row
            else:
                lacked = lacked or row
        return other, lacked

    def grouped(self, names: Iterable[str]) -> list[str]:
        """A few names that reach the same as these. Of more than a question may have some get rows of their own, which are stand-ins and are
        let go with the question."""
        names = list(names)
        level = 0
        while len(names) > SOME:
            level += 1
            made = [[name_of(f"segdag: group {level} of {' '.join(some)}"), *some, MARK] for some in blocks(names, PARENTS - 1)]
            self.hold([[MARK], *made])
            names = [row[0] for row in made]
        return names

    def hold(self, some: list[list[str]]) -> None:
        """Adds rows for the question alone."""
        for row, reply in zip(some, self.lines.ask_all("add " + " ".join(row) for row in some)):
            if not reply.ok:
                raise Refused(f"{reply.last}, answered to a row that was made for the question")

    def let(self, expression: str) -> str:
        """A short expression with the same members, which are listed and held by rows that are made for the question alone."""
        return self.held(self.listed(expression))

    def set_of(self, names: list[str]) -> str:
        """The set of these names, of any number, as a short expression."""
        return union(names) if len(names) <= SOME else self.held(names)

    def held(self, names: list[str]) -> str:
        """The same of more, held by rows that are made for the question alone."""
        if not names:
            return "minus(all,all)"
        self.sets += 1
        own = name_of(f"segdag: set {self.sets} of a question")
        held = [[name_of(f"{own} {number}"), *some, own, MARK] for number, some in enumerate(blocks(names, PARENTS - 2))]
        self.hold([[MARK], [own, MARK], *held])
        return f"minus(parents(children({own})),{STAND_INS})"

    def flush(self, heads: list[str]) -> None:
        for some in blocks(heads, HEADS):
            self.lines.must("flush " + " ".join(some))

    def there(self, objects: Objects) -> list[str]:
        """Commits that the repository has, and that reach all that it still has of the log. Rewritten branches lose some."""
        heads = self.listed("heads(all)")
        found = [name for name, commit in zip(heads, objects.commits(heads)) if commit]
        have = set(found)
        for gone in blocks([name for name in heads if name not in have], GONE):
            found += self._there_behind(gone, found, objects)
        return found

    def _there_behind(self, gone: list[str], known: list[str], objects: Objects) -> list[str]:
        """The same of what these reach, which are gone, and the known ones don't. Too few are too many rows, and no wrong ones."""
        found: list[str] = []
        at, size = 0, 100
        while len(found) < BEHIND:
            known = (found + known)[:BEHIND]
            some = f"minus(ancestors({union(gone)}),ancestors({union(known)}))"
            names = self.listed(f"minus(top({some},{at + size}),top({some},{at}))")
            if not names:
                break
            there = [name for name, commit in zip(names, objects.commits(names)) if commit]
            if there:
                # The newest: none of the rest reaches it. What it reaches is in no later block.
                found, size = found + there[:1], 100
            else:
                at, size = at + len(names), min(4 * size, BLOCK)
        return found
