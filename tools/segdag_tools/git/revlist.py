"""`git segdag rev-list`: counts and lists of what revisions reach, as git prints them.

What is counted is asked of the log. A list has the members from the log too, and git's order: by date, where a commit comes behind one of its
children. A list of all that revisions reach, from which nothing is left out, is git's own.
"""
from __future__ import annotations

import heapq
import os
import sys
from ..refused import Refused

from .questions import MANY, holding, Reach, Revisions
from .repository import FRONT, OWN, must, run, sentence
from .store import union

# What types alone need isn't loaded.
TYPE_CHECKING = False
if TYPE_CHECKING:
    from collections.abc import Iterable
    from typing import List, TypeVar

    from .place import Place
    from .repository import Objects
    from .store import Store

    Part = TypeVar("Part", List[str], range)

FLAGS = ("--count", "--left-right", "--first-parent", "--merges", "--no-merges", "--ancestry-path", "--parents", "--topo-order", "--reverse")
NUMBERS = ("--max-count", "--skip")
TAKEN = ", ".join((*FLAGS, *NUMBERS, "-n"))


class Given:
    """The words of a `rev-list`: flags, numbers, revisions."""

    def __init__(self, words: list[str], default: str | None = None) -> None:
        self.flags: set[str] = set()
        self.numbers: dict[str, int] = {}
        self.revisions: list[str] = []
        words = list(words)
        while words:
            word = words.pop(0)
            name, has_value, value = word.partition("=")
            if word == "--":
                if words:
                    raise Refused("rev-list takes no paths")
            elif word in FLAGS:
                self.flags.add(word)
            elif name in NUMBERS and (has_value or words):
                self.number(name, value if has_value else words.pop(0))
            elif word == "-n" and words:
                self.number("--max-count", words.pop(0))
            elif word[:2] == "-n" and len(word) > 2 or word[:1] == "-" and word[1:].isdigit():
                self.number("--max-count", word[1:].lstrip("n"))
            elif word[:1] == "-" and not MANY.fullmatch(word):
                raise Refused(f"rev-list takes {TAKEN}, --all, --branches, --tags, --remotes and --glob=, and not '{word}'")
            else:
                self.revisions.append(word)
        if not self.revisions and default:
            self.revisions.append(default)
        if not self.revisions:
            raise Refused("rev-list takes a revision or more")

    def number(self, name: str, value: str) -> None:
        if not value.lstrip("-").isdigit():
            raise Refused(f"{name} takes a number, and not '{value}'")
        self.numbers[name] = int(value)

    def __contains__(self, flag: str) -> bool:
        return flag in self.flags

    def part(self, listed: Part) -> Part:
        """What is left of it behind those that are skipped, up to the most."""
        skipped, most = max(self.numbers.get("--skip", 0), 0), self.numbers.get("--max-count", -1)
        return listed[skipped:] if most < 0 else listed[skipped : skipped + most]


def rev_list(place: Place, objects: Objects, words: list[str]) -> int:
    given = Given(words)
    asked = Revisions(objects, given.revisions)
    if not asked.left_out and not asked.pairs and not {"--count", "--ancestry-path"} & given.flags:
        return by_git(words)
    with holding(place, objects, asked.every()) as store:
        reach = Reach(store, asked)
        if "--ancestry-path" in given and not reach.left_out:
            raise Refused("--ancestry-path given but there are no bottom commits")
        if "--count" in given:
            text = (counted_list if is_tangled(store, reach, given) else counted)(store, reach, given)
        else:
            order, rows = ordered(store, reach, given)
            sides = left_right(store, reach, given) if "--left-right" in given else {}
            text = "".join(f"{sides.get(name, '')}{' '.join([rows[name].name, *rows[name].parents]) if '--parents' in given else rows[name].name}\n" for name in order)
    sys.stdout.write(text)
    return 0


def by_git(words: list[str]) -> int:
    """git's own list, of the commits' own parents."""
    status, put, told = run(["rev-list", *words], env={**os.environ, **OWN})
    if status != 0:
        raise Refused(sentence(told))
    sys.stdout.write(put)
    return 0


def members(expression: str, reach: Reach, given: Given) -> str:
    """Those of these commits that the flags leave."""
    if "--ancestry-path" in given:
        expression = on_path(expression, reach)
    if "--merges" in given:
        expression = f"merges({expression})"
    if "--no-merges" in given:
        expression = f"minus({expression},merges({expression}))"
    return expression


def on_path(expression: str, reach: Reach) -> str:
    """Those that reach something that is left out."""
    return f"inter({expression},descendants({reach.store.set_of(reach.left_out)}))"


def is_tangled(store: Store, reach: Reach, given: Given) -> bool:
    """Whether a path may lead to what is left out by commits that are left out too, where something else that is reaches these. git doesn't follow
    it there, and no expression says so."""
    return "--ancestry-path" in given and len(store.listed(f"tips({store.set_of(reach.left_out)})")) < len(reach.left_out)


def counted_list(store: Store, reach: Reach, given: Given) -> str:
    """The line of a count by the list itself."""
    order, _rows = ordered(store, reach, given)
    if "--left-right" not in given:
        return f"{len(order)}\n"
    sides = left_right(store, reach, given)
    left = sum(sides[name] == "<" for name in order)
    return f"{left}\t{len(order) - left}\n"


def counted(store: Store, reach: Reach, given: Given) -> str:
    """The line of a count; with --left-right both sides of the one pair."""
    if "--first-parent" in given:
        if "--left-right" in given:
            raise Refused("rev-list takes --left-right or --first-parent")
        names = first_parents(store, reach, given)
        rows = rows_with_dates(names) if {"--merges", "--no-merges"} & given.flags else {}
        return f"{len(given.part(shown(names, rows, given)))}\n"
    if "--left-right" not in given:
        count = store.counts([members(reach.all(), reach, given)])[0]
        return f"{len(given.part(range(count)))}\n"
    if given.numbers:
        raise Refused("rev-list takes --left-right without --max-count and --skip")
    pairs, wanted = reach.given.pairs, reach.given.wanted
    if not pairs:
        return f"0\t{store.counts([members(reach.all(), reach, given)])[0]}\n"
    if len(pairs) > 1 or set(wanted) != set(pairs[0]):
        raise Refused("rev-list takes --left-right with one A...B alone")
    left, right = store.counts(members(reach.only(name), reach, given) for name in pairs[0])
    return f"{left}\t{right}\n"


def first_parents(store: Store, reach: Reach, given: Given) -> list[str]:
    """What the revisions reach by first parents alone and isn't left out, in no order."""
    if "--ancestry-path" in given:
        raise Refused("rev-list takes --ancestry-path or --first-parent")
    found = {}
    for tip in dict.fromkeys(reach.given.wanted):
        size = line_size(store, tip, reach)
        for reply in store.lines.ask_all(f"query up({tip},{number})" for number in range(size)):
            for name in reply.lines:
                found[name] = True
    return list(found)


def line_size(store: Store, tip: str, reach: Reach) -> int:
    """How many first parents in a row, the commit itself among them, aren't left out: by doubling, then by halves."""
    def is_in(number: int) -> bool:
        reply = store.lines.ask(f"count only(up({tip},{number}),{union(reach.few_left_out)})")
        return reply.ok and reply.number > 0

    most = 1
    while is_in(most - 1):
        most *= 2
    least = most // 2
    while least < most - 1:
        middle = (least + most) // 2
        least, most = (middle, most) if is_in(middle - 1) else (least, middle)
    return least


def shown(names: list[str], rows: dict[str, Row], given: Given) -> list[str]:
    """Those with as many parents as the flags say."""
    if "--merges" in given:
        names = [name for name in names if len(rows[name].parents) > 1]
    if "--no-merges" in given:
        names = [name for name in names if len(rows[name].parents) < 2]
    return names


def rows_with_dates(names: list[str]) -> dict[str, Row]:
    """For each of these its name and parents, whole, behind its date."""
    found = {}
    for line in must("rev-list", "--no-walk=unsorted", "--parents", "--timestamp", "--stdin", given=names):
        date, name, *parents = line.split()
        found[name[:FRONT]] = Row(int(date), name, parents)
    return found


class Row:
    """A commit's date, its name and its parents, whole."""

    __slots__ = ("date", "name", "parents")

    def __init__(self, date: int, name: str, parents: list[str]) -> None:
        self.date, self.name, self.parents = date, name, parents


def ordered(store: Store, reach: Reach, given: Given) -> tuple[list[str], dict[str, Row]]:
    """The members of a list, in git's order: that of all, of which what isn't on the path goes first, and flags and numbers leave out the rest. With
    the row of each that the order has looked at."""
    names = first_parents(store, reach, given) if "--first-parent" in given else store.listed(store.real(reach.all()))
    rows = rows_with_dates(names) if names else {}
    parents = {name: [parent[:FRONT] for parent in row.parents] for name, row in rows.items()}
    begin = [name for name in dict.fromkeys(reach.given.wanted) if name in rows]
    order = by_date(begin, rows, {name: it[:1] for name, it in parents.items()} if "--first-parent" in given else parents)
    if "--ancestry-path" in given:
        path = descendants(parents, reach.left_out)
        order = [name for name in order if name in path]
    if "--topo-order" in given:
        order = by_topology(order, parents)
    order = given.part(shown(order, rows, given))
    if "--reverse" in given:
        order.reverse()
    return order, rows


def descendants(parents: dict[str, list[str]], begin: Iterable[str]) -> set[str]:
    """Which of these commits reach one of those that are begun with, by way of these alone."""
    children: dict[str, list[str]] = {}
    for name, those in parents.items():
        for parent in those:
            children.setdefault(parent, []).append(name)
    found: set[str] = set()
    left = list(begin)
    while left:
        for child in children.get(left.pop(), ()):
            if child not in found:
                found.add(child)
                left.append(child)
    return found


def left_right(store: Store, reach: Reach, given: Given) -> dict[str, str]:
    """The mark of each member: < where the left one of a pair reaches it, and else >."""
    if "--first-parent" in given:
        raise Refused("rev-list takes --left-right or --first-parent")
    left = {name for one, _other in reach.given.pairs for name in store.listed(store.real(reach.only(one)))}
    return {name: "<" if name in left else ">" for name in store.listed(store.real(reach.all()))}


def by_date(begin: list[str], rows: dict[str, Row], parents: dict[str, list[str]]) -> list[str]:
    """The youngest first of those whose children were told; of the same date, which came first."""
    queue: list[tuple[int, int, str]] = []
    came: set[str] = set()
    order: list[str] = []
    for name in begin:
        came.add(name)
        heapq.heappush(queue, (-rows[name].date, len(came), name))
    while queue:
        name = heapq.heappop(queue)[2]
        order.append(name)
        for parent in parents[name]:
            if parent in rows and parent not in came:
                came.add(parent)
                heapq.heappush(queue, (-rows[parent].date, len(came), parent))
    return order


def by_topology(order: list[str], parents: dict[str, list[str]]) -> list[str]:
    """Each behind all of its children, and a line of commits together."""
    children = dict.fromkeys(order, 0)
    for name in order:
        for parent in dict.fromkeys(parents[name]):
            if parent in children:
                children[parent] += 1
    left, found = [name for name in reversed(order) if not children[name]], []
    while left:
        name = left.pop()
        found.append(name)
        for parent in dict.fromkeys(parents[name]):
            if parent in children:
                children[parent] -= 1
                if not children[parent]:
                    left.append(parent)
    return found
