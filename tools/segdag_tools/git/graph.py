"""`git segdag graph`: what revisions reach, drawn on the terminal. Each commit is a line, in front of its parents, in a lane of its own. Behind one
whose parents don't just go on below it stands a line that leads to them:

    *        a merge: its first parent goes on below it (+), and another one in a lane that begins (.)
    +-.
    * |      a line goes over a lane that it has nothing to do with (-|-)
    +-|-.
    | * |    two lanes lead to one commit: the left one goes on, the other one ends (')
    +-' |

So what joins a line from above leads to what leaves it below, and a commit has one line at most.
"""
from __future__ import annotations

import os
import sys
from ..refused import Refused

from .questions import MANY, holding, Reach, Revisions
from .repository import FRONT, must
from .revlist import Given, ordered

# What types alone need isn't loaded.
TYPE_CHECKING = False
if TYPE_CHECKING:
    from collections.abc import Iterator

    from .place import Place
    from .repository import Objects

FLAGS = ("--first-parent", "--topo-order")


def graph(place: Place, objects: Objects, words: list[str]) -> None:
    """The drawing, with git's text of each commit beside it."""
    given = drawn_of(words)
    asked = Revisions(objects, given.revisions)
    with holding(place, objects, asked.every()) as store:
        order, rows = ordered(store, Reach(store, asked), given) if asked.wanted else ([], {})
    parents = {name: [it[:FRONT] for it in (rows[name].parents[:1] if "--first-parent" in given else rows[name].parents)] for name in order}
    texts = described([rows[name].name for name in order])
    sys.stdout.flush()
    for line in drawing(order, parents, [texts[name] for name in order]):
        sys.stdout.buffer.write(os.fsencode(line + "\n"))


def drawn_of(words: list[str]) -> Given:
    """The words: HEAD where they name nothing. Of the options of a list some are no drawing's."""
    numbers = ("--max-count", "--skip", "-n")
    for word in words:
        is_number = word.partition("=")[0] in numbers or word[:2] == "-n" or word[1:].isdigit()
        if word[:1] == "-" and word not in ("--", *FLAGS) and not is_number and not MANY.fullmatch(word):
            raise Refused(f"graph takes {', '.join((*FLAGS, *numbers))}, --all, --branches, --tags, --remotes and --glob=, and not '{word}'")
    given = Given(words, "HEAD")
    given.flags.add("--topo-order")
    return given


def described(names: list[str]) -> dict[str, str]:
    """The texts of these commits by the fronts of their names: the short name, references, and the first line of the message."""
    words = ["rev-list", "--no-walk=unsorted", "--stdin", "--encoding=UTF-8", "--format=%H %h%d %s"]
    # In front of each text stands a line with the name alone.
    lines = [line.partition(" ") for line in (must(*words, given=names) if names else []) if not line.startswith("commit ")]
    return {name[:FRONT]: text for name, _, text in lines}


class Lanes:
    """What stands in each lane: the commit that comes in it, or None. `over` is the lane that ended in the last line, which nothing may begin in
    there: it would look like a parent of what ended."""

    def __init__(self) -> None:
        self.awaited: list[str | None] = []
        self.over: int | None = None

    def place(self, name: str) -> int:
        """The lane of a commit: that in which it is awaited, or else the first that is free."""
        if name in self.awaited:
            return self.awaited.index(name)
        return self.free()

    def free(self, without: int | None = None) -> int:
        for at, awaited in enumerate(self.awaited):
            if awaited is None and at != without:
                return at
        self.awaited.append(None)
        return len(self.awaited) - 1

    def cells(self) -> list[str]:
        while self.awaited and self.awaited[-1] is None:
            self.awaited.pop()
        return ["|" if it else " " for it in self.awaited]


def drawing(order: list[str], parents: dict[str, list[str]], texts: list[str]) -> Iterator[str]:
    """The lines."""
    lanes, drawn = Lanes(), set(order)
    for name, text in zip(order, texts):
        at = lanes.place(name)
        if at == lanes.over and lanes.awaited[at] is None:
            yield " ".join(lanes.cells()).rstrip()
            at = lanes.place(name)
        lanes.awaited[at] = name
        cells = lanes.cells()
        cells[at] = "*"
        yield f"{' '.join(cells)} {text}"
        before = list(lanes.awaited)
        aims = led(lanes, at, [parent for parent in dict.fromkeys(parents[name]) if parent in drawn])
        lanes.over = at if not aims else None
        if aims and aims != [at]:
            yield link(before, lanes.awaited, {at, *aims})


def led(lanes: Lanes, at: int, parents: list[str]) -> list[int]:
    """The lanes that a commit's parents join with its own: those in which they are awaited, this one for the first of the others, free ones for the
    rest. An only parent that is awaited to the right comes over to this lane."""
    lanes.awaited[at] = None
    if len(parents) == 1 and parents[0] in lanes.awaited[at:]:
        other = lanes.awaited.index(parents[0])
        lanes.awaited[at], lanes.awaited[other] = parents[0], None
        return [at, other]
    aims = []
    for parent in parents:
        if parent not in lanes.awaited:
            lanes.awaited[at if lanes.awaited[at] is None else lanes.free()] = parent
        aims.append(lanes.awaited.index(parent))
    return aims


def link(before: list[str | None], behind: list[str | None], joined: set[int]) -> str:
    """The line from a commit to its parents, whose lanes and its own are joined."""
    first, last, text = min(joined), max(joined), ""
    for at in range(max(len(before), len(behind))):
        comes, goes = at < len(before) and bool(before[at]), at < len(behind) and bool(behind[at])
        inside = first <= at <= last
        if at in joined:
            text += "+" if comes and goes else "'" if comes else "."
        else:
            text += "|" if goes else "-" if inside else " "
        text += "-" if first <= at < last else " "
    return text.rstrip()
