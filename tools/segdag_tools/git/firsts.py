"""First parents: the line of a commit is itself, its first parent, the first parent of that, and so on. Lines of many commits are looked at
together, so that an answer takes some rounds of questions and not one for each commit of a line."""
from __future__ import annotations

# What types alone need isn't loaded.
TYPE_CHECKING = False
if TYPE_CHECKING:
    from collections.abc import Callable, Iterable

    from .store import Store


def greatest(bounds: Iterable[tuple[int, int]], holds: Callable[[list[tuple[int, int]]], Iterable[bool]]) -> list[int]:
    """For each pair of bounds the greatest number of it for which this holds: it does for the first one, and behind the first for which it doesn't
    for none. The second one isn't asked. `holds` answers for pairs of a place and a number, all at once."""
    left = [list(pair) for pair in bounds]
    while True:
        asked = [(at, (least + most) // 2) for at, (least, most) in enumerate(left) if most - least > 1]
        if not asked:
            return [least for least, _most in left]
        for (at, middle), is_so in zip(asked, holds(asked)):
            left[at][0 if is_so else 1] = middle


def sizes(store: Store, names: list[str]) -> list[int]:
    """How many commits the line of each of these has."""
    def reaches(asked: list[tuple[int, int]]) -> list[bool]:
        return [reply.ok and reply.number > 0 for reply in store.lines.ask_all(f"count up({names[at]},{number})" for at, number in asked)]

    most, left = [1] * len(names), list(range(len(names)))
    while left:
        left = [at for at, is_so in zip(left, reaches([(at, most[at]) for at in left])) if is_so]
        for at in left:
            most[at] *= 2
    # The least is a step that leads to a commit.
    return [last + 1 for last in greatest([(it // 2, it) for it in most], reaches)]


def branched(store: Store, tip: str, names: list[str]) -> list[int | None]:
    """For each of these how many commits of the tip's line aren't on its own; None where the lines have none in common. Behind the first commit that
    two lines have in common all are the same, so that it is as far from the end of both."""
    size, *others = sizes(store, [tip, *names])

    def are_one(asked: list[tuple[int, int]]) -> list[bool]:
        lines = [f"count inter(up({tip},{size - number}),up({names[at]},{others[at] - number}))" for at, number in asked]
        return [reply.ok and reply.number > 0 for reply in store.lines.ask_all(lines)]

    # How many commits at the ends of both lines are the same.
    shared = greatest([(0, min(size, other) + 1) for other in others], are_one)
    return [size - number if number else None for number in shared]
