"""`git segdag verify`: the log is compared with the repository, commit by commit; `git segdag reset` removes it."""
from __future__ import annotations

import os
from contextlib import suppress
from ..refused import Refused

from .place import Place, told
from .repository import rows
from .shared import NO_CHANGE, as_, keep_entries, made
from .store import BLOCK, Store, gathered
from .sync import References, synced

# What types alone need isn't loaded.
TYPE_CHECKING = False
if TYPE_CHECKING:
    from .repository import Objects


def verify(place: Place, objects: Objects, words: list[str]) -> int:
    """Tells the first commit that the log has otherwise, by status 1. With `--fix` another log is made beside it then, and takes its place."""
    if words not in ([], ["--fix"]):
        raise Refused(f"verify takes --fix, and not '{' '.join(words)}'")
    with place.asked() as lines:
        store = Store(lines)
        wrong, compared = difference(store, objects)
        if wrong is None:
            gone = store.count("all") - compared
            lacking = sum(place is None for place in store.places(References(objects).all))
    if wrong is not None:
        print(wrong)
        return fix(place, objects) if words else 1
    print(f"{compared} commits have the same parents in the log and in the repository")
    if gone:
        print(f"{gone} commits of the log are gone from the repository, and aren't compared")
    if lacking:
        print(f"{lacking} commits of references aren't in the log yet: `git segdag sync` takes them")
    return 0


def difference(store: Store, objects: Objects) -> tuple[str | None, int]:
    """What differs first, in a line, or None; and how many commits were compared. That a commit is lacking is told where none has other parents."""
    compared, lacking = 0, None
    for some in gathered(rows(store.there(objects), []), BLOCK):
        other, lacked = store.differing(some)
        lacking = lacking or lacked
        if other:
            return told_of(store, other), compared
        compared += len(some)
        told(f"{compared} commits compared")
    told(f"{compared} commits compared", "\n")
    return (f"{lacking[0]}: the log lacks it, and has commits that reach it" if lacking else None), compared


def told_of(store: Store, row: list[str]) -> str:
    reply = store.lines.ask(f"query {store.real(f'parents({row[0]})')}")
    if len(row) > 9 or not reply.ok:
        there = "other parents"
    else:
        there = "the parents " + " ".join(reply.lines) if reply.lines else "no parents"
    return f"{row[0]}: the log has {there}, and the repository has {' '.join(row[1:]) or 'no parents'}"


class Beside(Place):
    """Another log beside that of a repository, which no daemon has."""

    def __init__(self, place: Place) -> None:
        super().__init__(place.common)
        self.log, self.socket = place.log + ".new", os.path.join(place.folder, "none")


def fix(place: Place, objects: Objects) -> int:
    with place.changing() as held:
        place.must_not_be_served()
        fresh = Beside(place)
        with suppress(FileNotFoundError):
            os.unlink(fresh.log)
        with as_(place.log):
            made(fresh.log, 0, NO_CHANGE)
        _taken, _gone, count = synced(fresh, (held,), objects)
        os.chmod(fresh.log, os.stat(place.log).st_mode & 0o7777)
        os.replace(fresh.log, place.log)
        keep_entries(place.folder)
    print(f"the log is made anew: {count} commits in the log")
    return 0


def reset(place: Place, _objects: Objects, _words: list[str]) -> None:
    """Removes the log, and ends the daemon that has it."""
    with place.changing():
        place.end_daemon()
        size = os.path.getsize(place.log)
        for path in (place.log + ".new", place.log):
            with suppress(FileNotFoundError):
                os.unlink(path)
    print(f"the log of {size} bytes is removed: `git segdag sync` makes it anew" if size > 1 else "there was no log")
