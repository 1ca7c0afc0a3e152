"""`git segdag hook install`: the log follows the references by itself. git calls the hook reference-transaction behind each change of references and
waits for its end; so it starts a sync beside it, lets go of whatever git waits for, and ends, well in any case."""
from __future__ import annotations

import fcntl
import os
import shlex
from contextlib import suppress
from ..found import tool
from ..refused import Refused

from .repository import must
from .shared import made, rights, share
from .sync import sync

# What types alone need isn't loaded.
TYPE_CHECKING = False
if TYPE_CHECKING:
    from .place import Place
    from .repository import Objects

NAME = "reference-transaction"
OURS = "# Of git segdag"
# Where a sync that was asked for hasn't begun yet there is a file that says so, which is the word for this change too. One that is left
# from a machine that stopped counts for a minute.
TEXT = """#!/bin/sh
{ours}: behind a change of references the log follows, and nobody waits for it. `git segdag hook remove` takes this file away.
folder=${{0%/*}}/../segdag
[ "$1" = committed ] && [ -s "$folder/log" ] || exit 0
[ ! -e "$folder/changed" ] || [ -z "$(find "$folder/changed" -mmin -1 2> /dev/null)" ] || exit 0
(: > "$folder/changed") 2> /dev/null || exit 0
{tool} hook run < /dev/null > /dev/null 2>&1 &
exit 0
"""


def hook(place: Place, objects: Objects, words: list[str]) -> None:
    work = {"install": install, "remove": remove, "run": run}.get(words[0])
    if work is None:
        raise Refused(f"git segdag hook takes install or remove, and not '{words[0]}'")
    return work(place, objects)


def path_of(place: Place) -> str:
    """The hook's file. A folder that core.hooksPath names may be that of other repositories too."""
    found = must("rev-parse", "--git-path", "hooks")[0]
    if os.path.realpath(found) != os.path.realpath(os.path.join(place.common, "hooks")):
        raise Refused(f"core.hooksPath has the hooks in {found}, which may be other repositories' too: nothing is written there")
    return os.path.join(place.common, "hooks", NAME)


def is_ours(path: str) -> bool:
    with open(path, encoding="utf-8", errors="replace") as file:
        return OURS in file.read()


def install(place: Place, _objects: Objects) -> None:
    path = path_of(place)
    if os.path.lexists(path) and not is_ours(path):
        raise Refused(f"{path} is there already, and another's: it is left as it is")
    os.makedirs(os.path.dirname(path), exist_ok=True)
    fresh = path + ".new"
    with suppress(FileNotFoundError):
        os.unlink(fresh)
    with open(os.open(fresh, os.O_WRONLY | os.O_CREAT | os.O_EXCL, 0o777), "w", encoding="utf-8", errors="surrogateescape") as file:
        file.write(TEXT.format(ours=OURS, tool=shlex.quote(tool("git-segdag"))))
    share(fresh, rights(place.common))
    os.replace(fresh, path)
    print(f"{path} is installed")


def remove(place: Place, _objects: Objects) -> None:
    path = path_of(place)
    if not os.path.lexists(path):
        print("there was no hook")
        return
    if not is_ours(path):
        raise Refused(f"{path} is another's: it is left as it is")
    os.unlink(path)
    print(f"{path} is removed")


def run(place: Place, objects: Objects) -> None:
    """Syncs as long as references change. One does it for all: whoever finds another one at it leaves it the word, and that one looks for a word
    behind its end, too."""
    changed, path = os.path.join(place.folder, "changed"), os.path.join(place.folder, "hook.lock")
    while os.path.exists(changed):
        if not os.path.exists(path):
            made(path, rights(place.common))
        with open(path, "rb") as lock:
            try:
                fcntl.flock(lock, fcntl.LOCK_EX | fcntl.LOCK_NB)
            except BlockingIOError:
                return
            with suppress(FileNotFoundError):
                os.unlink(changed)
            if place.is_begun():
                sync(place, objects, [])
