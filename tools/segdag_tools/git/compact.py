"""`git segdag compact`: the log is written anew by the program, and takes the old one's place."""
from __future__ import annotations

import os
import shutil
from contextlib import suppress
from subprocess import DEVNULL, PIPE, Popen

from ..found import program
from ..lines import environment
from ..refused import Refused, end_of
from .place import patient, readable
from .shared import NO_CHANGE, as_, keep_entries, made

# What types alone need isn't loaded.
TYPE_CHECKING = False
if TYPE_CHECKING:
    from .place import Place
    from .repository import Objects

ENDS = {13: "the new log can't be written, and the old one is as it was", 15: "the new log would be longer than a log may be"}


def compact(place: Place, _objects: Objects, _words: list[str]) -> None:
    """Says how many rows the new log has, and how long both logs are."""
    place.must_have_commits()
    with place.changing() as held:
        place.must_not_be_served()
        fresh = place.log + ".new"
        # Who was killed behind the writing left one.
        with suppress(FileNotFoundError):
            os.unlink(fresh)
        with as_(place.log):
            made(fresh, 0, NO_CHANGE)
        told = patient(lambda more: written(place.log, more, held), place.log)
        shutil.copymode(place.log, fresh)
        os.replace(fresh, place.log)
        keep_entries(place.folder)
        master, others, old, new = (int(word) for word in told[2:6])
        print(f"{master + others} rows in the log, {new} bytes in place of {old}")


def written(log: str, more: list[str], held: int) -> list[bytes]:
    """The words of the program's reply, when the new log is whole."""
    with readable(log) as (name, ours):
        words = [program(), name, "--", "compact", *more]
        child = Popen(words, stdin=DEVNULL, stdout=PIPE, stderr=DEVNULL, pass_fds=(held, *ours), env=environment())
        told = child.communicate()[0].split()
    if child.returncode == 0 and (told[:2] != [b"ok", b"compacted"] or len(told) != 6 or not b"".join(told[2:]).isdigit()):
        raise Refused(f"the program put {b' '.join(told)[:80]!r}, and was to tell of a new log")
    if child.returncode != 0:
        raise Refused(f"{log}: {ENDS.get(child.returncode) or end_of(child.returncode)}", child.returncode)
    return told
