"""`git segdag status`: what log, how many commits, how far behind the references, whether a daemon has it, and the last sync."""
from __future__ import annotations

import json
import os
import time
from ..refused import Refused

from .repository import rows
from .store import Store
from .sync import References

# What types alone need isn't loaded.
TYPE_CHECKING = False
if TYPE_CHECKING:
    from .place import Place
    from .repository import Objects


def status(place: Place, objects: Objects, words: list[str]) -> int:
    if words not in ([], ["--json"], ["-z"]):
        raise Refused(f"status takes --json or -z, and not '{' '.join(words)}'")
    found = state(place, objects)
    if words == ["--json"]:
        print(json.dumps(found, indent=2))
        return 0
    if words == ["-z"]:
        print("".join(f"{key} {'' if value is None else value}\0" for key, value in found.items()), end="")
        return 0
    daemon = "none" if found["daemon"] is None else f"process {found['daemon']}"
    synced = "never" if found["synced"] is None else time.strftime("%Y-%m-%d %H:%M:%S %z", time.localtime(int(found["synced"])))
    print(f"log      {found['log']}, {found['bytes']} bytes")
    print(f"commits  {found['commits']}: {found['master']} in master, {found['others']} others")
    print(f"behind   {found['behind']} commits that {found['references']} references reach")
    print(f"daemon   {daemon}")
    print(f"synced   {synced}")
    return 0


def state(place: Place, objects: Objects) -> dict[str, str | int | None]:
    with place.asked() as lines:
        store = Store(lines)
        references = References(objects)
        lacked = [name for name, where in zip(references.all, store.places(references.all)) if where is None]
        behind = sum(1 for _row in rows(lacked, store.there(objects))) if lacked else 0
        all_, master, others = store.counts(["all", "master", "others"])
    lock = os.path.join(place.folder, "lock")
    return {
        "log": place.log, "bytes": os.path.getsize(place.log), "commits": all_, "master": master, "others": others,
        "references": references.count, "behind": behind, "daemon": place.keeper(),
        "synced": int(os.stat(lock).st_mtime) if os.path.exists(lock) else None,
    }
