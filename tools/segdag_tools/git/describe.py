"""`git segdag describe`: the nearest tag or other reference that a commit reaches, as git prints it. git names it; which is the nearest is
answered by the log."""
from __future__ import annotations

from ..refused import Refused

from .questions import holding
from .repository import must, run, sentence

# What types alone need isn't loaded.
TYPE_CHECKING = False
if TYPE_CHECKING:
    from .place import Place
    from .repository import Objects
    from .store import Store

VALUES = ("--match", "--exclude", "--abbrev")
ALONE = ("--tags", "--all", "--long", "--always", "--no-abbrev")
NAMING = ("--tags", "--all", "--match", "--exclude")  # which references are looked at


def describe(place: Place, objects: Objects, words: list[str]) -> int:
    """Of the tags that the commit reaches the one that leaves out the fewest of what it reaches; of several the youngest."""
    options, revisions = [], []
    for word in words:
        if word in ALONE or word.partition("=")[0] in VALUES and "=" in word:
            options.append(word)
        elif word[:1] == "-":
            raise Refused(f"describe takes {', '.join(ALONE)}, --match=, --exclude= and --abbrev=, and not '{word}'")
        else:
            revisions.append(word)
    print("".join(described(place, objects, options, word) + "\n" for word in revisions or ["HEAD"]), end="")
    return 0


def described(place: Place, objects: Objects, options: list[str], word: str) -> str:
    commit = objects.named(word)
    naming = [option for option in options if option.split("=")[0] in NAMING]
    tags = tagged(objects, options)
    with holding(place, objects, [commit, *tags]) as store:
        near = nearest(store, commit, tags, naming)
        if near is None:
            if "--always" not in options:
                raise Refused(f"no tag describes {word}: --tags takes plain tags too, --all every reference, and --always puts its name")
            return shortened(options, commit)
        depth = store.counts([f"only({commit},{near})"])[0]
    if depth == 0 and "--long" not in options:
        return exact(options, commit, word)
    name = exact(naming, near, word)
    if digits(options) == 0 and "--long" not in options:
        return name
    return f"{name}-{depth}-g{shortened(options, commit)}"


def digits(options: list[str]) -> int | None:
    """How many digits of a name are put at least; None for git's own number."""
    found = [option.partition("=")[2] for option in options if option.startswith("--abbrev=")]
    if found and not found[-1].isdigit():
        raise Refused(f"--abbrev= takes a number, and not '{found[-1]}'")
    return int(found[-1]) if found else 0 if "--no-abbrev" in options else None


def shortened(options: list[str], commit: str) -> str:
    if digits(options) == 0:
        return must("rev-parse", commit)[0]
    return must("rev-parse", "--short" if digits(options) is None else f"--short={digits(options)}", commit)[0]


def exact(options: list[str], commit: str, word: str) -> str:
    """What git says of a commit that has a tag, or that no tag describes."""
    status, put, told = run(["describe", "--candidates=0", *options, commit])
    if status != 0:
        raise Refused(sentence(told) or f"no tag describes {word}")
    return put.rstrip("\n")


def tagged(objects: Objects, options: list[str]) -> list[str]:
    """The commits that tags have, each once; of tags that are no objects none but where they are asked for. With --all every reference is one."""
    lines = [line.split() for line in must("for-each-ref", "--format=%(objectname) %(objecttype)", *([] if "--all" in options else ["refs/tags"]))]
    names = [name for name, kind in lines if kind == "tag" or {"--tags", "--all"} & set(options)]
    return list(dict.fromkeys(filter(None, objects.commits(names))))


def nearest(store: Store, commit: str, tags: list[str], naming: list[str]) -> str | None:
    """The tag's commit that leaves out the fewest; of those that match alone, which git says."""
    reached = store.listed(f"inter({store.set_of(tags)},ancestors({commit}))") if tags else []
    if any("=" in option for option in naming):
        reached = [name for name in reached if run(["describe", "--candidates=0", *naming, name])[0] == 0]
    # A tag that another one of them reaches leaves out more.
    near = store.listed(f"tips({store.set_of(reached)})") if reached else []
    if len(near) < 2:
        return near[0] if near else None
    counts = dict(zip(near, store.counts(f"only({commit},{name})" for name in near)))
    dates = {}
    for line in must("rev-list", "--no-walk=unsorted", "--timestamp", "--stdin", given=near):
        date, name = line.split()
        dates[name[:40]] = int(date)
    return min(near, key=lambda name: (counts[name], -dates[name]))
