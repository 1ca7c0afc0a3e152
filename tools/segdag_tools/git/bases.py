"""`git segdag merge-base`: best common ancestors, in all the forms that git has but `--fork-point`."""
from __future__ import annotations

from ..refused import Refused

from .names import MARK
from .questions import holding, is_ancestor
from .repository import FRONT, Misuse, git
from .store import union

# What types alone need isn't loaded.
TYPE_CHECKING = False
if TYPE_CHECKING:
    from .place import Place
    from .repository import Objects
    from .store import Store

FORMS = ("--octopus", "--independent", "--is-ancestor")


def merge_base(place: Place, objects: Objects, words: list[str]) -> int:
    """git's answer and status: of two, of one and a merge of the others, of all (--octopus); or which of them no other one reaches."""
    options = [word for word in words if word[:1] == "-"]
    revisions = [word for word in words if word[:1] != "-"]
    form = one_of(options)
    if form == "--is-ancestor":
        if len(revisions) != 2:
            raise Misuse("merge-base --is-ancestor takes two revisions")
        return is_ancestor(place, objects, revisions)
    if not revisions or form is None and len(revisions) < 2:
        raise Misuse("merge-base takes two revisions or more")
    wants_all = "-a" in options or "--all" in options
    if form == "--independent" and wants_all:
        raise Refused("merge-base takes either --independent or --all, not both")
    names = [objects.named(word) for word in revisions]
    with holding(place, objects, names) as store:
        found = {None: of_merge, "--octopus": of_all, "--independent": independent}[form](store, names)
    found = found if wants_all or form == "--independent" else found[:1]
    print("".join(name + "\n" for name in objects.whole(found)), end="")
    return 0 if found else 1


def one_of(options: list[str]) -> str | None:
    """Which form these options ask for."""
    for option in options:
        if option not in (*FORMS, "-a", "--all"):
            raise Refused(f"merge-base takes --all, --octopus, --independent and --is-ancestor, and not '{option}'")
    forms = [option for option in FORMS if option in options]
    if len(forms) > 1:
        raise Refused(f"merge-base takes only one of {' and '.join(forms)}")
    return forms[0] if forms else None


def bases(store: Store, expression: str) -> list[str]:
    """The members of an expression, the youngest first, as git tells them."""
    # Commits that have stand-ins have the mark in common, which is no commit.
    found = [name for name in store.listed(expression) if name != MARK]
    if len(found) > 1:
        # A repository without these commits knows no dates.
        found = [name[:FRONT] for name in git("rev-list", "--no-walk", "--stdin", given=found[::-1]) or found]
    return found


def of_merge(store: Store, names: list[str]) -> list[str]:
    """Those of the first one and a merge of the others."""
    first, *others = names
    if len(others) == 1:
        return bases(store, f"gca({union(names)})")
    return bases(store, f"heads(inter(ancestors({first}),ancestors({union(store.grouped(dict.fromkeys(others)))})))")


def of_all(store: Store, names: list[str]) -> list[str]:
    """Those of all. git goes from one to the next, and tells them in the order in which it finds them."""
    found = [names[0]]
    for name in names[1:]:
        found = [base for one in found for base in bases(store, f"gca({union([name, one])})")]
    return independent(store, found)


def independent(store: Store, names: list[str]) -> list[str]:
    """Those of these that no other one of them reaches, in their order."""
    names = list(dict.fromkeys(names))
    if len(names) < 2:
        return names
    left = set(store.listed(f"tips({store.set_of(names)})"))
    return [name for name in names if name in left]
