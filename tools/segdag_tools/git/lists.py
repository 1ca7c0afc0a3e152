"""`git segdag for-each-ref` and `contains`: references by what they reach. git finds, sorts and writes them; which are told, and how far each
is ahead and behind, is answered by the log, for all at once."""
from __future__ import annotations

import os
import re
import sys
from secrets import token_hex
from ..refused import Refused

from .firsts import branched
from .questions import holding
from .repository import run

# What types alone need isn't loaded.
TYPE_CHECKING = False
if TYPE_CHECKING:
    from collections.abc import Iterator
    from typing import Tuple

    from .place import Place
    from .repository import Objects
    from .store import Store

    Atom = Tuple[str, str]  # its kind, and the revision in it

FILTERS = ("--contains", "--no-contains", "--merged", "--no-merged")
# Options that git answers by itself.
GITS = ("--sort", "--points-at", "--color", "--exclude")
ALONE = ("--ignore-case", "--no-sort", "--color")
FORM = "%(objectname) %(objecttype)\t%(refname)"
ATOM = re.compile(r"%\((ahead-behind|is-base):([^)]*)\)")
QUOTED = re.compile(r"%\((?:align|if)\b")


class Words:
    """What `for-each-ref` was given: which filters, options for git, patterns, a format and a number."""

    def __init__(self, words: list[str]) -> None:
        self.filters: list[tuple[str, str]] = []
        self.options: list[str] = []
        self.patterns: list[str] = []
        self.form = FORM
        self.most: int | None = None
        words = list(words)
        while words:
            word = words.pop(0)
            name, has_value, value = word.partition("=")
            if word == "--":
                self.patterns += words
                break
            if name in FILTERS:
                # Behind an option without a value stands its value, but where it is the last word.
                self.filters.append((name, value if has_value else words.pop(0) if words else "HEAD"))
            elif name in ("--format", "--count", *GITS) and (has_value or words and name != "--color"):
                self.option(name, value if has_value else words.pop(0))
            elif word in ALONE:
                self.options.append(word)
            elif word[:1] == "-":
                raise Refused(f"for-each-ref takes {', '.join((*FILTERS, '--format', '--count', *GITS, '--ignore-case'))}, and not '{word}'")
            else:
                self.patterns.append(word)

    def option(self, name: str, value: str) -> None:
        if name == "--format":
            self.form = value
        elif name == "--count":
            if not value.isdigit():
                raise Refused(f"--count takes a number, and not '{value}'")
            self.most = int(value) or None
        elif name == "--sort" and value.lstrip("-").startswith(("ahead-behind:", "is-base:")):
            raise Refused(f"{name}={value} isn't taken: sort by git's own atoms")
        else:
            self.options.append(f"{name}={value}")


def for_each_ref(place: Place, objects: Objects, words: list[str]) -> None:
    """As git prints it, with %(ahead-behind:BASE) and %(is-base:TIP) where git has no such atoms too."""
    given = Words(words)
    atoms = list(dict.fromkeys(ATOM.findall(given.form)))
    if atoms and QUOTED.search(given.form):
        raise Refused(f"%({atoms[0][0]}:..) isn't taken within a format that has %(align) or %(if)")
    names, refs = [], []
    for line in told_by_git(given, "%(objectname) %(refname)").split("\n")[:-1]:
        name, _, ref = line.partition(" ")
        names.append(name)
        refs.append(ref)
    commits = dict(zip(refs, objects.commits(names))) if given.filters or atoms else dict.fromkeys(refs)
    left, texts = chosen(place, objects, given, commits, atoms) if given.filters or atoms else (set(refs), {})
    told = 0
    for ref, text in written(given, atoms):
        if ref not in left:
            continue
        for atom in atoms:
            text = text.replace(mark_of(*atom), texts.get((ref, atom[0], atom[1]), ""))
        sys.stdout.flush()
        sys.stdout.buffer.write(os.fsencode(text))
        told += 1
        if told == given.most:
            break


def mark_of(kind: str, word: str) -> str:
    return f"\1{kind} {word}\2"


def written(given: Words, atoms: list[Atom]) -> Iterator[tuple[str, str]]:
    """The references, each with what git writes of it, in git's order."""
    form, mark = given.form, token_hex(16)
    for kind, word in atoms:
        form = form.replace(f"%({kind}:{word})", f"%01{kind} {word.replace('%', '%%')}%02")
    for part in told_by_git(given, f"{mark} %(refname)%00{form}").split(f"{mark} ")[1:]:
        ref, _, text = part.partition("\0")
        yield ref, text


def told_by_git(given: Words, form: str) -> str:
    """What git puts of the references in this form, or its first sentence where it refuses."""
    status, put, said = run(["for-each-ref", *given.options, f"--format={form}", "--", *given.patterns])
    if status != 0:
        raise Refused(said.strip().split("\n")[0].partition(": ")[2] or f"git for-each-ref ended with status {status}")
    return put


def chosen(place: Place, objects: Objects, given: Words, commits: dict[str, str | None], atoms: list[Atom]) -> tuple[set[str], dict[tuple[str, str, str], str]]:
    """The references that the filters leave, and the text of each atom for each of them."""
    filters = [(name, objects.named(word)) for name, word in given.filters]
    named = {word: objects.named(word) for _kind, word in atoms}
    tips = list(dict.fromkeys(filter(None, commits.values())))
    asked = list(dict.fromkeys([*tips, *(name for _filter, name in filters), *named.values()]))
    with holding(place, objects, asked) as store:
        left = kept(store, tips, filters)
        refs = {ref: commit for ref, commit in commits.items() if commit in left or commit is None and not filters}
        texts = {}
        for kind, word in atoms:
            texts.update({(ref, kind, word): text for ref, text in TEXTS[kind](store, named[word], word, refs).items()})
    return set(refs), texts


def distances(store: Store, base: str, _word: str, refs: dict[str, str | None]) -> dict[str, str]:
    """How far each reference is ahead of the base and behind it."""
    tips = list(dict.fromkeys(filter(None, refs.values())))
    found = dict(zip(tips, store.distances((tip, base) for tip in tips)))
    return {ref: "{} {}".format(*found[commit]) for ref, commit in refs.items() if commit}


def origin(store: Store, tip: str, word: str, refs: dict[str, str | None]) -> dict[str, str]:
    """The word, behind the one reference that the tip most likely began on: the tip's line of first parents leaves its line the latest; of several
    it is the first by name."""
    tips = list(dict.fromkeys(filter(None, refs.values())))
    found = dict(zip(tips, branched(store, tip, tips))) if tips else {}
    near = [(found[commit], os.fsencode(ref), ref) for ref, commit in refs.items() if commit and found[commit] is not None]
    return {min(near)[2]: f"({word})"} if near else {}


TEXTS = {"ahead-behind": distances, "is-base": origin}


def kept(store: Store, tips: list[str], filters: list[tuple[str, str]]) -> set[str]:
    """Those of these commits that every filter leaves; of several of one name one is enough."""
    left = set(tips)
    for name in FILTERS:
        named = [commit for it, commit in filters if it == name]
        if not named or not left:
            continue
        function = "descendants" if name.endswith("contains") else "ancestors"
        found = set(store.listed(f"inter({store.set_of(list(tips))},{function}({store.set_of(list(dict.fromkeys(named)))}))"))
        left = left - found if name.startswith("--no-") else left & found
    return left


def contains(place: Place, objects: Objects, words: list[str]) -> None:
    """The branches and tags that reach a commit, by their short names."""
    return for_each_ref(place, objects, ["--contains", words[0], "--format=%(refname:short)", "refs/heads", "refs/remotes", "refs/tags"])
