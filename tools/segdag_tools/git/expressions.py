"""What `query` is given: the program's expressions, in which revisions may stand for names.

A word in double quotes is a revision, whatever it is made of, and so is each word that stands where a set is wanted, but for `all`, `master`
and `others`. Where one of these names a commit too the question is refused: it is written `set:master` or `"master"`.
"""
from __future__ import annotations

import re
from ..refused import Refused

from .names import MARK, STAND_INS

# What types alone need isn't loaded.
TYPE_CHECKING = False
if TYPE_CHECKING:
    from typing import Any, Tuple

    from .repository import Objects
    from .store import Store

    # The name of a function or of what else it is, and its parts: trees, or a word.
    Tree = Tuple[Any, ...]

SETS = ("all", "master", "others")
DEEP, PARTS, LINE = 32, 256, 16_000  # how deep the program reads an expression, of how many parts, in how many bytes
ROOM, HALF = 28, 120  # the same of what becomes a part of another one
# A set S, a revision R, a number n: the arguments of each function.
FUNCTIONS = dict.fromkeys("parents children ancestors descendants line heads roots tips merges common gca".split(), "S")
FUNCTIONS.update(dict.fromkeys("range only union inter minus".split(), "SS"))
FUNCTIONS.update({"up": "Rn", "top": "Sn"})
WORDS = re.compile(r'\s*("(?:[^"]|"")*"|[(),]|[^(),]*[^(),\s])\s*')


class Parser:
    """The tree of an expression: a function's name with its arguments, `set` with its name, `number` with its digits, or `name` with a commit's."""

    def __init__(self, text: str, objects: Objects) -> None:
        self.words, self.objects, at = [], objects, 0
        while at < len(text):
            found = WORDS.match(text, at)
            if not found:
                break
            self.words.append(found.group(1))
            at = found.end()
        if at < len(text):
            raise Refused(f"not an expression: {text}")
        self.words.reverse()
        self.tree = self.part("S", 0)
        if self.words:
            raise Refused(f"after the expression comes {' '.join(reversed(self.words))[:200]}")

    def next(self) -> str:
        return self.words.pop() if self.words else ""

    def must(self, wanted: str) -> None:
        word = self.next()
        if word != wanted:
            raise Refused(f"the expression has {repr(word) if word else 'its end'} where '{wanted}' is expected")

    def part(self, kind: str, depth: int) -> Tree:
        word = self.next()
        if not word or word in "(),":
            raise Refused(f"the expression has {repr(word) if word else 'its end'} where a revision or a set is expected")
        if depth > DEEP:
            raise Refused(f"the expression is nested more than {DEEP} deep")
        if kind == "n":
            if not word.isdigit() or not word.isascii():
                raise Refused(f"the expression has '{word}' where a number is expected")
            return ("number", word)
        if self.words and self.words[-1] == "(" and word[0] != '"':
            return self.call(word, depth)
        if kind == "S" and (word in SETS or word[:4] == "set:" and word[4:] in SETS):
            if word in SETS and self.objects.commit(word):
                raise Refused(f"'{word}' is a set of commits and a revision: write set:{word} or heads/{word}, or \"{word}\" for the revision")
            return ("set", word.split(":")[-1])
        if word[0] == '"':
            if len(word) < 2 or word[-1] != '"':
                raise Refused(f"a double quote in {word} isn't closed")
            word = word[1:-1].replace('""', '"')
        return ("name", self.objects.named(word))

    def call(self, word: str, depth: int) -> Tree:
        if word not in FUNCTIONS:
            raise Refused(f"there is no function '{word}'; a revision with a bracket or a comma must be in double quotes")
        arguments: list[Tree] = []
        for kind in FUNCTIONS[word]:
            self.must("," if arguments else "(")
            arguments.append(self.part(kind, depth + 1))
        if self.words and self.words[-1] == ",":
            count = len(FUNCTIONS[word])
            hint = f": {word}(A,{word}(B,C))" if word in ("union", "inter") else ""
            raise Refused(f"{word} takes {count} {'part' if count == 1 else 'parts'}, and the expression gives it more{hint}")
        self.must(")")
        return (word, *arguments)


def names_of(tree: Tree) -> list[str]:
    """The commits that stand in it."""
    if tree[0] == "name":
        return [tree[1]]
    return [name for part in tree[1:] if isinstance(part, tuple) for name in names_of(part)]


def plain(tree: Tree) -> str:
    """The expression over commits of eight parents at most."""
    if tree[0] in ("set", "number", "name"):
        return str(tree[1])
    return f"{tree[0]}({','.join(map(plain, tree[1:]))})"


def without(expression: str) -> str:
    return f"minus({expression},{STAND_INS})"


def through(function: str, expression: str, deep: int) -> str:
    """The parents or the children, where a stand-in in between is none of them."""
    found = step = f"{function}({expression})"
    for _ in range(deep):
        step = f"{function}(inter({step},children({MARK})))"
        found = f"union({found},{step})"
    return without(found)


def fits(text: str, parts: int, deep: int) -> bool:
    """Whether an expression has at most so many parts and is so deep, and goes into a line."""
    depth = most = 0
    for letter in text:
        depth += (letter == "(") - (letter == ")")
        most = max(most, depth)
    return text.count("(") + text.count(",") < parts and most <= deep and len(text) <= LINE


class Real:
    """Expressions over a log that has stand-ins, so many of them behind one another at most: their members are the commits that are none. A part
    that makes an expression too long is asked first, and its members held."""

    def __init__(self, store: Store, deep: int) -> None:
        self.store, self.deep = store, deep

    def text(self, tree: Tree) -> str:
        if tree[0] in ("number", "name"):
            return str(tree[1])
        if tree[0] == "set":
            return without(tree[1])
        parts = [self.text(part) for part in tree[1:]]
        text = self.joined(tree[0], parts)
        for at in sorted(range(len(parts)), key=lambda at: -len(parts[at])):
            if fits(text, HALF, ROOM):
                break
            parts[at] = self.store.let(parts[at])
            text = self.joined(tree[0], parts)
        return text

    def joined(self, function: str, parts: list[str]) -> str:
        if function in ("parents", "children"):
            return through(function, parts[0], self.deep)
        if function in ("heads", "roots"):
            return f"minus({parts[0]},{through('parents' if function == 'heads' else 'children', parts[0], self.deep)})"
        whole = f"{function}({','.join(parts)})"
        # The rest put nothing into a set that was in none of theirs, but for `line`, and a first parent is no stand-in.
        return without(whole) if function in ("ancestors", "descendants", "common", "gca", "range", "only") else whole


def depth(store: Store) -> int:
    """How many stand-ins stand behind one another at most."""
    deep, step = 0, f"children({MARK})"
    while deep < DEEP and store.size(step):
        deep, step = deep + 1, f"inter(parents({step}),children({MARK}))"
    return deep


def text_of(tree: Tree, store: Store) -> str:
    """What the program is asked for the expression."""
    if not store.has(MARK):
        text = plain(tree)
        if fits(text, PARTS, DEEP):
            return text
        store.hold([[MARK]])
    return Real(store, depth(store)).text(tree)
