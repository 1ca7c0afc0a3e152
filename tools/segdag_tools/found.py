"""Where the tools find the program and one another, and which version they are: one rule for all of them.

The program is the first of these that is there:

1. what the variable SEGDAG names: a path, or a name without a slash, which is looked for on the PATH;
2. the program of the same installation: bin/segdag beside the folder lib/segdag that has this package;
3. in a checkout, the program that was built last: the proved one, crates/segdag/out/segdag, or the unproved one, out/segdag;
4. `segdag` on the PATH.

Other programs stand beside that one or beside this package, or on the PATH. The version is the line of the file VERSION, which an
installation has beside this package and a checkout in its top folder.
"""
from __future__ import annotations

import os

from .refused import Refused

TOOLS = os.path.dirname(os.path.dirname(os.path.realpath(__file__)))
TOP = os.path.dirname(TOOLS)
IS_INSTALLED = os.path.exists(os.path.join(TOOLS, "VERSION"))


def version() -> str:
    """The version that these tools belong to."""
    with open(os.path.join(TOOLS if IS_INSTALLED else TOP, "VERSION"), encoding="ascii") as file:
        return file.read().strip()


def tool(name: str) -> str:
    """The path of another tool of these."""
    return os.path.join(TOOLS, name)


def program() -> str:
    """The path of the program, which has to be there."""
    given = os.environ.get("SEGDAG")
    if given:
        found = given if "/" in given else on_path(given)
        if found is None or not is_program(found):
            raise Refused(f"{given} isn't there, or can't be run: SEGDAG has it as the program; let it name another one, or unset it")
        return found
    for path in near():
        if is_program(path):
            return path
    found = on_path("segdag")
    if found is None:
        raise Refused(advice())
    return found


def other_program(name: str) -> str | None:
    """The path of another program: the one beside these tools or where the program is to be, or else on the PATH; None where there is none."""
    beside = (os.path.join(os.path.dirname(path), name) for path in (tool(name), *near()))
    return next((path for path in beside if is_program(path)), None) or on_path(name)


def near() -> list[str]:
    """Where the program is to be beside these tools, the best place first."""
    if IS_INSTALLED:
        return [os.path.join(os.path.dirname(TOP), "bin", "segdag")]
    built = [os.path.join(TOP, "crates", "segdag", "out", "segdag"), os.path.join(TOP, "out", "segdag")]
    return sorted(built, key=built_at, reverse=True)


def built_at(path: str) -> float:
    """When the program was built; 0 where it isn't."""
    try:
        return os.stat(path).st_mtime
    except OSError:
        return 0.0


def on_path(name: str) -> str | None:
    """The first program of this name on the PATH. (The library's own search takes as long to load as a question to answer.)"""
    for folder in os.environ.get("PATH", os.defpath).split(os.pathsep):
        path = os.path.join(folder or ".", name)
        if is_program(path):
            return path
    return None


def is_program(path: str) -> bool:
    """Whether this is a file that may be run."""
    return os.path.isfile(path) and os.access(path, os.X_OK)


def advice() -> str:
    """What to do where there is no program."""
    if IS_INSTALLED:
        return f"there is no program segdag in {os.path.dirname(near()[0])} or on the PATH: install it again, or let SEGDAG name it"
    return f"there is no program segdag: `make build` in {TOP} builds it in three minutes, or let SEGDAG name one"
