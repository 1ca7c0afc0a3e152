"""Descriptors and files as the tools find them: what was closed, and what is no log."""
from __future__ import annotations

import os
import stat
import sys

from .refused import FOREIGN, Refused

BUNDLE = b"SEGBNDL1"  # how a bundle begins


def fill_low(output: int = os.O_RDWR) -> None:
    """Takes descriptors 0, 1 and 2 where they are closed: what is opened later, a log above all, would be one of them, and lines that are meant
    for an output would go into it. `output` is how descriptor 1 is opened."""
    place = os.open(os.devnull, os.O_RDWR)
    while place <= 2:
        if place == 1 and output != os.O_RDWR:
            os.close(place)
            place = os.open(os.devnull, output)
        os.set_inheritable(place, True)
        place = os.open(os.devnull, os.O_RDWR)
    os.close(place)
    sys.stdin = sys.stdin or open(0, closefd=False)
    sys.stdout = sys.stdout or open(1, "w", closefd=False)
    sys.stderr = sys.stderr or open(2, "w", closefd=False)


def check_log(path: str) -> None:
    """Refuses a file that is no log. By the format it would be a log whose first change was cut off, and be written over: but no disk that is
    known leaves such a first byte, and a path that is mistaken is common."""
    try:
        with open(path, "rb", opener=lambda path, flags: os.open(path, flags | os.O_NONBLOCK)) as file:
            found = os.fstat(file.fileno())
            front = file.read(len(BUNDLE)) if stat.S_ISREG(found.st_mode) else b""
    except OSError:
        return  # Who opens it will say why it can't.
    if front == BUNDLE:
        raise Refused(f"{path} is no log but a bundle, which is a mirror by the word bundle:{path}; --force writes over it", FOREIGN)
    if found.st_size > 1 and front and front[0] > 1:
        raise Refused(f"{path} is no log: a log begins with a byte 1, or 0; --force takes it for an empty one and writes over it", FOREIGN)
