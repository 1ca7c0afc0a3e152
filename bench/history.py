#!/usr/bin/env python3
"""Command lines of a drawn history: `history.py COMMITS [EACH]` prints the adds, and a flush of the newest behind each EACH of them.

Of ten commits three are merges and one begins anew near by, so that a million have some 400,000 flat segments. The names are
digests of the commits' numbers.
"""
import hashlib
import random
import sys


def name(i):
    return hashlib.sha1(str(i).encode()).hexdigest()


def drawn(commits):
    """The numbers of each commit's parents, in turn."""
    draw = random.Random(7)
    left = []
    for i in range(commits):
        kind = draw.randrange(10)
        parents = [i - 1] if i else []
        if i > 70 and kind == 0:
            left.append(i - 1)
            parents = [i - draw.randrange(2, 64)]
        elif i > 70 and kind < 4:
            other = left.pop() if left else i - draw.randrange(2, 64)
            if other != i - 1:
                parents.append(other)
        yield parents


def by_demo(commits):
    """The same by the demonstration's rule: one in sixteen is a merge, and one begins a branch, few of which come back."""
    x = 0
    for i in range(commits):
        parents = [i - 1] if i else []
        if i >= 2:
            x = (x * 6364136223846793005 + 1442695040888963407) % 2**64
            drawn = x >> 33
            far = i - 2 - drawn // 16 % (min(i, 65) - 1)
            parents = {0: [i - 1, far], 1: [far]}.get(drawn % 16, parents)
        yield parents


def lines(commits, each, rule=drawn):
    names = [name(i) for i in range(commits)]
    for i, parents in enumerate(rule(commits)):
        yield " ".join(["0 add", names[i], *(names[p] for p in parents)])
        if (i + 1) % each == 0 or i + 1 == commits:
            yield f"0 flush {names[i]}"


if __name__ == "__main__":
    for line in lines(int(sys.argv[1]), int(sys.argv[2]) if len(sys.argv) > 2 else 1000):
        print(line)
