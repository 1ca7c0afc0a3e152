"""The largest history that a log may have, beside a smaller one: largest.py [COMMITS]..., behind `make proved`; a million and 16 millions where
none is given. Each is imported by several runs, since a run reads 2^30 bytes, loaded, asked, bundled, cloned and written anew, once.

Nothing is held of a history but a few numbers, so the program has the memory. Of three merges of ten (bench/history.py); what is asked is
timed from the line to its reply. Ten minutes, and 12 GB of disk.
"""
import itertools
import os
import subprocess
import sys
import tempfile
import time

import spawn
from history import drawn, name
from store import PROGRAM

EACH = 1000  # commits between two flushes
PART = 2_000_000  # commits of one run of the import


def lines(commits):
    for i, parents in enumerate(drawn(commits)):
        yield " ".join(["0 add", name(i), *map(name, parents)])
        if (i + 1) % EACH == 0 or i + 1 == commits:
            yield f"0 flush {name(i)}"


def ran(words, text, out):
    """The seconds of a run of the program with this input, and the most memory in MB."""
    with tempfile.TemporaryFile() as given:
        given.writelines(text)
        taken, memory, status = spawn.run([PROGRAM, *words], given, out)
    if status != 0:
        sys.exit(f"largest: {words[-1]} ended with {status}")
    return taken, memory


def last(out):
    out.seek(max(0, out.seek(0, os.SEEK_END) - 100))
    return out.read().splitlines()[-1].decode()


def imported(log, commits):
    """The seconds of all runs of the import, and the most memory of one."""
    text = (line.encode() + b"\n" for line in lines(commits))
    seconds, most = 0, 0
    while part := list(itertools.islice(text, PART + PART // EACH)):
        with tempfile.TemporaryFile() as out:
            taken, memory = ran([log, "--", "run"], part, out)
            if not last(out).startswith("ok flushed"):
                sys.exit(f"largest: the import ended with {last(out)}")
        seconds, most = seconds + taken, max(most, memory)
    return seconds, most


def asked(log, expressions):
    """The milliseconds until each of these is counted, behind a load."""
    taken = []
    with subprocess.Popen([PROGRAM, log, "--", "run"], stdin=subprocess.PIPE, stdout=subprocess.PIPE) as child:
        for line in ["status", *(f"count {it}" for it in expressions)]:
            begun = time.perf_counter()
            child.stdin.write(f"0 {line}\n".encode())
            child.stdin.flush()
            reply = child.stdout.readline()
            taken.append((time.perf_counter() - begun) * 1000)
            if not reply.startswith(b"ok"):
                sys.exit(f"largest: {line} is answered by {reply}")
        child.stdin.close()
    return taken[1:]


def measured(commits, folder):
    """What each work takes over so many commits: its name, seconds or milliseconds, and MB where it is a run of its own."""
    log, bundle, clone, told = (os.path.join(folder, it) for it in ("log", "bundle", "clone", "told"))
    yield "imported, s", *imported(log, commits)
    yield "bytes a commit", os.path.getsize(log) / commits, None
    with open(told, "wb+") as out:
        yield "loaded, s", *ran([log, "--", "run"], [b"0 status\n"], out)
        if last(out) != f"ok {commits} 0 0":
            sys.exit(f"largest: the log has {last(out)}")
    tip, middle = name(commits - 1), name(commits // 2)
    expressions = f"ancestors({tip})", f"gca(union({tip},{middle}))", f"only({tip},{middle})", "heads(all)", "merges(all)"
    words = "all ancestors", "far merge base", "far only", "heads", "merges"
    for what, taken in zip(words, asked(log, expressions)):
        yield f"{what}, ms", taken, None
    with open(bundle, "wb") as out:
        yield "the bundle, s", *ran([log, "--", "bundle"], [], out)
    for what, mirror in ("log", log), ("bundle", f"bundle:{bundle}"):
        with open(told, "wb+") as out:
            yield f"a clone of the {what}, s", *ran([clone, mirror, "--", "run"], [b"0 clone\n"], out)
            if last(out) != f"ok cloned {commits}":
                sys.exit(f"largest: a clone of the {what} is answered by {last(out)}")
        os.remove(clone)
    with open(told, "wb") as out:
        yield "written anew, s", *ran([log, "--", "compact"], [], out)


def main():
    sizes = [int(word) for word in sys.argv[1:]] or [1_000_000, 16_000_000]
    columns = []
    for commits in sizes:
        with tempfile.TemporaryDirectory() as folder:
            columns.append([])
            for row in measured(commits, folder):
                columns[-1].append(row)
                print(f"{commits}: {row}", file=sys.stderr, flush=True)
    print(f"| Work | {' | '.join(f'{commits:,} | MB at most' for commits in sizes)} |\n|---|{'---|---|' * len(sizes)}")
    for rows in zip(*columns):
        cells = (f"{taken:.3g} | {'' if memory is None else round(memory)}" for _, taken, memory in rows)
        print(f"| {rows[0][0]} | {' | '.join(cells)} |")


if __name__ == "__main__":
    main()
