"""The measures of growth.sh: growth.py PROGRAM PICTURE COMMITS... What is asked of a log is timed from the first line's reply on, so it
holds no load."""
import os
import shutil
import subprocess
import sys
import tempfile
import time

import history
import spawn
from growth_picture import MEASURES, picture, rounded

PROGRAM, PICTURE = os.path.abspath(sys.argv[1]), sys.argv[2]
EACH = 1000  # commits between two flushes, and of those that are added at last
QUESTIONS = 100
TIMES = 3  # the least of so many runs counts


def stop(text):
    sys.exit(f"growth: {text}")


def name(i):
    return f"{i + 1:040x}"


def linear(commits):
    for i in range(commits):
        yield name(i), [name(i - 1)] if i else []


def by_demo(commits):
    for i, parents in enumerate(history.by_demo(commits)):
        yield name(i), [name(p) for p in parents]


def merges(commits):
    for line in history.lines(commits, commits + 1):
        words = line.split()
        if words[1] == "add":
            yield words[2], words[3:]


KINDS = {"linear": linear, "by the demo's rule": by_demo, "merge-heavy": merges}


def run(log, lines, mirrors=()):
    """The seconds of a run over the log, the most memory that it took in MB, and its last reply."""
    with tempfile.TemporaryFile() as given, tempfile.TemporaryFile() as out:
        given.writelines(line.encode() + b"\n" for line in lines)
        given.seek(0)
        taken, memory, status = spawn.run([PROGRAM, log, *mirrors, "--", "run"], given, out)
        out.seek(0)
        replies = out.read().splitlines()
    refused = [reply for reply in replies if reply.startswith(b"err")]
    if status != 0 or refused:
        stop(f"status {status}, {refused[:1]}")
    return taken, memory, replies[-1].decode()


def stored_lines(rows):
    """The adds, and a flush of what has no child yet behind each thousand."""
    heads = {}
    for at, (child, parents) in enumerate(rows, 1):
        yield " ".join(["0 add", child, *parents])
        for parent in parents:
            heads.pop(parent, None)
        heads[child] = True
        if at % EACH == 0 or at == len(rows):
            for first in range(0, len(heads), 390):
                yield "0 flush " + " ".join(list(heads)[first : first + 390])
            heads = {}


def least(log, lines):
    return min(run(log, lines)[0] for _ in range(TIMES))


def cloned(log):
    """The seconds of a run that clones the log, its start and the reading of the log included."""
    clone = f"{log}.clone"
    if os.path.exists(clone):
        os.remove(clone)
    return run(clone, ["0 clone"], [log])[0]


def answered(log, lines):
    """The seconds until each of the lines is answered by one line, of a program that has loaded a copy of the log."""
    copy = f"{log}.copy"
    shutil.copyfile(log, copy)
    with open(copy, "rb+") as file:
        os.fsync(file.fileno())
    child = subprocess.Popen([PROGRAM, copy, "--", "run"], stdin=subprocess.PIPE, stdout=subprocess.PIPE)
    child.stdin.write(b"0 status\n")
    child.stdin.flush()
    child.stdout.readline()
    text = "".join(line + "\n" for line in lines).encode()
    begun = time.perf_counter()
    child.stdin.write(text)
    child.stdin.flush()
    replies = [child.stdout.readline() for _ in lines]
    taken = time.perf_counter() - begun
    child.stdin.close()
    if child.wait() != 0 or any(not reply.startswith(b"ok") for reply in replies):
        stop(f"not each line is answered: {replies[-1]}")
    return taken


def least_answered(log, lines):
    return min(answered(log, lines) for _ in range(TIMES))


def measured(kind, commits, folder):
    """What the program takes over a history of this kind."""
    rows, log = list(KINDS[kind](commits)), os.path.join(folder, "log")
    if os.path.exists(log):
        os.remove(log)
    taken, memory, _ = run(log, stored_lines(rows))
    found = {"stored, s": taken, "MB at most": memory, "bytes a commit": os.path.getsize(log) / commits}
    if run(log, ["0 count all"])[2] != f"ok {commits}":
        stop(f"not all of {commits} commits are stored")
    load = least(log, ["0 status"])
    found["loaded, ms"] = load * 1000
    found["cloned, ms"] = min(cloned(log) for _ in range(TIMES)) * 1000
    tip, middle, new = rows[-1][0], rows[commits // 2][0], [f"f{i:039x}" for i in range(EACH)]
    adds = [f"0 add {new[i]} {new[i - 1] if i else tip}" for i in range(EACH)]
    found["1,000 adds, ms"] = least_answered(log, adds) * 1000
    found["and a flush, ms"] = least_answered(log, [*adds, f"0 flush {new[-1]}"]) * 1000
    for what, expression in (
        ("merge base, ms", f"gca(union({tip},{middle}))"),
        ("only, ms", f"only({tip},{middle})"),
        ("all ancestors, ms", f"ancestors({tip})"),
    ):
        found[what] = least_answered(log, [f"0 count {expression}"] * QUESTIONS) * 1000 / QUESTIONS
    return {what: max(value, 0.001) for what, value in found.items()}


def main():
    sizes = sorted({int(word) for word in sys.argv[3:]})
    if not os.access(PROGRAM, os.X_OK):
        stop(f"{PROGRAM} isn't built; make proved builds it")
    found = {}
    print(f"| History | Commits | {' | '.join(MEASURES)} |\n|---|---|{'---|' * len(MEASURES)}", flush=True)
    with tempfile.TemporaryDirectory() as folder:
        for kind in KINDS:
            for size in sizes:
                found[kind, size] = {what: rounded(value) for what, value in measured(kind, size, folder).items()}
                told = " | ".join(f"{found[kind, size][what]:g}" for what in MEASURES)
                print(f"| {kind} | {size:,} | {told} |", flush=True)
    with open(PICTURE, "w") as out:
        out.write(picture(sizes, found))


if __name__ == "__main__":
    main()
