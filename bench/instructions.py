#!/usr/bin/env python3
"""Counts the instructions a question by callgrind, over two kinds of history: instructions.py PROGRAM COMMITS [DRAWN].

One process a kind answers all. It is only counted from its load's reply on, and what is counted is dumped before each write of a reply,
so a question's count holds neither the load nor another question. An import is counted over a tenth of the commits, its start included.
"""
import glob
import os
import random
import re
import subprocess
import sys
import tempfile

import growth

QUESTIONS = {
    "`count ancestors(X)`": "ancestors({x})",
    "`count inter(X,ancestors(Y))`": "inter({x},ancestors({y}))",
    "`count gca(union(X,Y))`, far": "gca(union({x},{y}))",
    "`count only(X,Y)`, far": "only({x},{y})",
    "`count gca(union(X,Y))`, at most 200 apart": "gca(union({x},{near}))",
    "`count children(X)`": "children({x})",
    "`count up(X,100000)`": "up({x},100000)",
    "`count heads(all)`": "heads(all)",
    "`count roots(all)`": "roots(all)",
    "`count merges(all)`": "merges(all)",
}


def started(log, made, *flags):
    words = ["valgrind", "--tool=callgrind", *flags, f"--callgrind-out-file={made}", growth.PROGRAM, log, "--", "run"]
    return subprocess.Popen(words, stdin=subprocess.PIPE, stdout=subprocess.PIPE, stderr=subprocess.DEVNULL)


def dumped(made):
    """What each dump counted, in turn."""
    found = {}
    for path in glob.glob(f"{made}*"):
        with open(path) as dump:
            told = dict(re.findall(r"^(part|summary): (\d+)", dump.read(), re.M))
        found[int(told.get("part", 1))] = int(told["summary"])
        os.remove(path)
    return [found[part] for part in sorted(found)]


def whole(log, lines, made):
    """The instructions of a run."""
    with started(log, made) as child:
        replies, _ = child.communicate("".join(line + "\n" for line in lines).encode())
    if child.returncode != 0 or b"err " in replies:
        sys.exit(f"instructions: the program ended with {child.returncode}")
    return sum(dumped(made))


def each(log, lines, made):
    """The instructions of each line, behind a load that isn't counted."""
    with started(log, made, "--instr-atstart=no", "--dump-before=write") as child:
        for at, line in enumerate(["0 status", *lines]):
            child.stdin.write(line.encode() + b"\n")
            child.stdin.flush()
            if not child.stdout.readline().startswith(b"ok"):
                sys.exit(f"instructions: no answer to {line}")
            if at == 0:
                subprocess.run(["callgrind_control", "-i", "on", str(child.pid)], check=True, capture_output=True)
        child.stdin.close()
    counts = dumped(made)
    if len(counts) != len(lines) + 1:
        sys.exit(f"instructions: {len(counts)} dumps of {len(lines)} replies")
    return counts[:-1]


def asked(names, drawn):
    """The questions, each so many times, over drawn commits; those over all commits once. The first for children makes an index."""
    draw = random.Random(11)
    yield "`count children(X)`, the first", f"0 count children({names[-1]})"
    for what, form in QUESTIONS.items():
        for _ in range(drawn if "{x}" in form else 1):
            at = draw.randrange(200, len(names))
            words = {"x": names[at], "y": names[draw.randrange(len(names))], "near": names[at - draw.randrange(1, 200)]}
            yield what, "0 count " + form.format(**words)


def measured(kind, commits, drawn, folder):
    """What each takes, in instructions."""
    rows, log = list(growth.KINDS[kind](commits)), os.path.join(folder, "log")
    growth.run(log, growth.stored_lines(rows))
    made = os.path.join(folder, "counted")
    pairs = list(asked([child for child, _ in rows], drawn))
    found = {}
    for (what, _), count in zip(pairs, each(log, [line for _, line in pairs], made)):
        found.setdefault(what, []).append(count)
    taken = {what: sum(counts) // len(counts) for what, counts in found.items()}
    taken["a load"] = whole(log, ["0 status"], made)
    os.remove(log)
    few = commits // 10
    taken["an import, a commit"] = whole(log, growth.stored_lines(rows[:few]), made) // few
    os.remove(log)
    return taken


def main():
    commits, drawn = int(sys.argv[2]), int(sys.argv[3]) if len(sys.argv) > 3 else 10
    with tempfile.TemporaryDirectory() as folder:
        for kind in ("merge-heavy", "by the demo's rule"):
            for what, count in measured(kind, commits, drawn, folder).items():
                print(f"| {kind} | {what} | {count:,} |", flush=True)


if __name__ == "__main__":
    main()
