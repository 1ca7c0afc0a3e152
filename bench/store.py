#!/usr/bin/env python3
"""Times the built program over a drawn history in a log on disk. Usage: bench/store.py [COMMITS], behind `make proved`.

Each work is a run of the program of its own, so its time holds a load of the log; the load alone is told too, to be taken off.
Strips are timed line by line, each from the line to its reply, so no load is in their times.
"""
import os
import subprocess
import sys
import tempfile
import time
from pathlib import Path

import spawn
from history import lines, name

PROGRAM = Path(os.environ.get("SEGDAG") or Path(__file__).parent.parent / "crates/segdag/out/segdag")


def run(log, text):
    """The seconds of a run over the log, the most memory that it took in MB, and its last reply."""
    with tempfile.TemporaryFile() as given, tempfile.TemporaryFile() as out:
        given.write(text)
        taken, memory, status = spawn.run([PROGRAM, log, "--", "run"], given, out)
        out.seek(0)
        replies = out.read().splitlines()
    if status != 0:
        sys.exit(f"store: the program ended with {status}")
    return taken, memory, replies[-1].decode() if replies else ""


def replies(log, asked):
    """The milliseconds from each line to its reply, in ascending order, behind a load of the log."""
    with subprocess.Popen([PROGRAM, log, "--", "run"], stdin=subprocess.PIPE, stdout=subprocess.PIPE) as ran:
        taken = []
        for line in ["0 status", *asked]:
            start = time.perf_counter()
            ran.stdin.write(line.encode() + b"\n")
            ran.stdin.flush()
            reply = ran.stdout.readline()
            taken.append(1000 * (time.perf_counter() - start))
            if not reply.startswith(b"ok "):
                sys.exit(f"store: {line[:20]} was answered {reply!r}")
        ran.stdin.close()
    return sorted(taken[1:])


def told(what, answer):
    taken, memory, reply = answer
    print(f"{what}: {taken:.3f} s, {memory:.0f} MB, {reply[:40]}", flush=True)


def main():
    commits = int(sys.argv[1]) if len(sys.argv) > 1 else 1_000_000
    with tempfile.TemporaryDirectory() as folder:
        log = os.path.join(folder, "log")
        text = "".join(line + "\n" for line in lines(commits, 1000)).encode()
        told(f"{commits} commits, a flush each 1000", run(log, text))
        print(f"the log: {os.path.getsize(log) / commits:.1f} bytes a commit")
        for _ in range(3):
            told("a load and a status", run(log, b"0 status\n"))
        tip = name(commits - 1)
        adds = [f"0 add {name(commits + i)} {name(commits + i - 1)}" for i in range(1000)]
        told("1000 adds", run(log, ("\n".join(adds) + "\n").encode()))
        told("1000 adds and a flush", run(log, ("\n".join(adds + [f"0 flush {name(commits + 999)}"]) + "\n").encode()))
        for query in (f"count ancestors({tip})", f"count only({tip},{name(commits // 2)})", "count heads(all)", f"id {tip}", "levels"):
            told(f"100 times {query.split('(')[0]}", run(log, (f"0 {query}\n" * 100).encode()))
        told("a query of all", run(log, b"0 query top(all,1000000)\n"))
        others = [name(2 * commits + i) for i in range(10_000)]
        adds = [f"0 add {other} {tip}" for other in others]
        told("10000 others on the tip, and a flush", run(log, ("\n".join([*adds, "0 flush"]) + "\n").encode()))
        told("a load with them, and a status", run(log, b"0 status\n"))
        taken = replies(log, [f"0 strip {other}" for other in others[:200]])
        middle, mean = taken[len(taken) // 2], sum(taken) / len(taken)
        print(f"200 strips of one each: {mean:.2f} ms each, {taken[0]:.2f} to {taken[-1]:.2f}, half of them below {middle:.2f}", flush=True)


if __name__ == "__main__":
    main()
