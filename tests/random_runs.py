#!/usr/bin/env python3
"""Drawn command lines of sixteen sessions, answered by the built program and by plain_store.py: replies and logs must agree.

`random_runs.py PROGRAM [RUNS [SEED]]`. Each run goes over the log of the one before, up to four, so that logs are
opened again. Between two of them some first payloads become those of version 1, or the logs are written anew. Behind
them come runs over clones: a drawn log is cloned by a second one, whose lines go beside the first, or its bundle, as a
mirror, at their paths or behind pipes, among files that aren't there and pipes that break off, with room for few names. Replies are those
of a plain store that has all names.
The last are runs that pull, drawn by random_pulls.py. What each run leaves is written anew
and bundled by random_anew.py.
"""
import random
import subprocess
import sys
import tempfile
from pathlib import Path

import plain_store
import random_anew
import random_pulls
from pipe_peers import Peers
from random_lines import Lines

PLAIN = Path(__file__).with_name("plain_store.py")


def answers(command, log, text):
    done = subprocess.run([*command, str(log)] + (["--", "run"] if len(command) == 1 else []), input=text, capture_output=True, timeout=1800)
    return done.returncode, done.stdout


def age(draw, logs):
    """Some of the first payloads of the logs, which are equal, become those of version 1, which are read."""
    payloads = plain_store.read_payloads(logs[0].read_bytes())
    if payloads and payloads[0][1] == 3:
        return  # A whole store comes in version 2 alone.
    for k in range(draw.choice([0, 0, draw.randint(0, len(payloads)), len(payloads)])):
        if payloads[k][0] == 2:
            payloads[k] = plain_store.first_version(payloads[k])
    for log in logs if payloads else ():
        log.write_bytes(plain_store.log_of(payloads))


def begin_anew(program, logs):
    """The logs, which are equal, are written anew."""
    other = random_anew.written_anew(program, logs[0], ())
    for log in logs:
        log.write_bytes(other.read_bytes())
    other.unlink()


def commands(lines, count):
    """So many drawn lines that change no mirror and pull nothing."""
    drawn = (lines.line() for _ in range(count * 2))
    return [line for line in drawn if " drop" not in line and " pull" not in line][:count]


def clone_run(program, draw, folder):
    """A drawn log, its clone and lines over it; how many lines there were, or what differs."""
    there, here = Path(folder, "there"), Path(folder, "here")
    drawn = Lines(draw)
    first = commands(drawn, draw.choice([40, 150]))
    first += [f"0 flush {name}" for name in drawn.known[:3]]
    answers([program], there, "".join(line + "\n" for line in first).encode())
    world = plain_store.read_log(there.read_bytes())[1]
    if not world.master:
        return 0, None
    later = Lines(draw)
    later.known = [name for name, _ in world.master]
    later.names = drawn.names + later.names
    lines = ["0 clone", *commands(later, draw.choice([60, 200]))]
    bundle = random_anew.bundled(program, there, ()) if draw.random() < 0.4 else None
    mirrors = [f"bundle:{bundle}" if bundle else str(there)] + [str(Path(folder, "missing"))] * draw.choice([0, 0, 1, 2])
    draw.shuffle(mirrors)
    cache, broken = str(draw.choice([1, 2, 5, 1000])), draw.random() < 0.3
    if broken:
        mirrors.insert(0, str(there))

    def ran(text):
        """A run beside the mirrors, of which some are behind pipes; and the first, where one is to break off."""
        with Peers(program, draw, folder, mirrors) as peers:
            words = [peers.put_broken(there), *peers.words[1:]] if broken else peers.words
            return subprocess.run([program, here, *words, "--", "run", "--cache", cache], input=text.encode(), capture_output=True, timeout=1800)

    text = "".join(line + "\n" for line in lines)
    done = ran(text)
    store = plain_store.Store(b"", plain_store.LIMITS, map(plain_store.mirror_of, mirrors))
    told = [reply for line in lines if line and not line.startswith("#") for reply in store.line(line)]
    wanted = "".join(line + "\n" for line in told)
    if (done.returncode, done.stdout.decode(), here.read_bytes()) != (0, wanted, store.log()):
        return 0, (text, done.stdout.decode(), wanted, "the logs are the same\n" * (here.read_bytes() == store.log()))
    again = ran("0 query all\n").stdout.decode()
    end = store.worlds[-1].down()
    wanted = "".join(line + "\n" for line in [*end, f"ok {len(end)}"])
    if again != wanted:
        return 0, ("0 query all\n", again, wanted)
    return len(lines) + random_anew.check(program, draw, folder, here, mirrors, world.master), None


def clones(program, runs, seed):
    """How many lines of so many runs over clones are answered as by plain stores, or nothing where one differs."""
    count = 0
    for run in range(runs):
        with tempfile.TemporaryDirectory() as folder:
            try:
                lines, wrong = clone_run(program, random.Random(seed * 7_000_003 + run), folder)
            except random_anew.Differs as differs:
                wrong = [f"{differs}\n"]
        if wrong:
            print(f"random_runs: the clone of run {run} of seed {seed} differs; its lines were:")
            for text in wrong:
                sys.stdout.write(text)
                print("==")
            return None
        count += lines
    return count


def main():
    program = sys.argv[1]
    runs = int(sys.argv[2]) if len(sys.argv) > 2 else 60
    seed = int(sys.argv[3]) if len(sys.argv) > 3 else 1
    count = anew = 0
    with tempfile.TemporaryDirectory() as folder:
        for run in range(runs):
            draw = random.Random(seed * 1_000_003 + run)
            lines = Lines(draw)
            log, plain = Path(folder, f"log{run}"), Path(folder, f"plain{run}")
            for _ in range(draw.choice([1, 2, 4])):
                text = "".join(lines.line() + "\n" for _ in range(draw.choice([30, 120]))).encode()
                mine = answers([program], log, text)
                theirs = answers([sys.executable, str(PLAIN)], plain, text)
                if mine != theirs or log.read_bytes() != plain.read_bytes():
                    print(f"random_runs: run {run} of seed {seed} differs; its last lines were:")
                    sys.stdout.write(text.decode())
                    for told in (mine, theirs):
                        print(f"== status {told[0]}")
                        sys.stdout.write(told[1].decode())
                    return 1
                count += text.count(b"\n")
                try:
                    anew += random_anew.check(program, draw, folder, log)
                    if draw.random() < 0.2:
                        begin_anew(program, (log, plain))
                except random_anew.Differs as differs:
                    print(f"random_runs: run {run} of seed {seed}: {differs}")
                    return 1
                age(draw, (log, plain))
    print(f"random_runs: {count} lines of {runs} runs are answered as by plain worlds")
    cloned = clones(program, runs, seed)
    if cloned is None:
        return 1
    print(f"random_runs: {cloned} lines over clones are answered as by stores with all names")
    print(f"random_runs: {anew} lines over logs, over the same logs written again, and over clones of their bundles are answered alike")
    return 0 if random_pulls.pulls(program, runs, seed) else 1


if __name__ == "__main__":
    sys.exit(main())
