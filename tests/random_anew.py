"""A drawn log that is written anew, and the bundle of its master: what the built program makes of a log, byte by byte
against plain_store.py, and then the same lines over both logs, and clones of the log and of its bundle.
"""
import shutil
import subprocess
from pathlib import Path

import plain_store
from random_lines import Lines


class Differs(Exception):
    """What was told in place of what was wanted."""


def told(program, log, *words, lines=b"", mirrors=()):
    """The status of a run of the program, and what it put."""
    command = [program, log, *mirrors, "--", *words]
    done = subprocess.run(command, input=lines, capture_output=True, timeout=1800)
    return done.returncode, done.stdout


def wants(what, given, wanted):
    if given != wanted:
        raise Differs(f"{what}: {given}, wanted {wanted}")


def written_anew(program, log, served):
    """The log written anew, in a file of its own. It is the one payload of the log's world, as plain definitions have it."""
    data, new, other = log.read_bytes(), Path(f"{log}.new"), Path(f"{log}.anew")
    payloads, world = plain_store.read_log(data, served)
    whole = plain_store.log_of([plain_store.whole_payload(payloads, world)] if payloads else [])
    line = f"ok compacted {len(world.master)} {len(world.others)} {len(data)} {len(whole)}\n"
    wants("written anew", told(program, log, "compact"), (0, line.encode()))
    wants("the bytes", (log.read_bytes(), new.read_bytes()), (data, whole))
    if payloads:
        wants("written anew once more", told(program, log, "compact"), (14, b""))
        wants("the bytes then", new.read_bytes(), whole)
    new.rename(other)
    if payloads:
        again = f"ok compacted {len(world.master)} {len(world.others)} {len(whole)} {len(whole)}\n"
        wants("the new one written anew", told(program, other, "compact"), (0, again.encode()))
        second = Path(f"{other}.new")
        wants("its bytes", second.read_bytes(), whole)
        second.unlink()
    return other


def bundled(program, log, served):
    """The bundle of the log's master, in a file of its own; nothing where a commit of master has no stored name."""
    payloads, world = plain_store.read_log(log.read_bytes(), served)
    named = {i for data in payloads for i in plain_store.read_payload(data)[2]}
    status, data = told(program, log, "bundle")
    if len(named) < len(world.master):
        wants("the bundle of a master without names", (status, data), (10, b""))
        return None
    wants("the bundle", (status, data), (0, plain_store.bundle(world.master)))
    path = Path(f"{log}.bundle")
    path.write_bytes(data)
    return path


def lines_over(draw, world, count):
    """Drawn lines over a log of this world."""
    drawn = Lines(draw)
    drawn.known = [name for name, _ in world.master + world.others] or drawn.known
    drawn.names = drawn.names + drawn.known[:40]
    return ["0 query all", "0 status", "0 levels", *(drawn.line() for _ in range(count))]


def same_over(program, log, other, lines, mirrors):
    """The same lines have the same replies over both logs, and the same payloads come behind those that were there."""
    before = [len(path.read_bytes()) for path in (log, other)]
    text = "".join(line + "\n" for line in lines).encode()
    given = [told(program, path, "run", "--cache", "5", lines=text, mirrors=mirrors) for path in (log, other)]
    wants("the same lines\n" + text.decode(), given[1], given[0])
    behind = [path.read_bytes()[size - 1 :] for path, size in zip((log, other), before)]
    wants("what was stored by\n" + text.decode(), behind[1], behind[0])
    return len(lines)


def same_clones(program, folder, log, bundle, lines):
    """The same lines have the same replies over clones of the log and of its bundle, and make the same logs."""
    text = "".join(line + "\n" for line in ["0 clone", *lines, "1 pull"]).encode()
    results = []
    for number, mirror in enumerate([str(log), f"bundle:{bundle}"]):
        clone = Path(folder, f"clone{number}")
        results.append((*told(program, clone, "run", lines=text, mirrors=[mirror]), clone.read_bytes()))
        clone.unlink()
    wants("a clone of the bundle\n" + text.decode(), results[1], results[0])
    return len(lines) + 2


def check(program, draw, folder, log, mirrors=(), served=()):
    """How many lines a log, which is left as it is, and it written anew are answered alike; mirrors serve these rows."""
    mine = Path(folder, "mine")
    shutil.copy(log, mine)
    world = plain_store.read_log(mine.read_bytes(), served)[1]
    other = written_anew(program, mine, served)
    bundle = bundled(program, mine, served)
    lines = lines_over(draw, world, draw.choice([5, 20, 60]))
    count = 0
    if bundle:
        wants("the bundle of the log written anew", bundled(program, other, served).read_bytes(), bundle.read_bytes())
        count += same_clones(program, folder, mine, bundle, lines)
    count += same_over(program, mine, other, lines, mirrors)
    for path in (mine, other):
        path.unlink()
    return count
