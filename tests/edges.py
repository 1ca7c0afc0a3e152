"""The parts of edges.sh: edges.py PART PROGRAM FOLDER. Each ends with status 1 where the program did something else."""
import itertools
import os
import re
import shutil
import subprocess
import sys

PROGRAM = os.path.abspath(sys.argv[2])
FOLDER = sys.argv[3]
STREAMS = (0, 1, 2)


def fail(text):
    sys.exit(f"edges: {text}")


def name(i):
    return f"{i:040x}"


def added(i):
    """Lines that add the i-th commit of a chain and flush it."""
    parent = f" {name(i - 1)}" if i > 1 else ""
    return f"0 add {name(i)}{parent}\n0 flush {name(i)}\n"


def run(words, text="", closed=()):
    """The status and the output of the program with these words, with these standard streams closed."""
    ends = " ".join(f"{stream}{'<' if stream == 0 else '>'}&-" for stream in closed)
    done = subprocess.run(["sh", "-c", f'exec "$@" {ends}', "sh", PROGRAM, *words], input=text.encode(),
                          stdout=subprocess.PIPE, stderr=subprocess.PIPE, timeout=120)
    return done.returncode, done.stdout.decode()


def count(log, when):
    """How many commits the log has in master."""
    status, output = run([log, "--", "run"], "0 status\n")
    found = re.fullmatch(r"ok (\d+) 0 0\n", output)
    if status != 0 or not found:
        fail(f"{when}: the log doesn't open: status {status}, {output!r}")
    return int(found.group(1))


def content(path):
    with open(path, "rb") as file:
        return file.read()


def ways():
    """The eight ways to close some of three streams."""
    return itertools.chain.from_iterable(itertools.combinations(STREAMS, size) for size in range(4))


def made(kind, commits):
    """A new log with a chain of so many commits."""
    path = os.path.join(FOLDER, kind)
    for old in (path, path + ".new"):
        if os.path.lexists(old):
            os.remove(old)
    status, output = run([path, "--", "run"], "".join(added(i) for i in range(1, commits + 1)))
    if status != 0 or output.count("ok flushed") != commits:
        fail(f"{kind}: a log wasn't made: status {status}, {output!r}")
    return path


def closed_run(closed):
    """A run that flushes: the log is what it was, and with at most what the lines add; what can't be replied ends the run."""
    when = f"run with {closed} closed"
    log = made("run", 3)
    before = content(log)
    status, output = run([log, "--", "run"], added(4) + added(5) + "0 query all\n", closed)
    after, stored = content(log), count(log, when)
    if 0 in closed:
        wanted = (0, 3)
    elif 1 in closed:
        wanted = (6, 3)
    else:
        wanted = (0, 5)
    if (status, stored) != wanted:
        fail(f"{when}: status {status} and {stored} commits, where {wanted} were wanted")
    if not after.startswith(before[:-1]) or b"ok " in after:
        fail(f"{when}: the log isn't what it was, with what came behind it")
    if output.count("ok flushed") != (2 if wanted == (0, 5) else 0):
        fail(f"{when}: {output!r} was put")


def closed_mode(mode, closed):
    """A mode that reads the log leaves its bytes as they are, and says by its status that it couldn't put what it had to."""
    when = f"{mode} with {closed} closed"
    log = made(mode, 40)
    before = content(log)
    status, output = run([log, "--", mode], "", closed)
    if content(log) != before:
        fail(f"{when}: the bytes of the log changed")
    silent = mode == "serve"
    if status != (6 if 1 in closed and not silent else {"serve": 11}.get(mode, 0)):
        fail(f"{when}: status {status}")
    if 1 not in closed and not silent and not output:
        fail(f"{when}: nothing was put")
    if mode == "compact" and os.path.exists(log + ".new") and count(log + ".new", when) not in (0, 40):
        fail(f"{when}: the new log isn't the old one")


def closed_clone(closed):
    """A clone: what is stored is all of the mirror or nothing, and the mirror's bytes stay."""
    when = f"a clone with {closed} closed"
    mirror = made("mirror", 40)
    before, log = content(mirror), os.path.join(FOLDER, "cloned")
    if os.path.lexists(log):
        os.remove(log)
    status, _output = run([log, mirror, "--", "run"], "0 clone\n0 query top(all,5)\n", closed)
    if content(mirror) != before:
        fail(f"{when}: the mirror's bytes changed")
    wanted = 0 if 0 in closed else 6 if 1 in closed else 0
    if status != wanted:
        fail(f"{when}: status {status}")
    if count(log, when) not in ((0,) if 0 in closed else (40,)):
        fail(f"{when}: the clone is neither there nor not")


def closed():
    tried = 0
    for way in ways():
        closed_run(way)
        for mode in ("bundle", "compact", "serve"):
            closed_mode(mode, way)
        closed_clone(way)
        tried += 5
    print(f"edges: {tried} runs with standard streams closed")


def moved_under(kind, change):
    """A writer whose log is changed at its path after the first flush: the next one isn't acknowledged."""
    log = made(kind, 1)
    writer = subprocess.Popen([PROGRAM, log, "--", "run"], stdin=subprocess.PIPE, stdout=subprocess.PIPE, text=True)
    writer.stdin.write(added(2))
    writer.stdin.flush()
    replies = [writer.stdout.readline() for _line in range(2)]
    if replies[1] != "ok flushed 2 0\n":
        fail(f"{kind}: before it, {replies}")
    change(log)
    rest, _error = writer.communicate(added(3) + added(4), timeout=60)
    if writer.returncode != 3 or "flushed" in rest:
        fail(f"{kind}: status {writer.returncode} and {rest!r}, where the log was gone")


def replaced():
    aside = os.path.join(FOLDER, "aside")
    other = made("other", 7)

    def removed(log):
        os.remove(log)

    def moved(log):
        os.rename(log, aside)

    def copied(log):
        shutil.copy(other, log + ".copy")
        os.rename(log + ".copy", log)

    moved_under("removed", removed)
    moved_under("moved", moved)
    if count(aside, "moved") != 2:
        fail("a log that was moved lacks what was acknowledged")
    moved_under("copied", copied)
    if count(os.path.join(FOLDER, "copied"), "copied") != 7:
        fail("a log that was put in the place of another was changed by its writer")
    print("edges: logs removed, moved and replaced under their writers")


def linked():
    """The entry of a new log behind a link is made sure of in the folder in which the log lies."""
    if shutil.which("strace") is None:
        print("edges: linked: there is no strace, so this isn't tried")
        if os.environ.get("SEGDAG_NO_SKIP", "") == "1" or "strace" in os.environ.get("SEGDAG_NO_SKIP", "").split():
            fail("linked: there is no strace")
        if os.environ.get("SKIPPED"):
            with open(os.environ["SKIPPED"], "a") as skipped:
                skipped.write("edges, linked: there is no strace\n")
        return
    folder, link = os.path.join(FOLDER, "behind"), os.path.join(FOLDER, "link")
    os.makedirs(folder)
    os.symlink(os.path.join(folder, "log"), link)
    told = os.path.join(FOLDER, "calls")
    subprocess.run(["strace", "-f", "-y", "-e", "trace=fsync,fdatasync", "-o", told, PROGRAM, link, "--", "run"],
                   input=added(1).encode(), stdout=subprocess.PIPE, check=True, timeout=120)
    with open(told) as file:
        synced = re.findall(r"fsync\(\d+<([^>]*)>\)", file.read())
    real = os.path.realpath(folder)
    if real not in synced or os.path.join(real, "log") not in synced:
        fail(f"linked: what was synced is {synced}")
    if synced.index(real) > synced.index(os.path.join(real, "log")):
        fail("linked: the log was synced before its folder had its entry")
    print("edges: a new log behind a link is in its own folder for sure")


def unnamed():
    """A new log in a folder whose name is no UTF-8, by a path that is one."""
    folder = os.path.join(os.fsencode(FOLDER), b"\xff\xfe")
    os.makedirs(folder)
    done = subprocess.run([PROGRAM, "log", "--", "run"], input=added(1).encode(), stdout=subprocess.PIPE, stderr=subprocess.PIPE, cwd=folder,
                          timeout=120)
    if done.returncode != 0 or not done.stdout.endswith(b"ok flushed 1 0\n"):
        fail(f"unnamed: status {done.returncode}, {done.stdout}, {done.stderr}")
    print("edges: a log may lie in a folder whose name is no UTF-8")


{"closed": closed, "replaced": replaced, "linked": linked, "unnamed": unnamed}[sys.argv[1]]()
