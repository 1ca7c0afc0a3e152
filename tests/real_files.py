"""The parts of real_files.sh: real_files.py PART PROGRAM FOLDER. Each ends with status 1 where the program did something else."""
import os
import random
import re
import resource
import shutil
import signal
import stat
import subprocess
import sys
import time

PROGRAM = os.path.abspath(sys.argv[2])
FOLDER = sys.argv[3]
NOBODY = 65534
KILL_SECONDS = 45
KILL_ROUNDS = 300


def fail(text):
    sys.exit(f"real_files: {text}")


def skip(part, why, tool=None):
    """Says that a part isn't tried, as tests/lib.sh does for a script; where it must be tried for that tool it is a failure."""
    needed = os.environ.get("SEGDAG_NO_SKIP", "")
    if tool in (["strace"] if needed == "1" else needed.split()):
        fail(f"{part}: {why}")
    print(f"real_files: {part}: {why}, so this isn't tried")
    if os.environ.get("SKIPPED"):
        with open(os.environ["SKIPPED"], "a") as skipped:
            skipped.write(f"real_files, {part}: {why}\n")


def name(i):
    return f"{i:040x}"


def commits(first, last):
    """Lines that add a chain's commits from first to last, each flushed by itself."""
    lines = []
    for i in range(first, last + 1):
        parent = f" {name(i - 1)}" if i > 1 else ""
        lines += [f"0 add {name(i)}{parent}", f"0 flush {name(i)}"]
    return "".join(line + "\n" for line in lines)


def run(log, text, before=(), **options):
    """The status of a run over this input, and its replies."""
    words = [*before, PROGRAM, log, "--", "run"]
    done = subprocess.run(words, input=text.encode(), stdout=subprocess.PIPE, timeout=1800, **options)
    return done.returncode, done.stdout.decode().splitlines()


def flushed(replies):
    return sum(reply.startswith("ok flushed ") for reply in replies)


def stored(log, least, most, when):
    """How many commits the log holds, which must be all that were acknowledged, and at most one more; each of them whole."""
    status, replies = run(log, "0 query master\n0 status\n")
    if status != 0 or len(replies) < 2:
        fail(f"{when}: the log doesn't open again: status {status}, {replies[-3:]}")
    count = len(replies) - 2
    if not least <= count <= most:
        fail(f"{when}: {count} commits are stored, and {least} to {most} were wanted")
    if replies[:count] != [name(i) for i in range(count, 0, -1)]:
        fail(f"{when}: other commits are stored")
    if replies[count:] != [f"ok {count}", f"ok {count} 0 0"]:
        fail(f"{when}: the counts are {replies[count:]}")
    return count


def fresh(kind):
    path = os.path.join(FOLDER, kind)
    for old in (path, path + ".new"):
        if os.path.lexists(old):
            os.remove(old)
    return path


def refused(log, what, **options):
    status, replies = run(log, commits(1, 1), **options)
    if (status, replies) != (9, ["err disk"]):
        fail(f"places: {what} as the log: status {status}, {replies}")


def as_nobody():
    os.setgroups([])
    os.setgid(NOBODY)
    os.setuid(NOBODY)


def places():
    """Where no log can stand the program says so, and waits for nothing."""
    refused(FOLDER, "a folder")
    pipe = fresh("pipe")
    os.mkfifo(pipe)
    refused(pipe, "a pipe")
    refused("/dev/null", "a device")
    refused(os.path.join(FOLDER, "none", "log"), "a missing folder")
    log = fresh("readonly")
    run(log, commits(1, 2))
    os.chmod(log, stat.S_IRUSR | stat.S_IRGRP | stat.S_IROTH)
    reachable = shutil.copy(PROGRAM, os.path.join(FOLDER, "program"))
    os.chmod(reachable, 0o755)
    if os.getuid() == 0:
        done = subprocess.run([reachable, log, "--", "run"], input=b"", stdout=subprocess.PIPE, preexec_fn=as_nobody, timeout=1800)
        if (done.returncode, done.stdout) != (9, b"err disk\n"):
            fail(f"places: a read-only file as the log: status {done.returncode}, {done.stdout}")
    else:
        refused(log, "a read-only file")
    os.chmod(log, 0o644)
    stored(log, 2, 2, "places: a file that was read-only")
    if os.path.exists(log + ".new"):
        fail("places: a file next to the log was made")


def out_of_room(log, part, **options):
    """A run that finds no room ends with the disk's fault, and the log opens again with all that was acknowledged."""
    status, replies = run(log, commits(1, 3000), **options)
    if status != 3 or replies[-1] != "err disk":
        fail(f"{part}: status {status}, {replies[-1:]}")
    return flushed(replies)


def limit():
    """A file may grow to some size only, and the signal for that is ignored; or it ends the process."""
    for size in (1, 2, 100, 4096, 4097, 20000):
        log = fresh("limit")

        def bounded(size=size):
            resource.setrlimit(resource.RLIMIT_FSIZE, (size, size))

        done = out_of_room(log, f"limit {size}", preexec_fn=bounded, restore_signals=False)
        count = stored(log, done, done + 1, f"limit {size}")
        status, replies = run(log, commits(count + 1, count + 5))
        if status != 0 or flushed(replies) != 5:
            fail(f"limit {size}: the log can't be gone on with: status {status}")
        log = fresh("limit")
        status, replies = run(log, commits(1, 3000), preexec_fn=bounded)
        if status != -signal.SIGXFSZ:
            fail(f"limit {size}: the signal ended it with {status}")
        stored(log, flushed(replies), flushed(replies) + 1, f"limit {size}, by the signal")


def full():
    """A small file system in memory has no room left."""
    place = os.path.join(FOLDER, "small")
    os.makedirs(place, exist_ok=True)
    done = subprocess.run(["mount", "-t", "tmpfs", "-o", "size=32k", "tmpfs", place], stderr=subprocess.DEVNULL)
    if done.returncode != 0:
        return skip("full", "no file system can be mounted here")
    try:
        log = os.path.join(place, "log")
        done = out_of_room(log, "full")
        stored(log, done, done + 1, "full")
    finally:
        subprocess.run(["umount", place], check=True)


def kill():
    """The process is killed at random moments; the log opens again each time."""
    seed = int(os.environ.get("SEED", time.time_ns() % 10**9))
    chance = random.Random(seed)
    log, count = fresh("kill"), 0
    began = time.monotonic()
    run(log, commits(1, 40))
    whole = time.monotonic() - began
    count = stored(log, 40, 40, "kill")
    rounds = cut = 0
    while rounds < KILL_ROUNDS and time.monotonic() - began < KILL_SECONDS:
        if count > 1500:
            log, count = fresh("kill"), 0
        child = subprocess.Popen([PROGRAM, log, "--", "run"], stdin=subprocess.PIPE, stdout=subprocess.PIPE)
        child.stdin.write(commits(count + 1, count + 40).encode())
        child.stdin.close()
        time.sleep(chance.uniform(0, 1.1 * whole))
        child.kill()
        done = flushed(child.stdout.read().decode().splitlines())
        child.stdout.close()
        cut += child.wait() == -signal.SIGKILL and done > 0
        count = stored(log, count + done, count + min(done + 1, 40), f"kill, round {rounds} of SEED={seed}")
        rounds += 1
    print(f"real_files: kill: {rounds} processes were killed, {cut} of them after a reply to a flush")


def counted_calls(trace):
    """How often each call was made on the log."""
    calls = {}
    with open(trace) as lines:
        for line in lines:
            found = re.match(r"\d+ +(\w+)\(", line)
            if found:
                calls[found.group(1)] = calls.get(found.group(1), 0) + 1
    return calls


def moments():
    """Each call on a log in turn fails, or the process is killed in it, or a signal interrupts it."""
    if shutil.which("strace") is None:
        return skip("moments", "there is no strace", "strace")
    trace = os.path.join(FOLDER, "trace")
    log = fresh("moments")
    tracing = ["strace", "-f", "-q", "-o", trace, "-P", log]

    def traced(*words):
        """A run that adds three commits to two."""
        run(fresh("moments"), commits(1, 2))
        return run(log, commits(3, 5), before=[*tracing, *words])

    status, replies = traced("-e", "trace=read,write,lseek,fsync")
    if (status, flushed(replies)) != (0, 3):
        return skip("moments", "strace can't trace here")
    calls = counted_calls(trace)
    tried = 0
    for call, times in sorted(calls.items()):
        for at in range(1, times + 1):
            for harm in ("signal=KILL", "error=EIO", "error=EINTR"):
                if harm == "error=EINTR" and call == "lseek":
                    continue
                status, replies = traced("-e", f"trace={call}", "-e", f"inject={call}:{harm}:when={at}")
                when = f"moments: {harm} at {call} {at}"
                done = flushed(replies)
                if harm == "error=EINTR" and (status, done) != (0, 3):
                    fail(f"{when}: status {status}, {replies}")
                if harm == "error=EIO" and (status, replies[-1:]) != (3, ["err disk"]):
                    fail(f"{when}: status {status}, {replies}")
                stored(log, 2 + done, 2 + min(done + 1, 3), when)
                tried += 1
    print(f"real_files: moments: {tried} runs, by {calls}")


def compact(log, before=(), **options):
    """The status of a run that writes the log anew, and what it put."""
    done = subprocess.run([*before, PROGRAM, log, "--", "compact"], stdout=subprocess.PIPE, timeout=1800, **options)
    return done.returncode, done.stdout.decode()


def read(path):
    with open(path, "rb") as file:
        return file.read()


def left(log, bytes_of_log, whole, line, when):
    """Whether a file that is stopped in being written is whole. If not it is gone on with as a new one; and the log stays as it was."""
    if read(log) != bytes_of_log:
        fail(f"{when}: the log is another")
    is_whole = os.path.exists(log + ".new") and read(log + ".new") == whole
    ended = compact(log)
    if ended != ((14, "") if is_whole else (0, line)):
        fail(f"{when}: a second try: {ended}")
    if read(log + ".new") != whole or read(log) != bytes_of_log:
        fail(f"{when}: other bytes are there in the end")
    return is_whole


def anew():
    """A log is written anew, and each of the calls on the new file fails, or the process is killed in it, or at a random moment."""
    log = fresh("anew")
    run(log, commits(1, 600))
    data = read(log)
    status, line = compact(log)
    if status != 0 or not line.startswith(f"ok compacted 600 0 {len(data)} "):
        fail(f"anew: status {status}, {line}")
    whole = read(log + ".new")
    seed = int(os.environ.get("SEED", time.time_ns() % 10**9))
    chance = random.Random(seed)
    began = time.monotonic()
    os.remove(log + ".new")
    compact(log)
    took = time.monotonic() - began
    rounds = done = 0
    while rounds < KILL_ROUNDS and time.monotonic() - began < KILL_SECONDS / 3:
        os.remove(log + ".new")
        child = subprocess.Popen([PROGRAM, log, "--", "compact"], stdout=subprocess.PIPE)
        time.sleep(chance.uniform(0, 1.2 * took))
        child.kill()
        told = child.stdout.read().decode()
        child.stdout.close()
        child.wait()
        is_whole = left(log, data, whole, line, f"anew, round {rounds} of SEED={seed}")
        if told and not is_whole:
            fail(f"anew, round {rounds} of SEED={seed}: the line came before the batch")
        done += is_whole
        rounds += 1
    print(f"real_files: anew: {rounds} processes were killed, and {done} had written it")
    anew_calls(log, data, whole, line)


def anew_calls(log, data, whole, line):
    """The same by each call on the new file."""
    if shutil.which("strace") is None:
        return skip("anew", "there is no strace", "strace")
    new, trace = log + ".new", os.path.join(FOLDER, "trace")
    tracing = ["strace", "-f", "-q", "-o", trace, "-P", new]
    os.remove(new)
    if compact(log, before=[*tracing, "-e", "trace=read,write,lseek,fsync"]) != (0, line):
        return skip("anew", "strace can't trace here")
    calls = counted_calls(trace)
    tried = 0
    for call, times in sorted(calls.items()):
        for at in range(1, times + 1):
            for harm, wanted in (("signal=KILL", (-signal.SIGKILL, "")), ("error=EIO", (13, "")), ("error=EINTR", (0, line))):
                if harm == "error=EINTR" and call == "lseek":
                    continue
                os.remove(new)
                ended = compact(log, before=[*tracing, "-e", f"trace={call}", "-e", f"inject={call}:{harm}:when={at}"])
                if ended != wanted and (harm != "signal=KILL" or ended[1]):
                    fail(f"anew: {harm} at {call} {at}: {ended}")
                left(log, data, whole, line, f"anew: {harm} at {call} {at}")
                tried += 1
    print(f"real_files: anew: {tried} runs, by {calls}")


def order():
    """A commit writes its payload, makes sure of it, opens the gate, makes sure of that, and only then is the reply written."""
    if shutil.which("strace") is None:
        return skip("order", "there is no strace", "strace")
    trace = os.path.join(FOLDER, "trace")
    log = fresh("order")
    tracing = ["strace", "-f", "-q", "-s", "16", "-o", trace, "-e", "trace=openat,write,fsync,fdatasync,ftruncate,pwrite64"]
    status, replies = run(log, commits(1, 2), before=tracing)
    if (status, flushed(replies)) != (0, 2):
        return skip("order", "strace can't trace here")
    with open(trace) as lines:
        text = lines.read()
    opened = re.search(re.escape(f'"{log}"') + r".*= (\d+)\n", text)
    if opened is None:
        fail("order: the log was never opened")
    steps = []
    for line in text[opened.end() :].splitlines():
        found = re.match(r'\d+ +(\w+)\((\d+)(?:, "(.*?)".*, (\d+))?\)', line)
        if not found:
            continue
        call, number, shown, size = found.groups()
        if number == opened.group(1):
            steps.append(f"{call} {'1' if size == '1' else 'n'}" if call == "write" else call)
        elif call == "write":
            steps.append(" ".join(shown.split()[:2]))
        elif call == "fsync":
            steps.append("fsync folder")
    wanted = ["fsync folder", "fsync", "write 1", "fsync"]
    wanted += 2 * ["ok added", "write n", "fsync", "write 1", "fsync", "ok flushed"]
    if steps != wanted:
        fail(f"order: the calls were {steps}")


PARTS = {part.__name__: part for part in (places, limit, full, kill, moments, anew, order)}
began = time.monotonic()
PARTS[sys.argv[1]]()
print(f"real_files: {sys.argv[1]}: {time.monotonic() - began:.1f} s")
