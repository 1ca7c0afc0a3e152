"""Parts of guide.sh: the log of `git segdag`, where it is, who works on it, and what it keeps."""
import fcntl
import os
import pty
import random
import shutil
import signal
import socket
import subprocess
import sys
import time

from guide_lib import FOLDER, HANGS, PROGRAM, TOOL, Repository, ask_all, ask_pair, environment, fail, refuse, same, script

KILLED = 30
OLD = "objects/info/segdag"


def limited(name, **limits):
    """The command with other limits, so that a small history comes to them: sync__EACH is EACH of the module sync."""
    lines = [f"import sys\nsys.path.insert(0, '{TOOL.parent}')", "from segdag_tools.git import command, sync, store, questions"]
    lines += [f"{key.replace('__', '.')} = {value}" for key, value in limits.items()]
    return script(name, "\n".join(lines) + "\nif __name__ == '__main__': sys.exit(command.main())\n")


def run(command, repository, *words, **more):
    done = subprocess.run([command, *words], cwd=repository.path, env=environment(**more), capture_output=True, text=True, timeout=HANGS)
    if done.returncode != 0 or "Traceback" in done.stderr:
        fail(f"{command.name} {words} in {repository.path.name} ended with {done}")
    return done.stdout


def is_whole(repository):
    """The log has what git lists, and answers as git."""
    same(repository, ["segdag", "query", "all"], ["rev-list", "--branches", "--remotes", "--tags"], sort=True)


def drawn(name, count, seed, **more):
    repository = Repository(name, random.Random(seed), **more)
    repository.grow(count, most=3, roots=0)
    repository.point("topic", repository.commits[-2])
    repository.point("main", repository.commit(*repository.commits[-8:]))
    return repository


def logs():
    """A log is of one repository and has one writer; a reader needs no right; what was rewritten is asked in blocks and of no server."""
    repository = drawn("logs", 60, 5)
    repository.sync()
    clones(repository)
    old_places(repository)
    locks(repository)
    busy_programs(repository)
    readers(repository)
    long_runs()
    memory()
    rewritten()
    partial()
    print("guide: a log has one repository and one writer")


def clones(repository):
    """A clone on the same machine, one that borrows objects, and a bare one have logs of their own."""
    before = repository.log.read_bytes()
    for number, words in enumerate((["--local"], ["--shared"], ["--bare"])):
        path = FOLDER / f"clone{number}"
        subprocess.run(["git", "clone", "--quiet", *words, repository.path, path], env=environment(), check=True)
        clone = repository.at(path)
        common = path / clone.must("rev-parse", "--git-common-dir").strip()
        if (common / "segdag").exists():
            fail("logs: a clone has the log that it was cloned from")
        tree = clone.must("hash-object", "-t", "tree", "-w", "--stdin", text="")
        who = {f"GIT_{who}_{what}": "d@d" for who in ("AUTHOR", "COMMITTER") for what in ("NAME", "EMAIL")}
        alone = clone.must("commit-tree", tree.strip(), "-p", "main", "-m", "alone", **who).strip()
        clone.must("update-ref", "refs/heads/alone", alone)
        clone.sync()
        same(clone, ["segdag", "log", "alone"], ["rev-list", "--count", "alone"])
        if (common / OLD).exists() or repository.log.read_bytes() != before or repository.must("segdag", "query", "all").count(alone):
            fail("logs: a sync in a clone changed the log of what it was cloned from")


def old_places(repository):
    """A log of the old place is moved, and copied where the file is another repository's too."""
    was, old = repository.log.read_bytes(), repository.common / OLD
    for linked in (False, True):
        shutil.rmtree(repository.common / "segdag")
        old.write_bytes(was)
        if linked:
            os.link(old, FOLDER / "linked")
        same(repository, ["segdag", "log", "main"], ["rev-list", "--count", "main"])
        if old.exists() or repository.log.read_bytes() != was or repository.log.stat().st_nlink != 1:
            fail("logs: what lay at the old place wasn't moved")
        repository.commit(repository.commits[-1])
        repository.point("main", repository.commits[-1])
        repository.sync()
        is_whole(repository)
    if (FOLDER / "linked").read_bytes() != was:
        fail("logs: another repository's log was written")


class Held:
    """The lock of a repository, held by this process."""

    def __init__(self, repository):
        self.file = open(repository.common / "segdag/lock", "a+")
        fcntl.flock(self.file, fcntl.LOCK_EX)


def waits(child):
    """Whether it goes on to wait for a while."""
    try:
        child.wait(0.7)
    except subprocess.TimeoutExpired:
        return True
    return False


def locks(repository):
    """Who changes the log waits for who does, also where the lock's file or the log's was moved, and says so on a terminal."""
    for words in (["sync"], ["compact"], ["log", "main"]):
        held = Held(repository)
        front, back = pty.openpty()
        child = subprocess.Popen(["git", "segdag", *words], cwd=repository.path, env=environment(), stdout=subprocess.PIPE, stderr=back)
        if not waits(child):
            fail(f"logs: {words} didn't wait")
        if b"waits" not in os.read(front, 1000):
            fail(f"logs: {words} doesn't tell that it waits")
        first, path = held, repository.common / "segdag/lock"
        os.rename(path, FOLDER / "moved")
        held = Held(repository)
        first.file.close()
        if not waits(child):
            fail(f"logs: {words} goes on with the lock that was moved")
        held.file.close()
        if child.wait(HANGS) != 0:
            fail(f"logs: {words} ended with {child.returncode}")
        child.stdout.close()
        os.close(back)
        os.close(front)
    before, answered = repository.log.stat().st_size, repository.must("segdag", "query", "all")
    for number in range(5):
        repository.point("main", repository.commit(repository.commits[-1]))
        repository.sync()
    (repository.common / "segdag/log.new").write_bytes(b"\1left")
    repository.must("segdag", "compact")
    if repository.log.with_suffix(".new").exists() or repository.must("segdag", "query", "all").count("\n") != answered.count("\n") + 5:
        fail("logs: compact")
    repository.sync()
    ask_all(repository, random.Random(1), 1)


def busy_programs(repository):
    """A program that locks the log's file itself: it is waited for where it can wait."""
    text = "import os, sys\nif '--wait' not in sys.argv: sys.exit(print('busy', file=sys.stderr) or 16)\n"
    program = script("busy", text + f"sys.argv.remove('--wait')\nos.execv('{PROGRAM}', sys.argv)\n")
    if repository.must("segdag", "log", "main", SEGDAG=program) != repository.must("rev-list", "--count", "main"):
        fail("logs: a program that was busy")
    repository.sync(SEGDAG=program)
    repository.must("segdag", "compact", SEGDAG=program)
    program = script("busy", text + "sys.exit(2)\n")
    for words in (["log", "main"], ["sync"], ["query", "all"], ["compact"]):
        refuse(repository, words, 128, "another program works on the log", SEGDAG=program)


def readers(repository):
    """Who may only read the repository asks a copy, also where a daemon has left its socket."""
    os.chmod(FOLDER, 0o755)
    with socket.socket(socket.AF_UNIX) as left:
        left.bind(str(repository.common / "segdag/socket"))
    before = (repository.log.read_bytes(), repository.log.stat().st_mtime_ns)
    who = {}
    if os.geteuid() == 0:
        who = {"preexec_fn": lambda: (os.setgroups([]), os.setgid(65534), os.setuid(65534))}
    else:
        for path in (repository.log, repository.log.parent):
            path.chmod(0o555)
    safe = environment(GIT_CONFIG_COUNT=1, GIT_CONFIG_KEY_0="safe.directory", GIT_CONFIG_VALUE_0="*", PYTHONPYCACHEPREFIX=FOLDER / "none")
    words = ["git", "segdag", "log", "topic..main"]
    for with_lock in (True, False):
        if not with_lock:
            os.unlink(repository.common / "segdag/lock") if os.geteuid() == 0 else None
        done = subprocess.run(words, cwd=repository.path, env=safe, capture_output=True, text=True, **who)
        if done.returncode != 0 or done.stdout != repository.must("rev-list", "--count", "topic..main"):
            fail(f"logs: a reader that may not write: {done}")
        done = subprocess.run(["git", "segdag", "sync"], cwd=repository.path, env=safe, capture_output=True, text=True, **who)
        if done.returncode != 128 or "Permission denied" not in done.stderr or "Traceback" in done.stderr:
            fail(f"logs: a sync that may not write: {done}")
    for path in (repository.log, repository.log.parent):
        path.chmod(0o755)
    if before != (repository.log.read_bytes(), repository.log.stat().st_mtime_ns):
        fail("logs: a reader wrote the log")


def long_runs():
    """A sync of more bytes than one run may read goes on in another."""
    repository = drawn("runs", 600, 6)
    runs = FOLDER / "count-runs"
    count = script("counted", f"import os, sys\nopen('{runs}', 'a').write('run ')\nos.execv('{PROGRAM}', sys.argv)\n")
    short = limited("git-short", sync__EACH=20, sync__RUN=5_000)
    told = run(short, repository, "sync", SEGDAG=count)
    if told.split()[0] != repository.must("rev-list", "--count", "--branches").strip() or runs.read_text().count("run") < 3:
        fail(f"logs: a sync in several runs told {told}, by {runs.read_text()}")
    is_whole(repository)


TAKES_ALL = """import sys
said = {"status": "ok 0 0 0", "flush": "ok flushed 0 0", "count": "ok 0", "query": "ok 0"}
pending = 0
for line in sys.stdin:
    verb = line.split(" ", 2)[1].strip()
    pending = pending + 1 if verb == "add" else 0 if verb == "flush" else pending
    told = "ok added N0" if pending <= 65_536 else "err full pending 65536"
    if verb == "add":
        said["id"] = "ok 0"
    sys.stdout.write((told if verb == "add" else said.get(verb, "err unknown 0")) + "\\n")
    sys.stdout.flush()
"""


def memory():
    """The rows go through: the command's memory isn't the history's, neither in a sync nor in a question that lacks too much."""
    repository = Repository("long", random.Random(7), bare=True)
    count = 100_000
    lines = ["reset refs/heads/main\n"]
    for number in range(count):
        lines.append(f"commit refs/heads/main\ncommitter d <d@d> {1_000_000_000 + number} +0000\ndata 0\n\n")
    repository.must("fast-import", "--quiet", text="".join(lines))
    program = script("takes-all", TAKES_ALL)
    used, told = peak(repository, program, "sync")
    if told.split()[:1] != [str(count)] or used > 35:
        fail(f"logs: a sync of {count} commits took {used} MB and told {told}")
    repository.log.write_bytes(bytes(2))
    used, told = peak(repository, program, "log", "main")
    if "65536 commits aren't in the log yet" not in told or used > 35:
        fail(f"logs: a question took {used} MB and told {told}")


def peak(repository, program, *words):
    """The most memory of the command itself, in MB, and what it told."""
    text = "import re, runpy, sys\nsys.argv = sys.argv[1:]\n"
    text += "try: runpy.run_path(sys.argv[0], run_name='__main__')\n"
    # What rusage tells includes what the process had that started it.
    text += "finally: print(int(re.search('VmHWM: *([0-9]+)', open('/proc/self/status').read().replace('\\t', ' ')).group(1)) // 1024, file=sys.stderr)\n"
    words = [script("measured", text), TOOL, *words]
    done = subprocess.run(words, cwd=repository.path, env=environment(SEGDAG=program), capture_output=True, text=True)
    return int(done.stderr.split()[-1]), done.stdout + done.stderr


def rewritten():
    """A history of which the repository has lost most: few questions tell which commits are left."""
    repository = drawn("rewritten", 1500, 8)
    repository.must("config", "segdag.publish", "refs/heads/*")
    repository.sync()
    repository.point("main", repository.commits[40])
    repository.point("topic", repository.commits[45])
    repository.forget()
    repository.point("main", repository.commit(repository.commits[-1]))
    asked = FOLDER / "asked"
    program = script("counts", f"""import os, subprocess, sys
child = subprocess.Popen(['{PROGRAM}', *sys.argv[1:]], stdin=subprocess.PIPE)
lines = 0
for line in sys.stdin.buffer:
    lines += 1
    child.stdin.write(line)
    child.stdin.flush()
child.stdin.close()
open('{asked}', 'w').write(str(lines))
sys.exit(child.wait())
""")
    told = repository.must("segdag", "log", "main", SEGDAG=program)
    if told != repository.must("rev-list", "--count", "main") or int(asked.read_text()) > 200:
        fail(f"logs: over a rewritten history {asked.read_text()} lines were asked")
    repository.sync()
    ask_all(repository, random.Random(2), 2)


def partial():
    """A clone without files, which lost commits, asks no server for them."""
    server = drawn("server", 30, 9)
    server.must("config", "uploadpack.allowFilter", "true")
    path = FOLDER / "partial"
    words = ["git", "clone", "--quiet", "--filter=blob:none", "--branch=main", f"file://{server.path}", path]
    subprocess.run(words, env=environment(), check=True, capture_output=True)
    clone = server.at(path)
    clone.common = path / ".git"
    clone.must("config", "segdag.publish", "refs/*")
    for _ in range(2):
        clone.must("-c", "user.name=d", "-c", "user.email=d@d", "commit", "--quiet", "--allow-empty", "--message", "a")
    clone.sync()
    clone.must("reset", "--quiet", "--hard", "HEAD~2")
    clone.must("-c", "user.name=d", "-c", "user.email=d@d", "commit", "--quiet", "--allow-empty", "--message", "b")
    clone.must("reflog", "expire", "--expire=now", "--all")
    clone.must("gc", "--quiet", "--prune=now")
    trace = FOLDER / "trace"
    status, out, told = clone.git("segdag", "log", "HEAD", GIT_TRACE=trace)
    if (status, told) != (0, "") or out != clone.must("rev-list", "--count", "HEAD") or "upload-pack" in trace.read_text():
        fail(f"logs: a partial clone asked the server: {told}")
    clone.sync()


def published():
    """Master has what is published, and a topic that is rewritten each day comes and goes among the others."""
    repository = drawn("published", 40, 10)
    main, topic = repository.branches["main"], repository.branches["topic"]
    repository.lose()
    repository.sync()
    same(repository, ["segdag", "query", "set:master"], ["rev-list", "main"], sort=True)
    same(repository, ["segdag", "query", "set:others"], ["rev-list", "--branches", "^main"], sort=True)
    daily(repository, main)
    globs(repository)
    alone()
    full()
    remotes(repository, topic)
    print("guide: what is published is in master, and nothing else")


def daily(repository, main):
    """A topic that is rebased each day."""
    for day in range(8):
        tip = main
        for _ in range(3):
            tip = repository.commit(tip)
        repository.point("topic", tip)
        repository.lose()
        main = repository.commit(main)
        repository.point("main", main)
        repository.sync()
        same(repository, ["segdag", "query", "set:master"], ["rev-list", "main"], sort=True)
        is_whole(repository)
    repository.must("update-ref", "-d", "refs/heads/topic")
    del repository.branches["topic"]
    if " 3 gone" not in repository.sync():
        fail("published: a branch that is gone wasn't stripped")
    is_whole(repository)


def globs(repository):
    """The key says what is published."""
    repository.point("release/1", repository.commit(repository.commits[-1]))
    repository.point("wip/1", repository.commit(repository.commits[-1]))
    repository.lose()
    repository.must("config", "segdag.publish", "refs/heads/release/*")
    repository.sync()
    for name, where in (("release/1", "master"), ("wip/1", "others")):
        if repository.must("rev-parse", name) not in repository.must("segdag", "query", f"set:{where}"):
            fail(f"published: {name} isn't in {where}")
    is_whole(repository)


def alone():
    """The only branch is rewritten from its beginning on, so that nothing of the log is left."""
    repository = Repository("alone", random.Random(11))
    for _ in range(3):
        repository.point("topic", repository.commit())
        repository.lose()
        repository.sync()
        is_whole(repository)


def full():
    """More commits than there is room for among the others: the oldest go to master."""
    repository = drawn("full", 300, 12)
    repository.must("config", "segdag.publish", "refs/none")
    small = limited("git-small", sync__EACH=20, sync__KEPT=50, sync__OTHERS=110)
    for turn in range(6):
        told = run(small, repository, "sync")
        others = int(repository.must("segdag", "query", "set:others").count("\n"))
        if not 1 <= others <= 110 or turn == 0 and others > 70:
            fail(f"published: {others} are among the others: {told}")
        is_whole(repository)
        ask_all(repository, random.Random(turn), 1)
        repository.grow(70, most=20)
        repository.point(f"more{turn}", repository.commits[-1])


def remotes(repository, topic):
    """In a clone the branches of its remote are published, and main isn't."""
    path = FOLDER / "follower"
    subprocess.run(["git", "clone", "--quiet", "--branch=main", repository.path, path], env=environment(), check=True)
    clone = repository.at(path)
    clone.must("-c", "user.name=d", "-c", "user.email=d@d", "commit", "--quiet", "--allow-empty", "--message", "mine")
    clone.sync()
    same(clone, ["segdag", "query", "set:master"], ["rev-list", "--remotes"], sort=True)
    same(clone, ["segdag", "query", "set:others"], ["rev-list", "main", "^origin/main"], sort=True)
    clone.must("push", "--quiet", "origin", "HEAD:refs/heads/mine")
    clone.must("fetch", "--quiet")
    clone.sync()
    if clone.must("segdag", "query", "set:others"):
        fail("published: what was pushed stays among the others")


def killed():
    """Syncs that flush often and are killed, by themselves or with the program: what the next one leaves answers as git does."""
    draw = random.Random(3)
    repository = Repository("killed", draw)
    repository.grow(1200, most=12, roots=0)
    for number, commit in enumerate(repository.commits[-60:]):
        repository.point(f"b{number}", commit)
    repository.lose()
    repository.must("config", "segdag.publish", "refs/heads/b*[02468]")
    often = limited("git-often", sync__EACH=40, sync__KEPT=50)
    begun = time.monotonic()
    run(often, repository, "sync")
    whole, cut = time.monotonic() - begun, 0
    repository.log.unlink()
    for turn in range(KILLED):
        with_program = turn % 2 == 0
        child = subprocess.Popen(
            [often, "sync"], cwd=repository.path, env=environment(), stdout=subprocess.DEVNULL, start_new_session=True
        )
        try:
            child.wait(draw.random() * whole)
        except subprocess.TimeoutExpired:
            (os.killpg if with_program else os.kill)(child.pid, signal.SIGKILL)
            child.wait()
            cut += 1
        if turn % 5 == 4:
            repository.sync()
            published_tips = repository.must("for-each-ref", "--format=%(refname:short)", "refs/heads/b*[02468]").split()
            same(repository, ["segdag", "query", "minus(" + union(published_tips) + ",set:master)"], ["rev-list", "--max-count=0", "b0"])
            is_whole(repository)
            ask_all(repository, draw, 1)
            repository.log.unlink()
    print(f"guide: {cut} syncs were killed, and the next one went on")


def union(names):
    return names[0] if len(names) == 1 else f"union({union(names[: len(names) // 2])},{union(names[len(names) // 2 :])})"
