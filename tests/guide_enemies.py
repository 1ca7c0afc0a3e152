"""A part of guide.sh: `git segdag` among enemies. Many at once, processes that are killed, too little of what a process needs, and mad names."""
import os
import random
import resource
import signal
import subprocess

from guide_lib import FOLDER, HANGS, TOOL, Repository, ask_all, environment, fail, refuse, same, script

WHO = {f"GIT_{who}_{what}": "d@d" for who in ("AUTHOR", "COMMITTER") for what in ("NAME", "EMAIL")}


def enemies():
    repository = grown("enemies", 50)
    options(repository)
    at_once(repository)
    daemons_at_once(repository)
    starved(repository)
    lies(repository)
    mad_names()
    print("guide: many at once, who is killed, who is starved and mad names get git's answers or a refusal")


def grown(name, seed):
    repository = Repository(name, random.Random(seed))
    repository.grow(60, most=12, wide=0.3, roots=0)
    repository.point("main", repository.commits[-1])
    repository.point("topic", repository.commits[-7])
    repository.lose()
    repository.sync()
    return repository


def options(repository):
    """Options of git that change what stands behind them are refused, and those that name commits are git's: HEADs of no branch too."""
    for words in ("main --not topic", "--exclude=topic --branches", "-q main", "--symbolic main", "--no-revs main", "main -1", "--reflog"):
        refuse(repository, ["log", *words.split()], 128, "bad revision '-")
    tree = FOLDER / "detached"
    repository.must("worktree", "add", "--quiet", "--detach", tree, "topic")
    detached = repository.at(tree)
    alone = detached.must("commit-tree", "HEAD^{tree}", "-p", "HEAD", "-m", "alone", **WHO).strip()
    detached.must("update-ref", "--no-deref", "HEAD", alone)
    for at in (repository, detached):
        for words in (["--all"], ["--branches=t*"], ["--branches=none*"], ["--glob=heads/m*", "^topic"], ["--tags", "--remotes", "topic"]):
            same(at, ["segdag", "log", *words], ["rev-list", "--count", *words])


def begun(repository, *words, **more):
    sinks = {"stdout": subprocess.PIPE, "stderr": subprocess.PIPE, "text": True}
    return subprocess.Popen(["git", "segdag", *words], cwd=repository.path, env=environment(), **sinks, **more)


def ended(child):
    out, told = child.communicate(timeout=HANGS)
    return child.returncode, out, told


def at_once(repository):
    """Syncs, compacts and questions at the same time."""
    for _ in range(2):
        repository.grow(20)
        repository.point("main", repository.commit("main^0", repository.commits[-1]))
        wanted = repository.must("rev-list", "--count", "topic..main")
        asked = ("sync", "log topic..main", "sync", "compact", "log topic..main", "sync", "compact")
        children = [begun(repository, *words.split()) for words in asked]
        for words, found in zip(asked, map(ended, children)):
            if found[0] != 0 or found[2] or words[:3] == "log" and found[1] != wanted:
                fail(f"enemies: {words} beside others ended with {found}")
        same(repository, ["segdag", "query", "set:all"], ["rev-list", "--branches", "HEAD", "worktrees/detached/HEAD"], sort=True)


def daemons_at_once(repository):
    """Daemons that are started and stopped at once, and one that is killed: beside and behind it every question is answered."""
    if not (TOOL.parent / "segdagd").exists():
        return
    for words in (["start", "600"], ["stop"]):
        for child in [begun(repository, "daemon", *words) for _ in range(3)]:
            found = ended(child)
            if found[0] != 0 or found[2]:
                fail(f"enemies: three times daemon {words} at once: {found}")
    for _ in range(2):
        repository.must("segdag", "daemon", "start", "600")
        process = int(repository.must("segdag", "daemon", "status").split()[1])
        wanted = repository.must("rev-list", "--count", "topic..main")
        children = [begun(repository, "log", "topic..main") for _ in range(3)]
        os.kill(process, signal.SIGKILL)
        for found in map(ended, children):
            if found != (0, wanted, ""):
                fail(f"enemies: beside a daemon that was killed: {found}")
        ask_all(repository, repository.draw, 1)
    repository.must("segdag", "compact")


def limit(which, most):
    return lambda: resource.setrlimit(which, (most, most))


def starved(repository):
    """Without files, memory, processes' input or a folder for temporary files: git's answer or one sentence, and the log stays whole."""
    ways = [
        {"preexec_fn": limit(resource.RLIMIT_NOFILE, 5)},
        {"preexec_fn": limit(resource.RLIMIT_FSIZE, 0)},
        {"preexec_fn": limit(resource.RLIMIT_AS, 40 << 20)},
        {"preexec_fn": limit(resource.RLIMIT_CPU, 0)},
        {"stdin": "closed"},
        {"stdout": "closed"},
        {"stderr": "closed"},
        {"env": environment(TMPDIR="/nonexistent")},
        {"env": environment(GIT_DIR="/nonexistent")},
        {"env": {name: value for name, value in environment().items() if name != "HOME"}},
    ]
    wanted = repository.must("rev-list", "--count", "topic..main")
    for way in ways:
        for words in (["log", "topic..main"], ["sync"]):
            found = starving(repository, words, dict(way))
            is_right = found[0] == 0 and (words[0] == "sync" or "stdout" in way or found[1] == wanted)
            is_refused = found[0] != 0 and not found[1] and "Traceback" not in found[2]
            if not is_right and not is_refused:
                fail(f"enemies: {words} with {way} ended with {found}")
    repository.sync()
    ask_all(repository, repository.draw, 1)


def starving(repository, words, way):
    """How the command ends in this way. A descriptor may be closed by a shell."""
    closed = {name for name in ("stdin", "stdout", "stderr") if way.pop(name, None)}
    close = "".join({"stdin": " <&-", "stdout": " >&-", "stderr": " 2>&-"}[name] for name in closed)
    way.setdefault("env", environment())
    shell = ["sh", "-c", f'exec "$0" "$@"{close}', TOOL, *words]
    done = subprocess.run(shell, cwd=repository.path, capture_output=True, text=True, timeout=HANGS, **way)
    return done.returncode, done.stdout, done.stderr


def lies(repository):
    """Programs whose replies have the form of one and are none to what was asked."""
    for put in ("ok", "ok x", "ok -1", "\\xff\\xfe\\nok 1", "zzz\\nok 1", "ok " + "9" * 5000):
        program = script("liar", f"import os, sys\nfor line in sys.stdin.buffer:\n    os.write(1, b'{put}\\n')\n")
        for words in (["log", "main"], ["merge-base", "main", "topic"], ["is-ancestor", "main", "topic"], ["sync"], ["compact"]):
            status, _, told = repository.git("segdag", *words, SEGDAG=program)
            if status not in (0, 1, 128) or "Traceback" in told or status == 128 and told.count("\n") != 1:
                fail(f"enemies: {words} of a program that puts {put[:20]} ended with {status}, {told}")


def mad_names():
    """Folders whose names have line feeds, quotes, bytes that are no text, or are longer than a socket's path may be; with a daemon too."""
    for number, name in enumerate(("line\nfeed", " '\"$(x)`y` ;*", "by\udcfftes\U0001f980", "/".join(["deep" * 12] * 4), "-rf")):
        (FOLDER / "mad").mkdir(exist_ok=True)
        (FOLDER / "mad" / name).parent.mkdir(parents=True, exist_ok=True)
        repository = grown(f"mad/{name}", number)
        below = repository.path / "a"
        below.mkdir()
        ask_all(repository.at(below), repository.draw, 1)
        if number % 2:
            repository.must("segdag", "daemon", "start", "600")
            try:
                ask_all(repository, repository.draw, 1)
            finally:
                repository.must("segdag", "daemon", "stop")
        repository.must("segdag", "compact")
