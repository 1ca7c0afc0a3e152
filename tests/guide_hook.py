"""A part of guide.sh: the hook behind which the log follows the references. Nothing waits for it, and nothing fails for it."""
import fcntl
import os
import random
import shutil
import subprocess
import time

from guide_lib import FOLDER, TOOL, Repository, environment, fail, refuse, script

NAME = "hooks/reference-transaction"
SOON = 120  # seconds in which a log has followed, on the slowest machine
WHO = ("-c", "user.name=d", "-c", "user.email=d@d")


def hooks():
    repository = Repository("hook", random.Random(2))
    repository.grow(20)
    repository.point("main", repository.commits[-1])
    repository.lose()
    nothing_to_keep(repository)
    repository.sync()
    repository.must("segdag", "hook", "install")
    repository.must("segdag", "hook", "install")
    commits(repository)
    worktrees(repository)
    burst(repository)
    held(repository)
    broken(repository)
    fetched(repository)
    removed(repository)
    foreign(repository)
    print("guide: the log follows the references behind a hook, for which nobody waits")


def nothing_to_keep(repository):
    """Without a log the hook makes none."""
    if "is installed" not in repository.must("segdag", "hook", "install"):
        fail("hooks: install")
    repository.must(*WHO, "commit", "--quiet", "--allow-empty", "--message", "first")
    if (repository.common / "segdag").exists():
        fail("hooks: a hook made a log")


def follows(repository, what):
    """Waits until the log has what the references reach, and nothing else. A question would read what it lacks: its state tells."""
    end = time.monotonic() + SOON
    while not has_all(repository):
        if time.monotonic() > end:
            left = [it.name for it in (repository.common / "segdag").iterdir()]
            fail(f"hooks: behind {what} the log hasn't followed: {repository.must('segdag', 'status')}{left}")
        time.sleep(0.05)


def has_all(repository):
    if "\nbehind   0 commits" not in repository.must("segdag", "status"):
        return False
    return set(repository.must("segdag", "query", "all").split()) == set(repository.must("rev-list", "--all", "HEAD").split())


def commits(repository):
    for number in range(3):
        status, _out, told = repository.git(*WHO, "commit", "--quiet", "--allow-empty", "--message", f"{number}")
        if status != 0 or told:
            fail(f"hooks: a commit ended with {status}, {told}")
        follows(repository, "a commit")
    repository.must("segdag", "daemon", "start", "600")
    repository.must(*WHO, "commit", "--quiet", "--allow-empty", "--message", "beside a daemon")
    follows(repository, "a commit beside a daemon")
    repository.must("segdag", "daemon", "stop")


def worktrees(repository):
    """From a worktree, and from a folder below it."""
    tree = FOLDER / "hook-tree"
    repository.must("worktree", "add", "--quiet", "--detach", tree)
    (tree / "below").mkdir()
    repository.at(tree / "below").must(*WHO, "commit", "--quiet", "--allow-empty", "--message", "of a worktree")
    follows(repository, "a commit in a worktree")


def burst(repository):
    """Many changes while a sync waits for the log: one more takes them all, and the last change isn't missed. A word counts for a minute."""
    counted = FOLDER / "hook-syncs"
    path = repository.common / NAME
    counting = script("counting-syncs", f"import os, sys\nopen('{counted}', 'a').write('+')\nos.execv('{TOOL}', sys.argv)\n")
    text = path.read_text()
    path.write_text(text.replace(str(TOOL), str(counting)))
    with open(repository.common / "segdag/lock", "a+") as lock:
        fcntl.flock(lock, fcntl.LOCK_EX)
        begun = time.monotonic()
        for number in range(40):
            repository.must("update-ref", f"refs/heads/many/{number}", repository.commit("main^0"))
        minutes = (time.monotonic() - begun) / 60
    follows(repository, "many changes")
    if counted.stat().st_size > 8 + minutes:
        fail(f"hooks: {counted.stat().st_size} syncs were begun by 80 changes")
    path.write_text(text)


def held(repository):
    """Who works on the log, and a sync that waits for it, keeps no push waiting: each ends while the lock is held."""
    clone = FOLDER / "hook-clone"
    subprocess.run(["git", "clone", "--quiet", repository.path, clone], env=environment(), check=True)
    other = repository.at(clone)
    with open(repository.common / "segdag/lock", "a+") as lock:
        fcntl.flock(lock, fcntl.LOCK_EX)
        for number in range(3):
            other.must(*WHO, "commit", "--quiet", "--allow-empty", "--message", f"{number}")
            status, _out, told = other.git("push", "--quiet", "origin", f"HEAD:refs/heads/pushed/{number}")
            if status != 0 or told:
                fail(f"hooks: a push beside a log that is locked ended with {status}, {told}")
    follows(repository, "pushes beside a log that was locked")


def broken(repository):
    """Nothing of the tools works: whoever changes a reference sees nothing of it. The next change is taken, and what a machine left that stopped."""
    path = repository.common / NAME
    text = path.read_text()
    for number, wrong in enumerate((text.replace(str(TOOL), "/nonexistent/git-segdag"), text.replace(str(TOOL), "/bin/false"))):
        path.write_text(wrong)
        status, _out, told = repository.git(*WHO, "commit", "--quiet", "--allow-empty", "--message", f"broken {number}")
        if status != 0 or told:
            fail(f"hooks: a commit beside tools that are gone ended with {status}, {told}")
    path.write_text(text)
    left = repository.common / "segdag/changed"
    left.touch()
    os.utime(left, (time.time() - 300, time.time() - 300))
    repository.must(*WHO, "commit", "--quiet", "--allow-empty", "--message", "behind one that stopped")
    follows(repository, "a change behind a machine that stopped")


def fetched(repository):
    """A fetch of hundreds of references into a bare repository, and another one that takes them away."""
    bare = Repository("hook-bare", random.Random(1), bare=True)
    lines = "".join(f"create refs/heads/more/{number} {commit}\n" for number, commit in enumerate(repository.must("rev-list", "--all").split() * 4))
    repository.must("update-ref", "--stdin", text=lines)
    bare.must("fetch", "--quiet", repository.path, "refs/heads/main:refs/heads/main")
    bare.sync()
    bare.must("segdag", "hook", "install")
    for spec in ("+refs/heads/*:refs/heads/*", "+refs/heads/m*:refs/heads/m*"):
        status, _out, told = bare.git("fetch", "--quiet", "--prune", repository.path, spec)
        if status != 0 or told:
            fail(f"hooks: a fetch ended with {status}, {told}")
        follows(bare, "a fetch")


def removed(repository):
    if "is removed" not in repository.must("segdag", "hook", "remove") or (repository.common / NAME).exists():
        fail("hooks: remove")
    if repository.must("segdag", "hook", "remove") != "there was no hook\n":
        fail("hooks: remove where there is none")


def foreign(repository):
    """Another's hook, and a folder of hooks that is others' too, stay as they are."""
    path = repository.common / NAME
    path.parent.mkdir(exist_ok=True)
    path.write_text("#!/bin/sh\nexit 0\n")
    for word in ("install", "remove"):
        refuse(repository, ["hook", word], 128, "another's: it is left as it is")
    if path.read_text() != "#!/bin/sh\nexit 0\n":
        fail("hooks: another's hook was written")
    path.unlink()
    shutil.rmtree(FOLDER / "hook-tree")
    shared = FOLDER / "hooks-of-all"
    shared.mkdir()
    repository.must("config", "core.hooksPath", shared)
    refuse(repository, ["hook", "install"], 128, "core.hooksPath has the hooks in")
    if any(shared.iterdir()):
        fail("hooks: a folder that is others' too was written")
    refuse(repository, ["hook", "now"], 128, "not 'now'")
