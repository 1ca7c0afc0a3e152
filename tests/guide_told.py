"""A part of guide.sh: what is told where something is amiss names its cause, and which revisions are commits is as git has it."""
import os
import random
import shutil
import subprocess

from guide_lib import FOLDER, PROGRAM, TOOL, Repository, environment, fail, refuse, same, script


def told():
    repository = Repository("told", random.Random(3))
    repository.grow(40, most=10, wide=0.3, roots=0)
    repository.point("main", repository.commits[-1])
    repository.point("topic", repository.commits[-5])
    repository.lose()
    uses(repository)
    before_a_sync(repository)
    repository.sync()
    programs(repository)
    copied(repository)
    mistakes(repository)
    others(repository)
    short_names(repository)
    submodules()
    odd_folders()
    print("guide: what is amiss is told by its cause")


def uses(repository):
    """A wrong use says what is wrong in front of the usage; help is no mistake."""
    for words, sentence in (
        ([], "a command is wanted"), (["walk"], "'walk' is not a git segdag command"), (["merge-base", "main"], "merge-base takes two revisions or more"),
        (["sync", "now"], "sync takes no more words"), (["is-ancestor"], "is-ancestor takes A B"), (["query", "a", "b"], "query takes EXPR"),
    ):
        status, out, said = repository.git("segdag", *words)
        if status != 129 or out or sentence not in said.split("\n")[0] or "\nusage: git segdag" not in said:
            fail(f"told: {words} ended with {status}, {out}, {said}")
    for words in (["-h"], ["help"]):
        status, out, said = repository.git("segdag", *words)
        if status != 0 or said or not out.startswith("usage: git segdag"):
            fail(f"told: {words} ended with {status}, {out}, {said}")
    if not repository.must("segdag", "--version").startswith("git segdag "):
        fail("told: --version")
    for expression, sentence in (("union(main,topic,main)", "union takes 2 parts"), ("heads(main,topic)", "heads takes 1 part,")):
        refuse(repository, ["query", expression], 128, sentence)


def before_a_sync(repository):
    """Nothing was synced; the repository had nothing when it was; the daemon is to begin at once and to end at once."""
    refuse(repository, ["log", "main"], 128, "`git segdag sync` takes them")
    refuse(repository, ["daemon", "start", "0"], 128, "'0' isn't a number of seconds")
    empty = Repository("told-empty", random.Random(1))
    empty.sync()
    same(empty, ["segdag", "log", "--all"], ["rev-list", "--count", "--all"])
    refuse(empty, ["query", "all"], 128, "the repository had none at the last `git segdag sync`")


def programs(repository):
    """Programs that are none, and that end in the midst of a compact; a program that is found by its name."""
    refuse(repository, ["log", "main"], 128, "/bin/true: it ended before it replied", SEGDAG="/bin/true")
    refuse(repository, ["log", "main"], 128, "nosuch isn't there, or can't be run", SEGDAG="nosuch")
    for status, sentence in ((13, "the new log can't be written"), (15, "longer than a log may be")):
        refuse(repository, ["compact"], 128, sentence, SEGDAG=script("ends-so", f"import sys; sys.exit({status})"))
    for more in ({"SEGDAG": "segdag"}, {"SEGDAG": ""}):
        same_with(repository, more)


def same_with(repository, more):
    mine = repository.git("segdag", "merge-base", "--all", "main", "topic", **more)
    if mine != repository.git("merge-base", "--all", "main", "topic"):
        fail(f"told: with {more}: {mine}")


def copied(repository):
    """The command without the folder beside it."""
    alone = FOLDER / "alone/git-segdag"
    alone.parent.mkdir()
    shutil.copy(TOOL, alone)
    refuse(repository, ["log", "main"], 128, "link to tools/git-segdag", command=[alone])
    linked = FOLDER / "linked-command"
    linked.symlink_to(TOOL)
    done = subprocess.run([linked, "log", "main"], cwd=repository.path, env=environment(), capture_output=True, text=True)
    if done.stdout != repository.must("rev-list", "--count", "main"):
        fail(f"told: by a link: {done}")


def mistakes(repository):
    """A mistake in the command itself isn't the status 1, which is an answer."""
    lines = [f"import sys\nsys.path.insert(0, '{TOOL.parent}')", "from segdag_tools.git import command, questions"]
    lines += ["def wrong(*_): return [][1]", "questions.is_ancestor = wrong", "sys.exit(command.main())", ""]
    refuse(repository, ["is-ancestor", "main", "main"], 128, "a mistake in git segdag itself: IndexError", command=[script("mistaken", "\n".join(lines))])


def others(repository):
    """Another user's repository, daemon, folder and lock: git's own sentence, or whose the file is."""
    if os.geteuid() != 0:
        return
    os.chmod(FOLDER, 0o755)
    who = {"preexec_fn": lambda: (os.setgroups([]), os.setgid(65534), os.setuid(65534))}
    env = environment(PYTHONPYCACHEPREFIX=FOLDER / "none")
    safe = {**env, "GIT_CONFIG_COUNT": "1", "GIT_CONFIG_KEY_0": "safe.directory", "GIT_CONFIG_VALUE_0": "*"}

    def as_nobody(words, sentence, status=128, env=safe):
        done = subprocess.run(["git", "segdag", *words], cwd=repository.path, env=env, capture_output=True, text=True, **who)
        if done.returncode != status or sentence not in done.stderr or done.stderr.count("\n") != 1:
            fail(f"told: another user's {words} ended with {done}, and '{sentence}' was wanted")

    as_nobody(["log", "main"], "safe.directory", env=env)
    as_nobody(["sync"], "Permission denied: it belongs to user 0")
    repository.must("segdag", "daemon", "start", "60")
    try:
        as_nobody(["daemon", "status"], "doesn't let this user ask")
        as_nobody(["daemon", "stop"], "doesn't let this user ask")
    finally:
        repository.must("segdag", "daemon", "stop")
    repository.log.parent.chmod(0o700)
    as_nobody(["log", "main"], "Permission denied")
    repository.log.parent.chmod(0o755)


def short_names(repository):
    """Abbreviations that a commit shares with a file or another commit: git takes none of them, but in a range the commit."""
    taken = {name[:4]: name for name in repository.must("rev-list", "main").split()}
    shared = []
    for number in range(60_000):
        text = str(number)
        name = hash_of(text)
        if name[:4] in taken and name[:4] not in shared:
            repository.must("hash-object", "-w", "--stdin", text=text)
            shared.append(name[:4])
        if len(shared) == 6:
            break
    for daemon in (False, True):
        if daemon:
            repository.must("segdag", "daemon", "start", "60")
        for short in shared:
            for words in ([short, "main"], ["main", short], [short.upper(), "main"], [f"{short}^0", "main"]):
                same(repository, ["segdag", "merge-base", *words], ["merge-base", *words])
                same(repository, ["segdag", "is-ancestor", *words], ["merge-base", "--is-ancestor", *words])
            for words in ([short], [f"{short}..main"], [f"main..{short}"], [f"{taken[short][:12]}"]):
                same(repository, ["segdag", "log", *words], ["rev-list", "--count", *words])
    repository.must("segdag", "daemon", "stop")


def hash_of(text):
    from hashlib import sha1

    return sha1(f"blob {len(text)}\0{text}".encode()).hexdigest()


def submodules():
    """A path in the index or a commit, whose object is a commit that is there."""
    repository = Repository("told-sub", random.Random(4))
    one, other = repository.commit(), repository.commit()
    repository.point("main", one)
    repository.must("update-index", "--add", "--cacheinfo", f"160000,{other},sub")
    who = {f"GIT_{who}_{what}": "d@d" for who in ("AUTHOR", "COMMITTER") for what in ("NAME", "EMAIL")}
    repository.must("commit", "--quiet", "-m", "a sub", **who)
    repository.sync()
    for daemon in (False, True):
        if daemon:
            repository.must("segdag", "daemon", "start", "60")
        for word in ("HEAD:sub", ":sub", ":0:sub", "HEAD:nosuch", "HEAD:"):
            for words in ([word, "main"], ["main", word]):
                same(repository, ["segdag", "merge-base", *words], ["merge-base", *words])
                same(repository, ["segdag", "is-ancestor", *words], ["merge-base", "--is-ancestor", *words])
    repository.must("segdag", "daemon", "stop")


def odd_folders():
    """A folder with a byte that is no UTF-8, from a worktree, from below, and as GIT_DIR; with a daemon too."""
    repository = Repository("told\udcff", random.Random(5))
    repository.grow(20, roots=0)
    repository.point("main", repository.commits[-1])
    repository.sync()
    tree = FOLDER / "tree\udcfe"
    repository.must("worktree", "add", "--quiet", "--detach", tree, "main~3")
    for daemon in (False, True):
        if daemon:
            repository.at(tree).must("segdag", "daemon", "start", "60")
        for at, more in ((repository.at(tree), {}), (repository, {"GIT_DIR": os.path.abspath(repository.common)})):
            for words in (["log", "main~2..main"], ["query", "main"]):
                status, out, said = at.git("segdag", *words, **more)
                if (status, said) != (0, "") or out != ("2\n" if words[0] == "log" else repository.must("rev-parse", "main")):
                    fail(f"told: {words} in an odd folder ended with {status}, {out}, {said}")
            at.must("segdag", "sync", **more)
    repository.must("segdag", "daemon", "stop")
    repository.at(tree).must("segdag", "compact")
