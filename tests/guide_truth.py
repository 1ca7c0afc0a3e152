"""A part of guide.sh: a log has the commits' own parents, whatever git is told in place of them while it is taken and asked."""
import os
import random
import subprocess

from guide_lib import FOLDER, PROGRAM, TOOL, Repository, environment, fail, refuse, same, script

OTHER = "by the commits' own parents"
ASKED = (["merge-base", "main", "topic"], ["log", "main"], ["log", "main..topic"], ["is-ancestor", "base", "topic"], ["ahead-behind", "main", "topic"])


def truth():
    """Replacements, grafts and shallow histories, there at a sync, at a question, and between two looks of one; and logs that they spoilt before."""
    tried = 0
    for number, (name, enter, leave) in enumerate(WAYS):
        repository = history(f"truth{number}")
        wanted = [repository.git("segdag", *words)[:2] for words in synced(repository)]
        repository.must("segdag", "reset")
        more = enter(repository)
        repository.must("segdag", "sync", **more)
        asked_beside(repository, name, wanted, more)
        leave(repository)
        if [repository.git("segdag", *words) for words in ASKED] != [(*it, "") for it in wanted]:
            fail(f"truth: behind {name} something else is answered")
        repository.must("segdag", "verify")
        tried += 1
    with_daemon()
    raced()
    spoilt()
    no_replacements()
    print(f"guide: a log has the commits' own parents beside {tried} things that give them others, and one that has others is found")


def synced(repository):
    repository.sync()
    return ASKED


def history(name):
    """Eight commits of main, a topic that leaves at the fourth, and a second root."""
    repository = Repository(name, random.Random(1))
    tip = repository.commit()
    for _ in range(3):
        tip = repository.commit(tip)
    base, topic = tip, tip
    for _ in range(4):
        tip, topic = repository.commit(tip), repository.commit(topic)
    for branch, commit in (("main", tip), ("topic", topic), ("base", base)):
        repository.point(branch, commit)
    repository.lose()
    return repository


def replaced(repository):
    repository.must("replace", "--graft", "topic~1")
    return {}


def back(repository):
    for name in repository.must("replace", "--list").split():
        repository.must("replace", "--delete", name)


def other_base(repository):
    """Another folder of replacements, which a variable names."""
    who = {f"GIT_{who}_{what}": "d@d" for who in ("AUTHOR", "COMMITTER") for what in ("NAME", "EMAIL")}
    alone = repository.must("commit-tree", "-m", "x", "main^{tree}", **who).strip()
    repository.must("update-ref", f"refs/other/{repository.must('rev-parse', 'topic~1').strip()}", alone)
    return {"GIT_REPLACE_REF_BASE": "refs/other/"}


def graft(repository):
    (repository.common / "info").mkdir(exist_ok=True)
    (repository.common / "info/grafts").write_text(repository.must("rev-parse", "topic~1"))
    return {}


def relative_graft(repository):
    """Git looks for it in the top folder, wherever it is called."""
    (repository.path / "given").write_text(repository.must("rev-parse", "topic~1"))
    return {"GIT_GRAFT_FILE": "given"}


def shallow(repository):
    (repository.common / "shallow").write_text(repository.must("rev-parse", "topic~1"))
    return {}


def without(*paths):
    def work(repository):
        for path in paths:
            (repository.common / path).unlink(missing_ok=True)

    return work


WAYS = (
    ("a replacement", replaced, back), ("replacements by a variable", other_base, without()), ("a graft", graft, without("info/grafts")),
    ("a graft by a variable", relative_graft, without()), ("a shallow history", shallow, without("shallow")),
)


def asked_beside(repository, name, wanted, more):
    """Each question is answered by the commits' own parents, which is said; from a folder below too."""
    below = repository.path / "below"
    below.mkdir(exist_ok=True)
    for place in (repository, repository.at(below)):
        for words, answer in zip(ASKED, wanted):
            status, out, told = place.git("segdag", *words, **more)
            if (status, out) != answer or OTHER not in told or told.count("\n") != 1:
                fail(f"truth: {words} beside {name} ended with {status}, {out}, {told}, and {answer} was wanted")


def with_daemon():
    repository = history("truth-daemon")
    repository.sync()
    wanted = [repository.git("segdag", *words) for words in ASKED]
    repository.must("segdag", "daemon", "start", "600")
    try:
        for name, enter, leave in WAYS:
            more = enter(repository)
            asked_beside(repository, f"{name}, and with a daemon", [it[:2] for it in wanted], more)
            leave(repository)
            repository.must("update-ref", "-d", f"refs/other/{repository.must('rev-parse', 'topic~1').strip()}")
            if [repository.git("segdag", *words) for words in ASKED] != wanted:
                fail(f"truth: behind {name}, with a daemon, something else is answered")
    finally:
        repository.must("segdag", "daemon", "stop")


def raced():
    """What gives commits other parents comes between the first look at the repository and the reading of its rows."""
    git = subprocess.run(["git", "--exec-path"], capture_output=True, text=True).stdout.strip() + "/git"
    for number, (name, enter, leave) in enumerate((WAYS[0], WAYS[2], WAYS[4])):
        repository = history(f"raced{number}")
        (FOLDER / "raced-bin").mkdir(exist_ok=True)
        came = {
            0: f"subprocess.run(['{git}', 'replace', '--graft', 'topic~1'], stderr=subprocess.DEVNULL)",
            1: "os.makedirs('.git/info', exist_ok=True); open('.git/info/grafts', 'w').write(tip)",
            2: "open('.git/shallow', 'w').write(tip)",
        }[number]
        script("raced-bin/git", f"""import os, subprocess, sys
if 'rev-list' in sys.argv and '--topo-order' in sys.argv:
    tip = subprocess.run(['{git}', 'rev-parse', 'topic~1'], capture_output=True, text=True).stdout
    {came}
os.execv('{git}', ['git', *sys.argv[1:]])
""")
        # By itself, since git puts its own folder in front of the PATH.
        more = environment(PATH=f"{FOLDER}/raced-bin:{environment()['PATH']}")
        subprocess.run([TOOL, "sync"], cwd=repository.path, env=more, check=True, capture_output=True)
        if not repository.must("replace", "--list") and not any((repository.common / path).exists() for path in ("info/grafts", "shallow")):
            fail(f"truth: {name} didn't come between")
        leave(repository)
        for words in (["merge-base", "main", "topic"], ["merge-base", "--all", "main", "topic"]):
            same(repository, ["segdag", *words], words)
        repository.must("segdag", "verify")


def spoilt():
    """A log that an earlier version took beside a replacement: `sync` and `verify` name the commit, and `verify --fix` makes it anew."""
    for number, parents in enumerate(([], ["main"])):
        repository = history(f"spoilt{number}")
        name = repository.must("rev-parse", "topic~1").strip()
        repository.must("replace", "--graft", name, *parents)
        rows = repository.must("rev-list", "--topo-order", "--reverse", "--parents", "main", "topic").splitlines()
        tips = repository.must("rev-parse", "main", "topic").split()
        repository.log.parent.mkdir()
        lines = "".join(f"0 add {row}\n" for row in rows) + f"0 flush {' '.join(tips)}\n"
        done = subprocess.run([PROGRAM, repository.log, "--", "run"], input=lines, capture_output=True, text=True)
        if " flushed " not in done.stdout:
            fail(f"truth: the log that was to be spoilt: {done}")
        if not parents:
            back(repository)
        status, out, told = repository.git("segdag", "sync")
        if status != 128 or name not in told or "other parents" not in told:
            fail(f"truth: a sync over a log that was spoilt ended with {status}, {out}, {told}")
        back(repository)
        status, out, _told = repository.git("segdag", "verify")
        if status != 1 or not out.startswith(f"{name}: the log has ") or out.count("\n") != 1:
            fail(f"truth: verify of a log that was spoilt ended with {status}, {out}")
        if "made anew: 12 commits" not in repository.must("segdag", "verify", "--fix") or "12 commits have" not in repository.must("segdag", "verify"):
            fail("truth: verify --fix")
        same(repository, ["segdag", "merge-base", "main", "topic"], ["merge-base", "main", "topic"])
    refuse(repository, ["verify", "--all"], 128, "verify takes --fix")


def no_replacements():
    """Where git answers by the commits' own parents too nothing is said: files that replace nothing, and git told not to replace."""
    repository = history("truth-none")
    repository.sync()
    (repository.common / "info").mkdir(exist_ok=True)
    (repository.common / "info/grafts").touch()
    for words in ASKED:
        same_in_silence(repository, words)
    (repository.common / "info/grafts").unlink()
    replaced(repository)
    for way in (["--no-replace-objects"], ["-c", "core.useReplaceRefs=false"]):
        for words in (["merge-base", "main", "topic"], ["merge-base", "--all", "main", "topic"]):
            mine, wanted = repository.git(*way, "segdag", *words), repository.git(*way, *words)
            if mine != wanted or not mine[1]:
                fail(f"truth: {way} {words}: {mine}, and git {wanted}")
    whole = FOLDER / "truth-shallow"
    subprocess.run(["git", "clone", "--quiet", "--depth=2", "--branch=main", f"file://{repository.path}", whole], env=environment(), check=True)
    refuse(repository.at(whole), ["sync"], 128, "this repository is shallow")
    if os.path.getsize(whole / ".git/segdag/log") > 1:
        fail("truth: a shallow clone has commits in its log")


def same_in_silence(repository, words):
    status, _out, told = repository.git("segdag", *words)
    if status > 1 or told:
        fail(f"truth: {words} where nothing is replaced ended with {status}, {told}")
