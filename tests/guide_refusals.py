"""Parts of guide.sh: what `git segdag` can't do is told in one sentence, with git's status, and never answered."""
import os
import random
import subprocess

from guide_lib import FOLDER, PROGRAM, TOOL, Repository, ask_all, environment, fail, refuse, script


def refusals():
    """What can't be held or isn't there."""
    repository = Repository("refused", random.Random(1))
    repository.grow(12)
    refuse(repository, [], 129, "usage: git segdag")
    refuse(repository, ["merge-base", "main"], 129, "usage: git segdag")
    refuse(repository, ["walk"], 129, "usage: git segdag")
    repository.point("main", repository.commits[-1])
    repository.point("topic", repository.commits[-2])
    refuse(repository, ["merge-base", "main", "main"], 128, "the log has no commits yet")
    refuse(repository, ["compact"], 128, "the log has no commits yet")
    refuse(repository, ["sync"], 128, "isn't there, or can't be run", SEGDAG="/nowhere/segdag")
    refuse(repository, ["sync"], 128, "isn't there, or can't be run", SEGDAG=FOLDER)
    refuse(repository, ["sync"], 128, "can't be started", SEGDAG=unreadable())
    repository.sync()
    for words in ("merge-base none main", "is-ancestor main none", "ahead-behind none main", "query union(all,none)"):
        refuse(repository, words.split(), 128, "Not a valid object name none")
    for words in ("none..main", "topic ^nosuch", "topic nosuch", "main...none", "^none", "main..none topic", "main --nothing", "--", "README"):
        (repository.path / "README").touch()
        status, out, told = repository.git("rev-list", "--count", *words.split(), "--")
        if status == 0:
            fail(f"git takes {words}")
        refuse(repository, ["log", *words.split()], 128, "bad revision '")
    line_feeds(repository)
    for expression, sentence in (
        ("walks(main)", "no function 'walks'"), ("ancestors(main", "its end"), ("ancestors(main))", "after the expression"), ("", "its end"),
        ("up(main,topic)", "where a number is expected"), ("only(main)", "',' is expected"), ('ancestors("main)', "double quote"), (",", "where a revision"),
        ("heads(" * 40 + "main" + ")" * 40, "deep"), ("top(all,-1)", "where a number"), ("up(all,1)", "Not a valid object name all"),
    ):
        refuse(repository, ["query", expression], 128, sentence)
    repository.log.write_bytes(bytes([1, 0, 0, 0, 0, 0, 0, 0, 5, 170]))
    for words in (["merge-base", "main", "main"], ["sync"]):
        refuse(repository, words, 128, "it is damaged, longer than a log may be, or no log: `git segdag reset` removes it, and `git segdag sync` makes it anew")
    repository.log.unlink()
    places_of_no_repository(repository)
    print("guide: what can't be held is refused as it must")


def unreadable():
    """A program that the system can't start."""
    path = FOLDER / "none"
    path.write_bytes(b"\x7fELF no program")
    path.chmod(0o755)
    return path


def line_feeds(repository):
    """A revision of two lines would have two answers, and each later one would be another's."""
    for words in (["is-ancestor", "main\ntopic", "main"], ["merge-base", "main", "main\n"], ["ahead-behind", "main", "\n"]):
        refuse(repository, words, 128, "Not a valid object name")
    refuse(repository, ["log", "main\n^topic"], 128, "bad revision")
    refuse(repository, ["query", "ancestors(main\ntopic)"], 128, "Not a valid object name")


def places_of_no_repository(repository):
    shallow, source = FOLDER / "shallow", f"file://{repository.path}"
    subprocess.run(["git", "clone", "--quiet", "--depth=1", "--branch=main", source, shallow], env=environment(), check=True)
    refuse(repository.at(shallow), ["sync"], 128, "this repository is shallow")
    refuse(repository.at(FOLDER), ["sync"], 128, "not a git repository")


REPLIES = """import os, signal, sys
for line in sys.stdin:
    words = line.split()
    if words[1] in ("status", "id", "reload"):
        print("ok 1 0 0" if words[-1] != MARK else "err unknown " + MARK, flush=True)
    else:
        os.write(1, PUT)
        END
"""


def faults():
    """Programs that stop in a reply, end or are gone, a git that ends, names of any bytes, and pipes of one page."""
    repository = Repository("faults", random.Random(2))
    repository.grow(1500, most=3)
    repository.point("main", repository.commits[-1])
    repository.sync()
    mark = "import sys; sys.path.insert(0, 'tools'); from segdag_tools.git import store; print(store.MARK)"
    mark = subprocess.run(["python3", "-c", mark], capture_output=True, text=True).stdout.strip()
    questions = (["log", "main"], ["merge-base", "main", "main"], ["is-ancestor", "main", "main"], ["query", "all"], ["ahead-behind", "main", "main"])
    for put, end, sentence in (
        (b"ok 1", "sys.exit(0)", "it ended before it replied"), (b"ok 1", "os.kill(os.getpid(), signal.SIGKILL)", "SIGKILL"),
        (b"11" * 20 + b"\n", "sys.exit(7)", "no memory"), (b"", "sys.exit(8)", "as many bytes as one run may"),
        (b"", "sys.exit(70)", "status 70"), (b"err disk\n", "sys.exit(3)", "the disk failed"), (b"o", "sys.exit(16)", "another program works on the log"),
    ):
        program = script("cut", REPLIES.replace("MARK", repr(mark)).replace("PUT", repr(put)).replace("END", end))
        for words in questions:
            refuse(repository, words, 128, sentence, SEGDAG=program)
    for end, sentence in (("0", "it ended before it replied"), ("9", "it can't be opened"), ("2", "other words"), ("4", "damaged")):
        for words in (*questions, ["sync"]):
            refuse(repository, words, 128, sentence, SEGDAG=script("ending-program", f"import sys; sys.stdin.close(); sys.exit({end})"))
    wait = script("never", "import sys, os; os.close(0); os.close(1); import time; time.sleep(0.2); sys.exit(5)")
    refuse(repository, ["log", "main"], 128, "couldn't read", SEGDAG=wait)
    a_git_that_ends(repository)
    any_bytes(repository)
    small_pipes(repository)
    sinks(repository)
    blocked = Repository("blocked", random.Random(2))
    blocked.point("main", blocked.commit())
    (blocked.common / "segdag").touch()
    refuse(blocked, ["sync"], 128, "exists")
    print("guide: programs that end and pipes of one page are no answers")


def a_git_that_ends(repository):
    """Of the processes of git that are asked, one ends in the midst or answers nothing."""
    for ended in ("cat-file", "rev-list", "for-each-ref", "rev-parse"):
        folder = FOLDER / f"no-{ended}"
        folder.mkdir()
        git = subprocess.run(["git", "--exec-path"], capture_output=True, text=True).stdout.strip() + "/git"
        script(f"no-{ended}/git", f"import os, sys\nif '{ended}' in sys.argv: sys.exit(1)\nos.execv('{git}', sys.argv)\n")
        repository.commit(repository.commits[-1])
        repository.point("ended", repository.commits[-1])
        path = f"{folder}:{environment()['PATH']}"
        refuse(repository, ["sync"], 128, "git", command=[TOOL], PATH=path)
        if ended != "for-each-ref":
            refuse(repository, ["is-ancestor", "ended", "main"], 128, "git", command=[TOOL], PATH=path)


def any_bytes(repository):
    """Names that are no text, of branches and of what isn't there."""
    name = b"by\xfftes"
    subprocess.run([b"git", b"update-ref", b"refs/heads/" + name, b"main~3"], cwd=repository.path, env=environment(), check=True)
    for locale in ("C", "C.UTF-8", "POSIX"):
        words = [b"git", b"segdag", b"ahead-behind", b"main", name]
        done = subprocess.run(words, cwd=repository.path, env=environment(LC_ALL=locale), capture_output=True)
        if (done.returncode, done.stdout.split()[0]) != (0, name):
            fail(f"faults: a branch that is no text: {done}")
    for words in (["is-ancestor", b"no\xff", "main"], ["log", b"no\xff"], ["query", b"heads(no\xff)"]):
        refuse(repository, words, 128, "")
    repository.sync()


def small_pipes(repository):
    """The pipes of the program hold a page each, as for a user who has many."""
    program = script("paged", f"import fcntl, os, sys\nfor it in 0, 1: fcntl.fcntl(it, 1031, 4096)\nos.execv('{PROGRAM}', sys.argv)\n")
    repository.log.unlink(missing_ok=True)
    repository.sync(SEGDAG=program)
    ask_all(repository, random.Random(1), 1)
    done = repository.must("segdag", "query", "all", SEGDAG=program)
    if sorted(done.split()) != sorted(repository.must("rev-list", "--branches").split()):
        fail("faults: the list over pipes of one page")


def sinks(repository):
    """Standard output that takes nothing."""
    for words in (["query", "all"], ["log", "main"], ["ahead-behind", "main", "main"]):
        with open("/dev/full", "wb") as full:
            done = subprocess.run(["git", "segdag", *words], cwd=repository.path, env=environment(), stdout=full, stderr=subprocess.PIPE, text=True)
        if done.returncode != 128 or "No space left" not in done.stderr or "Traceback" in done.stderr or "Exception" in done.stderr:
            fail(f"faults: a full sink: {done}")
        reader, writer = os.pipe()
        os.close(reader)
        done = subprocess.run(["git", "segdag", *words], cwd=repository.path, env=environment(), stdout=writer, stderr=subprocess.PIPE, text=True)
        os.close(writer)
        if done.returncode == 0 or done.stderr:
            fail(f"faults: a closed sink: {done}")
