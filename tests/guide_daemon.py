"""A part of guide.sh: the commands answer the same where a daemon keeps the log."""
import os
import random
import sys

from guide_lib import TOOL, Repository, ask_all, fail, refuse, same


def daemons():
    """A daemon is started, asked, given more by syncs, and stopped; merges of many parents are counted as one by the quick way too."""
    if not (TOOL.parent / "segdagd").exists():
        told = "guide: there is no tools/segdagd, so questions to a daemon aren't tried"
        print(told)
        if os.environ.get("SKIPPED"):
            with open(os.environ["SKIPPED"], "a") as skipped:
                skipped.write(told + "\n")
        return
    draw = random.Random(20)
    repository = Repository("daemon", draw)
    repository.grow(120, most=40, wide=0.6, roots=0)
    for branch, commit in (("main", repository.commits[-1]), ("topic", repository.commits[-3]), ("7", repository.commits[-9])):
        repository.point(branch, commit)
    refuse(repository, ["daemon", "walk"], 128, "start, stop or status")
    if repository.git("segdag", "daemon", "status")[:2] != (1, "no daemon runs\n") or repository.must("segdag", "daemon", "stop") != "no daemon runs\n":
        fail("daemon: one runs before it is started")
    repository.sync()
    repository.must("segdag", "daemon", "start", "600")
    try:
        asked(repository, draw)
        crowded(repository, draw)
    finally:
        repository.must("segdag", "daemon", "stop")
    if repository.git("segdag", "daemon", "status")[0] != 1:
        fail("daemon: it runs when it was stopped")
    repository.must("segdag", "compact")
    ask_all(repository, draw, 1)
    print("guide: a daemon is asked as the log is")


def crowded(repository, draw):
    """Sixteen others have the sessions: where they are idle one is lent, and where all have rows pending a copy of the log is asked."""
    sys.path.insert(0, str(TOOL.parent))
    from segdag_tools.lines import Socket

    held = [Socket(str(repository.common / "segdag/socket")) for _ in range(16)]
    for one in held:
        one.must("status")
    ask_all(repository, draw, 1)
    # A sync waits for a session, which one who is idle lends.
    repository.sync()
    for one in held:
        one.close()
    held = [Socket(str(repository.common / "segdag/socket")) for _ in range(16)]
    for number, one in enumerate(held):
        one.must(f"add {number:040x}")
    ask_all(repository, draw, 1)
    refuse(repository, ["log", "main..nosuch"], 128, "bad revision 'main..nosuch'")
    for one in held:
        one.close()


def asked(repository, draw):
    repository.must("segdag", "daemon", "start")
    if "has the log" not in repository.must("segdag", "daemon", "status"):
        fail("daemon: it doesn't run when it was started")
    ask_all(repository, draw, 2)
    refuse(repository, ["compact"], 128, "a daemon has the log")
    refuse(repository, ["log", "main..nosuch"], 128, "bad revision 'main..nosuch'")
    refuse(repository, ["is-ancestor", "main", "nosuch"], 128, "Not a valid object name nosuch")
    repository.grow(60, most=40, wide=0.6, roots=0)
    repository.point("main", repository.commit("main^0", repository.commits[-1]))
    # What the log lacks is read for the question, by way of the daemon too.
    ask_all(repository, draw, 1)
    repository.sync()
    same(repository, ["segdag", "query", "all"], ["rev-list", "--branches"], sort=True)
    ask_all(repository, draw, 1)
