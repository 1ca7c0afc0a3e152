"""The third table of against_git.sh: lists of many references, from the start of a process to its end, of git, of `git segdag`, and of it with a
daemon. Where git has no atom for ahead and behind it is asked of some references one by one, and the time of all is told from these."""
import os
import random
import re
import subprocess

from end_to_end import TOOLS, Command

BRANCHES, TAGS = 2_000, 5_000
ONE_BY_ONE = 20  # references that a git without the atom is asked of
AIM = 20  # how many times git's time a list is to be faster


def drawn(folder, names):
    """Branches and tags on drawn commits of a repository."""
    draw = random.Random(3)
    lines = [f"create refs/heads/b/{number} {draw.choice(names)}\n" for number in range(BRANCHES)]
    lines += [f"create refs/tags/v{number} {draw.choice(names)}\n" for number in range(TAGS)]
    lines += [f"create refs/heads/main {names[-1]}\n"]
    subprocess.run(["git", "-C", folder, "update-ref", "--stdin"], input="".join(lines), text=True, check=True)
    subprocess.run(["git", "-C", folder, "pack-refs", "--all"], check=True)


def questions(names, tip):
    """Each kind of list: its words, which are the same for both."""
    old, new = names[len(names) // 100], names[-len(names) // 100 - 1]
    yield "tags that contain an old commit", ("for-each-ref", "--contains", old, "refs/tags")
    yield "tags that contain a new commit", ("for-each-ref", "--contains", new, "refs/tags")
    yield "branches that contain a new commit", ("for-each-ref", "--contains", new, "refs/heads")
    yield "branches that are merged", ("for-each-ref", "--merged", tip, "refs/heads")
    yield "branches that aren't merged", ("for-each-ref", "--no-merged", tip, "refs/heads")
    yield "the nearest tag", ("describe", "--tags", names[-2])


def lines_of(command, *words):
    """The lines that a git puts; none where it refuses."""
    done = subprocess.run(["git", *words], cwd=command.folder, env=command.environment, stdout=subprocess.PIPE, stderr=subprocess.DEVNULL, text=True)
    return done.stdout.splitlines()


def ahead_behind(command, tip, stop):
    """The words of the list of branches with ahead and behind, and git's milliseconds for it. The answers, or some of them, are compared."""
    words = ("for-each-ref", f"--format=%(refname) %(ahead-behind:{tip})", "refs/heads")
    ours, theirs = lines_of(command, "segdag", *words), lines_of(command, *words)
    if theirs:
        some, taken = theirs, command.median([words])[1]
    else:
        refs = lines_of(command, "for-each-ref", "--format=%(refname)", "refs/heads")
        few = random.Random(4).sample(refs, min(ONE_BY_ONE, len(refs)))
        asked = [("rev-list", "--left-right", "--count", f"{ref}...{tip}") for ref in few]
        some = [f"{ref} {lines_of(command, *it)[0]}".replace("\t", " ") for ref, it in zip(few, asked)]
        taken = command.median(asked)[1] * len(refs)
    if not set(some) <= set(ours):
        stop("branches with ahead and behind: git segdag and git differ", 1)
    return words, taken


def agree(ours, theirs, what):
    """Whether both are one answer. git looks at a few tags alone, so that the one it names may be farther."""
    if what != "the nearest tag" or ours[0] or theirs[0]:
        return ours == theirs
    near, far = ([0, *map(int, re.findall(r"-(\d+)-g", answer[1][0]))][-1] for answer in (ours, theirs))
    return near <= far


def table(folder, program, names, stop):
    """Puts the table; every answer is compared, and `stop` is called where two differ. The log is there and synced."""
    command, tip = Command(folder, program), names[-1]
    if command.run("segdag", "sync")[0][0] != 0:
        stop("git segdag sync failed")
    words, taken = ahead_behind(command, tip, stop)
    rows = [("branches with ahead and behind", words, None, taken)]
    for what, words in questions(names, tip):
        (answer,), taken = command.median([words])
        rows.append((what, words, answer, taken))
    ours = []
    for daemon in (False, True) if (TOOLS / "segdagd").exists() else (False,):
        if daemon:
            command.run("segdag", "daemon", "start")
        ours.append([command.median([("segdag", *words)]) for _what, words, _answer, _theirs in rows])
        if daemon:
            command.run("segdag", "daemon", "stop")
        for (what, _words, answer, _theirs), (answers, _taken) in zip(rows, ours[-1]):
            if answer is not None and not agree(answers[0], answer, what):
                stop(f"{what}: git segdag and git differ", 1)
    print(f"\nLists of {len(lines_of(command, 'for-each-ref'))} references, from process to process (aim: {AIM} times with a daemon; load {os.getloadavg()[0]:.1f}).\n")
    print("| List | git segdag with a daemon, ms | git segdag, ms | git, ms | git / with a daemon |\n|---|---|---|---|---|")
    for at, (what, _words, _answer, theirs) in enumerate(rows):
        kept = ours[-1][at][1]
        print(f"| {what} | {kept:.1f} | {ours[0][at][1]:.1f} | {theirs:.1f} | {theirs / kept:.1f} |")
