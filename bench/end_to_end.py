"""The second table of against_git.sh: questions from the start of a process to its end, of git, of `git segdag`, and of it with a daemon."""
import os
import subprocess
import time
from pathlib import Path

TOOLS = Path(__file__).resolve().parent.parent / "tools"
TIMES = 9
AIM = 15  # milliseconds that a question with a daemon may take more than git's own start


class Command:
    """Processes in a repository, where git finds `git segdag`."""

    def __init__(self, folder, program):
        self.folder = folder
        # As README has it: the quick way, where it was built, stands in front of the tools.
        self.environment = {**os.environ, "PATH": f"{TOOLS.parent / 'out'}:{TOOLS}:{os.environ['PATH']}", "SEGDAG": program}
        # As for a user, what Python makes of the command's modules is kept.
        self.environment.pop("PYTHONDONTWRITEBYTECODE", None)

    def run(self, *words):
        """What a process puts, its status, and the seconds that it took."""
        begun = time.perf_counter()
        done = subprocess.run(["git", *words], cwd=self.folder, env=self.environment, stdout=subprocess.PIPE, text=True)
        return (done.returncode, sorted(done.stdout.split())), time.perf_counter() - begun

    def median(self, questions):
        """The answers, and the median of the milliseconds over all questions and some turns."""
        answers, taken = [], []
        for turn in range(TIMES):
            for words in questions:
                answer, seconds = self.run(*words)
                taken.append(seconds * 1000)
                if turn == 0:
                    answers.append(answer)
        return answers, sorted(taken)[len(taken) // 2]


def kinds(near, far):
    """Each kind of question: its words to `git segdag` and to git, for some pairs."""
    for where, some in (("near", near), ("far", far)):
        yield f"a merge base, {where}", [(("merge-base", a, b), ("merge-base", a, b)) for a, b in some]
        yield f"is it an ancestor, {where}", [(("is-ancestor", b, a), ("merge-base", "--is-ancestor", b, a)) for a, b in some]
        yield f"how many are on one and not on the other, {where}", [
            (("log", f"{b}..{a}"), ("rev-list", "--count", f"{b}..{a}")) for a, b in some
        ]


def table(folder, program, near, far, stop):
    """Puts the table; every answer is compared, and `stop` is called where two differ."""
    command = Command(folder, program)
    status, _ = command.run("segdag", "sync")
    if status[0] != 0:
        stop("git segdag sync failed")
    asked = list(kinds(near[:2], far[:2]))
    theirs = [command.median([git for _, git in pairs]) for _, pairs in asked]
    alone = [command.median([("segdag", *ours) for ours, _ in pairs]) for _, pairs in asked]
    kept = None
    if (TOOLS / "segdagd").exists():
        command.run("segdag", "daemon", "start")
        try:
            kept = [command.median([("segdag", *ours) for ours, _ in pairs]) for _, pairs in asked]
        finally:
            command.run("segdag", "daemon", "stop")
    for at, (what, _) in enumerate(asked):
        if any(found[at][0] != theirs[at][0] for found in (alone, kept or alone)):
            stop(f"{what}: git segdag and git differ", 1)
    start = command.median([("version",)])[1]
    print(f"\nFrom the start of a process to its end, the median of {TIMES} turns; `git version` takes {start:.1f} ms.\n")
    print("| Question | git segdag with a daemon, ms | git segdag, ms | git, ms |\n|---|---|---|---|")
    for at, (what, _) in enumerate(asked):
        quick = f"{kept[at][1]:.1f}" if kept else "-"
        print(f"| {what} | {quick} | {alone[at][1]:.1f} | {theirs[at][1]:.1f} |")
    if kept:
        most = max(taken for _, taken in kept) - start
        print(f"\nWith its daemon a question takes {most:.1f} ms more than `git version`, or less (aim: {AIM} ms; load {os.getloadavg()[0]:.1f}).")
