"""The comparison of against_git.sh: against_git.py PROGRAM REPOSITORY-OR-COMMITS RULE."""
import os
import random
import subprocess
import sys
import tempfile
import time
from collections import Counter
from pathlib import Path

import history
import references
from end_to_end import TOOLS, table

sys.path.insert(0, str(TOOLS))
from segdag_tools.lines import Program  # noqa: E402: it stands in tools/

PROGRAM = os.path.abspath(sys.argv[1])
EACH = 10_000  # commits between two flushes
HEADS = 390  # names of one line
NEAR, FAR, STEPS = 20, 5, 1000
FLOORS = 10  # how often git is run to do nothing
RULES = {"merges": history.drawn, "demo": history.by_demo}


def stop(text, status=2):
    sys.exit(print(f"against_git: {text}", file=sys.stderr) or status)


def progress(text):
    if sys.stderr.isatty():
        print(f"\r{text:70}", end="", file=sys.stderr, flush=True)


def drawn(count, rule, folder):
    """A bare repository of a history that is drawn by the rule."""
    subprocess.run(["git", "init", "--quiet", "--bare", folder], check=True)
    marks, childless = {}, {}
    with tempfile.TemporaryFile("w+") as stream:
        for line in history.lines(count, count + 1, rule):
            words = line.split()
            if words[1] != "add":
                continue
            mark = marks[words[2]] = len(marks) + 1
            text = [f"commit refs/heads/drawn\nmark :{mark}\ncommitter d <d@d> {1_000_000_000 + 60 * mark} +0000\ndata 1\n."]
            for at, parent in enumerate(words[3:]):
                text.append(f"{'merge' if at else 'from'} :{marks[parent]}")
                childless.pop(marks[parent], None)
            childless[mark] = True
            if len(words) == 3:
                text.insert(0, "reset refs/heads/drawn\n")
            stream.write("\n".join(text) + "\n\n")
        for mark in childless:
            stream.write(f"reset refs/heads/head{mark}\nfrom :{mark}\n\n")
        stream.seek(0)
        subprocess.run(["git", "-C", folder, "fast-import", "--quiet"], stdin=stream, check=True)
    subprocess.run(["git", "-C", folder, "pack-refs", "--all"], check=True)


class Git:
    """The repository, asked by one process for each question, as far as git can't be asked more."""

    def __init__(self, folder):
        self.folder, self.floor = folder, {}

    def run(self, *words, text=None):
        """What git puts, and the seconds it took."""
        begun = time.perf_counter()
        done = subprocess.run(["git", "-C", self.folder, *words], input=text, stdout=subprocess.PIPE, text=True)
        taken = time.perf_counter() - begun
        if done.returncode not in (0, 1):
            stop(f"git {' '.join(words)[:80]} ended with {done.returncode}")
        return done, taken

    def timed(self, *words, text=None, floor=None):
        """The same without the time of a process that does next to nothing."""
        if floor and floor not in self.floor:
            self.floor[floor] = min(self.run(*floor)[1] for _ in range(FLOORS))
        done, taken = self.run(*words, text=text)
        return done, max(taken - self.floor.get(floor, 0), 0)


class Store:
    """A run of the program over the log, loaded before the first question. An answer of too many names is None."""

    def __init__(self, log):
        self.lines = Program([PROGRAM, log, "--", "run"])
        self.lines.must("status")

    def ask(self, questions):
        """The names and numbers of each answer, and the seconds that all took."""
        begun = time.perf_counter()
        answers = []
        for question in questions:
            reply = self.lines.ask(question)
            if not reply.ok and not reply.last.startswith("err answer"):
                stop(f"{question[:80]}: {reply.last}")
            answers.append((reply.text.splitlines(), [word.encode() for word in reply.words]) if reply.ok else None)
        return answers, time.perf_counter() - begun


def store_all(rows, log, folder):
    """The seconds that it takes to store these rows, from lines in a file."""
    path = Path(folder, "lines")
    with open(path, "w") as out:
        for at in range(0, len(rows), EACH):
            some = rows[at : at + EACH]
            out.writelines(f"0 add {row}\n" for row in some)
            parents = {parent for row in some for parent in row.split()[1:]}
            heads = [row[:40] for row in some if row[:40] not in parents]
            out.writelines(f"0 flush {' '.join(heads[k : k + HEADS])}\n" for k in range(0, len(heads), HEADS))
    begun = time.perf_counter()
    with open(path) as given, open(Path(folder, "replies"), "w+") as out:
        done = subprocess.run([PROGRAM, log, "--", "run"], stdin=given, stdout=out)
        taken = time.perf_counter() - begun
        out.seek(0)
        refused = next((line for line in out if line.startswith("err")), None)
    if done.returncode != 0 or refused:
        stop(f"the history isn't stored: status {done.returncode}, {refused}")
    return taken


def decoded(names):
    return sorted(name.decode().strip() for name in names)


class Table:
    """The rows of what was measured, each compared before."""

    def __init__(self, git, store):
        self.git, self.store, self.rows = git, store, []

    def row(self, what, asked, theirs, read_ours, read_theirs, floor=None):
        """One kind of question: each asked of the program, then of git, and compared."""
        progress(what)
        answers, ours_took = self.store.ask(asked)
        theirs_took = 0
        if None in answers:
            progress("")
            return print(f"Left out, since an answer has more names than the program lists: {what}.")
        for question, words, answer in zip(asked, theirs, answers):
            done, taken = self.git.timed(*words, floor=floor)
            theirs_took += taken
            if read_ours(answer) != read_theirs(done):
                both = f"{str(read_ours(answer))[:200]}, {str(read_theirs(done))[:200]}"
                stop(f"{question} and git {' '.join(words)} differ: {both}", 1)
        self.tell(what, ours_took / len(asked), theirs_took / len(asked))

    def tell(self, what, ours, theirs):
        self.rows.append((what, ours * 1000, theirs * 1000))

    def put(self):
        print("| Question | segdag, ms | git, ms | git / segdag |\n|---|---|---|---|")
        for what, ours, theirs in self.rows:
            # A question that takes git no longer than a process that does nothing has no ratio.
            ratio = f"{theirs / ours:.1f}" if theirs > 0.05 else "-"
            print(f"| {what} | {ours:.3f} | {theirs:.3f} | {ratio} |")


def pairs(draw, names, count, is_near):
    """A later and an earlier commit, at most two hundred places apart, or of the last and the first tenth."""
    found = []
    while len(found) < count:
        if is_near:
            later = draw.randrange(1, len(names))
            earlier = max(later - draw.randrange(1, 200), 0)
        else:
            tenth = max(len(names) // 10, 1)
            later, earlier = len(names) - 1 - draw.randrange(tenth), draw.randrange(tenth)
        found.append((names[later], names[earlier]))
    return found


def ask_all(table, names, tip):
    draw = random.Random(1)
    root = names[0]
    base = ("merge-base", root, root)
    listed = ("rev-list", root)
    as_names = lambda answer: decoded(answer[0])
    as_words = lambda done: sorted(done.stdout.split())
    for where, count in (("near", NEAR), ("far", FAR)):
        some = pairs(draw, names, count, where == "near")
        table.row(f"merge bases, {where} pairs", [f"query gca(union({a},{b}))" for a, b in some],
                  [("merge-base", "--all", a, b) for a, b in some], as_names, as_words, base)
        table.row(f"is it an ancestor, {where} pairs", [f"count inter({b},ancestors({a}))" for a, b in some],
                  [("merge-base", "--is-ancestor", b, a) for a, b in some],
                  lambda answer: int(answer[1][0]), lambda done: 1 - done.returncode, base)
        table.row(f"on one and not on the other, {where} pairs", [f"query only({a},{b})" for a, b in some],
                  [("rev-list", a, f"^{b}") for a, b in some], as_names, as_words, listed)
        table.row(f"how many that are, {where} pairs", [f"count only({a},{b})" for a, b in some],
                  [("rev-list", "--count", a, f"^{b}") for a, b in some],
                  lambda answer: answer[1][0].decode(), lambda done: done.stdout.strip(), listed)
        table.row(f"ancestry paths, {where} pairs", [f"query minus(range({b},{a}),{b})" for a, b in some],
                  [("rev-list", "--ancestry-path", a, f"^{b}") for a, b in some], as_names, as_words, listed)
    table.row("all ancestors counted", [f"count ancestors({tip})"], [("rev-list", "--count", tip)],
              lambda answer: answer[1][0].decode(), lambda done: done.stdout.strip(), listed)
    table.row("commits without parents", ["query roots(all)"], [("rev-list", "--all", "--max-parents=0")],
              as_names, as_words, listed)
    table.row("merges", ["query merges(all)"], [("rev-list", "--all", "--merges")], as_names, as_words, listed)
    table.row("commits without children", ["query heads(all)"], [("rev-list", "--all", "--children")], as_names,
              lambda done: sorted(line for line in done.stdout.split("\n") if len(line) == 40), listed)
    first_parents(table, names, draw)


def first_parents(table, names, draw):
    """The n-th first parent, which git answers many times in one process."""
    progress("first parents")
    asked = [(draw.choice(names), draw.randrange(1000)) for _ in range(STEPS)]
    answers, ours = table.store.ask([f"query up({name},{n})" for name, n in asked])
    text = "".join(f"{name}~{n}\n" for name, n in asked)
    done, theirs = table.git.timed("cat-file", "--batch-check=%(objectname)", text=text, floor=("cat-file", "-t", names[0]))
    told = [[line] if len(line) == 40 else [] for line in done.stdout.splitlines()]
    if [decoded(answer[0]) for answer in answers] != told:
        stop("the first parents differ", 1)
    table.tell("the n-th first parent, n below 1,000", ours / STEPS, theirs / STEPS)


def ends(git, names):
    """The table from process to process."""
    progress("from process to process")
    draw = random.Random(2)
    table(git.folder, PROGRAM, pairs(draw, names, 2, True), pairs(draw, names, 2, False), stop)
    progress("lists of references")
    references.table(git.folder, PROGRAM, names, stop)
    return 0


def main():
    if not os.access(PROGRAM, os.X_OK):
        stop(f"{PROGRAM} isn't built; make proved builds it")
    with tempfile.TemporaryDirectory() as folder:
        repository, log = os.path.join(folder, "repository"), os.path.join(folder, "log")
        if sys.argv[2].isdigit():
            progress("a history is drawn")
            drawn(int(sys.argv[2]), RULES.get(sys.argv[3]) or stop(f"{sys.argv[3]} is neither {' nor '.join(RULES)}"), repository)
        elif subprocess.run(["git", "clone", "--quiet", "--mirror", "--shared", sys.argv[2], repository]).returncode != 0:
            stop(f"{sys.argv[2]} is neither a repository nor a number of commits")
        git = Git(repository)
        progress("git writes its commit-graph")
        graph_took = git.run("commit-graph", "write", "--reachable")[1]
        listed, listed_took = git.run("rev-list", "--all", "--topo-order", "--reverse", "--parents")
        rows = listed.stdout.splitlines()
        if sys.argv[2].isdigit():
            references.drawn(repository, [row[:40] for row in rows])
        if len(rows) < 2:
            stop("the repository has no two commits")
        if max(row.count(" ") for row in rows) > 8:
            # The program's own words know no stand-ins, which `git segdag` leaves out.
            print("Only from process to process, since there are merges of more than eight parents.")
            return ends(git, [row[:40] for row in rows])
        progress("the log is written")
        stored_took = store_all(rows, log, folder)
        names = [row[:40] for row in rows]
        begun = time.perf_counter()
        found = Table(git, Store(log))
        loaded_took = time.perf_counter() - begun
        ask_all(found, names, names[-1])
        progress("")
        parents = Counter(row.count(" ") for row in rows)
        graph = Path(repository, "objects/info/commit-graph").stat().st_size
        merges, size = sum(n for count, n in parents.items() if count > 1), os.path.getsize(log)
        print(f"{len(rows)} commits, {merges} merges; {git.run('version')[0].stdout.strip()}.")
        print(f"git lists the history in {listed_took:.2f} s and writes its commit-graph, {graph / len(rows):.0f} bytes a commit, "
              f"in {graph_took:.2f} s.")
        print(f"segdag stores it in {stored_took:.2f} s, {size / len(rows):.0f} bytes a commit, and loads it in {loaded_took:.3f} s.")
        progress("")
        print("Each answer was compared, name by name. A git process that does nothing took "
              f"{max(git.floor.values()) * 1000:.1f} ms at most; that is taken off.\n")
        found.put()
        return ends(git, names)


if __name__ == "__main__":
    sys.exit(main())
