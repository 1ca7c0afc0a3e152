"""Parts of guide.sh that take long, and so are run where they are named: `git segdag` over large repositories answers as git does.

    sh tests/guide.sh large kernel
    REPOSITORY=/path/of/one sh tests/guide.sh given

COMMITS and ASKED say how many commits a repository has and how many questions are asked, ALONE how many of these without a daemon. REPOSITORY
is copied by its branches, those of remotes, and its tags, and left as it is.
"""
import os
import random
import sys
import tempfile
import time

from guide_lib import BEGIN, Repository, ask_all, fail

ASKED = int(os.environ.get("ASKED", 500))
EACH = 13  # questions of one turn of `ask_all`
ALONE = int(os.environ.get("ALONE", 78))  # questions without a daemon: each loads the log


def commits_of(large):
    return int(os.environ.get("COMMITS", 300_000 if large else 100_000))


def draw_plain(draw, count):
    """Parents of each commit: three of ten are merges, and one begins anew a little behind."""
    left = []
    for at in range(count):
        kind, parents = draw.randrange(10), [at - 1] if at else []
        if at > 70 and kind == 0:
            left.append(at - 1)
            parents = [at - draw.randrange(2, 64)]
        elif at > 70 and kind < 4:
            parents.append(left.pop() if left else at - draw.randrange(2, 64))
        yield list(dict.fromkeys(parents))


def draw_kernel(draw, count):
    """The same as a kernel has them: topics of some commits that begin at a release and are merged by maintainers, whose trees are merged
    by one. Some merges have up to 66 parents, and histories that began elsewhere come in."""
    main, trees, releases, at = 0, [0] * 40, [0], 1
    yield []
    while at < count:
        tree = draw.randrange(len(trees))
        tips = []
        for _ in range(draw.choice([1, 1, 2, 3, draw.randrange(4, 66) if draw.random() < 0.03 else 1])):
            begins = draw.choice(releases[-6:]) if draw.random() < 0.97 else None
            for _ in range(min(1 + int(draw.expovariate(0.3)), 30)):
                yield [] if begins is None else [begins]
                begins, at = at, at + 1
            tips.append(begins)
        yield [trees[tree], *tips]
        trees[tree], at = at, at + 1
        if draw.random() < 0.2:
            yield list(dict.fromkeys([main, trees[tree]]))
            main, at = at, at + 1
            trees[tree] = main if draw.random() < 0.5 else trees[tree]
            if draw.random() < 0.1:
                releases.append(main)


def filled(name, draw, rows):
    """A repository of these rows; what no other commit has for a parent is a branch."""
    repository = Repository(name, draw, bare=True)
    childless = {}
    with tempfile.NamedTemporaryFile("w+") as stream:
        for at, parents in enumerate(rows):
            lines = ["reset refs/heads/drawn"] * (not parents) + ["commit refs/heads/drawn", f"mark :{at + 1}"]
            lines += [f"committer d <d@d> {BEGIN + 60 * at} +0000", "data 0"]
            lines += [f"{'merge' if place else 'from'} :{parent + 1}" for place, parent in enumerate(parents)]
            stream.write("\n".join(lines) + "\n\n")
            for parent in parents:
                childless.pop(parent, None)
            childless[at] = True
        for at in childless:
            stream.write(f"reset refs/heads/tip{at}\nfrom :{at + 1}\n\n")
        stream.flush()
        marks = repository.path / "marks"
        repository.must("fast-import", "--quiet", f"--export-marks={marks}", stdin=open(stream.name))
    names = dict(line.split() for line in marks.read_text().splitlines())
    repository.commits = [names[f":{at + 1}"] for at in range(len(names))]
    repository.point("main", repository.commits[-1])
    repository.must("update-ref", "-d", "refs/heads/drawn")
    repository.branches.update({f"tip{at}": repository.commits[at] for at in sorted(childless)[-20:]})
    return repository


def copied(path, draw):
    """A repository of what the references of another one have. Some of them, the newest, are asked for by name."""
    repository = Repository("given", draw, bare=True)
    kinds = ("heads", "remotes", "tags")
    repository.must("fetch", "--quiet", "--no-tags", path, *(f"+refs/{kind}/*:refs/{kind}/*" for kind in kinds))
    repository.commits = repository.must("rev-list", "--all", "--reverse", "--topo-order").split()
    refs = repository.must("for-each-ref", "--sort=-creatordate", "--count=20", "--format=%(refname)").split()
    repository.branches.update((ref, ref) for ref in refs if repository.git("rev-parse", "--quiet", "--verify", f"{ref}^{{commit}}")[0] == 0)
    return repository


class Near:
    """Draws as the questions do, but commits of one turn mostly lie near one another."""

    def __init__(self, draw):
        self.draw, self.at = draw, 0

    def turn(self, commits):
        self.at = self.draw.randrange(len(commits))

    def choice(self, some):
        if len(some) < 1000 or self.draw.random() < 0.3:
            return self.draw.choice(some)
        return some[max(0, self.at - self.draw.randrange(400))]

    def sample(self, some, count):
        return self.draw.sample(some, count)


def asked(repository, draw, turns):
    near = Near(draw)
    for turn in range(turns):
        near.turn(repository.commits)
        ask_all(repository, near, 1)
        if sys.stderr.isatty():
            print(f"\rguide: {repository.path.name}: {(turn + 1) * EACH} of {turns * EACH} ", end="", file=sys.stderr, flush=True)


def trial(name, made):
    draw, began = random.Random(name), time.monotonic()
    repository = made(draw)
    repository.must("pack-refs", "--all")
    repository.must("commit-graph", "write", "--reachable")
    count = len(repository.commits)
    told = repository.sync()
    if not told.endswith(f", {count} commits in the log\n"):
        fail(f"{name}: of {count} commits the sync told {told}")
    synced, turns = time.monotonic(), -(-ASKED // EACH)
    alone = min(-(-ALONE // EACH), turns)
    asked(repository, draw, alone)
    repository.must("segdag", "daemon", "start")
    try:
        asked(repository, draw, turns - alone)
    finally:
        repository.must("segdag", "daemon", "stop")
    wide = max(len(line.split()) for line in repository.must("rev-list", "--all", "--parents").splitlines()) - 1
    roots = repository.must("rev-list", "--all", "--max-parents=0").count("\n")
    print(f"guide: {name}: {turns * EACH} questions over {count} commits, {roots} without parents and one with {wide}, are answered as by git "
          f"(made and synced in {synced - began:.0f} s, asked in {time.monotonic() - synced:.0f} s)")


def large():
    """A drawn history of 300,000 commits."""
    trial("large", lambda draw: filled("large", draw, draw_plain(random.Random(1), commits_of(True))))


def kernel():
    """A history of 100,000 commits like the kernel's."""
    trial("kernel", lambda draw: filled("kernel", draw, draw_kernel(random.Random(2), commits_of(False))))


def given():
    """The repository that REPOSITORY names."""
    path = os.environ.get("REPOSITORY")
    if not path:
        fail("REPOSITORY says which repository is to be asked")
    trial("given", lambda draw: copied(os.path.abspath(path), draw))
