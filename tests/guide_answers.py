"""Parts of guide.sh: `git segdag` answers as git does, over repositories that are drawn."""
import random
import subprocess

from guide_lib import FOLDER, Repository, ask_all, ask_pair, counts, environment, fail, same

REPOSITORIES = 4


def answers():
    """Repositories that grow, whose branches are rewritten, and that lose what no branch reaches."""
    asked = 0
    for number in range(REPOSITORIES):
        draw = random.Random(number)
        repository = Repository(f"drawn{number}", draw)
        for phase in range(3):
            repository.grow(draw.choice([5, 40, 90]))
            for branch in ("main", "next", "topic/one", "fix-7.1"):
                if phase == 0 or draw.random() < 0.7:
                    repository.point(branch, draw.choice(repository.commits[-8:]))
            if phase == 1 and number % 2:
                repository.forget()
            if phase:
                # Commits that the log lacks are read for the question alone.
                ask_all(repository, draw, 1)
            taken = repository.sync()
            if phase == 0 and taken.split()[0] != repository.must("rev-list", "--count", "--branches").strip():
                fail(f"{repository.path.name}: the first sync told {taken}")
            if repository.sync().split()[0] != "0":
                fail(f"{repository.path.name}: a second sync took commits")
            ask_all(repository, draw, 2)
            asked += 3
    print(f"guide: {asked} drawn pairs are answered as by git")


def octopuses():
    """Merges of 9 to 70 parents, beside which everything is answered and counted as git does; what a question lacks has some too."""
    asked = 0
    for number in range(2):
        draw = random.Random(number)
        repository = Repository(f"octopus{number}", draw)
        for phase in range(3):
            repository.grow(draw.choice([90, 200]), most=70, wide=0.6)
            for branch in ("main", "next", "topic"):
                if phase == 0 or draw.random() < 0.7:
                    repository.point(branch, draw.choice(repository.commits[-8:]))
            if phase == 1:
                repository.lose()
            if phase:
                ask_all(repository, draw, 1)
            repository.sync()
            wanted = repository.must("rev-list", "--count", "--branches", "HEAD").strip()
            if phase == 0 and repository.must("segdag", "sync") != f"0 new, {wanted} commits in the log\n":
                fail(f"{repository.path.name}: a second sync counts other commits than {wanted}")
            if phase == 0:
                structure(repository)
            ask_all(repository, draw, 2)
            asked += 2 + bool(phase)
    print(f"guide: {asked} drawn pairs near merges of up to 70 parents are answered as git answers them")


def structure(repository):
    """What stands about all commits in a repository of octopuses: the parents and the children of each, and what has none."""
    parents = {row[0]: set(row[1:]) for row in map(str.split, repository.must("rev-list", "--branches", "--parents").splitlines())}
    children = {name: {it for it in parents if name in parents[it]} for name in parents}
    wide = max(parents, key=lambda name: len(parents[name]))
    if len(parents[wide]) < 30:
        fail(f"{repository.path.name} has no commit of thirty parents")
    some = sorted(parents[wide])[-9:]
    one = f"union({wide},union({some[0]},{some[-1]}))"
    named = {wide, some[0], some[-1]}
    for expression, wanted in (
        ("all", set(parents)),
        ("union(master,others)", set(parents)),
        ("ancestors(all)", set(parents)),
        (f"parents({wide})", parents[wide]),
        (f"children({some[-1]})", children[some[-1]]),
        ("parents(all)", set().union(*parents.values())),
        ("children(all)", {name for name in parents if parents[name]}),
        ("heads(all)", {name for name in parents if not children[name]}),
        ("roots(all)", {name for name in parents if not parents[name]}),
        ("merges(all)", {name for name in parents if len(parents[name]) > 1}),
        (f"heads({one})", named - set().union(*(parents[name] for name in named))),
        (f"roots({one})", named - set().union(*(children[name] for name in named))),
        (f"parents(parents({wide}))", set().union(*(parents[name] for name in parents[wide]))),
    ):
        told = repository.must("segdag", "query", expression).split()
        if len(told) != len(set(told)) or set(told) != wanted:
            fail(f"{repository.path.name}: {expression} has {len(told)} members, and git {len(wanted)}")


def shapes():
    """Repositories of every shape: many roots, criss-cross, worktrees, bare, packed, detached and unborn, and references of every name."""
    draw = random.Random(4)
    repository = Repository("shapes", draw)
    refused_unborn(repository)
    one, other = repository.commit(), repository.commit()
    for _ in range(4):
        # Two lines that merge each other have two best common ancestors at each step.
        one, other = repository.commit(one, other), repository.commit(other, one)
    alone = repository.commit(repository.commit())
    for name, commit in (("main", one), ("7", other), ("all", alone), ("master", repository.commits[5]), ("others", one)):
        repository.point(name, commit)
    for name, commit in (("a(b),c", other), ("topic/x,y", alone), ("odd)name", one), ("set", other), ("deadbeef", alone)):
        repository.point(name, commit)
    tag_of_tags(repository)
    repository.lose()
    repository.must("pack-refs", "--all")
    repository.sync()
    every = [*repository.branches, "tag-of-tag", "HEAD", "heads/master", "refs/heads/7", "main~2^2", ":/7"]
    for a in every:
        for b in draw.sample(every, 2):
            ask_pair(repository, a, b)
            same(repository, ["segdag", "log", f"{a}..{b}"], ["rev-list", "--count", f"{a}..{b}"])
            if repository.must("segdag", "ahead-behind", a, b).split() != [b, *counts(repository, a, [b])[0][1:]]:
                fail(f"shapes: ahead-behind {a} {b}")
    words_of_sets(repository, one)
    for words in (["main", "^7"], ["7^!"], ["7^@"], ["main^-2"], ["--all"], ["main", "--not", "all"][:1], ["..main"], ["7..."], ["--branches"]):
        same(repository, ["segdag", "log", *words], ["rev-list", "--count", *words])
    ahead_behind_of_refs(repository)
    elsewhere(repository, draw)
    print("guide: repositories of every shape are answered as by git")


def refused_unborn(repository):
    if repository.sync() != "0 new, 0 commits in the log\n" or repository.git("segdag", "log", "HEAD")[0] != 128:
        fail("shapes: a repository without commits")


def tag_of_tags(repository):
    who = {"GIT_COMMITTER_NAME": "d", "GIT_COMMITTER_EMAIL": "d@d", "GIT_COMMITTER_DATE": "1000000000 +0000"}
    repository.must("tag", "-a", "-m", "a", "tag", "main", **who)
    repository.must("tag", "-a", "-m", "b", "tag-of-tag", "tag", **who)
    repository.must("tag", "-a", "-m", "c", "tag-of-tree", "main^{tree}", **who)


def words_of_sets(repository, one):
    """Names that are words of expressions too."""
    for expression, words in (
        ("ancestors(heads/master)", ["heads/master"]), ('ancestors("master")', ["heads/master"]), ("set:all", ["--branches"]),
        ("ancestors(7)", ["7"]), ('only(main,"a(b),c")', ["main", "^a(b),c"]), ('ancestors("odd)name")', ["odd)name"]),
        ("ancestors(set)", ["set"]), ("ancestors( union(set:others, set:master) )", ["--branches"]), ("up(7,1)", ["--no-walk", "7~1"]),
        ("ancestors(:/7)", [":/7"]), ("top(ancestors(7),1)", ["--no-walk", "7"]),
    ):
        same(repository, ["segdag", "query", expression], ["rev-list", *words], sort=True)
    for word in ("all", "master", "others"):
        status, out, told = repository.git("segdag", "query", f"ancestors({word})")
        if (status, out) != (128, "") or f"set:{word}" not in told or f"heads/{word}" not in told:
            fail(f"shapes: ancestors({word}) ended with {status}, {out}, {told}")


def ahead_behind_of_refs(repository):
    """What git tells itself of each reference, where it can."""
    status, told, _ = repository.git("for-each-ref", "--format=%(refname:short) %(ahead-behind:main)", "refs/heads")
    if status == 0:
        refs = [line.rsplit(" ", 2)[0] for line in told.splitlines()]
        if repository.must("segdag", "ahead-behind", "main", *refs) != told:
            fail("shapes: ahead-behind of for-each-ref")


def elsewhere(repository, draw):
    """The same from a worktree with a detached HEAD, from a folder below, and over a bare clone with a reference in files."""
    tree = FOLDER / "worktree"
    repository.must("worktree", "add", "--quiet", "--detach", tree, "7~1")
    detached = repository.at(tree)
    ask_all(detached, draw, 1)
    ask_pair(detached, "HEAD", "main")
    below = tree / "a/b"
    below.mkdir(parents=True)
    ask_pair(detached.at(below), "HEAD", "7")
    if (tree / "segdag").exists() or not repository.log.exists():
        fail("shapes: a worktree has a log of its own")
    bare = Repository("bare", draw, bare=True)
    subprocess.run(["git", "fetch", "--quiet", repository.path, "refs/heads/*:refs/heads/*"], cwd=bare.path, env=environment(), check=True)
    bare.commits, bare.branches = repository.commits[:10], {"main": "main", "7": "7"}
    bare.sync()
    ask_all(bare, draw, 2)
