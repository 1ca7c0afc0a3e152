"""A part of guide.sh: hundreds of references at once, deep expressions beside merges of many parents, and what is counted as a commit."""
import random

from guide_lib import Repository, counts, fail, refuse, same


def many():
    octopus()
    references()
    thousands()
    print("guide: questions of hundreds and thousands of references and of deep expressions are answered as by git")


def octopus():
    """Beside one merge of nine parents, of fifty, and of four hundred: expressions as deep as COMMANDS.md allows, and counts of commits."""
    for wide in (9, 50, 400):
        repository = Repository(f"wide{wide}", random.Random(wide))
        root = repository.commit()
        tips = [repository.commit(repository.commit(root)) for _ in range(min(wide, 60))]
        tips += [repository.commit(root) for _ in range(wide - len(tips))]
        merge = repository.commit(*tips)
        line = [repository.commit(merge)]
        for _ in range(40):
            line.append(repository.commit(line[-1]))
        repository.point("main", line[-1])
        repository.lose()
        told, count = repository.sync(), repository.must("rev-list", "--count", "main").strip()
        if told != f"{count} new, {count} commits in the log\n":
            fail(f"many: beside a merge of {wide} parents the sync told {told}, and there are {count} commits")
        if repository.must("segdag", "log", "main").strip() != count:
            fail("many: the log's count")
        nested(repository, wide)


def nested(repository, wide):
    parents = {row[0]: row[1:] for row in map(str.split, repository.must("rev-list", "main", "--parents").splitlines())}
    children = {name: [it for it in parents if name in parents[it]] for name in parents}
    up, down = (lambda names, of=of: {it for name in names for it in of[name]} for of in (parents, children))
    for deep in (3, 4, 9, 31) if wide < 400 else (4, 31):
        for function, step in (("parents", up), ("children", down)):
            wanted = set(parents)
            for _ in range(deep):
                wanted = step(wanted)
            compared(repository, f"{function}(" * deep + "all" + ")" * deep, wanted)
        heads = set(parents) - up(set(parents))
        compared(repository, "heads(" * deep + "all" + ")" * deep, heads)
        compared(repository, "roots(" * deep + "all" + ")" * deep, set(parents) - down(set(parents)))
    mixed, wanted = "all", set(parents)
    for _ in range(3):
        mixed = f"union(parents(children({mixed})),minus({mixed},parents({mixed})))"
        wanted = up(down(wanted)) | (wanted - up(wanted))
    compared(repository, mixed, wanted)
    refuse(repository, ["query", "heads(" * 40 + "main" + ")" * 40], 128, "deep")


def compared(repository, expression, wanted):
    told = repository.must("segdag", "query", expression).split()
    if len(told) != len(set(told)) or set(told) != wanted:
        fail(f"many: {repository.path.name}: {expression[:80]} has {len(told)} members, and {len(wanted)} are right")


def references():
    """Three hundred branches and tags, some of which the log lacks; all of them, most against the rest, and more pairs than one."""
    draw = random.Random(7)
    repository = Repository("hundreds", draw)
    repository.grow(400, most=12, wide=0.3)
    lines = [f"create refs/heads/b{number} {draw.choice(repository.commits)}\n" for number in range(220)]
    lines += [f"create refs/tags/t{number} {draw.choice(repository.commits)}\n" for number in range(90)]
    repository.must("update-ref", "--stdin", text="".join(lines))
    repository.point("main", repository.commits[-1])
    repository.lose()
    repository.sync()
    asked_of_all(repository, draw)
    names = [f"b{number}" for number in range(60)]
    told = [line.split() for line in repository.must("segdag", "ahead-behind", "main", *names).splitlines()]
    if told != counts(repository, "main", names):
        fail(f"many: ahead-behind of sixty branches: {told}")
    repository.grow(30)
    repository.must("update-ref", "--stdin", text="".join(f"create refs/heads/c{number} {repository.commits[-number - 1]}\n" for number in range(20)))
    asked_of_all(repository, draw)
    repository.sync()
    repository.must("segdag", "daemon", "start", "600")
    try:
        asked_of_all(repository, draw)
    finally:
        repository.must("segdag", "daemon", "stop")
    if repository.must("segdag", "sync").split()[0] != "0":
        fail("many: rows of a question came into the log")


def asked_of_all(repository, draw):
    names = [f"b{number}" for number in range(220)]
    draw.shuffle(names)
    for words in (
        ["--all"], ["--branches"], ["--all", "^main"], ["--tags", "^b1"], names, [*names[:150], *(f"^{name}" for name in names[150:])],
        ["main", *(f"^{name}" for name in names)], [*(f"{a}...{b}" for a, b in zip(names[:30], names[30:60]))], ["--branches=none*"],
        ["--branches=b*", *(f"^t{number}" for number in range(90))],
    ):
        same(repository, ["segdag", "log", *words], ["rev-list", "--count", *words])


REFERENCES = 20_000


def thousands():
    """Twenty thousand branches and tags over a few hundred commits, as a server has them; most lists are those of git."""
    draw = random.Random(20)
    repository = Repository("thousands", draw)
    repository.grow(400, most=4)
    repository.point("main", repository.commits[-1])
    repository.lose()
    refs = sorted(f"refs/{draw.choice(['heads', 'heads/of', 'tags', 'remotes/origin'])}/r{number}" for number in range(REFERENCES))
    lines = "".join(f"{draw.choice(repository.commits)} {ref}\n" for ref in refs)
    (repository.common / "packed-refs").write_text("# pack-refs with: peeled fully-peeled sorted \n" + lines)
    if repository.sync().split()[0] != repository.must("rev-list", "--all", "--count").strip():
        fail("many: a sync of thousands of references")
    one, other = draw.sample(repository.commits[100:300], 2)
    for words in (
        ["--contains", one], ["--no-contains", one, "refs/tags"], ["--merged", one, "--no-merged", other], ["--contains", one, "--merged=main", "--sort=-refname", "--count=50"],
    ):
        same(repository, ["segdag", "for-each-ref", *words], ["for-each-ref", *words])
    told = dict(line.split(" ", 1) for line in repository.must("segdag", "for-each-ref", f"--format=%(refname) %(ahead-behind:{one})").splitlines())
    some = draw.sample(refs, 20)
    if len(told) != REFERENCES + 1 or [[ref, *told[ref].split()] for ref in some] != counts(repository, one, some):
        fail(f"many: ahead-behind of {len(told)} references")
    if repository.must("segdag", "for-each-ref", f"--format=%(is-base:{one})").split() != [f"({one})"]:
        fail("many: is-base among thousands of references")
    for words in (["--all"], ["--all", f"^{one}"], ["--tags", f"^{other}"]):
        same(repository, ["segdag", "log", *words], ["rev-list", "--count", *words])
    same(repository, ["segdag", "describe", "--all", one], ["describe", "--all", one])
