"""A part of guide.sh: what people type, as git prints it, byte for byte, over drawn repositories of few and of hundreds of references."""
import json
import random
import subprocess

from guide_lib import FOLDER, TOOL, Repository, counts, environment, fail, refuse, same, script

WHO = {f"GIT_{who}_{what}": "d@d" for who in ("AUTHOR", "COMMITTER") for what in ("NAME", "EMAIL")}


def typed():
    asked = 0
    for number, (size, refs, kind) in enumerate(((12, 1, "sha1"), (60, 8, "sha1"), (90, 40, "sha256"), (200, 300, "sha1"))):
        repository = drawn(f"typed{number}", number, size, refs, kind)
        repository.sync()
        asked += asked_of(repository, random.Random(number))
        if number % 2:
            repository.grow(20, most=12, wide=0.4)
            repository.point("later", repository.commits[-1])
            asked += asked_of(repository, random.Random(number))
            repository.must("segdag", "daemon", "start", "600")
            try:
                asked += asked_of(repository, random.Random(number + 9))
            finally:
                repository.must("segdag", "daemon", "stop")
    refused(repository)
    statuses()
    long_names()
    print(f"guide: {asked} questions as people type them are answered as git prints them")


def drawn(name, seed, size, refs, kind="sha1"):
    """Branches, plain tags and tags of tags in a history with merges of many parents, on drawn commits."""
    draw = random.Random(seed)
    repository = Repository(name, draw, kind)
    repository.grow(size, most=12, wide=0.3)
    lines = []
    for number in range(refs):
        commit = draw.choice(repository.commits)
        lines.append(f"create refs/{draw.choice(['heads/b', 'heads/topic/b', 'remotes/origin/b', 'tags/t', 'tags/v1.'])}{number} {commit}\n")
    repository.must("update-ref", "--stdin", text="".join(lines))
    for number in range(min(refs, 12)):
        repository.must("tag", "-a", "-m", "a", f"a{number}", draw.choice(repository.commits), GIT_COMMITTER_DATE=f"{1_000_000_000 + number} +0000", **{
            key: value for key, value in WHO.items() if key.startswith("GIT_COMMITTER")
        })
    repository.must("tag", "of-a-tree", f"{repository.commits[0]}^{{tree}}")
    repository.point("main", repository.commits[-1])
    repository.point("next", draw.choice(repository.commits))
    repository.lose()
    return repository


def asked_of(repository, draw):
    """One drawn question of each form, some times."""
    refs = repository.must("for-each-ref", "--format=%(refname:short)", "refs/heads", "refs/tags/a*", "refs/remotes").split()
    reached = repository.must("rev-list", "--all").split()
    asked = 0
    for _ in range(1):
        some = [draw.choice([draw.choice(refs), draw.choice(reached)]) for _ in range(5)]
        for form in draw.sample((merge_bases, lists, ranges, descriptions), 2):
            asked += form(repository, draw, some)
    return asked


def exactly(repository, words, theirs=None):
    """The same bytes, and the same status."""
    mine, wanted = repository.git("segdag", *words), repository.git(*(theirs or words))
    if mine[:2] != wanted[:2] or mine[0] == 0 and mine[2]:
        fail(f"{repository.path.name}: {words} ended with {mine}, and git's {theirs or ''} with {wanted}")
    return 1


def merge_bases(repository, _draw, some):
    asked = 0
    for size in (2, 3, 5):
        for options in ([], ["--all"], ["-a"], ["--octopus"], ["--octopus", "--all"], ["--independent"]):
            asked += exactly(repository, ["merge-base", *options, *some[:size]])
    return asked + exactly(repository, ["merge-base", "--is-ancestor", *some[:2]]) + exactly(repository, ["merge-base", "--octopus", some[0]])


def lists(repository, draw, some):
    asked = 0
    a, b, c, _d, _e = some
    for words in (
        ["--contains", a], [f"--contains={a}"], ["--no-contains", a], ["--merged", a], ["--no-merged", a, "refs/heads"], ["--contains", a, "--contains", b],
        ["--contains", a, "--no-contains", b], ["--merged", a, "--no-merged", b], ["--merged", a, "--merged", b], ["--no-merged", a, "--no-merged", b],
        ["--contains", a, "--merged", c, "refs/heads", "refs/tags"], ["--format=%(refname:short) %(objectname:short)", "--merged", a],
        ["--sort=-refname", "--count=3", "--contains", a], ["--count=2", "refs/heads"], ["--format=%(refname)%0a%(objecttype)", "--contains", a],
        ["--format=%(if)%(HEAD)%(then)* %(else)  %(end)%(align:30)%(refname:short)%(end)|", "--merged", b], ["--points-at", a], [], ["refs/heads/topic", "--merged=main"],
        ["--ignore-case", "REFS/heads/MAIN", "--contains", a], ["--no-contains", a, "--no-contains", b, "refs/tags"], ["--contains"], ["--merged"],
    ):
        asked += exactly(repository, ["for-each-ref", *words])
    wanted = repository.must("for-each-ref", f"--contains={a}", "--format=%(refname:short)", "refs/heads", "refs/remotes", "refs/tags")
    if repository.must("segdag", "contains", a) != wanted:
        fail(f"{repository.path.name}: contains {a}")
    base = draw.choice([a, "main"])
    told = repository.must("segdag", "for-each-ref", f"--format=%(refname)|%(ahead-behind:{base})", f"--merged={b}", "--count=9")
    refs = repository.must("for-each-ref", "--format=%(refname)", f"--merged={b}", "--count=9").split()
    if told.splitlines() != [f"{ref}|{ahead} {behind}" for ref, ahead, behind in counts(repository, base, refs)]:
        fail(f"{repository.path.name}: ahead-behind of {base}: {told}")
    return asked + 2 + begun_on(repository, draw, some)


def begun_on(repository, draw, some):
    """%(is-base:TIP), by the lines of first parents as git lists them. A pattern of references, and a filter, leave some."""
    asked = 0
    for tip in some[:3]:
        given = draw.choice([[], ["refs/heads"], [f"--contains={some[3]}"], [f"--no-merged={some[4]}", "refs/heads", "refs/remotes"]])
        refs = repository.must("for-each-ref", "--format=%(refname)", *given).split()
        line = repository.must("rev-list", "--first-parent", tip).split()
        left = {}
        for ref in refs:
            status, out, _told = repository.git("rev-list", "--first-parent", f"{ref}^{{commit}}")
            shared = set(line) & set(out.split())
            if status == 0 and shared:
                left[ref] = len(line) - len(shared)
        wanted = min(left, key=lambda ref: (left[ref], ref), default=None)
        told = repository.must("segdag", "for-each-ref", f"--format=%(refname)|%(is-base:{tip})", *given)
        if told.splitlines() != [f"{ref}|{f'({tip})' if ref == wanted else ''}" for ref in refs]:
            fail(f"{repository.path.name}: is-base of {tip} among {given} tells {told}, and {wanted} is right")
        asked += 1
    return asked


def ranges(repository, draw, some):
    asked = 0
    a, b, c, d, _e = some
    for revisions in ([f"{a}..{b}"], [f"{a}...{b}"], [a, b, f"^{c}"], [f"{a}..{b}", d], [f"{a}...{b}", f"^{c}"], [a], ["--all"], ["--branches", f"^{c}"]):
        for options in (
            ["--count"], [], ["--topo-order"], ["--parents"], ["--first-parent"], ["--count", "--first-parent"], ["--max-count=3"], ["-n", "2", "--skip=1"], ["-4"],
            ["--merges"], ["--no-merges"], ["--count", "--merges"], ["--count", "--no-merges", "--max-count=5"], ["--merges", "--parents", "--skip=1"], ["--reverse", "-n3"],
            ["--first-parent", "--parents"], ["--first-parent", "--count", "--merges"], ["--topo-order", "--no-merges"], ["--topo-order", "--first-parent"],
        ):
            if draw.random() < 0.2:
                asked += exactly(repository, ["rev-list", *options, *revisions])
    for options in (["--ancestry-path"], ["--ancestry-path", "--count"], ["--ancestry-path", "--merges", "--count"]):
        for revisions in ([f"{a}..{b}"], [b, c, f"^{a}"], [f"{a}...{b}"], [b, d, f"^{a}", f"^{c}"], [f"{a}...{b}", f"^{c}"]):
            asked += exactly(repository, ["rev-list", *options, *revisions])
    for revisions in ([f"{a}...{b}"], [f"{a}..{b}"], [f"{a}...{b}", f"^{c}"]):
        for options in ([], ["--merges"], ["--no-merges"], ["--ancestry-path"]):
            asked += exactly(repository, ["rev-list", "--left-right", "--count", *options, *revisions])
    for revisions in ([f"{a}...{b}"], [f"{a}..{b}"], [f"{a}...{b}", f"^{c}"], [f"{a}...{b}", d], [f"{a}...{b}", f"{c}...{d}"]):
        for options in ([], ["--topo-order"], ["--parents", "-n5"], ["--no-merges", "--reverse"], ["--ancestry-path"]):
            if draw.random() < 0.3:
                asked += exactly(repository, ["rev-list", "--left-right", *options, *revisions])
    return asked


def descriptions(repository, _draw, some):
    """By all tags that there are: git leaves off behind ten."""
    asked = 0
    for word in some[:3]:
        for options in (
            [], ["--tags"], ["--long"], ["--tags", "--match=t*"], ["--match=a*", "--abbrev=12"], ["--tags", "--exclude=v*", "--abbrev=0"], ["--always"],
            ["--all"], ["--all", "--match=b*"], ["--all", "--exclude=t*", "--long"],
        ):
            asked += exactly(repository, ["describe", *options, word], ["describe", "--candidates=10000", *options, word])
    return asked


def refused(repository):
    """What isn't taken is told by its name."""
    for words, sentence in (
        (["merge-base", "--fork-point", "main"], "not '--fork-point'"),
        (["merge-base", "--octopus", "--independent", "main"], "one of --octopus and --independent"), (["rev-list", "--since=1", "main"], "not '--since=1'"),
        (["rev-list", "main..next", "--", "file"], "no paths"), (["rev-list", "--count"], "a revision or more"), (["rev-list", "--skip=x", "main"], "not 'x'"),
        (["rev-list", "--ancestry-path", "main"], "no bottom commits"), (["for-each-ref", "--shell"], "not '--shell'"), (["describe", "--dirty"], "not '--dirty'"),
        (["for-each-ref", "--sort=ahead-behind:main"], "isn't taken"), (["for-each-ref", "--sort=-is-base:main"], "isn't taken"),
        (["for-each-ref", "--format=%(is-base:nosuch)"], "Not a valid object name"),
        (["for-each-ref", "--format=%(align:9)%(is-base:main)%(end)"], "isn't taken within"),
        (["for-each-ref", "--format=%(nosuch)"], "unknown field name"), (["contains", "nosuch"], "Not a valid object name"), (["status", "-v"], "not '-v'"),
        (["rev-list", "--left-right", "--first-parent", "main...next"], "--left-right or --first-parent"),
        (["for-each-ref", "--contains", "of-a-tree"], "Not a valid object name"),
    ):
        refuse(repository, words, 128, sentence)
    refuse(repository, ["merge-base", "main"], 129, "two revisions or more")


def statuses():
    """What the log is, how far it is behind, and who has it."""
    repository = drawn("status", 3, 30, 3)
    repository.sync()
    first = repository.must("segdag", "status")
    if not first.startswith("log      .git/segdag/log, ") or "\nbehind   0 commits" not in first or "\ndaemon   none\n" not in first:
        fail(f"typed: status {first}")
    before = int(repository.must("rev-list", "--count", "--all", "HEAD"))
    repository.point("main", repository.commit(repository.commit("main^0")))
    repository.lose()
    repository.must("segdag", "daemon", "start", "60")
    found = json.loads(repository.must("segdag", "status", "--json"))
    if (found["commits"], found["behind"], found["master"] + found["others"]) != (before, 2, before) or f"process {found['daemon']} has" not in repository.must("segdag", "daemon", "status"):
        fail(f"typed: status --json {found}, and there were {before} commits")
    parts = dict(part.split(" ", 1) for part in repository.must("segdag", "status", "-z").split("\0")[:-1])
    if parts != {key: str(value) for key, value in found.items()}:
        fail(f"typed: status -z {parts}, and --json {found}")
    repository.must("segdag", "daemon", "stop")


def long_names():
    """A repository of SHA-256 names: answers are whole names, and a name whose front is another's is refused."""
    repository = drawn("long-names", 5, 40, 6, "sha256")
    repository.sync()
    same(repository, ["segdag", "query", "all"], ["rev-list", "--all"], sort=True)
    if repository.must("segdag", "sync").split()[0] != "0" or "same parents" not in repository.must("segdag", "verify"):
        fail("typed: a second sync over SHA-256")
    for words in (["main..next"], ["--all"], ["main...next"]):
        same(repository, ["segdag", "log", *words], ["rev-list", "--count", *words])
    one = repository.must("rev-parse", "main~1").strip()
    for short in (one[:8], one[:40], one[:50], one):
        exactly(repository, ["merge-base", short, "main"])
    if (FOLDER / "long-names/.git/segdag/log").stat().st_size < 100:
        fail("typed: the log of SHA-256 is empty")
    shared_fronts(repository)


def shared_fronts(repository):
    """Two commits whose names have their first 20 bytes in common, as a git tells that is put in place of git: neither a tip nor a commit behind one
    comes into the log. No such names are known, and whoever finds some has a nicer use for them."""
    git = subprocess.run(["git", "--exec-path"], capture_output=True, text=True).stdout.strip() + "/git"
    repository.point("new", repository.commit(repository.commit("main^0")))
    repository.lose()
    (FOLDER / "long-bin").mkdir()
    for revision in ("new", "new~1"):
        name = repository.must("rev-parse", revision).strip()
        both = f"{name} {name[:40]}{'0' * 24}"
        script("long-bin/git", f"""import os, subprocess, sys
if "--disambiguate={name[:40]}" in sys.argv:
    sys.exit(print("{both}".replace(" ", chr(10))))
if "cat-file" not in sys.argv:
    os.execv("{git}", ["git", *sys.argv[1:]])
child = subprocess.Popen(["{git}", *sys.argv[1:]], stdin=subprocess.PIPE, stdout=subprocess.PIPE)
for line in sys.stdin.buffer:
    child.stdin.write(line)
    child.stdin.flush()
    told = child.stdout.readline()
    sys.stdout.buffer.write(told if line.strip() != b"{name[:40]}^{{commit}}" else b"{name[:40]}^{{commit}} ambiguous" + bytes([10]))
    sys.stdout.buffer.flush()
""")
        before = repository.must("segdag", "query", "all")
        more = {"PATH": f"{FOLDER}/long-bin:{environment()['PATH']}"}
        refuse(repository, ["sync"], 128, f"{both.replace(' ', ' and ')} begin with the same 20 bytes", command=[TOOL], **more)
        if repository.must("segdag", "query", "all") != before:
            fail("typed: a commit whose front is another's came into the log")
    if repository.sync().split()[0] != "2":
        fail("typed: a sync behind one that was refused")
