"""A part of guide.sh: repositories of odd kinds. References that are broken, symbolic or of nothing; clones that borrow, that were shallow, that
are someone's submodule; doubled parents; and clocks that stood still or went back."""
import random
import subprocess

from guide_lib import BEGIN, FOLDER, Repository, ask_all, ask_pair, environment, fail, refuse, same

WHO = {f"GIT_{who}_{what}": "d@d" for who in ("AUTHOR", "COMMITTER") for what in ("NAME", "EMAIL")}


def kinds():
    for kind in (odd_references, borrowed, unshallowed, submodule, orphan, doubled, clocks, tongues):
        kind()
    print("guide: repositories of odd kinds are answered as by git")


def grown(name, seed=1, count=30):
    repository = Repository(name, random.Random(seed))
    repository.grow(count, most=10, wide=0.3, roots=0)
    repository.point("main", repository.commits[-1])
    repository.point("topic", repository.commits[-6])
    repository.lose()
    return repository


def whole(repository):
    """A sync takes what git lists, and questions are answered as by git."""
    count = repository.must("rev-list", "--count", "--all").strip()
    told = repository.sync()
    if not told.endswith(f" {count} commits in the log\n"):
        fail(f"kinds: {repository.path.name}: the sync told {told}, and git has {count} commits")
    for one, other in (("main", "topic"), ("topic", "main"), ("HEAD", "topic")):
        ask_pair(repository, one, other)
        same(repository, ["segdag", "log", f"{one}..{other}"], ["rev-list", "--count", f"{one}..{other}"])
    same(repository, ["segdag", "log", "--all"], ["rev-list", "--count", "--all"])


def odd_references():
    """A branch whose commit is gone is no part of what is asked beside it; symbolic ones are, and tags of files aren't commits."""
    repository = grown("kinds-references")
    repository.must("symbolic-ref", "refs/heads/alias", "refs/heads/topic")
    repository.must("symbolic-ref", "refs/heads/nowhere", "refs/heads/nothing")
    repository.must("tag", "file", repository.must("hash-object", "-w", "--stdin", text="a file").strip())
    whole(repository)
    ask_pair(repository, "alias", "main")
    (repository.common / "refs/heads/broken").write_text("1" * 40 + "\n")
    repository.sync()
    ask_pair(repository, "main", "topic")
    refuse(repository, ["log", "broken"], 128, "bad revision")
    (repository.common / "refs/heads/broken").write_text("no name\n")
    repository.sync()
    ask_pair(repository, "main", "topic")


def borrowed():
    """Clones that have their objects elsewhere."""
    source = grown("kinds-source", 2)
    for number, words in enumerate((["--shared"], ["--reference", source.path], ["--mirror"])):
        path = FOLDER / f"kinds-borrowed{number}"
        subprocess.run(["git", "clone", "--quiet", *words, f"file://{source.path}" if number == 1 else source.path, path], env=environment(), check=True, capture_output=True)
        clone = source.at(path)
        if number < 2:
            clone.must("branch", "--quiet", "topic", "origin/topic")
        whole(clone)


def unshallowed():
    """A shallow clone is refused, has the whole history later, and is cut again behind a sync."""
    source = grown("kinds-deep", 3)
    path = FOLDER / "kinds-shallow"
    subprocess.run(["git", "clone", "--quiet", "--depth=2", "--no-single-branch", f"file://{source.path}", path], env=environment(), check=True)
    clone = source.at(path)
    clone.must("branch", "--quiet", "topic", "origin/topic")
    refuse(clone, ["sync"], 128, "this repository is shallow")
    clone.must("fetch", "--quiet", "--unshallow")
    whole(clone)
    wanted = clone.must("merge-base", "main", "topic")
    clone.must("fetch", "--quiet", "--depth=1", "origin")
    status, out, told = clone.git("segdag", "merge-base", "main", "topic")
    if (status, out) != (0, wanted) or "a shallow history" not in told:
        fail(f"kinds: behind fetch --depth: {status}, {out}, {told}")


def submodule():
    """A repository whose folder lies in that of another one."""
    inner, outer = grown("kinds-inner", 4), Repository("kinds-outer", random.Random(5))
    outer.point("main", outer.commit())
    outer.must("-c", "protocol.file.allow=always", "submodule", "--quiet", "add", inner.path, "sub")
    sub = inner.at(outer.path / "sub")
    sub.must("branch", "--quiet", "topic", "origin/topic")
    whole(sub)


def orphan():
    """HEAD is on a branch that has no commit yet."""
    repository = grown("kinds-orphan", 6)
    repository.must("symbolic-ref", "HEAD", "refs/heads/unborn")
    repository.sync()
    ask_pair(repository, "main", "topic")
    for words in (["HEAD", "main"], ["main", "HEAD"]):
        same(repository, ["segdag", "merge-base", *words], ["merge-base", *words])


def doubled():
    """Commits that name a parent twice, as fast-import never makes them."""
    repository = grown("kinds-doubled", 7)
    tree = repository.must("rev-parse", "main^{tree}").strip()
    tips = ["main", "topic"]
    for number in range(12):
        one, other = (repository.must("rev-parse", tip).strip() for tip in tips)
        parents = [one, one, other, one][: 2 + number % 3] if number % 4 else [one] * 11 + [other]
        text = f"tree {tree}\n" + "".join(f"parent {name}\n" for name in parents) + f"author d <d@d> {BEGIN * 9 + number} +0000\ncommitter d <d@d> {BEGIN * 9 + number} +0000\n\nd\n"
        made = repository.must("hash-object", "-t", "commit", "-w", "--literally", "--stdin", text=text).strip()
        repository.must("update-ref", f"refs/heads/d{number}", made)
        tips = [f"d{number}", tips[number % 2]]
    whole(repository)
    ask_pair(repository, "d11", "d7")
    same(repository, ["segdag", "rev-list", "--count", "d11...d3"], ["rev-list", "--count", "d11...d3"])


def clocks():
    """Criss-cross merges of one date, and dates that go back. git counts by the graph where it has written one and is asked for an order."""
    for number, date in enumerate((lambda _at: BEGIN, lambda at: BEGIN * 9 - at * 100, lambda at: BEGIN + at * 7919 % 1000)):
        draw, stream, lines = random.Random(number), "", []
        for at in range(1, 80):
            parents = draw.sample(range(max(1, at - 9), at), min(at - 1, draw.choice([1, 1, 2])))
            lines.append(f"commit refs/heads/{'main' if at % 2 else 'topic'}\nmark :{at}\ncommitter d <d@d> {date(at)} +0000\ndata 0\n")
            lines += [f"{'merge' if place else 'from'} :{parent}\n" for place, parent in enumerate(parents)]
            lines.append("\n")
        stream = "".join(lines)
        repository = Repository(f"kinds-clocks{number}", draw)
        repository.must("fast-import", "--quiet", "--force", text=stream)
        repository.must("commit-graph", "write", "--reachable")
        repository.sync()
        names = repository.must("rev-list", "--all").split()
        for _ in range(12):
            one, other = draw.choice(names), draw.choice(names)
            mine = sorted(repository.must("segdag", "merge-base", "--all", one, other).split()) if repository.git("merge-base", one, other)[0] == 0 else []
            wanted = sorted(repository.must("merge-base", "--all", one, other).split()) if mine else []
            if mine != wanted:
                fail(f"kinds: merge bases of {one} and {other}: {mine}, and git {wanted}")
            same(repository, ["segdag", "is-ancestor", one, other], ["merge-base", "--is-ancestor", one, other])
            same(repository, ["segdag", "log", f"{one}..{other}"], ["rev-list", "--count", "--topo-order", f"{one}..{other}"])


def tongues():
    """Names of any letters, whatever Python is told of them."""
    repository = grown("kinds-tongues", 8)
    for name in ("ünï", "line\u2028or\u0085two", "a%sb", "with'quotes\"", "$(x)"):
        repository.point(name, repository.commits[-3])
    repository.sync()
    for more in ({}, {"PYTHONIOENCODING": "ascii"}, {"PYTHONIOENCODING": "utf-16"}, {"LC_ALL": "C.UTF-8"}, {"PYTHONUTF8": "0", "LC_ALL": "C"}):
        if repository.must("segdag", "ahead-behind", "main", "ünï", **more).split()[0] != "ünï":
            fail(f"kinds: a name of other letters with {more}")
    for words in (["--contains", "main~9"], ["--merged=main", "--format=%(refname) '%(objectname)'"]):
        mine, wanted = repository.git("segdag", "for-each-ref", *words), repository.git("for-each-ref", *words)
        if mine != wanted:
            fail(f"kinds: for-each-ref {words} over odd names: {mine}, and git {wanted}")
    ask_all(repository, random.Random(1), 1)
