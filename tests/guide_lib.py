"""What the parts of guide.sh share: an environment, drawn repositories, and how git's answers are compared with those of `git segdag`."""
import os
import subprocess
import sys
from pathlib import Path

PROGRAM = os.path.abspath(sys.argv[2])
FOLDER = Path(sys.argv[3]).resolve()
TOP = Path(__file__).resolve().parent.parent
# Another command may be tried by these tests, such as one of an older version, which must fail.
TOOL = Path(os.environ.get("GIT_SEGDAG") or TOP / "tools/git-segdag").resolve()
HANGS = 1800  # seconds behind which something is taken to hang
BEGIN = 100_000_000  # the first commit's date, in seconds


def environment(**more):
    """One in which no configuration of the user's counts, and both programs are found."""
    kept = {name: value for name, value in os.environ.items() if not name.startswith("GIT_")}
    commands = FOLDER / "bin"
    if not commands.exists():
        commands.mkdir()
        (commands / "segdag").symlink_to(PROGRAM)
        (commands / "git-segdag").symlink_to(TOOL)
        (commands / "segdag-ssh").symlink_to(TOP / "tools/segdag-ssh")
        # The interpreter itself, since what chooses among several takes longer than a question.
        (commands / "python3").symlink_to(os.path.realpath(sys.executable))
    kept["PATH"] = f"{commands}:{kept['PATH']}"
    # What Python makes of the command's modules is kept, as a user's is, and not in the checkout.
    kept.pop("PYTHONDONTWRITEBYTECODE", None)
    kept["PYTHONPYCACHEPREFIX"] = str(FOLDER / "compiled")
    ours = {"SEGDAG": PROGRAM, "HERE": str(TOP), "HOME": str(FOLDER), "GIT_CONFIG_NOSYSTEM": "1", "LC_ALL": "C"}
    return {**kept, **ours, **{name: str(value) for name, value in more.items()}}


def fail(text):
    sys.exit(f"guide: {text}")


def script(name, text):
    """An executable file of this name, which Python runs."""
    path = FOLDER / name
    path.write_text(f"#!{sys.executable}\n{text}")
    path.chmod(0o755)
    return path


class Repository:
    """A repository of commits without files, whose parents and dates are drawn."""

    def __init__(self, name, draw=None, kind="sha1", bare=False):
        self.path, self.draw, self.count = FOLDER / name, draw, 0
        words = ["init", "--quiet", "--initial-branch=main", f"--object-format={kind}", *(["--bare"] if bare else [])]
        subprocess.run(["git", *words, self.path], env=environment(), check=True)
        self.commits, self.branches = [], {}
        self.common = self.path if bare else self.path / ".git"
        self.log = self.common / "segdag/log"

    def at(self, path):
        """The same repository, seen from another place: a worktree of it, or a clone."""
        other = object.__new__(Repository)
        other.__dict__.update(self.__dict__, path=path)
        return other

    def git(self, *words, text=None, stdin=None, **more):
        """The status, what is put, and what is told. It reads a text or a file."""
        given = {"input": text} if stdin is None else {"stdin": stdin}
        done = subprocess.run(
            ["git", *words], cwd=self.path, env=environment(**more), capture_output=True, text=True, errors="surrogateescape", timeout=HANGS, **given
        )
        return done.returncode, done.stdout, done.stderr

    def must(self, *words, text=None, stdin=None, **more):
        status, out, told = self.git(*words, text=text, stdin=stdin, **more)
        if status != 0:
            fail(f"git {' '.join(words)[:80]} in {self.path.name} ended with {status}: {told}")
        return out

    def add(self, parents):
        """The stream of one more commit on these."""
        self.count += 1
        lines = [f"commit refs/drawn/{self.count}", f"mark :{self.count}"]
        # The dates differ and never go back: where they do, git may list a commit that it was to leave out.
        lines += [f"committer drawn <drawn@example> {BEGIN + self.count * 10 + self.draw.randrange(10)} +0000"]
        lines += ["data 2", f"{self.count % 10}"]
        lines += [f"{'merge' if at else 'from'} {parent}" for at, parent in enumerate(parents)]
        return "\n".join(lines) + "\n\n"

    def grow(self, count, most=8, wide=0.1, roots=0.02):
        """More commits, of which a few begin anew, a fifth are merges, and most stand on recent ones. A share of the merges has many parents."""
        stream, begun = "", len(self.commits)
        for _ in range(count):
            recent = self.commits[-self.draw.choice([1, 1, 1, 2, 5, 40]) :]
            wanted = 0 if self.draw.random() < roots else self.draw.choice([1, 1, 1, 1, 2])
            if wanted == 2 and self.draw.random() < wide:
                wanted, recent = self.draw.randrange(2, most + 1), self.commits[-2 * most :]
            parents = self.draw.sample(recent, min(wanted, len(recent))) if recent else []
            stream += self.add(parents)
            self.commits.append(f":{self.count}")
        self.read(stream, begun)

    def read(self, stream, begun):
        """Takes a stream of new commits, of which marks stand in `commits` from `begun` on."""
        marks = self.common / "marks"
        self.must("fast-import", "--quiet", f"--import-marks-if-exists={marks}", f"--export-marks={marks}", text=stream)
        names = dict(line.split() for line in marks.read_text().splitlines())
        self.commits = self.commits[:begun] + [names[mark] for mark in self.commits[begun:]]

    def commit(self, *parents):
        """One more commit on these, and its name."""
        stream = self.add(list(parents))
        self.commits.append(f":{self.count}")
        self.read(stream, len(self.commits) - 1)
        return self.commits[-1]

    def point(self, branch, commit):
        self.must("update-ref", f"refs/heads/{branch}", commit)
        self.branches[branch] = commit

    def lose(self):
        """The references of drawing are gone: only branches keep commits."""
        refs = self.must("for-each-ref", "--format=delete %(refname)", "refs/drawn")
        self.must("update-ref", "--stdin", text=refs)

    def forget(self):
        """What no branch reaches is gone from the repository."""
        self.lose()
        self.must("reflog", "expire", "--expire=now", "--all")
        self.must("gc", "--quiet", "--prune=now")
        self.commits = self.must("rev-list", "--all", "--reverse", "--topo-order").split()
        (self.common / "marks").unlink()

    def sync(self, **more):
        return self.must("segdag", "sync", **more)


def same(repository, ours, theirs, sort=False):
    """Both commands have the same status and put the same, in the same order but where it is said."""
    mine, wanted = repository.git(*ours), repository.git(*theirs)
    order = (lambda text: sorted(text.split())) if sort else (lambda text: text.split())
    if mine[0] != wanted[0] or order(mine[1]) != order(wanted[1]):
        fail(f"{repository.path.name}: {ours} ended with {mine}, and {theirs} with {wanted}")


def counts(repository, base, refs):
    """How far each of these is ahead of the base and behind it, as git says."""
    return [[ref, *repository.must("rev-list", "--left-right", "--count", f"{ref}...{base}").split()] for ref in refs]


def ask_all(repository, draw, times):
    """Questions on drawn commits, asked of git too."""
    refs = list(repository.branches)
    for _ in range(times):
        a, b, c = (draw.choice([draw.choice(refs), draw.choice(repository.commits)]) for _ in range(3))
        ask_pair(repository, a, b)
        some = draw.sample(refs, min(len(refs), 3))
        told = repository.must("segdag", "ahead-behind", a, *some)
        # A name may have what Python takes for the end of a line, or for a space.
        if [line.split(" ") for line in told.split("\n")[:-1]] != counts(repository, a, some):
            fail(f"{repository.path.name}: ahead-behind {a} {some}: {told}, and git has {counts(repository, a, some)}")
        for words in ([f"{a}..{b}"], [f"{a}...{b}"], [a, b, f"^{c}"], [f"{a}...{b}", f"^{c}"]):
            same(repository, ["segdag", "log", *words], ["rev-list", "--count", *words])
        ask_expressions(repository, a, b, c, draw.choice([1, 2, 7]))


def ask_pair(repository, a, b):
    same(repository, ["segdag", "merge-base", a, b], ["merge-base", a, b])
    same(repository, ["segdag", "merge-base", "--all", a, b], ["merge-base", "--all", a, b])
    same(repository, ["segdag", "is-ancestor", a, b], ["merge-base", "--is-ancestor", a, b])


def ask_expressions(repository, a, b, c, steps):
    a, b, c = (f'"{it}"' for it in (a, b, c))
    given = {it: it.strip('"') for it in (a, b, c)}
    for expression, words in (
        (f"only({a},{b})", [given[a], f"^{given[b]}"]),
        (f"merges(ancestors({c}))", ["--merges", given[c]]),
        (f"minus(range({a},{b}),ancestors({a}))", ["--ancestry-path", given[b], f"^{given[a]}"]),
        (f"inter(set:all,up({a},{steps}))", ["--max-count=1", f"{given[a]}~{steps}"]),
        (f"parents({c})", ["--no-walk", f"{given[c]}^@"]),
        (f"line({c})", ["--first-parent", given[c]]),
    ):
        if repository.git("rev-list", *words)[0] == 0:
            same(repository, ["segdag", "query", expression], ["rev-list", *words], sort=True)


def refuse(repository, words, status, sentence, command=("git", "segdag"), **more):
    """The command ends with this status and a sentence like this, puts nothing, and shows no traceback."""
    words = [*command, *words]
    ended = subprocess.run(words, cwd=repository.path, env=environment(**more), capture_output=True, text=True, errors="replace", timeout=HANGS)
    lines = ended.stderr.strip().split("\n")
    if ended.returncode != status or sentence not in ended.stderr or ended.stdout or status == 128 and len(lines) != 1:
        fail(f"{words} in {repository.path.name} ended with {ended}, and {status}, '{sentence}' was wanted")
