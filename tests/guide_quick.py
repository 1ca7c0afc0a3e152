"""A part of guide.sh: the quick way of a question, a program in C over the library, answers as the package and as git, whatever it meets."""
import json
import os
import random
import shutil
import signal
import socket
import subprocess
import threading

from guide_lib import FOLDER, HANGS, TOOL, TOP, Repository, environment, fail, script

CLOSED = {"in": "<&-", "out": ">&-", "told": "2>&-", "in and out": "<&- >&-", "out and told": ">&- 2>&-", "all": "<&- >&- 2>&-"}
ASKED = 200  # drawn questions, each asked of git too
BOTH = 1000  # drawn questions that both ways are asked
# The package in one process: what it answers to each of many questions. What a question puts and tells is kept apart.
PACKAGE = """import io, json, sys
sys.path.insert(0, sys.argv[1])
from segdag_tools.git import command
with open(sys.argv[2]) as file:
    asked = json.load(file)
to, answers = sys.argv[3], []
for words in asked:
    sys.argv, sys.stdout, sys.stderr = ["git-segdag", *words], *(io.TextIOWrapper(io.BytesIO()) for _ in range(2))
    status = command.main()
    for stream in (sys.stdout, sys.stderr):
        stream.flush()
    answers.append([status, *(stream.buffer.getvalue().decode() for stream in (sys.stdout, sys.stderr))])
with open(to, "w") as file:
    json.dump(answers, file)
"""
# What a daemon may put that is no reply to what was asked, each line of which a question has two or more; it ends behind it.
LIES = (
    b"", b"\n", b"ok", b"ok session", b"ok session\n", b"ok session\nok 1", b"ok session\nok 1\n", b"ok session\nerr", b"err busy 16\n", b"ok 1\n" * 300,
    b"ok session\n" + b"ok\n" * 300, b"ok session\n" + b"ok -1\n" * 300, b"ok session\n" + b"ok 1 2\n" * 300, b"ok session\n" + b"\xff\nok 1\n" * 300,
    b"ok session\n" + b"zzz\nok 1\n" * 300, b"ok session\n" + b"ok " + b"9" * 5000 + b"\n", b"ok session\n" + b"err memory\n" * 300,
    b"ok session\n" + (b"0" * 40 + b"\n") * 2 + b"ok 2\n" * 300, b"ok session\n" + b"0" * 39 + b"\nok 1\n" * 300, b"ok session\n\0\nok 1\n",
    b"ok session\nerr ended x\n", b"ok session\nerr ended 0\n",
)


def quick():
    front = built()
    if front is None:
        return
    repository = Repository("quick", random.Random(60))
    repository.grow(80, most=12, wide=0.4, roots=0)
    one, other = repository.commits[-1], repository.commits[-2]
    one, other = repository.commit(one, other), repository.commit(other, one)
    for branch, commit in (("main", one), ("topic", other), ("7", repository.commits[-20]), ("all", repository.commit())):
        repository.point(branch, commit)
    repository.must("update-ref", b"refs/heads/by\xfftes", "7")
    repository.sync()
    asked = questions(repository.commits)
    wanted = [answer(repository, words, [TOOL]) for words in asked]
    drawn(repository, front)
    both(repository, front)
    ways(repository, front, asked, wanted)
    processes(repository, front, asked)
    sinks(repository, front)
    lied_to(repository, front, asked, wanted)
    mute(repository, front)
    alone(repository, front)
    elsewhere(repository, front)
    print(f"guide: {len(asked) + ASKED + BOTH} questions are answered by the quick way as by the package or by git, and where {len(LIES)} lies are told too")


def built():
    """The program, where there are a compiler and the library: LIBRARY, or what `make lib` and `make lib-try` leave. It lies beside the tools."""
    library = os.environ.get("LIBRARY") or TOP / "out/libsegdag.a"
    if not os.path.exists(library) or not shutil.which(os.environ.get("CC", "cc")):
        told = "guide: there is no out/libsegdag.a or no C compiler, so the quick way isn't tried"
        print(told)
        if os.environ.get("SKIPPED"):
            with open(os.environ["SKIPPED"], "a") as skipped:
                skipped.write(told + "\n")
        return None
    (FOLDER / "tools").symlink_to(TOOL.parent)
    words = ["sh", TOP / "tools/build_front.sh"]
    strict = "-g -fsanitize=address,undefined -fno-sanitize-recover=all" if has_sanitizers() else ""
    for name, flags in (("out", "-Werror"), ("sane", f"-Werror {strict}")):
        done = subprocess.run(words, env=environment(LIBRARY=os.path.abspath(library), FOLDER=FOLDER / name, CFLAGS=flags), capture_output=True, text=True)
        if done.returncode != 0:
            fail(f"quick: the program isn't built: {done.stdout}{done.stderr}")
    return FOLDER / "out/git-segdag"


def has_sanitizers():
    (FOLDER / "empty.c").write_text("int main(void) { return 0; }\n")
    words = [os.environ.get("CC", "cc"), "-fsanitize=address,undefined", FOLDER / "empty.c", "-o", FOLDER / "empty"]
    return subprocess.run(words, capture_output=True).returncode == 0 and subprocess.run([FOLDER / "empty"], capture_output=True).returncode == 0


def questions(commits):
    """Plain ones, and such as only look like that."""
    lines = """merge-base main topic|merge-base --all main topic|merge-base -a 7 main|merge-base --all 7 main|merge-base main all|is-ancestor 7 main
        is-ancestor main 7|is-ancestor main main|ahead-behind main topic|ahead-behind main topic 7 all main|log main..topic|log 7..main|log 7..|log ..7|log ..
        log main...topic|log main|log main ^7|log main..topic..7|log main..^topic|log ^main..topic|log -main..topic|log :/7..main|log main..nosuch
        merge-base main|merge-base main topic 7|merge-base --all main|merge-base --any main topic|merge-base main nosuch|is-ancestor main
        is-ancestor main -topic|is-ancestor main :/7|ahead-behind main|ahead-behind main nosuch|ahead-behind nosuch main|ahead-behind main main^{tree}
        query ancestors(7)|nothing|log|--all main topic|merge-base main^@ topic|merge-base main~3 topic^|is-ancestor main^{tree} main|log main@{0}..7
        merge-base --is-ancestor 7 main|merge-base --is-ancestor main 7|rev-list --count 7..main|rev-list --count main|rev-list 7..main|rev-list --count"""
    asked = [line.split() for line in lines.replace("\n", "|").split("|")]
    asked += [[], [""], ["log", ""], ["merge-base", "", "main"], ["merge-base", "main\n", "topic"], ["log", "7..main\n"], ["is-ancestor", "main\n7", "main"]]
    asked += [["ahead-behind", "main", *commits[-49 + more : -1]] for more in (0, 1)] + [["ahead-behind", *commits[-25:]], ["merge-base", commits[9][:9], "main"]]
    return asked + [["ahead-behind", "main", b"by\xfftes", "7"], ["log", b"by\xfftes..main"], ["log", b"no\xff..main"]]


def answer(repository, words, command=("git", "segdag"), **more):
    """The status, what is put and what is told."""
    done = subprocess.run([*command, *words], cwd=repository.path, env=environment(**more), capture_output=True, timeout=HANGS)
    return done.returncode, done.stdout, done.stderr


def drawn(repository, front):
    """Drawn questions, of the log alone, and by way of a daemon: as git answers them."""
    for turn in range(ASKED):
        if turn == ASKED // 2:
            repository.must("segdag", "daemon", "start", "600")
        one, other = (repository.draw.choice(repository.commits) for _ in range(2))
        ours, theirs = repository.draw.choice((
            (["merge-base", one, other], ["merge-base", one, other]), (["merge-base", "--all", one, other], ["merge-base", "--all", one, other]),
            (["is-ancestor", one, other], ["merge-base", "--is-ancestor", one, other]), (["log", f"{one}..{other}"], ["rev-list", "--count", f"{one}..{other}"]),
        ))
        mine, wanted = answer(repository, ours, [front]), answer(repository, theirs, ["git"])
        if mine != wanted:
            fail(f"quick: {ours} ended with {mine}, and git's {theirs} with {wanted}")
    repository.must("segdag", "daemon", "stop")


def both(repository, front):
    """A thousand drawn questions, of which most are plain: the package answers each as the quick way, most by way of a daemon."""
    draw = repository.draw
    for size, daemon in ((BOTH // 8, False), (BOTH - BOTH // 8, True)):
        asked = [one_of(draw, repository.commits) for _ in range(size)]
        if daemon:
            repository.must("segdag", "daemon", "start", "600")
        (FOLDER / "asked.json").write_text(json.dumps(asked))
        words = [script("package", PACKAGE), TOOL.parent, FOLDER / "asked.json", FOLDER / "answers.json"]
        subprocess.run(words, cwd=repository.path, env=environment(), check=True, timeout=HANGS)
        for words, told in zip(asked, json.loads((FOLDER / "answers.json").read_text())):
            status, out, said = answer(repository, words, [front])
            if [status, out.decode(), said.decode()] != told:
                fail(f"quick: {words} ended with {status}, {out}, {said}, and by the package with {told}")
    repository.must("segdag", "daemon", "stop")


def one_of(draw, commits):
    """The words of a question."""
    a, b, *more = (draw.choice([draw.choice(commits), draw.choice(["main", "topic", "7", "all", "HEAD"])]) + draw.choice(["", "", "", "^", "~2", "~3^2"]) for _ in range(6))
    return draw.choice((
        ["merge-base", a, b], ["merge-base", "--all", a, b], ["is-ancestor", a, b], ["merge-base", "--is-ancestor", a, b], ["log", f"{a}..{b}"],
        ["rev-list", "--count", f"{a}..{b}"], ["ahead-behind", a, b, *more[: draw.randrange(5)]], draw.choice((["log", f"{a}...{b}"], ["log", a], ["merge-base", a[:9], b])),
    ))


def ways(repository, front, asked, wanted):
    """By way of the log and of a daemon, by links, with closed descriptors, and under the sanitizers: each question is answered the same."""
    folder = FOLDER / "a line\nfeed 'in' $(names)"
    (folder / "below").mkdir(parents=True)
    (folder / "git-segdag").symlink_to(front)
    (folder / "below/first\n").symlink_to("../git-segdag")
    pairs = list(zip(asked, wanted))
    path = environment()["PATH"]
    for daemon in (False, True):
        if daemon:
            repository.must("segdag", "daemon", "start", "600")
        for number, (command, more) in enumerate((
            ([front], {}), ([FOLDER / "sane/git-segdag"], {"ASAN_OPTIONS": "detect_leaks=0"}), ([folder / "below/first\n"], {}), (["git", "segdag"], {"PATH": f"{folder}:{path}"}),
        )):
            for words, told in pairs if number < 1 else pairs[number % 3 :: 3]:
                found = answer(repository, words, command, **more)
                if found != told:
                    fail(f"quick: {words} by {command}, {'with' if daemon else 'without'} a daemon, ended with {found}, and {told} was wanted")
        for number, (which, close) in enumerate(CLOSED.items()):
            for words, (status, out, told) in pairs[number::6]:
                for tool in (front, TOOL):
                    found = answer(repository, words, ["/bin/sh", "-c", f'exec "$0" "$@" {close}', tool])
                    without = ("" if "out" in which or which == "all" else out) or b"", ("" if "told" in which or which == "all" else told) or b""
                    if found != (status, *without):
                        fail(f"quick: {words} by {tool.name} with closed descriptors, {which}, ended with {found}, and {(status, *without)} was wanted")
    repository.must("segdag", "daemon", "stop")


def processes(repository, front, asked):
    """A plain question starts one git and nothing else; another one begins Python once."""
    folder, told = FOLDER / "counting", FOLDER / "processes"
    folder.mkdir()
    for name in ("git", "python3"):
        path, real = folder / name, shutil.which(name, path=environment()["PATH"])
        path.write_text(f'#!/bin/sh\necho "{name} $1" >> "{told}"\nexec "{real}" "$@"\n')
        path.chmod(0o755)
    for words in asked[:50]:
        told.write_text("")
        answer(repository, words, [front], PATH=f"{folder}:{environment()['PATH']}")
        begun = told.read_text().splitlines()
        is_plain = words in (["log", "7..main"], ["log", "7.."], ["merge-base", "7", "main"], ["is-ancestor", "main", "7"], ["ahead-behind", "main", "topic"])
        if begun.count("python3 -S") > 1 or is_plain and begun != ["git rev-parse"]:
            fail(f"quick: {words} began {begun}")


def sinks(repository, front):
    """What can't be put ends as in the package."""
    for words in (["log", "7..main"], ["merge-base", "7", "main"], ["is-ancestor", "7", "main"]):
        for kind in ("full", "closed", "limited"):
            found = [sunk(repository, words, kind, command) for command in (front, TOOL)]
            if found[0] != found[1] or words[0] != "is-ancestor" and found[0][0] != 128:
                fail(f"quick: {words} into a sink that is {kind}: {found}")


def sunk(repository, words, kind, command):
    """How it ends into such a sink. A file that may have no bytes is one whose writer is sent a signal."""
    reader, writer = os.pipe()
    os.close(reader)
    command, file = [command, *words], FOLDER / "limited"
    if kind == "limited":
        command = ["/bin/sh", "-c", f'ulimit -f 0; exec "$0" "$@" > "{file}"', *command]
    with open("/dev/full", "wb") as full:
        sink = {"full": full, "closed": writer, "limited": subprocess.DEVNULL}[kind]
        done = subprocess.run(command, cwd=repository.path, env=environment(), stdout=sink, stderr=subprocess.PIPE, timeout=HANGS)
    os.close(writer)
    return done.returncode, done.stderr


class Liar(threading.Thread):
    """A daemon that puts this to the first who comes, read or unread, and is gone."""

    def __init__(self, path, put, reads):
        super().__init__()
        self.path, self.put, self.reads = str(path), put, reads
        self.door = socket.socket(socket.AF_UNIX, socket.SOCK_STREAM)
        self.door.bind(os.path.relpath(self.path))
        self.door.listen(1)
        self.door.settimeout(HANGS)
        self.start()

    def run(self):
        one, _ = self.door.accept()
        self.door.close()
        os.unlink(self.path)
        with one:
            if self.reads:
                one.recv(1 << 16)
            try:
                one.sendall(self.put)
            except OSError:
                pass


def lied_to(repository, front, asked, wanted):
    """A daemon that lies, stops in the midst of a reply or ends at once: the log is asked."""
    place = repository.common / "segdag/socket"
    for words, told in zip(asked, wanted):
        if words not in (["log", "7..main"], ["is-ancestor", "7", "main"], ["merge-base", "7", "main"], ["ahead-behind", "main", "topic", "7", "all", "main"]):
            continue
        for put in LIES:
            for reads in (True, False):
                liar = Liar(place, put, reads)
                found = answer(repository, words, [front])
                liar.join()
                if found != told:
                    fail(f"quick: {words} of a daemon that puts {put[:60]} ended with {found}, and {told} was wanted")


def mute(repository, front):
    """A daemon that is stopped is given up."""
    repository.must("segdag", "daemon", "start", "600")
    process = int(repository.must("segdag", "daemon", "status").split()[1])
    os.kill(process, signal.SIGSTOP)
    found, wanted = answer(repository, ["merge-base", "main", "7"], [front]), answer(repository, ["merge-base", "main", "7"], ["git"])
    os.kill(process, signal.SIGCONT)
    repository.must("segdag", "daemon", "stop")
    if found != wanted:
        fail(f"quick: beside a daemon that is stopped: {found}")


def alone(repository, front):
    """A copy of it without the tools beside it answers what is plain, and says what it lacks for the rest."""
    (FOLDER / "apart/from").mkdir(parents=True)
    copy = FOLDER / "apart/from/git-segdag"
    shutil.copy(front, copy)
    if answer(repository, ["log", "7..main"], [copy]) != answer(repository, ["log", "7..main"], [front]):
        fail("quick: a copy answers otherwise")
    status, out, told = answer(repository, ["sync"], [copy])
    if (status, out) != (128, b"") or b"has no package of git segdag beside it" not in told:
        fail(f"quick: a copy without the package ended with {status}, {out}, {told}")


def elsewhere(repository, front):
    """Where there is no log the one that is configured is asked, which is the package's work."""
    wanted = answer(repository, ["log", "7..main"], [front])
    moved = FOLDER / "quick-moved"
    repository.log.rename(moved)
    repository.must("config", "segdag.store", moved)
    for command in (front, TOOL):
        found = answer(repository, ["log", "7..main"], [command])
        if found != wanted:
            fail(f"quick: a log that is configured answers {found} by {command}, and {wanted} was wanted")
    moved.rename(repository.log)
