"""A release tried as its users have it: install.py PROGRAM LIBRARY-FOLDER FOLDER [PART]...

It tells what it found in a line each, and in lines `untried TOOL: REASON` what wasn't tried. The first thing that is wrong ends it.
"""
from __future__ import annotations

import os
import re
import shutil
import signal
import socket
import subprocess
import sys
import time
from contextlib import suppress
from pathlib import Path
from typing import Callable
from urllib.parse import quote

TOP = Path(__file__).resolve().parent.parent
PROGRAM, LIBRARY, FOLDER = (Path(word).resolve() for word in sys.argv[1:4])
DIST = FOLDER / "one folder" / "out/dist"
VERSION = (TOP / "VERSION").read_text().strip()
PAGES = ("segdag.1", "git-segdag.1", "segdagd.1", "segdag-ssh.1", "segdag.3", "segdag-log.5")
HAS_POSTGRES = (LIBRARY / "segdag-postgres").exists()
MULTIARCH = "usr/lib/x86_64-linux-gnu"


def fail(text: str) -> None:
    """Ends this, for what is wrong."""
    sys.exit(f"install: {text}")


def said(*words: object, status: int = 0, **how: object) -> str:
    """What a command puts on both its streams; it must end with this status."""
    done = subprocess.run([str(word) for word in words], stdout=subprocess.PIPE, stderr=subprocess.STDOUT, text=True, **how)
    if done.returncode != status:
        fail(f"{' '.join(map(str, words))} ends with {done.returncode} and says:\n{done.stdout}")
    return done.stdout


def must(is_so: object, text: str) -> None:
    """Fails where this isn't so."""
    if not is_so:
        fail(text)


def has(tool: str, why: str) -> bool:
    """Whether there is this tool; where there isn't, what isn't tried is told."""
    if shutil.which(tool):
        return True
    print(f"untried {tool}: there is no {tool} {why}")
    return False


def outside(*first: Path) -> dict[str, str]:
    """A stranger's environment: these folders on the PATH, and none that has `rt`, a program segdag or this checkout."""
    own = ("rt", "segdag", "git-segdag")
    folders = [folder for folder in os.environ["PATH"].split(":") if not any(os.path.exists(f"{folder}/{name}") for name in own)]
    home = FOLDER / "home"
    home.mkdir(exist_ok=True)
    path = ":".join([*map(str, first), *(folder for folder in folders if not folder.startswith(str(TOP)))])
    who = {f"GIT_{role}_{what}": "sample" for role in ("AUTHOR", "COMMITTER") for what in ("NAME", "EMAIL")}
    return {"PATH": path, "HOME": str(home), "LC_ALL": "C.UTF-8", "TERM": "dumb", "PYTHONDONTWRITEBYTECODE": "1", **who}


def files_below(folder: Path) -> list[str]:
    """The files and links below a folder."""
    return sorted(str(path.relative_to(folder)) for path in folder.rglob("*") if path.is_symlink() or path.is_file())


# The release.


def copied(checkout: Path, name: str) -> Path:
    """A checkout of its own of the files of this one, as they stand."""
    copy = FOLDER / name
    said("git", "clone", "--quiet", "--shared", checkout, copy)
    tracked = subprocess.run(["git", "ls-files", "-z"], cwd=checkout, capture_output=True, check=True).stdout
    there = b"\0".join(path for path in tracked.split(b"\0") if path and os.path.lexists(os.path.join(os.fsencode(checkout), path)))
    packed = subprocess.run(["tar", "--null", "-T", "-", "-cf", "-"], cwd=checkout, input=there, capture_output=True, check=True).stdout
    subprocess.run(["tar", "-xf", "-"], cwd=copy, input=packed, check=True)
    return copy


def released(copy: Path, mask: int) -> Path:
    """What `make dist` leaves in a checkout, under a mask of rights."""
    made = copy / "out/dist"
    how = {"cwd": copy, "preexec_fn": lambda: os.umask(mask)}
    said("make", "--silent", "man", f"RT={os.environ.get('RT', 'rt')}", **how)
    said(sys.executable, "packaging/dist.py", made, "--program", PROGRAM, "--library", LIBRARY, **how)
    return made


def dist() -> None:
    """The same bytes in two folders, and a statement whose sums are right."""
    one = copied(TOP, "one folder")
    first, second = released(one, 0o022), released(copied(one, "another"), 0o077)
    names = files_below(first)
    must(len(names) == 4 + HAS_POSTGRES and names == files_below(second), f"a release has {names}")
    for name in names:
        must((first / name).read_bytes() == (second / name).read_bytes(), f"{name} has other bytes when it is made in another folder")
    text = (first / f"segdag-{VERSION}.txt").read_text()
    must(re.search(r"^commit: [0-9a-f]{40}", text, re.MULTILINE) and "UNPROVED" in text, f"the statement says:\n{text}")
    sums = "\n".join(line for line in text.split("\n") if re.match(r"[0-9a-f]{64}  segdag", line))
    must(sums.count("\n") == 2 + HAS_POSTGRES, "the statement has no sum for each file")
    must(text.count("\nthe library for PostgreSQL is UNPROVED") == HAS_POSTGRES, f"of the library for PostgreSQL the statement says:\n{text}")
    said("sha256sum", "--check", "-", input=sums + "\n", cwd=first)
    proved(FOLDER / "another")
    print(f"a release of {len(names)} files has the same bytes from two folders, and the statement has their sums")


def proved(copy: Path) -> None:
    """What a statement calls proved: what the kit left behind its proofs, and nothing once a source is newer."""
    script = """import argparse, dist
release, sums = dist.Release(argparse.Namespace(folder="out", program=None, library=None)), dist.run("sh", "packaging/sums.sh")
kinds = (release.kind_of_program()[:8], release.kind_of_library(sums)[:8], release.kind_of_library(sums, "libsegdag_postgres")[:8])
print(*kinds, dist.gate(sums), sep=", ")"""

    def told() -> str:
        return said(sys.executable, "-c", script, cwd=copy, env={**os.environ, "PYTHONPATH": str(copy / "packaging")}).strip()

    nothing = "UNPROVED, UNPROVED, UNPROVED, not run over this text in this checkout"
    must(told() == nothing, f"where nothing is proved it is {told()}")
    (copy / "crates/segdag/out").mkdir()
    shutil.copyfile(PROGRAM, copy / "crates/segdag/out/segdag")
    for name in ("libsegdag.a", "libsegdag_postgres.a"):
        shutil.copyfile(LIBRARY / "libsegdag.a", copy / "out" / name)
    for name in ("libsegdag.proved", "libsegdag_postgres.proved", "gate"):
        (copy / "out" / name).write_text(said("sh", "packaging/sums.sh", cwd=copy))
    must(told() == "proved, proved, proved, passed", f"where all is proved it is {told()}")
    (copy / "out/gate.log").write_text("rt: ok\n225 passed, 0 failed\nwords: all end as they must\n")
    must(told() == "proved, proved, proved, 225 passed, 0 failed", f"where the gate's words are kept it is {told()}")
    with (copy / "crates/span_set/specs/Lib.antt").open("a") as changed:
        changed.write("\n")
    must(told() == nothing, f"where a definition was changed it is {told()}")


# What is installed, in use.


def commands(root: Path, environment: dict[str, str]) -> None:
    """The program, README's session, and `git segdag` in a repository that was just made."""
    session(environment)
    for tool in ("segdagd", "git-segdag"):
        must(said(tool, "--version", env=environment).split()[-1] == VERSION, f"{tool} --version isn't {VERSION}")
    repository = FOLDER / f"{root.name}.repository"
    said("git", "init", "--quiet", "--initial-branch=main", repository, env=environment)
    at = {"cwd": repository, "env": environment}
    for message in ("one", "two", "three"):
        said("git", "commit", "--quiet", "--allow-empty", f"--message={message}", **at)
    said("git", "branch", "topic", "main~1", **at)
    began = time.monotonic()
    must(said("git", "segdag", "sync", **at) == "3 new, 3 commits in the log\n", "sync doesn't take three commits")
    must(said("git", "segdag", "merge-base", "main", "topic", **at) == said("git", "merge-base", "main", "topic", **at), "another merge base than git's")
    took = time.monotonic() - began
    must(took < 60, f"the first answer took {took} seconds")
    said("git", "segdag", "daemon", "start", **at)
    said("git", "segdag", "is-ancestor", "topic", "main", **at)
    said("git", "segdag", "daemon", "stop", **at)
    said("segdag-ssh", status=2, **at)
    served_root(root.name, at)
    print(f"{root.name}: the commands answer, the first one over a repository after {took:.1f} s")


def served_root(name: str, at: dict[str, object], base: str = "") -> None:
    """segdagd serves logs below a folder, or in a database."""
    logs, door = base or FOLDER / f"{name}.logs", FOLDER / f"{name}.socket"
    if not base:
        Path(logs).mkdir()
    serving = subprocess.Popen(["segdagd", "--root", logs, "--socket", door], **at)
    try:
        await_door(door, serving)
        with socket.socket(socket.AF_UNIX) as asking:
            asking.connect(str(door))
            asking.sendall(b"use one\nstatus\n")
            told = asking.makefile()
            must([told.readline(), told.readline()] == ["ok use\n", "ok 0 0 0\n"], "segdagd --root doesn't answer")
    finally:
        serving.terminate()
    must(serving.wait() == 0, "segdagd --root ends badly")


def await_door(door: Path, serving: "subprocess.Popen[bytes]") -> None:
    """Waits until a daemon takes clients: its socket is there a moment earlier."""
    end = time.monotonic() + 60
    while True:
        with socket.socket(socket.AF_UNIX) as knocking, suppress(OSError):
            knocking.connect(str(door))
            return
        must(serving.poll() is None and time.monotonic() < end, f"the daemon at {door.name} doesn't come up")
        time.sleep(0.02)


def session(environment: dict[str, str]) -> None:
    """README's session, word for word, by `segdag`."""
    block = re.search(r"\n    \$ out/segdag log -- run\n((?:    .*\n)+)", (TOP / "README.md").read_text())
    lines = [line[4:] for line in block[1].splitlines()] if block else []
    typed, wanted = ([line for line in lines if bool(re.match(r"\d+ [a-z]", line)) == is_typed] for is_typed in (True, False))
    folder = FOLDER / "session"
    shutil.rmtree(folder, ignore_errors=True)
    folder.mkdir()
    answered = said("segdag", "log", "--", "run", input="\n".join(typed) + "\n", cwd=folder, env=environment)
    must(typed and answered.splitlines() == wanted, f"README's session is answered by {answered}")


def c_program(root: Path, library: Path, environment: dict[str, str]) -> None:
    """A program in C, by what pkg-config says; it finds the library by its name with a version."""
    cc = os.environ.get("CC", "cc")
    if not has("pkg-config", "for the library") or not has(cc, "for the library"):
        return
    asked = {**environment, "PKG_CONFIG_PATH": str(library / "pkgconfig")}
    if root / "usr/lib" in library.parents:
        asked["PKG_CONFIG_SYSROOT_DIR"] = str(root)
    must(said("pkg-config", "--modversion", "segdag", env=asked).strip() == VERSION, "pkg-config has another version")
    flags = said("pkg-config", "--cflags", "--libs", "segdag", env=asked).split()
    built = FOLDER / f"{root.name}.example"
    said(cc, TOP / "bindings/examples/example.c", *flags, "-o", built, cwd=FOLDER)
    must("NEEDED               libsegdag.so.0\n" in said("objdump", "-p", built), "it isn't linked with libsegdag.so.0")
    told = said(built, FOLDER / f"{root.name}.log", env={**environment, "LD_LIBRARY_PATH": str(library)})
    must(told.splitlines()[-1] == 20 * "01", f"the example in C says {told}")
    source = FOLDER / "version.c"
    source.write_text('#include <segdag.h>\n#include <stdio.h>\nint main(void) { printf("%s %s\\n", SEGDAG_VERSION, segdag_version()); return 0; }\n')
    said(cc, source, *flags, "-o", built, cwd=FOLDER)
    told = said(built, env={**environment, "LD_LIBRARY_PATH": str(library)})
    must(told.split() == [VERSION, VERSION], f"the header and the library are of version {told}")
    print(f"{root.name}: a program in C is built by pkg-config, and runs")
    c_client(root, asked, environment)


CLIENT = """#include <segdag_client.h>
#include <stdio.h>
int main(int count, char **words) {
    segdag_client *client;
    segdag_client_reply reply;
    if (count < 2 || segdag_client_open(words[1], NULL, 5000, &client) || segdag_client_ask(client, "status", 6, &reply))
        return 1;
    puts(reply.last);
    segdag_client_close(client);
    return 0;
}
"""


def c_client(root: Path, asked: dict[str, str], environment: dict[str, str]) -> None:
    """The daemon's client in C, of the header and the source that are installed."""
    source, built = FOLDER / "client.c", FOLDER / f"{root.name}.client"
    source.write_text(CLIENT)
    flags = said("pkg-config", "--cflags", "segdag", env=asked).split()
    client = said("pkg-config", "--variable=pkgdatadir", "segdag", env=asked).strip() + "/segdag_client.c"
    if "PKG_CONFIG_SYSROOT_DIR" in asked and not client.startswith(str(root)):
        client = f"{root}{client}"
    said(os.environ.get("CC", "cc"), source, client, *flags, "-o", built, cwd=FOLDER)
    log, door = FOLDER / f"{root.name}.served", FOLDER / f"{root.name}.door"
    serving = subprocess.Popen(["segdagd", log, "--socket", door], env=environment)
    try:
        await_door(door, serving)
        must(said(built, door, env=environment) == "ok 0 0 0\n", "a client in C isn't answered")
    finally:
        serving.terminate()
    must(serving.wait() == 0, "segdagd ends badly")
    print(f"{root.name}: a client of the daemon in C is built of the installed files, and is answered")


# Logs in PostgreSQL.


USE = """#include <segdag_postgres.h>
#include <stdio.h>
int main(int count, char **words) {
    segdag_store *store;
    segdag_sizes sizes = SEGDAG_SIZES_INIT;
    if (count < 2 || segdag_postgres_open(words[1], "main", 1, &store) || segdag_session_sizes(store, 0, &sizes))
        return fprintf(stderr, "%s\\n", segdag_last_error()->text), 1;
    printf("%d\\n", (int)sizes.master);
    segdag_store_close(store);
    return 0;
}
"""


def database(root: Path, environment: dict[str, str]) -> None:
    """Logs in a database, by what the package for PostgreSQL installed."""
    sys.path.insert(0, str(TOP / "tests"))
    import postgres_lib

    must("usage: segdag-postgres" in said("segdag-postgres", status=2, env=environment), "segdag-postgres without words doesn't say what it takes")
    if postgres_lib.binaries() is None:
        print("untried postgres: there is no PostgreSQL server: Debian's is postgresql")
        return
    # A server whose tables are those of the installed files.
    postgres_lib.TABLES = root / "usr/share/segdag-postgres"
    place = FOLDER / "database"
    place.mkdir()
    FOLDER.chmod(0o777)
    place.chmod(0o777)
    server = postgres_lib.Server(place).make()
    try:
        over_database(root, environment, server)
    finally:
        server.kill()
    print("package: segdag-postgres, segdagd, git segdag, C and Python use a log in a database")


def over_database(root: Path, environment: dict[str, str], server: object) -> None:
    """Each tool over the log `main` of this server."""
    words = server.words()  # type: ignore[attr-defined]
    url = f"postgresql://writer@{quote(str(server.folder), safe='')}:{server.port}/logs"  # type: ignore[attr-defined]
    said("segdag-postgres", words, "main", "--", "create", env=environment)
    lines = "".join(f"0 {line}\n" for line in (f"add {'a' * 40}", f"flush {'a' * 40}"))
    must(said("segdag-postgres", words, "main", "--", "run", input=lines, env=environment) == "ok added N0\nok flushed 1 0\n", "a flush isn't one")
    repository = next(FOLDER.glob("package.repository"))
    where = {"cwd": repository, "env": environment}
    must(said("git", "segdag", "--log", f"{url}?log=main", "query", "all", **where).strip() == "a" * 40, "git segdag asks no log in a database")
    logs = {"LD_LIBRARY_PATH": str(root / MULTIARCH), **environment}
    served_root("package.database", {"cwd": FOLDER, "env": logs}, url)
    module = next(root.rglob("segdag_postgres.py")).parent
    asked = f"import segdag\nwith segdag.open({url!r}, log='main') as store: print(store.sizes().master)"
    python = {**logs, "PYTHONPATH": str(module), "SEGDAG_LIBRARY": "libsegdag_postgres.so.0"}
    must(said(sys.executable, "-c", asked, env=python, cwd=FOLDER) == "1\n", "Python opens no log in a database")
    cc = os.environ.get("CC", "cc")
    if not has("pkg-config", "for the library") or not has(cc, "for the library"):
        return
    source, built = FOLDER / "use.c", FOLDER / "use"
    source.write_text(USE)
    found = {**environment, "PKG_CONFIG_PATH": str(root / MULTIARCH / "pkgconfig"), "PKG_CONFIG_SYSROOT_DIR": str(root)}
    said(cc, source, *said("pkg-config", "--cflags", "--libs", "segdag_postgres", env=found).split(), "-o", built, cwd=FOLDER)
    must(said(built, words, env=logs) == "1\n", "a program in C opens no log in a database")


def pages(folder: Path, environment: dict[str, str], *wanted: str) -> None:
    """Each man page, or those that are wanted, is read by man, and `git help segdag` opens one."""
    if not has("man", "for the pages"):
        return
    reading = {**environment, "MANPATH": str(folder), "MANPAGER": "cat", "MANWIDTH": "80"}
    for page in wanted or PAGES:
        found = [*folder.glob(f"man*/{page}"), *folder.glob(f"man*/{page}.gz")]
        must(len(found) == 1, f"there are {len(found)} pages {page}")
        told = said("man", "-l", found[0], env=reading)
        must(re.search(r"^NAME\n +\S", told, re.MULTILINE) and f"segdag {VERSION}" in told, f"{page} is read as:\n{told[:600]}")
    must("GIT-SEGDAG(1)" in said("git", "help", "segdag", env=reading), "git help segdag opens no page")
    print(f"man opens {len(wanted or PAGES)} pages, and git help one")


def completed(file: Path, function: str, words: list[str], folder: Path, environment: dict[str, str]) -> list[str]:
    """What bash offers for the last of these words."""
    script = '. "$1"; function=$2; shift 2; COMP_WORDS=("$@"); COMP_CWORD=$(($# - 1)); "$function"; printf "%s\\n" "${COMPREPLY[@]}"'
    return said("bash", "--norc", "-c", script, "bash", file, function, *words, cwd=folder, env=environment).split()


def completions(share: Path, environment: dict[str, str]) -> None:
    """Commands, options and revisions are completed by bash, and all commands that the tool has are known."""
    repository = next(FOLDER.glob("*.repository"))
    folder = share / "bash-completion/completions"

    def offered(name: str, *words: str) -> list[str]:
        function = {"git-segdag": "_git_segdag", "segdag-ssh": "_segdag_ssh"}.get(name, f"_{name}")
        return completed(folder / name, function, list(words), repository, environment)

    must(offered("git-segdag", "git", "segdag", "merge") == ["merge-base"], "`git segdag merge` isn't completed")
    must(offered("git-segdag", "git-segdag", "merge-base", "--a") == ["--all"], "`merge-base --a` isn't completed")
    must(offered("git-segdag", "git", "segdag", "rev-list", "--coun") == ["--count"], "`rev-list --coun` isn't completed")
    must(offered("git-segdag", "git", "segdag", "for-each-ref", "--no-c") == ["--no-contains"], "`for-each-ref --no-c` isn't completed")
    must(offered("git-segdag", "git", "segdag", "describe", "to") == ["topic"], "a revision of describe isn't completed")
    must(offered("git-segdag", "git", "segdag", "--log", "some.log", "conta") == ["contains"], "a question of another log isn't completed")
    must(offered("git-segdag", "git", "segdag", "--log", "x", "log", "to") == ["topic"], "a revision that another log is asked isn't completed")
    must(offered("git-segdag", "git", "segdag", "log", "main..to") == ["main..topic"], "a range isn't completed")
    must(offered("segdag", "segdag", "log", "--", "com") == ["compact"], "a mode isn't completed")
    must(offered("segdagd", "segdagd", "--so") == ["--socket"], "an option of segdagd isn't completed")
    sys.path.insert(0, str(TOP / "tools"))
    from segdag_tools.git.command import COMMANDS

    must(set(offered("git-segdag", "git", "segdag", "")) == {*COMMANDS, "--log", "--version"}, "not each command of git segdag is completed")
    options = set(re.findall(r"--[a-z-]+", said("segdagd", "--help", env=environment))) - {"--run-bytes", "--order"}
    must(set(offered("segdagd", "segdagd", "-")) == options | {"--help"}, "not each option of segdagd is completed")
    print("bash completes commands, options, modes and ranges")
    if has("zsh", "for its completions"):
        for name in ("_segdag", "_git-segdag"):
            said("zsh", "-n", share / "zsh/site-functions" / name)


# The kinds of installation.


def package() -> None:
    """The Debian package in an empty root."""
    if not has("dpkg", "for the package"):
        return
    root = FOLDER / "package"
    (root / "var/lib/dpkg").mkdir(parents=True)
    (root / "var/lib/dpkg/status").touch()
    before = files_below(root)
    install = ["dpkg", f"--root={root}", "--force-depends", "--force-not-root", f"--log={FOLDER}/dpkg.log"]
    said(*install, "--install", DIST / f"segdag_{VERSION}_amd64.deb")
    environment = outside(root / "usr/bin")
    commands(root, environment)
    c_program(root, root / MULTIARCH, environment)
    pages(root / "usr/share/man", environment)
    completions(root / "usr/share", environment)
    if HAS_POSTGRES:
        said(*install, "--install", DIST / f"segdag-postgres_{VERSION}_amd64.deb")
        database(root, environment)
        pages(root / "usr/share/man", environment, "segdag-postgres.1")
        modes = completed(root / "usr/share/bash-completion/completions/segdag-postgres", "_segdag_postgres", ["segdag-postgres", "x", "--", "ex"], FOLDER, environment)
        must(modes == ["export"], f"a mode of segdag-postgres is completed by {modes}")
        said(*install, "--purge", "segdag-postgres")
    said(*install, "--purge", "segdag")
    left = [path for path in files_below(root) if path not in before and not path.startswith("var/lib/dpkg/")]
    must(not left, f"the package leaves {left}")
    print("the package is taken away, and leaves nothing")


def tarball() -> None:
    """The tarball, moved to another place after it was unpacked."""
    unpacked, moved = FOLDER / f"segdag-{VERSION}-linux-x86_64", FOLDER / "moved"
    said("tar", "-xzf", DIST / f"{unpacked.name}.tar.gz", "-C", FOLDER)
    unpacked.rename(moved)
    environment = outside(moved / "bin")
    commands(moved, environment)
    c_program(moved, moved / "lib", environment)


def wheel() -> None:
    """The wheel in a virtual environment: the example runs, and nothing is left of it behind."""
    place = FOLDER / "environment"
    environment = outside()
    if subprocess.run([sys.executable, "-m", "venv", place], env=environment, capture_output=True).returncode != 0:
        print("untried venv: this Python makes no virtual environment")
        return
    pip = [place / "bin/python", "-m", "pip", "--quiet", "--disable-pip-version-check"]
    before = files_below(place)
    said(*pip, "install", "--no-index", "--no-deps", next(DIST.glob("*.whl")), env=environment)
    told = said(place / "bin/python", TOP / "bindings/examples/example.py", FOLDER / "wheel.log", env=environment, cwd=FOLDER)
    must(told.splitlines()[-1].startswith("refused: unknown 0"), f"the example in Python says {told}")
    there = said(place / "bin/python", "-c", "import segdag; print(segdag.__version__, segdag.__file__)", env=environment, cwd=FOLDER).split()
    must(there[0] == VERSION and there[1].startswith(str(place)), f"the module is {there}")
    said(*pip, "uninstall", "--yes", "segdag", env=environment)
    left = [path for path in files_below(place) if path not in before and "__pycache__" not in path]
    must(not left, f"the wheel leaves {left}")
    said_there = re.search(r'^version = "(.*)"$', (TOP / "bindings/python/pyproject.toml").read_text(), re.MULTILINE)
    must(said_there and said_there[1] == VERSION, "bindings/python/pyproject.toml has another version")
    print("the wheel is installed, used and taken away, and leaves nothing")


def made() -> None:
    """`make install` below a DESTDIR: its Python module finds its own library, and `make uninstall` leaves no file."""
    root, copy = FOLDER / "made", FOLDER / "one folder"
    words = [sys.executable, "packaging/install.py"]
    where = ["--prefix", "/opt/segdag", "--destdir", root, "--program", PROGRAM, "--library", LIBRARY]
    told = said(*words, "install", *where, cwd=copy)
    count = int(re.search(r"installed: (\d+) files", told)[1])
    must(len(files_below(root)) == count, f"{count} files were told, and {len(files_below(root))} are there")
    must(not any(str(root).encode() in path.read_bytes() for path in root.rglob("*") if path.is_file()), "a file names the folder DESTDIR")
    environment = outside(root / "opt/segdag/bin")
    module = next(root.rglob("segdag/__init__.py")).parent.parent
    asked = "import segdag; print(segdag.__version__)"
    must(said(sys.executable, "-c", asked, env={**environment, "PYTHONPATH": str(module)}, cwd=FOLDER).strip() == VERSION, "the module finds no library")
    must(f"removed: {count} files" in said(*words, "uninstall", *where, cwd=copy), "not each file is removed")
    must(files_below(root) == [] and not (root / "opt/segdag/lib/segdag").exists(), f"{files_below(root)} are left")
    missing = said(*words, "install", *where[:-1], FOLDER / "nowhere", cwd=copy, status=1)
    must("make lib-try" in missing and files_below(root) == [], f"without a library it says {missing}")
    print(f"make install puts {count} files, and make uninstall takes them away")


# The rule by which tools find the program, and `make run`.


FINDER = """import sys
from segdag_tools import found, refused
try:
    print(found.program())
except refused.Refused as told:
    sys.exit(str(told))
"""


def found() -> None:
    """Each tool finds the program by one rule: SEGDAG, the installation, the checkout, the PATH."""
    copy = FOLDER / "found"
    copy.mkdir()
    shutil.copytree(TOP / "tools/segdag_tools", copy / "tools/segdag_tools", ignore=shutil.ignore_patterns("__pycache__"))
    shutil.copy(TOP / "VERSION", copy)
    elsewhere = FOLDER / "elsewhere"
    elsewhere.mkdir()
    finder = [sys.executable, "-c", FINDER]
    environment = {**outside(elsewhere), "PYTHONPATH": str(copy / "tools")}

    def finds(wanted: Path, **more: str) -> None:
        path = said(*finder, env={**environment, **more}).strip()
        must(path == str(wanted), f"{path} is found in place of {wanted}")

    missing = said(*finder, env=environment, status=1)
    must(f"`make build` in {copy}" in missing and "SEGDAG" in missing, f"without a program it says {missing}")
    (elsewhere / "segdag").symlink_to(PROGRAM)
    finds(elsewhere / "segdag")
    (copy / "out").mkdir()
    shutil.copy(PROGRAM, copy / "out/segdag")
    finds(copy / "out/segdag")
    proved = copy / "crates/segdag/out"
    proved.mkdir(parents=True)
    shutil.copy(PROGRAM, proved / "segdag")
    os.utime(copy / "out/segdag", (1, 1))
    finds(proved / "segdag")
    os.utime(proved / "segdag", (0, 0))
    finds(copy / "out/segdag")
    finds(elsewhere / "segdag", SEGDAG="segdag")
    finds(PROGRAM, SEGDAG=str(PROGRAM))
    shutil.copy(TOP / "tools/segdagd", copy / "tools")
    daemon = [sys.executable, copy / "tools/segdagd", "--socket", elsewhere / "socket"]
    must("segdagd-many isn't there" in said(*daemon, "--root", elsewhere, env=environment, status=1), "segdagd --root doesn't say what it lacks")
    url = "postgresql:///logs?host=/run&user=forge"
    for root in (("--root", url), (f"--root={url}",)):
        must("segdagd-many-postgres isn't there" in said(*daemon, *root, env=environment, status=1), "segdagd --root of a database asks another program")
    must("no program segdag-postgres" in said(*daemon, "--postgres", "", "main", env=environment, status=1), "segdagd --postgres doesn't say what it lacks")
    must("/dev/null isn't there" in said(*finder, env={**environment, "SEGDAG": "/dev/null"}, status=1), "SEGDAG may name what is no program")
    print("the program is found by SEGDAG, in the checkout, and on the PATH")


def sample() -> None:
    """`make run` says in its last line whether the program was a proved one, and takes no proved one that is older than the text."""
    copy = FOLDER / "sample"
    for name in ("stdin", "stdout"):
        (copy / "crates/segdag/src").mkdir(parents=True, exist_ok=True)
        shutil.copy(TOP / "crates/segdag" / name, copy / "crates/segdag")
    for name in ("tools/run_sample.sh", "packaging/sums.sh"):
        (copy / name).parent.mkdir()
        shutil.copy(TOP / name, copy / name)
    for name in ("crates.txt", "HANDLES", "crates/segdag/src/main.rt", "crates/segdag/specs/Lib.antt", "crates/segdag/proofs/Lib.antt"):
        (copy / name).parent.mkdir(exist_ok=True)
        (copy / name).touch()
    proved = copy / "crates/segdag/out/segdag"

    def last() -> str:
        return said("sh", "tools/run_sample.sh", cwd=copy).splitlines()[-1]

    for program in (copy / "out/segdag", proved):
        program.parent.mkdir()
        shutil.copy(PROGRAM, program)
    must("this was the proved program" in last(), f"beside a proved program it ends with: {last()}")
    os.utime(proved, (1, 1))
    must("this was the unproved program" in last() and "make proved" in last(), f"beside an old proved program it ends with: {last()}")
    (copy / "out/proved").write_text(said("sh", "packaging/sums.sh", cwd=copy))
    must("this was the proved program" in last(), f"beside a program whose text has the sums that were proved it ends with: {last()}")
    (copy / "crates/segdag/specs/Lib.antt").write_text("changed\n")
    must("this was the unproved program" in last(), f"where a definition was changed it ends with: {last()}")
    (copy / "crates/segdag/stdout").write_text("other replies\n")
    must("these aren't the replies" in said("sh", "tools/run_sample.sh", cwd=copy, status=1), "other replies than are wanted are taken")
    print("make run says which program it ran")


KIT = {
    "bin/rtlib.py": "",
    # As the kit's own: it calls the clang of the folder that it stands in, in a folder of its own.
    "bin/rt": """#!/bin/sh
kit=$(cd "$(dirname "$0")/.." && pwd)
case $1 in doc) echo "$kit/START-HERE.md" && exit ;; esac
[ -z "${BREAKS:-}" ] || { echo 'this crate is refused' && exit 1; }
folder=$(mktemp -d) && cd "$folder" && echo 'define x sanitize_address' > module.bc
"$kit/toolchain/bin/clang" -c module.bc -o module.o -O0
"$kit/toolchain/bin/clang" -c module.bc -o module.o -O0 -fsanitize=address
status=$?
rm -r "$folder"
exit $status
""",
    "toolchain/bin/clang": """#!/bin/sh
case " $* " in *" -O2 "*) sleep "${SLEEPS:-1.5}" ;; esac
while [ $# -gt 0 ]; do
    case $1 in -o) out=$2 && shift ;; -*) ;; *) in=$1 ;; esac
    shift
done
cp "$in" "$out"
""",
}


def built() -> None:
    """The script that makes an unproved module: what it keeps of a kit's try, what it says where there is none, and its progress."""
    kit, temporary, module = FOLDER / "kit", FOLDER / "temporary", FOLDER / "object"
    for name, text in KIT.items():
        (kit / name).parent.mkdir(parents=True, exist_ok=True)
        (kit / name).write_text(text)
        (kit / name).chmod(0o755)
    (kit / "bin/rattle").write_text("#!/bin/sh\nexit 1\n")
    temporary.mkdir()
    words = ["sh", TOP / "tools/unproved_module.sh", TOP / "crates/segdag", module, "--", "log"]
    environment = {**os.environ, "RT": str(kit / "bin/rt"), "TMPDIR": str(temporary)}
    must(said(*words, env=environment) == "" and module.read_text() == "define x\n", "elsewhere than on a terminal it says something, or keeps another module")
    told = on_terminal(words, environment)
    must("1 of 2, reading segdag" in told and "2 of 2, compiling it: 1 s" in told, f"a terminal is told {told!r}")
    refused = said(*words, env={**environment, "BREAKS": "1"}, status=1)
    must("this crate is refused" in refused and "made no module" in refused, f"where there is no module it says {refused}")
    for number, status in ((signal.SIGTERM, 143), (signal.SIGINT, 130)):
        ended = on_terminal(words, {**environment, "SLEEPS": "60"}, number, status)
        must("2 of 2" in ended, f"it was to be ended amid its work, and told {ended!r}")
    must(not any(temporary.glob("*")), f"{list(temporary.glob('*'))} are left")
    print("an unproved module is kept of a kit's try, with progress on a terminal alone")


def on_terminal(words: list[object], environment: dict[str, str], number: int = 0, status: int = 0) -> str:
    """What a command puts on a terminal. It and its children get this signal amid their work, where one is given."""
    ours, theirs = os.openpty()
    how = {"stdin": theirs, "stdout": theirs, "stderr": theirs, "env": environment, "start_new_session": True}
    # What a shell starts in the background ignores SIGINT, and hands that on.
    before = signal.signal(signal.SIGINT, signal.default_int_handler)
    try:
        done = subprocess.Popen([str(word) for word in words], **how)
    finally:
        signal.signal(signal.SIGINT, before)
    os.close(theirs)
    told = b""
    while True:
        if number and b"2 of 2" in told:
            os.killpg(done.pid, number)
            number = 0
        try:
            piece = os.read(ours, 4096)
        except OSError:
            break
        if not piece:
            break
        told += piece
    os.close(ours)
    must(done.wait() == status, f"on a terminal it ends with {done.returncode}: {told!r}")
    return told.decode()


PARTS: dict[str, Callable[[], None]] = {
    "found": found, "sample": sample, "built": built, "dist": dist, "package": package, "tarball": tarball, "wheel": wheel, "made": made,
}


def main() -> None:
    """Tries the parts that are named, or all. All but the first three stand on `dist`."""
    wanted = sys.argv[4:] or list(PARTS)
    if set(wanted) - {"found", "sample", "built"} and "dist" not in wanted:
        wanted.insert(0, "dist")
    for part in wanted:
        PARTS[part]()


main()
