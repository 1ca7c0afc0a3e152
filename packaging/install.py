#!/usr/bin/env python3
"""Installs what `make run` and `make lib-try` (or `make proved` and `make lib`) built, or takes it away again.

    packaging/install.py install|uninstall --prefix /usr/local [--destdir FOLDER] [--libdir FOLDER] [--pythondir FOLDER]

Files go below the prefix, and the whole below --destdir where one is given. Nothing that is installed names --destdir.
--program and --library say what is installed in place of what was built here. Man pages are installed where they were made (`make man`), and
logs in PostgreSQL where their program was built (`make postgres-try` or `make postgres`); --part says which of both, where it isn't all.
"""
from __future__ import annotations

import argparse
import os
import re
import shutil
import site
import subprocess
import sys
from pathlib import Path
from typing import Iterator, NamedTuple, Union

TOP = Path(__file__).resolve().parent.parent
PROGRAMS = ("git-segdag", "segdag-ssh", "segdagd")
COMPLETIONS = ("segdag", "segdagd", "segdag-ssh", "git-segdag")
PAGES = ("segdag.1", "git-segdag.1", "segdagd.1", "segdag-ssh.1", "segdag.3", "segdag-log.5")
# Of the tools' package what a client of the daemon is made of.
CLIENT = ("__init__.py", "lines.py", "refused.py", "py.typed")
# Folders that are nobody else's, and go with what is in them. Others, as bin, stay.
OWN = ("lib/segdag", "share/segdag", "share/segdag-postgres", "share/doc/segdag")
PARTS = ("segdag", "segdag-postgres")

# The tools' own modules say what is completed; nothing is to be left beside them.
sys.path.insert(0, str(TOP / "tools"))
sys.dont_write_bytecode = True


class Entry(NamedTuple):
    """One installed file: its path below the prefix, and what it is."""

    path: str
    content: Union[Path, str, bytes]  # a file to copy, the aim of a link, or bytes
    mode: int = 0o644


class Wrong(Exception):
    """What keeps this from its work, in a sentence."""


def version() -> str:
    """The version, of the file that has it."""
    return (TOP / "VERSION").read_text().strip()


def proved_and_current() -> bool:
    """Whether the proved program is built of this text: what was proved last has the sums of these files, or no source is newer."""
    program = TOP / "crates/segdag/out/segdag"
    if not program.exists():
        return False
    sums = subprocess.run(["sh", "packaging/sums.sh"], cwd=TOP, stdout=subprocess.PIPE, text=True, check=True).stdout
    records = (TOP / "out/proved", TOP / "out/gate")
    if any(record.exists() and record.read_text() == sums for record in records):
        return True
    built = program.stat().st_mtime
    sources = [TOP / "crates.txt"]
    for kind in ("src", "specs", "proofs"):
        sources += TOP.glob(f"crates/*/{kind}/**/*.*")
    return all(source.stat().st_mtime <= built for source in sources)


def built_program() -> Path:
    """The program to install: the proved one where it is built of this text, else the unproved one."""
    return TOP / ("crates/segdag/out/segdag" if proved_and_current() else "out/segdag")


def must_exist(path: Path, advice: str) -> Path:
    """The path, where a file is there."""
    if not path.is_file():
        raise Wrong(f"{path} doesn't exist: {advice}")
    return path


def python_folder(prefix: str) -> str:
    """Where Python looks for modules below the prefix; Debian's name for it where this Python looks at none."""
    for folder in site.getsitepackages():
        if folder.startswith(prefix.rstrip("/") + "/") and folder.endswith("-packages"):
            return os.path.relpath(folder, prefix)
    return "lib/python3/dist-packages"


def relative(path: str, prefix: str) -> str:
    """A folder's path below the prefix."""
    if not os.path.isabs(path):
        return path
    inside = os.path.relpath(path, prefix)
    if inside.startswith(".."):
        raise Wrong(f"{path} isn't below the prefix {prefix}")
    return inside


def git_commands() -> dict[str, str]:
    """The commands of `git segdag`, each with what it does, as the tool says."""
    from segdag_tools.git.command import USAGE  # pylint: disable=import-error,import-outside-toplevel

    found: dict[str, str] = {}
    for word, text in re.findall(r"^ {4}([a-z-]+)\b.*? {2,}(\S.*)$", USAGE, re.MULTILINE):
        found.setdefault(word, text.replace("'", "'\\''").replace(":", ","))
    return found


def git_questions() -> list[str]:
    """The commands of `git segdag` that take revisions."""
    from segdag_tools.git.command import ASKED  # pylint: disable=import-error,import-outside-toplevel

    return [word for word in ASKED if word != "for-each-ref"]


def git_options() -> dict[str, tuple[str, ...]]:
    """The options of the commands of `git segdag`, as the tool's own modules have them."""
    from segdag_tools.git import bases, describe, graph, lists, revlist  # pylint: disable=import-error,import-outside-toplevel

    def valued(*names: str) -> tuple[str, ...]:
        return tuple(f"{name}=" for name in names)

    many = ("--all", "--branches", "--tags", "--remotes", *valued("--glob"))
    return {
        "merge-base": ("--all", *bases.FORMS),
        "log": many,
        "rev-list": (*revlist.FLAGS, *valued(*revlist.NUMBERS), *many),
        "for-each-ref": (*lists.FILTERS, *lists.ALONE, *valued("--format", "--count", *lists.GITS)),
        "describe": (*describe.ALONE, *valued(*describe.VALUES)),
        "graph": (*graph.FLAGS, *valued(*revlist.NUMBERS), *many),
        "status": ("--json", "-z"),
        "verify": ("--fix",),
    }


def daemon_options() -> dict[str, tuple[str, bool]]:
    """The options of segdagd, but for those of its tests: each with what it does, and whether it takes a value."""
    text = (TOP / "tools/segdag_tools/daemon/command.py").read_text()
    found = {"--help": ("show the usage", False), "--version": ("show the version", False), "--root": ("serve the logs below a folder", True)}
    for word, more in re.findall(r"option\(\"(--[a-z-]+)\", (.*)\)$", text, re.MULTILINE):
        told = re.search(r"help=\"(.*?)\"", more)
        if told and not told[1].startswith("for tests"):
            found[word] = (re.sub(r"['\[\]:]", " ", told[1]), "store_true" not in more)
    return found


class Layout:
    """What goes where."""

    def __init__(self, options: argparse.Namespace) -> None:
        self.prefix = os.path.abspath(options.prefix)
        self.libdir = relative(options.libdir or "lib", self.prefix)
        self.pythondir = relative(options.pythondir or python_folder(self.prefix), self.prefix)
        self.program = Path(options.program) if options.program else built_program()
        self.library = Path(options.library) if options.library else TOP / "out"
        self.version = version()
        self.is_relocatable = options.relocatable
        self.part = options.part

    def entries(self) -> Iterator[Entry]:
        """Everything that may be installed."""
        yield from self.commands()
        yield from self.c_library()
        yield from self.shared()
        yield from self.postgres()

    def wanted(self) -> list[Entry]:
        """What is installed of it: the part that was asked for, or all that was built, but for what is optional and wasn't made."""
        program = self.library / "segdag-postgres"
        has_postgres = self.part == "segdag-postgres" or (self.part is None and program.exists())
        if has_postgres:
            must_exist(program, "`make postgres-try` builds it in three minutes, `make postgres` over the proved library")
        own = [] if self.part == "segdag-postgres" else [*self.commands(), *self.c_library(), *self.shared()]
        found = own + (list(self.postgres()) if has_postgres else [])
        return [entry for entry in found if not is_optional(entry) or Path(entry.content).exists()]

    def commands(self) -> Iterator[Entry]:
        """The program and the tools. Those stand in a folder of their own with their modules, and in bin by a link."""
        yield Entry("bin/segdag", self.program, 0o755)
        for name in PROGRAMS:
            # The quick way of `git segdag` stands in front of it, where it was built.
            front = self.library / name
            yield Entry(f"bin/{name}", front if front.exists() else f"../lib/segdag/{name}", 0o755)
            yield Entry(f"lib/segdag/{name}", TOP / "tools" / name, 0o755)
        yield Entry("lib/segdag/segdagd-many", self.library / "segdagd-many", 0o755)
        yield Entry("lib/segdag/VERSION", TOP / "VERSION")
        for module in sorted([*TOP.glob("tools/segdag_tools/**/*.py"), TOP / "tools/segdag_tools/py.typed"]):
            yield Entry(f"lib/segdag/{module.relative_to(TOP / 'tools')}", module)

    def c_library(self) -> Iterator[Entry]:
        """The library for C, with its header and what pkg-config reads; a client of the daemon in C, as its two files; the packages for Python: the
        store, and a client of the daemon."""
        yield from self.archives("libsegdag")
        for header in ("segdag.h", "segdag_core.h"):
            yield Entry(f"include/{header}", self.library / header)
        yield Entry("include/segdag_client.h", TOP / "bindings/client/segdag_client.h")
        yield Entry("share/segdag/segdag_client.c", TOP / "bindings/client/segdag_client.c")
        yield Entry(f"{self.libdir}/pkgconfig/segdag.pc", self.filled("segdag.pc.in"))
        for module in sorted((TOP / "bindings/python/segdag").glob("*.*")):
            yield Entry(f"{self.pythondir}/segdag/{module.name}", module)
        for name in CLIENT:
            yield Entry(f"{self.pythondir}/segdag_tools/{name}", TOP / "tools/segdag_tools" / name)

    def archives(self, name: str) -> Iterator[Entry]:
        """A library as an archive and a shared one, with the links by which it is found."""
        shared, major = f"{name}.so.{self.version}", self.version.partition(".")[0]
        yield Entry(f"{self.libdir}/{name}.a", self.library / f"{name}.a")
        yield Entry(f"{self.libdir}/{shared}", self.library / f"{name}.so")
        yield Entry(f"{self.libdir}/{name}.so.{major}", shared)
        yield Entry(f"{self.libdir}/{name}.so", shared)

    def postgres(self) -> Iterator[Entry]:
        """Logs in PostgreSQL: the program, the server of many logs over a database, the library with its header, the module, and the tables."""
        yield Entry("bin/segdag-postgres", self.library / "segdag-postgres", 0o755)
        yield Entry("lib/segdag/segdagd-many-postgres", self.library / "segdagd-many-postgres", 0o755)
        yield from self.archives("libsegdag_postgres")
        yield Entry("include/segdag_postgres.h", TOP / "bindings/postgres/segdag_postgres.h")
        yield Entry(f"{self.libdir}/pkgconfig/segdag_postgres.pc", self.filled("segdag_postgres.pc.in"))
        yield Entry(f"{self.pythondir}/segdag_postgres.py", TOP / "bindings/postgres/segdag_postgres.py")
        for name in ("schema.sql", "rights.sql"):
            yield Entry(f"share/segdag-postgres/{name}", TOP / "bindings/postgres" / name)
        yield Entry("share/man/man1/segdag-postgres.1", TOP / "out/man/segdag-postgres.1")
        yield Entry("share/bash-completion/completions/segdag-postgres", self.filled("completions/segdag-postgres"))

    def shared(self) -> Iterator[Entry]:
        """Pages, completions, units and licences."""
        for page in PAGES:
            yield Entry(f"share/man/man{page[-1]}/{page}", TOP / "out/man" / page)
        for name in COMPLETIONS:
            yield Entry(f"share/bash-completion/completions/{name}", self.filled(f"completions/{name}"))
        for name in ("_segdag", "_git-segdag"):
            yield Entry(f"share/zsh/site-functions/{name}", self.filled(f"completions/{name}"))
        for unit in ("segdagd.service", "segdagd.socket"):
            text = (TOP / "tools" / unit).read_text()
            if not self.is_relocatable:
                text = text.replace("%h/bin/", f"{self.prefix}/bin/")
            yield Entry(f"lib/systemd/user/{unit}", text.encode())
        for name in ("LICENSE-MIT", "LICENSE-APACHE", "README.md", "CHANGELOG.md", "SECURITY.md"):
            yield Entry(f"share/doc/segdag/{name}", TOP / name)
        yield Entry("share/doc/segdag/NOTICES", TOP / "out/NOTICES")
        for page in [*sorted(TOP.glob("docs/*.md")), TOP / "docs/sample.stream"]:
            yield Entry(f"share/doc/segdag/docs/{page.name}", page)

    def filled(self, name: str) -> bytes:
        """A template of packaging/ with its places filled in."""
        prefix = "${pcfiledir}/" + os.path.relpath(".", f"{self.libdir}/pkgconfig") if self.is_relocatable else self.prefix
        known = {"PREFIX": prefix, "LIBDIR": self.libdir, "VERSION": self.version}
        known["COMMANDS"] = " ".join(git_commands())
        options = daemon_options()
        known["OPTIONS"] = " ".join(options)
        known["ARGUMENTS"] = " ".join(f"'{word}[{told}]{':value:_files' if takes else ''}'" for word, (told, takes) in options.items())
        taken = {word: " ".join(dict.fromkeys(those)) for word, those in git_options().items()}
        known["TAKEN"] = "\n".join(f"        {word},-*) COMPREPLY=($(compgen -W '{those}' -- \"$word\")) ;;" for word, those in taken.items())
        known["ADDED"] = "\n".join(f"    {word}) compadd -- {those} ;;" for word, those in taken.items())
        known["ASKED"] = " | ".join(git_questions())
        known["MATCHED"] = " | ".join(f"{word},*" for word in git_questions())
        known["DESCRIBED"] = "\n".join(f"    '{word}:{told}'" for word, told in git_commands().items())
        text = (TOP / "packaging" / name).read_text()
        return re.sub(r"@([A-Z]+)@", lambda found: known[found[1]], text).encode()


def install(layout: Layout, root: Path) -> int:
    """Puts each file in its place; how many there are. Nothing is put where one is missing, but for what is optional."""
    if layout.part != "segdag-postgres":
        must_exist(layout.program, "`make run` builds the program in three minutes, `make proved` proves it")
        must_exist(layout.library / "libsegdag.so", "`make lib-try` builds the library in three minutes, `make lib` proves it")
    entries = layout.wanted()
    for entry in entries:
        if isinstance(entry.content, Path):
            must_exist(entry.content, "the checkout is incomplete")
    for entry in entries:
        put(entry, root / entry.path)
    return len(entries)


def is_optional(entry: Entry) -> bool:
    """Whether this is there only where it was built: by `make man`, with pandoc and the kit, or over the library."""
    return "/man/" in entry.path or entry.path.endswith(("/NOTICES", "/segdagd-many", "/segdagd-many-postgres"))


def put(entry: Entry, path: Path) -> None:
    """One file, in place of what is there. A program that runs goes on with the file that it has."""
    path.parent.mkdir(parents=True, exist_ok=True)
    new = path.with_name(path.name + ".new")
    new.unlink(missing_ok=True)
    if isinstance(entry.content, str):
        new.symlink_to(entry.content)
    else:
        content = entry.content if isinstance(entry.content, bytes) else entry.content.read_bytes()
        new.write_bytes(content)
        new.chmod(entry.mode)
    new.replace(path)


def uninstall(layout: Layout, root: Path) -> int:
    """Takes each file away that an installation puts, and what Python left beside it; how many there were."""
    count = 0
    for path in (root / entry.path for entry in layout.entries()):
        if path.is_symlink() or path.exists():
            path.unlink()
            count += 1
    for cache in (root / layout.pythondir / "__pycache__").glob("segdag_postgres.*.pyc"):
        cache.unlink()
    for folder in (*OWN, f"{layout.pythondir}/segdag", f"{layout.pythondir}/segdag_tools"):
        shutil.rmtree(root / folder, ignore_errors=True)
    return count


def options_of(words: list[str]) -> argparse.Namespace:
    """The words of the command line."""
    parser = argparse.ArgumentParser(description="Installs segdag, or takes it away.")
    parser.add_argument("work", choices=("install", "uninstall"))
    parser.add_argument("--prefix", default="/usr/local", help="install below this folder (/usr/local)")
    parser.add_argument("--destdir", default="", help="a folder to use in place of /, to make a package")
    parser.add_argument("--libdir", help="where the C library goes, below the prefix (lib)")
    parser.add_argument("--pythondir", help="where the Python module goes, below the prefix")
    parser.add_argument("--relocatable", action="store_true", help="make an installation that can be moved: no file names its place")
    parser.add_argument("--program", help="the program to install, instead of the one that was built here")
    parser.add_argument("--library", help="the folder of the libraries that were built, instead of out")
    parser.add_argument("--part", choices=PARTS, help="install only this part; by default all that was built")
    return parser.parse_args(words)


def main() -> int:
    """Does what the words say, and tells it in one line."""
    options = options_of(sys.argv[1:])
    try:
        layout = Layout(options)
        root = Path(os.path.abspath(options.destdir) + layout.prefix) if options.destdir else Path(layout.prefix)
        count = install(layout, root) if options.work == "install" else uninstall(layout, root)
    except Wrong as wrong:
        print(f"install: {wrong}", file=sys.stderr)
        return 1
    except OSError as error:
        print(f"install: {error.filename}: {error.strerror}", file=sys.stderr)
        return 1
    done = "installed" if options.work == "install" else "removed"
    print(f"{done}: {count} files below {root}")
    if options.work == "install":
        print(advice(options, layout))
    return 0


def advice(options: argparse.Namespace, layout: Layout) -> str:
    """What was installed, and what wasn't."""
    kind = "the given one" if options.program else "proved" if proved_and_current() else "unproved"
    text = f"the program, {layout.program}, is {kind}; the Python modules are in {layout.prefix}/{layout.pythondir}"
    if not (TOP / "out/man" / PAGES[0]).exists():
        text += "\nno man pages were installed: `make man` makes them, with pandoc"
    return text


if __name__ == "__main__":
    sys.exit(main())
