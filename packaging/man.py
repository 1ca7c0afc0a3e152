#!/usr/bin/env python3
"""Makes the man pages of docs/ and of what the tools say of themselves, by pandoc: packaging/man.py FOLDER.

A page is a head of its own (what it is, how it is called) and sections of a page of docs/, as they stand there. Links between pages become names
of man pages or files of the installed documentation, and pictures go.
"""
from __future__ import annotations

import re
import subprocess
import sys
from pathlib import Path
from typing import Callable, NamedTuple

TOP = Path(__file__).resolve().parent.parent
sys.path.insert(0, str(TOP / "tools"))
sys.dont_write_bytecode = True
from segdag_tools import ssh  # noqa: E402  (the folder is on the path now)
from segdag_tools.git.command import USAGE  # noqa: E402

DOCS = TOP / "docs"
# Pandoc's markdown without what pages of docs/ don't use and their text could be taken for.
MARKDOWN = "markdown_strict+pipe_tables+backtick_code_blocks"
PAGE_OF = {"COMMANDS": "segdag(1)", "GUIDE": "git-segdag(1)", "DAEMON": "segdagd(1)", "CLIB": "segdag(3)", "FORMAT": "segdag-log(5)",
           "POSTGRES": "segdag-postgres(1)"}
LONGEST = 44  # letters of a table's cell from which on its column gets no wider


class Page(NamedTuple):
    """A man page: its name and section, what it is in a line, how it is called, and the text behind that."""

    name: str
    section: int
    what: str
    synopsis: Callable[[], str]
    text: Callable[[], str]


def read(path: str) -> str:
    """A file of the checkout."""
    return (TOP / path).read_text()


def sections(page: str, wanted: Callable[[str, str], bool] = lambda title, text: True) -> str:
    """What stands before a page's first section, and the sections that are wanted."""
    front, *parts = re.split(r"^## ", read(f"docs/{page}.md"), flags=re.MULTILINE)
    kept = [f"## {part}" for part in parts if wanted(*part.split("\n", 1))]
    return "## Description\n" + front.partition("\n")[2] + "".join(kept)


def block(text: str) -> str:
    """A text that stands as it is."""
    return "".join(f"    {line}\n" if line else "\n" for line in text.strip("\n").split("\n"))


def daemon_usage() -> str:
    """What `segdagd --help` says, which is a line of usage and the options."""
    words = [sys.executable, str(TOP / "tools/segdagd"), "--help"]
    return subprocess.run(words, env={"COLUMNS": "76", "PATH": "/usr/bin:/bin", "PYTHONDONTWRITEBYTECODE": "1"}, capture_output=True, text=True, check=True).stdout


def ssh_usage() -> str:
    """The lines of usage of segdag-ssh."""
    return ssh.USAGE


def git_sections() -> str:
    """What the tool says of its commands, and the sections of the guide that show it."""
    commands = re.sub(r"^ {4}(\S.*?) {2,}(\S.*)$", r"- **\1**: \2", USAGE.partition("\n\n")[2], flags=re.MULTILINE)
    shown = sections("GUIDE", lambda title, text: "git segdag" in text and title != "Before you begin")
    return f"## Commands\n\n{commands}\n" + re.sub(r"\A.*?(?=^## (?!Description))", "", shown, flags=re.MULTILINE | re.DOTALL)


PAGES = (
    Page("segdag", 1, "the commit graph of a large repository, in a store whose answers and crashes are proved",
         lambda: "segdag LOG [REMOTE]... -- MODE [--cache N] [--size N] [--start N] [--wait]", lambda: sections("COMMANDS")),
    Page("git-segdag", 1, "questions on the commit graph of a git repository, answered by segdag",
         lambda: "git segdag COMMAND [ARGUMENT]...\ngit segdag --version", git_sections),
    Page("segdagd", 1, "a segdag log for many processes",
         lambda: re.sub(r"\Ausage: ", "", daemon_usage().partition("\n\n")[0]),
         lambda: sections("DAEMON", lambda title, text: title != "What it takes") + "\n## Options\n\n" + block(daemon_usage().partition("\n\n")[2])),
    Page("segdag-ssh", 1, "a run of segdag beside a mirror on another machine", ssh_usage,
         lambda: sections("MANY", lambda title, text: title in ("A mirror behind a pipe", "Step by step", "Who serves"))),
    Page("segdag-postgres", 1, "a segdag log in a PostgreSQL database, for any number of machines",
         lambda: "segdag-postgres CONNINFO LOG [REMOTE]... -- MODE",
         lambda: sections("POSTGRES", lambda title, text: title not in ("The premises, beside those of a file", "How it is tested, and what it takes"))),
    Page("segdag", 3, "the commit graph store as a library for C",
         lambda: "#include <segdag.h>\n\ncc example.c $(pkg-config --cflags --libs segdag)",
         lambda: sections("CLIB") + "\n## The header\n\n" + block(read("bindings/c/segdag.h"))),
    Page("segdag-log", 5, "the file of a segdag store, byte by byte", lambda: "LOG", lambda: sections("FORMAT")),
)
# What each page names at its end.
ALL = [f"{page.name}({page.section})" for page in PAGES]


def link(found: re.Match[str]) -> str:
    """A link, as a reader of man pages can follow it."""
    text, aim = found[1], found[2]
    page = re.match(r"(?:\.\./)?(?:docs/)?([A-Z]+)\.md", aim)
    if aim.startswith("#"):
        return text
    if page and page[1] in PAGE_OF:
        return PAGE_OF[page[1]] if re.sub(r"\.md$", "", text) in aim else f"{text} ({PAGE_OF[page[1]]})"
    name = re.sub(r"^(\.\./)+|#.*", "", aim)
    return text if name in (text, f"{text}.md") else f"{text} ({name})"


def widened(found: re.Match[str]) -> str:
    """A table with as many dashes below its head as its columns' cells need."""
    rows = [re.split(r"(?<!\\)\|", line.strip())[1:-1] for line in found[0].strip().split("\n")]
    columns = [min(LONGEST, max(len(row[at].strip()) for row in rows if at < len(row))) for at in range(len(rows[1]))]
    rows[1] = ["-" * max(3, width) for width in columns]
    return "".join("|" + "|".join(row) + "|\n" for row in rows)


def plain(text: str) -> str:
    """A text of docs/ without what a man page can't have."""
    text = re.sub(r"^!\[.*?\]\(.*?\)$", "", text, flags=re.MULTILINE | re.DOTALL)
    text = re.sub(r"^```\S.*$", "```", text, flags=re.MULTILINE)
    # Where the page is read, the tools are installed.
    text = re.sub(r'sys\.path\.insert\(0, "tools"\); |(?:"?\$HERE"?/)?\btools/(?=segdag|git-segdag)', "", text)
    text = re.sub(r"\[([^\[\]]+)\]\(([^()\s]+)\)", link, text)
    return re.sub(r"^\|.*\n\|[-|: ]+\|\n(?:\|.*\n)*", widened, text, flags=re.MULTILINE)


def released() -> str:
    """The day of the newest version, as CHANGELOG.md has it."""
    found = re.search(r"^## \S+,? \(?(\d{4}-\d\d-\d\d)", read("CHANGELOG.md"), re.MULTILINE)
    return found[1] if found else ""


def made(page: Page, version: str) -> str:
    """A page as man reads it."""
    others = ", ".join(name for name in ALL if name != f"{page.name}({page.section})")
    text = f"# Name\n\n{page.name} - {page.what}\n\n# Synopsis\n\n{block(page.synopsis())}\n" + plain(re.sub(r"^##", "#", page.text(), flags=re.MULTILINE))
    text += f"\n# Version\n\nThis page is of segdag {version}.\n\n# See also\n\n{others}; the files of /usr/share/doc/segdag\n"
    kind = {1: "User commands", 3: "Library calls", 5: "File formats"}[page.section]
    head = ["--metadata", f"title={page.name.upper()}", "--metadata", f"section={page.section}", "--metadata", f"footer=segdag {version}"]
    head += ["--metadata", f"header={kind}", "--metadata", f"date={released()}"]
    words = ["pandoc", "--standalone", "--from", MARKDOWN, "--to", "man", "--columns", "76", *head]
    text = re.sub(r"^# .*", lambda found: found[0].upper(), text, flags=re.MULTILINE)
    page_text = subprocess.run(words, input=text, capture_output=True, text=True, check=True).stdout
    # Pandoc's tables are a little wider than a line of a man page is in a terminal of 80 columns.
    return re.sub(r"lw\(([\d.]+)n\)", lambda found: f"lw({float(found[1]) * 0.85:.1f}n)", page_text)


def main() -> int:
    """Makes all pages in the folder."""
    folder, version = Path(sys.argv[1]), read("VERSION").strip()
    folder.mkdir(parents=True, exist_ok=True)
    try:
        for page in PAGES:
            (folder / f"{page.name}.{page.section}").write_text(made(page, version))
    except FileNotFoundError:
        print("man: pandoc, which makes the man pages, wasn't found: `apt-get install pandoc`", file=sys.stderr)
        return 1
    print(f"man: {len(PAGES)} pages in {folder}")
    return 0


if __name__ == "__main__":
    sys.exit(main())
