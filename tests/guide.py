"""The parts of guide.sh: guide.py PART PROGRAM FOLDER. Each ends with status 1 where something else was answered.

`guide.py write PROGRAM FOLDER` writes into the pages what their commands answer now, to be read before it is committed.
"""
import difflib
import re
import shutil
import subprocess
import sys

from guide_answers import answers, octopuses, shapes
from guide_daemon import daemons
from guide_elsewhere import elsewhere
from guide_enemies import enemies
from guide_files import files
from guide_graph import graphs
from guide_hook import hooks
from guide_kinds import kinds
from guide_large import given, kernel, large
from guide_lib import FOLDER, HANGS, PROGRAM, TOP, environment, fail
from guide_log import killed, logs, published
from guide_many import many
from guide_quick import quick
from guide_refusals import faults, refusals
from guide_shared import shared
from guide_told import told
from guide_truth import truth
from guide_typed import typed

PAGES = ("docs/GUIDE.md", "docs/COMMANDS.md", "docs/MANY.md")
SHELL = {"stdout": subprocess.PIPE, "stderr": subprocess.STDOUT, "text": True, "timeout": HANGS}


def is_run(fence):
    """Whether the commands of a block are run: of one `console` they are, and of one `console with TOOL` where the tool is there."""
    words = fence[3:].split()
    return words[:1] == ["console"] and all(shutil.which(tool) for tool in words[2:])


def transcripts_of(text):
    """The sections of a page, each a list of commands with the lines that follow them: where each stands, command, lines."""
    sections, inside = [], False
    for at, line in enumerate(text.splitlines()):
        if line.startswith("## "):
            sections.append([])
        if line.startswith("```"):
            inside = is_run(line)
        elif inside and line.startswith("$ "):
            sections[-1].append((at, line[2:], []))
        elif inside and line.startswith("> ") and not sections[-1][-1][2]:
            at, command, lines = sections[-1][-1]
            sections[-1][-1] = (at, command + "\n" + line[2:], lines)
        elif inside:
            sections[-1][-1][2].append(line)
    return [section for section in sections if section]


def played(folder, section):
    """What the commands of a section answer, one after another in one shell, over an empty folder."""
    folder.mkdir(parents=True)
    mark = "== a mark between two commands =="
    script = "".join(f"{command}\necho '{mark}'\n" for _at, command, _lines in section)
    done = subprocess.run(["bash"], input=script, cwd=folder, env=environment(), **SHELL)
    return [part.splitlines() for part in done.stdout.split(mark + "\n")[:-1]]


def session():
    """The session of README's first screen, typed after `make build`: a line of the program begins with a session's number and a verb."""
    block = re.search(r"\n    \$ (out/segdag log -- run)\n((?:    .*\n)+)", (TOP / "README.md").read_text())
    if not block:
        fail("README.md has no session that begins with `out/segdag log -- run`")
    lines = [line[4:] for line in block.group(2).splitlines()]
    typed, wanted = ([line for line in lines if bool(re.match(r"\d+ [a-z]", line)) == is_typed] for is_typed in (True, False))
    folder = FOLDER / "readme"
    (folder / "out").mkdir(parents=True)
    (folder / "out/segdag").symlink_to(PROGRAM)
    done = subprocess.run(["bash", "-c", block.group(1)], input="\n".join(typed) + "\n", cwd=folder, env=environment(), **SHELL)
    if not typed or done.returncode != 0 or done.stdout.splitlines() != wanted:
        fail(f"README.md's session ends with status {done.returncode} and is answered by {done.stdout}")


def transcripts(writes=False):
    """The commands of the pages answer what stands there, and README's session too. Each section begins in an empty folder."""
    for page in PAGES:
        print(f"guide: {page_played(page, writes)} commands of {page} are answered as they stand there")
    session()


def page_played(page, writes):
    """How many commands a page has; where something else is answered this ends, or writes that into the page."""
    text = (TOP / page).read_text()
    lines, count, moved = text.splitlines(), 0, 0
    for number, section in enumerate(transcripts_of(text)):
        answered = played(FOLDER / f"{page}.{number}", section)
        if len(answered) != len(section):
            fail(f"{page}:{section[0][0] + 1}: only {len(answered)} of {len(section)} commands were run")
        for (at, command, wanted), given in zip(section, answered):
            first = at + moved + command.count("\n") + 1
            if writes:
                lines[first : first + len(wanted)] = given
                moved += len(given) - len(wanted)
            elif given != wanted:
                told = "\n".join(difflib.unified_diff(wanted, given, page, "what was answered", lineterm=""))
                fail(f"{page}:{at + 1}: {command}\n{told}")
            count += 1
    if writes:
        (TOP / page).write_text("\n".join(lines) + "\n")
    return count


PARTS = (
    answers, octopuses, shapes, kinds, typed, graphs, elsewhere, many, truth, files, told, refusals, faults, logs, published, shared, killed, enemies,
    daemons, hooks, quick, transcripts, large, kernel, given,
)
PARTS = {it.__name__: it for it in PARTS}
PARTS["write"] = lambda: transcripts(writes=True)
PARTS[sys.argv[1]]()
