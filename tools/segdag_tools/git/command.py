"""The words of `git segdag`, and what becomes of what can't be done: one sentence, and git's status 128."""
from __future__ import annotations

import os
import sys
from importlib import import_module
from io import TextIOWrapper

from ..files import fill_low
from ..found import version
from ..refused import Refused
from .place import Lost, Place
from .repository import Misuse, Objects, common_folder, other_parents

# Words are read by hand: `argparse` alone would take a sixth of a question's start, and git's words (-5, A..B, ^A, --contains A) aren't its own.
MANY = 1 << 20
USAGE = """Questions on a git history, answered by segdag: `git segdag COMMAND`, where the folder of git-segdag is on the PATH.

    sync                       brings the log to what the references reach
    merge-base [--all] A B..   a best common ancestor, or all of them; status 1 where there is none; also --octopus,
                               --independent and --is-ancestor
    is-ancestor A B            status 0 where B reaches A, else 1
    ahead-behind BASE REF..    a line for each REF: what it has and BASE lacks, and what BASE has and it lacks
    log A..B                   how many commits B reaches and A doesn't; also A...B, --all, and several revisions
    rev-list REVISIONS         their list or --count, by the options that git has (GUIDE says which)
    graph [REVISIONS]          their commits, drawn with what leads to what
    for-each-ref [PATTERN..]   references, by --contains, --no-contains, --merged, --no-merged, and git's --format, with
                               %(ahead-behind:BASE) and %(is-base:TIP)
    contains X                 the branches and tags that reach X
    describe [--tags] [X]      the nearest tag that X reaches; with --all the nearest reference
    query EXPR                 the members of an expression, the newest first; revisions may stand for names
    status [--json | -z]       what log, how many commits, how far it is behind, and who has it
    verify [--fix]             compares the log with the repository; makes another one where they differ
    reset                      removes the log, and ends the daemon that has it
    hook install, remove       syncs beside each change of references, for which nobody waits; or no more
    compact                    writes the log anew, without what earlier changes left in it
    daemon start [SECONDS]     keeps the log loaded for the questions to come; ends when nobody asks for so long
    daemon stop, status        ends it; says whether there is one, by status 1 where there is none

The log is the file segdag/log of the repository's folder. A question on a commit that it lacks reads what is
missing, and stores nothing. `--log WHERE` in front of a question asks another log: its path, bundle:PATH,
socket:PATH, or postgresql://..?log=NAME; segdag.store in git's configuration names one for a repository that has
no log. The program is $SEGDAG, the one that is installed or built beside this file, or `segdag` on the PATH.
"""


class Command:
    """A function, by its module and its name, that takes so many words at least and at most. Its module is loaded when it is wanted."""

    def __init__(self, function: str, least: int = 0, most: int = 0, usage: str = "") -> None:
        self.function, self.least, self.most, self.usage = function, least, most, usage

    def __call__(self, place: Place, objects: Objects, words: list[str]) -> int:
        """Does what it is for; the status."""
        module, _, name = self.function.partition(".")
        status: int | None = getattr(import_module(f".{module}", __package__), name)(place, objects, words)
        return status or 0


class Question(Command):
    """A command that asks the log, and stores nothing."""

    def __call__(self, place: Place, objects: Objects, words: list[str]) -> int:
        other = "" if place.where else other_parents(place.common)
        if other:
            print(f"warning: git answers by {other} here, and git segdag by the commits' own parents", file=sys.stderr)
        try:
            return super().__call__(place, objects, words)
        except Lost:
            # The daemon has ended or is stopped: the log is asked.
            place.asks_daemon = False
            return super().__call__(place, objects, words)


COMMANDS = {
    "sync": Command("sync.sync"),
    "compact": Command("compact.compact"),
    "daemon": Command("daemon.daemon", 1, 2, "start [SECONDS], stop or status"),
    "merge-base": Question("bases.merge_base", 1, MANY, "[--all] A B.., --octopus A.., --independent A.. or --is-ancestor A B"),
    "is-ancestor": Question("questions.is_ancestor", 2, 2, "A B"),
    "ahead-behind": Question("questions.ahead_behind", 2, MANY, "BASE REF.."),
    "log": Question("questions.log", 1, MANY, "A..B"),
    "query": Question("questions.query", 1, 1, "EXPR"),
    "rev-list": Question("revlist.rev_list", 1, MANY, "[OPTIONS] REVISION.."),
    "for-each-ref": Question("lists.for_each_ref", 0, MANY, "[OPTIONS] [PATTERN..]"),
    "contains": Question("lists.contains", 1, 1, "REVISION"),
    "graph": Question("graph.graph", 0, MANY, "[OPTIONS] [REVISION..]"),
    "describe": Question("describe.describe", 0, MANY, "[--tags] [--all] [--match=GLOB] [REVISION..]"),
    "status": Question("status.status", 0, 1, "[--json] or [-z]"),
    "verify": Command("verify.verify", 0, 1, "[--fix]"),
    "reset": Command("verify.reset"),
    "hook": Command("hook.hook", 1, 1, "install or remove"),
}

# What another log may be asked.
ASKED = ("merge-base", "is-ancestor", "ahead-behind", "log", "rev-list", "for-each-ref", "contains", "describe", "graph", "query")


def wrong_use(words: list[str], where: str | None) -> str | None:
    """What is wrong with these words, in a sentence; None where they are a command."""
    if not words:
        return "a command is wanted"
    command = COMMANDS.get(words[0])
    if command is None:
        return f"'{words[0]}' is not a git segdag command"
    if not command.least <= len(words) - 1 <= command.most:
        return f"git segdag {words[0]} takes {command.usage or 'no more words'}"
    if where and words[0] not in ASKED:
        return f"--log stands in front of a question: {', '.join(ASKED)}"
    return None


def main() -> int:
    """Does what the words say; the status."""
    fill_low()
    words, usage = sys.argv[1:], "usage: git segdag COMMAND\n" + USAGE.split("\n\n")[1]
    if words[:1] in (["-h"], ["--help"], ["help"]):
        print(usage)
        return 0
    if words == ["--version"]:
        print(f"git segdag {version()}")
        return 0
    where, words = (words[1], words[2:]) if words[:1] == ["--log"] and len(words) > 1 else (None, words)
    wrong = wrong_use(words, where)
    if wrong:
        print(f"error: {wrong}\n{usage}", file=sys.stderr)
        return 129
    # A name of bytes that are no text is put as it was given.
    for stream in (sys.stdout, sys.stderr):
        if isinstance(stream, TextIOWrapper):
            stream.reconfigure(encoding=sys.getfilesystemencoding(), errors="surrogateescape")
    status, sentence = attempted(words[0], words[1:], where)
    if status > 1:
        # What is left to be put isn't, and Python isn't to say so once more.
        os.dup2(os.open(os.devnull, os.O_WRONLY), 1)
    if sentence:
        print(f"error: {sentence}\n{usage}" if status == 129 else f"fatal: {sentence}", file=sys.stderr)
    return status


def attempted(name: str, words: list[str], where: str | None) -> tuple[int, str | None]:
    """The status, and the sentence where it can't be done."""
    try:
        status = done(name, words, where)
        sys.stdout.flush()
        return status, None
    except BrokenPipeError:
        return 128, None
    except KeyboardInterrupt:
        return 130, None
    except Misuse as misuse:
        return 129, str(misuse)
    except (Refused, UnicodeError) as refused:
        return 128, str(refused)
    except MemoryError:
        return 128, "there is no memory left"
    except PermissionError as error:
        return 128, forbidden(error)
    except OSError as error:
        return 128, f"{error.filename}: {error.strerror}" if error.filename else error.strerror or str(error)
    except Exception as error:
        # Python's own status would be 1, which is an answer to who asks whether a commit reaches another one.
        return 128, f"a mistake in git segdag itself: {type(error).__name__}: {error}"


def forbidden(error: OSError) -> str:
    """A file or folder that this user may not use so, and whose it is."""
    if not error.filename:
        return str(error)
    try:
        owner = f": it belongs to user {os.stat(error.filename).st_uid}"
    except OSError:
        owner = ""
    return f"{error.filename}: {error.strerror}{owner}"


def done(name: str, words: list[str], where: str | None) -> int:
    """Does it over another log, or the repository's own."""
    command = COMMANDS[name]
    if where:
        from .elsewhere import Elsewhere, Names

        with Names() as objects:
            return command(Elsewhere(where), objects, words)
    folder, kind = common_folder()
    place = Place(folder)
    if name in ASKED and not place.is_begun():
        from .elsewhere import Names, configured

        other = configured()
        if other:
            with Names(kind) as objects:
                return command(other, objects, words)
    with Objects(kind) as objects:
        return command(place, objects, words)
