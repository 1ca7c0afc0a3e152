#!/usr/bin/env python3
"""Questions of `git segdag` that a log in a database answers: by a URL, and by segdag.store.

    postgres_git.py SEGDAG-POSTGRES SEGDAG FOLDER [PART]...
"""
import os
import shutil
import subprocess
from pathlib import Path
from typing import Dict, List, Tuple
from urllib.parse import quote

from postgres_lib import HERE, Server, create, execute, main_of, need, tell

TOOLS = HERE.parent / "tools"
QUESTIONS: Tuple[Tuple[List[str], List[str]], ...] = (
    (["log", "topic..main"], ["rev-list", "--count", "topic..main"]),
    (["merge-base", "--all", "main", "release"], ["merge-base", "--all", "main", "release"]),
    (["merge-base", "--is-ancestor", "topic", "release"], ["merge-base", "--is-ancestor", "topic", "release"]),
    (["rev-list", "--count", "main...release"], ["rev-list", "--count", "main...release"]),
    (["for-each-ref", "--contains", "topic"], ["for-each-ref", "--contains", "topic"]),
    (["rev-list", "--left-right", "main...release"], ["rev-list", "--left-right", "main...release"]),
)


def url_of(server: Server, user: str, log: str) -> str:
    """A log of the server as a URL: the folder of its socket is the host."""
    return f"postgresql://{user}@{quote(str(server.folder), safe='')}:{server.port}/logs?connect_timeout=3&log={quote(log, safe='')}"


def git(program: Path, segdag: Path, folder: Path) -> None:
    """The log of a repository is put into a database under an odd name, and answers in a repository that has no log, and where only names are known."""
    (folder / "bin").mkdir()
    for name, to in (("git-segdag", TOOLS / "git-segdag"), ("segdag-postgres", program), ("segdag", segdag)):
        (folder / "bin" / name).symlink_to(Path(to).resolve())
    environment = {name: value for name, value in os.environ.items() if not name.startswith(("GIT_", "SEGDAG", "PG"))}
    environment.update(PATH=f"{folder}/bin:{environment['PATH']}", HOME=str(folder), GIT_CONFIG_NOSYSTEM="1", SEGDAG=str(Path(segdag).resolve()))

    def asked(*words: str, place: Path = folder / "sample") -> Tuple[int, str, str]:
        ran = subprocess.run(["git", *words], cwd=place, env=environment, capture_output=True, text=True, check=False)
        return ran.returncode, ran.stdout, ran.stderr

    repository(environment, folder / "sample")
    server = Server(folder).make()
    create(program, server, "a log/of git")
    need(asked("segdag", "sync")[0] == 0, "the sync")
    log = folder / "sample/.git/segdag/log"
    shutil.copy(log, folder / "log")
    execute([program, server.words(), "a log/of git", "--", "import", folder / "log"])
    need(asked("segdag", "reset")[0] == 0, "the reset")
    url = url_of(server, "reader", "a log/of git")
    for way in (["segdag", "--log", url], ["-c", f"segdag.store={url}", "segdag"]):
        for ours, theirs in QUESTIONS:
            mine, wanted = asked(*way, *ours), asked(*theirs)
            need(mine[:2] == wanted[:2] and not mine[2], f"{ours} by {way[0]} ended with {mine}, and git with {wanted}")
    first, last = (asked("rev-parse", it)[1].strip() for it in ("main~5", "main"))
    need(asked("segdag", "--log", url, "log", f"{first}..{last}", place=folder)[0] == 0, "whole names, where there is no repository")
    for wrong, sentence in (
        (url_of(server, "reader", "none"), "the database has no log none"), (url_of(server, "nobody", "a log/of git"), 'role "nobody" does not exist'),
        (url.replace("5432", "5499"), "connection to server"),
    ):
        status, out, told = asked("segdag", "--log", wrong, "log", "main")
        need(status == 128 and not out and sentence in told and told.count("\n") == 1, f"of {wrong} it ended with {status}, {told}")
    server.kill()
    status, out, told = asked("segdag", "--log", url, "log", "main")
    need(status == 128 and not out and told.count("\n") == 1, f"of a server that is gone it ended with {status}, {told}")
    tell("git segdag asks a log in a database, by a URL and by segdag.store")


def repository(environment: Dict[str, str], path: Path) -> None:
    """The sample of the guide."""
    subprocess.run(["git", "init", "--quiet", "--initial-branch=main", path], env=environment, check=True)
    with open(HERE.parent / "docs/sample.stream", "rb") as stream:
        subprocess.run(["git", "fast-import", "--quiet"], cwd=path, env=environment, stdin=stream, check=True)


if __name__ == "__main__":
    main_of({"git": git})
