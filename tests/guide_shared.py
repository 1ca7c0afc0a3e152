"""A part of guide.sh: the log of a repository that several users share has the rights that git gives its own files."""
import os
import random
import stat

from guide_lib import TOOL, Repository, fail

VALUES = ("umask", "group", "all", "true", "0640", "0660", "0666", "2", "0", "world", "0600", "false")


def mode(path):
    return stat.S_IMODE(os.lstat(path).st_mode)


def shared():
    """By core.sharedRepository and the umask; also where the log is written anew, and of the daemon's socket."""
    draw, tried = random.Random(30), 0
    for number, value in enumerate((*VALUES, None)):
        before = os.umask((0o022, 0o077, 0o002)[number % 3])
        try:
            one(draw, number, value)
        finally:
            os.umask(before)
        tried += 1
    print(f"guide: the log has the rights that git gives its files, with {tried} values of core.sharedRepository")


def one(draw, number, value):
    repository = Repository(f"shared{number}", draw)
    if value is None:
        # A key alone is true.
        with open(repository.common / "config", "a") as config:
            config.write("[core]\n\tsharedRepository\n")
    else:
        repository.must("config", "core.sharedRepository", value)
    repository.point("folder/main", repository.commit(repository.commit()))
    repository.must("pack-refs", "--all", "--no-prune")
    folder, file = repository.common / "refs/heads/folder", repository.common / "packed-refs"
    repository.sync()
    compared(repository, value, folder, file)
    repository.must("segdag", "compact")
    compared(repository, value, folder, file)
    if number < 6 and (TOOL.parent / "segdagd").exists():
        repository.must("segdag", "daemon", "start", "60")
        try:
            wanted = 0o660 if mode(repository.log) & stat.S_IWGRP else 0o600
            found = [mode(repository.common / "segdag" / it) for it in ("socket", "socket.lock", "log.lock")]
            if found != [wanted] * 3 or os.stat(repository.common / "segdag/socket").st_gid != os.stat(repository.log).st_gid:
                fail(f"shared: with {value} the socket and its locks have the modes {found}")
        finally:
            repository.must("segdag", "daemon", "stop")


def compared(repository, value, folder, file):
    ours = [mode(repository.log.parent), mode(repository.log), mode(repository.log.parent / "lock")]
    theirs = [mode(folder), mode(file), mode(file)]
    if ours != theirs:
        fail(f"shared: with {value} folder, log and lock have {[oct(it) for it in ours]}, and git's own {[oct(it) for it in theirs]}")
