"""The graph of commits under a version control system, in this process: ctypes over libsegdag.so, the standard library alone.

    import segdag

    with segdag.open("log", create=True) as store:
        store.add(child, [parent])
        store.flush(child)
        bases = store.merge_bases(a, b)

    with segdag.follow("log") as reader:             # in another process, beside the one that has the log
        reader.reload()
        for head in reader.query("heads(all)"):
            ...

    with segdag.connect("/run/segdag.socket", log="project/log") as store:   # of a daemon (docs/DAEMON.md), with the same calls
        store.add(child, [parent])

An id is the 20 bytes by which a commit is known, a number what this store gives it. What the store refuses is raised as an exception named
as the refusal: Unknown, Twice, NoRemote and so on, each a Refusal, which like any other failure is an Error. A store is for any thread,
one call at a time; it isn't copied. `segdag.aio` has the same for asyncio. SEGDAG_LIBRARY is the path of the library; else it stands
beside this package, in out/ of the checkout, or where the system finds it.
"""
from ._library import ID_SIZE, OTHERS, version
from .errors import (
    Answer,
    Argument,
    Cancelled,
    Closed,
    Conflict,
    Database,
    Differs,
    DiskFailed,
    Empty,
    Error,
    Foreign,
    Forked,
    Full,
    Gone,
    Locked,
    LongLine,
    Lost,
    Master,
    MismatchClone,
    MismatchNames,
    MismatchPath,
    MismatchRow,
    NoLog,
    NoMemory,
    NoRemote,
    NotEmpty,
    NotOpened,
    Pending,
    Raced,
    ReadOnly,
    Refusal,
    Remote,
    Replaced,
    ReplyLost,
    Stale,
    Syntax,
    Twice,
    Unknown,
    Unsure,
)
from .connection import Connection, Ended, NoRight, connect
from .store import Distance, Follower, Members, Progress, Sizes, Stage, Store, follow, open

__version__ = version()

__all__ = [
    "Answer", "Argument", "Cancelled", "Closed", "Conflict", "Connection", "Database", "Differs", "DiskFailed", "Distance", "Empty",
    "Ended", "Error", "Follower", "Foreign", "Forked", "Full", "Gone", "ID_SIZE", "Locked", "LongLine", "Lost", "Master", "Members",
    "MismatchClone", "MismatchNames", "MismatchPath", "MismatchRow", "NoLog", "NoMemory", "NoRemote", "NoRight", "NotEmpty", "NotOpened",
    "OTHERS", "Pending", "Progress", "Raced", "ReadOnly", "Refusal", "Remote", "Replaced", "ReplyLost", "Sizes", "Stage", "Stale", "Store",
    "Syntax", "Twice", "Unknown", "Unsure", "connect", "follow", "open",
]  # fmt: skip
