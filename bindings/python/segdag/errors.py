"""What a call may raise: a tree below Error, of which each class that is raised has the library's code."""
from typing import Dict, Optional, Type

from ._library import library


class Error(Exception):
    """A call failed. `code` is the library's number and `name` its name; `text` says why, as in "unknown 00..07"; `id` is the commit that it is
    about, `errno` and `call` what the system said to which call of its own, where it is about one."""

    code = 0

    def __init__(self, text: str = "", id: Optional[bytes] = None, errno: int = 0, call: Optional[str] = None) -> None:
        super().__init__(text or type(self).__name__)
        self.text, self.id, self.errno, self.call = text or type(self).__name__, id, errno, call

    @property
    def name(self) -> str:
        return library.segdag_code_name(self.code).decode()


class Failed(Error):
    """The store is closed by this: open it again to see what was stored."""


class Refusal(Error):
    """The store refuses, and nothing changed."""


_CLASSES: Dict[int, Type[Error]] = {}


def _error(name: str, code: int, base: Type[Error], text: str, *others: type) -> Type[Error]:
    made = type(name, (base, *others), {"code": code, "__doc__": text, "__module__": "segdag"})
    _CLASSES[code] = made
    return made


Argument = _error("Argument", 1, Error, "An argument isn't valid: a session, an id, a path, or a count.", ValueError)
Closed = _error("Closed", 2, Error, "The store is closed.")
Forked = _error("Forked", 3, Error, "The store was opened before this process was forked: open it again here.")
NoMemory = _error("NoMemory", 4, Error, "Out of memory; nothing was done.", MemoryError)
NotOpened = _error("NotOpened", 5, Error, "The file can't be opened or locked, doesn't exist, or isn't a regular file.")
Locked = _error("Locked", 6, Error, "The log is open for writing elsewhere, in this process or another one.")
Foreign = _error("Foreign", 7, Error, "The file isn't a log: it begins like a bundle or another kind of file; nothing was changed.")
NoLog = _error("NoLog", 8, Error, "The file is damaged, longer than was allowed, or not a log.")
Replaced = _error("Replaced", 9, Error, "The log's file was removed or replaced: close the store and open it again.")
ReadOnly = _error("ReadOnly", 10, Error, "The store was opened read-only; nothing was changed.")
DiskFailed = _error("DiskFailed", 11, Failed, "The log's disk failed: the log is unchanged or has the change.")
ReplyLost = _error("ReplyLost", 12, Failed, "Out of memory for the answer: open the store again to see what was done.")
Syntax = _error("Syntax", 13, Refusal, "The text isn't a valid expression or line.")
Unknown = _error("Unknown", 14, Refusal, "The session sees no such commit.")
Twice = _error("Twice", 15, Refusal, "A parent is given twice.")
Differs = _error("Differs", 16, Refusal, "The commit exists with other parents.")
Conflict = _error("Conflict", 17, Refusal, "A pending commit, or one to be pulled, is stored with other parents.")
Lost = _error("Lost", 18, Refusal, "The parent of a pending commit was stripped.")
Master = _error("Master", 19, Refusal, "A commit in master can't be stripped.")
Empty = _error("Empty", 20, Refusal, "The strip would leave no commit.")
Full = _error("Full", 21, Refusal, "A limit was reached.")
Answer = _error("Answer", 22, Refusal, "The query has more members than a line's reply can have.")
NotEmpty = _error("NotEmpty", 23, Refusal, "A clone needs an empty log, and this one has commits.")
Pending = _error("Pending", 24, Refusal, "The session has pending commits: flush or discard them first.")
NoRemote = _error("NoRemote", 25, Refusal, "A mirror is needed, and the store has none.")
Remote = _error("Remote", 26, Refusal, "All mirrors failed in one question; they may answer if asked again.")
MismatchPath = _error("MismatchPath", 27, Refusal, "A mirror's path to a commit doesn't exist in this store.")
MismatchNames = _error("MismatchNames", 28, Refusal, "A mirror gave another number of ids than it was asked for.")
MismatchClone = _error("MismatchClone", 29, Refusal, "A mirror sent wrong data for a clone.")
MismatchRow = _error("MismatchRow", 30, Refusal, "A mirror sent an id that can't be that of a new commit.")
LongLine = _error("LongLine", 31, Refusal, "The line is longer than 16384 bytes.")
Unsure = _error("Unsure", 32, Failed, "It isn't known whether the change is stored: open the store again to see.")
Gone = _error("Gone", 33, Error, "No connection to the database; nothing was stored.")
Raced = _error("Raced", 34, Failed, "Another writer stored something first; nothing was stored.")
Stale = _error("Stale", 35, Error, "The server isn't the current primary, or its changes aren't confirmed yet; nothing was stored or read.")
Database = _error("Database", 36, Error, "The database refused a statement; nothing was stored.")
Cancelled = _error("Cancelled", 37, Error, "Cancelled by `progress`; nothing was done, and the call may be made again.")


def check(code: int) -> None:
    """Raises why the last call of this thread failed, if it did."""
    if code == 0:
        return
    last = library.segdag_last_error().contents
    call = last.call.decode() if last.call else None
    raise _CLASSES.get(code, Error)(last.text.decode("utf-8", "replace"), bytes(last.id) if last.has_id else None, last.system, call)
