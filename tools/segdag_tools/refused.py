"""What can't be done, in a sentence for who asked, and what each status of the program says."""
from __future__ import annotations

ENDS = {
    2: "the program takes other words, so it is of another version",
    3: "the disk failed; every acknowledged change is stored",
    4: "it is damaged, longer than a log may be, or no log",
    5: "the program couldn't read its lines",
    6: "the program couldn't write its replies",
    7: "there is no memory left",
    8: "the program has read as many bytes as one run may",
    9: "it can't be opened",
    16: "another program works on the log",
    17: "the connection was idle, its session was lent to another client, and the store has changed since: connect again",
    18: "it is no log",
    19: "another file stands at the log's path, or none: connect again",
    20: "there was no room for replies that weren't taken",
    23: "it isn't known whether the last change was stored: check before you try again",
    24: "the database can't be reached, and the last change isn't stored",
    25: "another writer stored at the same place, and the last change isn't stored",
    26: "the server isn't the primary, or lacks the synchronous standby that the log requires",
    27: "the database refused a statement",
}
FOREIGN, GONE, NO_ROOM = 18, 19, 20  # numbers of the tools' own, which the program ends with never


class Refused(Exception):
    """A sentence for who asked; `status` is the program's, where it ended."""

    def __init__(self, sentence: str, status: int | None = None) -> None:
        super().__init__(sentence)
        self.status = status


def end_of(status: int) -> str:
    """The sentence for a program's status, which is negative where a signal ended it."""
    if status < 0:
        import signal

        try:
            return f"the program was ended by {signal.Signals(-status).name}"
        except ValueError:
            pass
    return ENDS.get(status, f"the program ended with status {status}")
