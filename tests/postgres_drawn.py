#!/usr/bin/env python3
"""Drawn lines of several writers of one log in PostgreSQL, against the definitions and against the program.

    postgres_drawn.py SEGDAG-POSTGRES SEGDAG FOLDER [PART]...

A core takes what others stored only before lines that look at the stored world, and all lines in their very order are one run of one store: in turn
that order is known; side by side it is that of the COMMITs and of the reads, which each writer tells by how far it had the log behind each line.
"""
import random
import threading
from pathlib import Path
from typing import Dict, List, Tuple

import plain_store
from postgres_lib import Failed, Front, Server, create, execute, exported, main_of, need, program_answers, tell
from random_lines import Lines

WRITERS = 4


class Sessions(list):
    """The sessions of all writers: those of one begin at a place."""

    shift = 0

    def __getitem__(self, s):
        return list.__getitem__(self, self.shift + s)

    def __setitem__(self, s, value):
        list.__setitem__(self, self.shift + s, value)


class Joint(plain_store.Store):
    """One store in place of several, with sixteen sessions for each writer."""

    def __init__(self) -> None:
        super().__init__(b"", plain_store.LIMITS)
        self.sessions = Sessions([0, []] for _ in range(16 * WRITERS))

    def answer_to(self, writer: int, text: str) -> str:
        """The reply to a writer's line."""
        self.sessions.shift = 16 * writer
        return "".join(it + "\n" for it in self.line(text))


def drawn(seed: int, count: int) -> List[Tuple[int, str]]:
    """Lines that have a reply, each with its writer. Behind an add there is often a flush of its session."""
    draw = random.Random(seed)
    lines = Lines(draw)
    found: List[Tuple[int, str]] = []
    while len(found) < count:
        line, writer = lines.line(), draw.randrange(WRITERS)
        if not line or line.startswith("#"):
            continue
        found.append((writer, line))
        if line[1:6] == " add " and draw.random() < 0.4:
            found.append((writer, " ".join([line[0], "flush", *draw.choice([[], [], [line.split(" ")[2]]])])))
    return found[:count]


def fronts(program: Path, server: Server, log: str, *more: str) -> List[Front]:
    """As many writers as there are, each of which has loaded the log."""
    made = [Front(program, server.words(), log, "run", *more) for _ in range(WRITERS)]
    need(all(front.ask("0 mirrors") == "ok 0\n" for front in made), "a writer has mirrors")
    return made


def in_turn(program: Path, server: Server, folder: Path, seed: int, count: int) -> int:
    """64 sessions of four writers, a line at a time."""
    log, joint = f"turn{seed}", Joint()
    create(program, server, log)
    writers = fronts(program, server, log)
    for number, (writer, line) in enumerate(drawn(seed, count)):
        reply, wanted = writers[writer].ask(line), joint.answer_to(writer, line)
        need(reply == wanted, f"seed {seed}, line {number}, writer {writer}, '{line}': '{reply[:80]}', and the definitions have '{wanted[:80]}'")
    for front in writers:
        front.close()
    need(exported(program, server, folder, log) == joint.log(), f"seed {seed}: the log's bytes aren't those of the definitions")
    return len(joint.payloads)


def turns(program: Path, server: Server, folder: Path, runs: int, count: int) -> None:
    """Several of these."""
    changes = sum(in_turn(program, server, folder, seed, count) for seed in range(runs))
    need(changes > runs * count // 25, f"only {changes} changes came of {runs * count} lines")
    tell(f"{runs * count} lines of 4 writers with 16 sessions each, in turn: {changes} changes; replies and logs are those of the definitions")


def one_program(program: Path, segdag: Path, server: Server, folder: Path, seed: int, count: int) -> None:
    """Sixteen sessions of one program, spread over four writers: session s is session s // 4 of writer s % 4."""
    log, alone = f"one{seed}", folder / f"one{seed}.log"
    create(program, server, log)
    lines = [it for _, it in drawn(seed, count) if it.split(" ")[0] in map(str, range(16))]
    writers = fronts(program, server, log)
    replies = []
    for line in lines:
        session, _, rest = line.partition(" ")
        replies.append(writers[int(session) % WRITERS].ask(f"{int(session) // WRITERS} {rest}"))
    for front in writers:
        front.close()
    status, wanted = program_answers(segdag, alone, lines)
    need(status == 0, f"seed {seed}: the program ended with {status}")
    at = 0
    for line, reply in zip(lines, replies):
        need(wanted[at : at + len(reply)] == reply, f"seed {seed}, '{line}': '{reply[:80]}', and the program has '{wanted[at:at + 80]}'")
        at += len(reply)
    need(at == len(wanted), f"seed {seed}: the program answers more")
    need(exported(program, server, folder, log) == alone.read_bytes(), f"seed {seed}: the program's log has other bytes")


# ---- side by side

Told = Tuple[str, str, int, int, int]  # a line, its reply, up to where the log was had before and behind it, and the place of the last own change


class Writer(threading.Thread):
    """A writer that asks its lines as fast as they are answered."""

    def __init__(self, program: Path, server: Server, log: str, lines: List[str], trace: Path) -> None:
        super().__init__()
        self.front = Front(program, server.words(), log, "run", "--trace", str(trace))
        self.lines, self.trace = ["0 mirrors", *lines], trace
        self.replies = [self.front.ask(self.lines[0])]
        self.failed: List[Exception] = []

    def run(self) -> None:
        try:
            for line in self.lines[1:]:
                self.replies.append(self.front.ask(line))
            self.front.close()
        except Exception as error:  # pylint: disable=broad-except
            self.failed.append(error)

    def told(self) -> List[Told]:
        """Its lines with what is known of each."""
        if self.failed:
            raise Failed(f"a writer ended: {self.failed[0]}")
        ends = [tuple(map(int, it.split())) for it in self.trace.read_text().splitlines()]
        need(len(ends) == len(self.lines), "a writer didn't trace each line")
        before = [(0, 0), *ends]
        return [(line, reply, was[0], end, own if own != was[1] else -1)
                for line, reply, was, (end, own) in zip(self.lines, self.replies, before, ends)]


def ordered(writers: List[Writer]) -> List[Tuple[int, str, str]]:
    """All lines in one order: by the changes that were there. A line that stored comes behind all that were asked of what it found."""
    places: List[Tuple[int, int, int, int]] = []
    lines: Dict[Tuple[int, int], Tuple[int, str, str]] = {}
    for number, writer in enumerate(writers):
        for index, (line, reply, _, end, own) in enumerate(writer.told()):
            places.append((end if own < 0 else own, int(own >= 0), number, index))
            lines[number, index] = (number, line, reply)
    return [lines[number, index] for _, _, number, index in sorted(places)]


def side_by_side(program: Path, server: Server, folder: Path, seed: int, count: int) -> int:
    """Four writers at once, in the order of COMMITs and reads."""
    log, joint = f"side{seed}", Joint()
    create(program, server, log)
    shares: List[List[str]] = [[] for _ in range(WRITERS)]
    for number, line in drawn(seed, count):
        shares[number].append(line)
    # The log begins with a change, so that a place of 0 is no change of these.
    with Front(program, server.words(), log) as front:
        for line in ("0 add " + "f" * 40, "0 flush " + "f" * 40):
            need(front.ask(line) == joint.answer_to(0, line), "the first change wasn't stored")
        front.close()
    joint.sessions = Sessions([1, []] for _ in range(16 * WRITERS))
    writers = [Writer(program, server, log, share, folder / f"trace{seed}.{i}") for i, share in enumerate(shares)]
    for writer in writers:
        writer.start()
    for writer in writers:
        writer.join(120)
    for place, (number, line, reply) in enumerate(ordered(writers)):
        wanted = joint.answer_to(number, line)
        need(reply == wanted, f"seed {seed}, place {place}, writer {number}, '{line}': '{reply[:80]}', and the definitions have '{wanted[:80]}'")
    need(exported(program, server, folder, log) == joint.log(), f"seed {seed}: the log's bytes aren't those of the definitions")
    return len(joint.payloads)


def run(program: Path, segdag: Path, folder: Path, sizes: Tuple[int, int, int, int]) -> None:
    """All of these over one server, in as many runs as are wanted."""
    server = Server(folder).make()
    try:
        turns(program, server, folder, sizes[0], sizes[1])
        for seed in range(sizes[2]):
            one_program(program, segdag, server, folder, seed, sizes[3])
        tell(f"{sizes[2] * sizes[3]} lines of 16 sessions spread over 4 writers: replies and logs are the program's own, byte for byte")
        # A database whose transactions see one moment, unless they say otherwise, is no other database.
        server.admin("alter role writer set default_transaction_isolation = 'serializable'")
        changes = sum(side_by_side(program, server, folder, 1000 + seed, 2 * sizes[3]) for seed in range(sizes[2]))
        need(server.admin("select count(*) from segdag.log l, segdag.faults(l.name) f") == "0", "the rows have faults")
        tell(f"{2 * sizes[2] * sizes[3]} lines of 4 writers at once: {changes} changes, and one order, that of COMMITs and reads, in which the "
             "definitions answer so")
    finally:
        server.kill()


def quick(program: Path, segdag: Path, folder: Path) -> None:
    """What the gate tries."""
    run(program, segdag, folder, (4, 400, 3, 300))


def long(program: Path, segdag: Path, folder: Path) -> None:
    """As much as tells more."""
    run(program, segdag, folder, (60, 1000, 40, 1000))


if __name__ == "__main__":
    main_of({"quick": quick, "long": long})
