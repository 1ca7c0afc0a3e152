#!/usr/bin/env python3
"""The store as its definitions have it: plain worlds, walks of rows, one world for each session.

Reads command lines and prints the reply to each, as the program does. It is slow and shares no code and no idea with
the program, so that the two can be compared. `plain_store.py LOG [REMOTE]... < LINES` goes on from the world of LOG, if
there is such a file, and writes the log afterwards.

Each REMOTE is a log that is a mirror, or the bundle of a log's master, with `bundle:` in front of its path. Every commit has its name here: where LOG stores none, it is taken from the first
mirror that is there at the beginning. Mirrors are asked where the definitions say so, and those that fail go to the
back. Of names that were found it is kept which they are, as if there were room for all.
"""
import os
import re
import sys

OTHER = 1 << 56
LIMITS = {"pending": 65536, "others": 65536, "master": 16777216, "log": 1 << 30, "heads": 65535, "answer": 1048576}
NAME = re.compile(r"[0-9a-fA-F]{40}")
NUMBER = re.compile(r"0|[1-9][0-9]*")
ONE = {"parents", "children", "ancestors", "descendants", "heads", "roots", "tips", "merges", "common", "gca", "line"}
TWO = {"range", "only", "union", "inter", "minus"}


class Refused(Exception):
    """A reply that refuses a line."""


class World:
    """Rows of master and the others, each a name with its parents' names."""

    def __init__(self, master, others):
        self.master = master
        self.others = others
        self.parents = dict(master + others)
        self.ids = {name: i for i, (name, _) in enumerate(master)}
        self.ids.update({name: OTHER + j for j, (name, _) in enumerate(others)})

    def same(self, other):
        return self.master == other.master and self.others == other.others

    def down(self):
        return [name for name, _ in reversed(self.others)] + [name for name, _ in reversed(self.master)]

    def reached(self, names):
        """All that these names reach."""
        found, waiting = set(), list(names)
        while waiting:
            name = waiting.pop()
            if name not in found:
                found.add(name)
                waiting.extend(self.parents[name])
        return found

    def line(self, names):
        """What these names reach by first parents alone."""
        found = set()
        for name in names:
            while name not in found:
                found.add(name)
                name = (self.parents[name] or [name])[0]
        return found


def print_id(number):
    return str(number) if number < OTHER else f"N{number - OTHER}"


# Expressions: a parsed tree of tuples, and its members by the definition of each form.


def parse_expr(text):
    """The tree of a text, its names in order; None where the text isn't in the grammar."""
    names, nodes = [], 0
    at = 0

    def number(stop):
        nonlocal at
        match = NUMBER.match(text, at)
        if not match or text[match.end() : match.end() + 1] != stop or int(match.group()) >= 1 << 64:
            raise ValueError
        at = match.end()
        return int(match.group())

    def expect(char):
        nonlocal at
        if text[at : at + 1] != char:
            raise ValueError
        at += 1

    def tree(depth):
        nonlocal at, nodes
        nodes += 1
        if depth > 32 or nodes > 256:
            raise ValueError
        match = NAME.match(text, at)
        if match:
            at = match.end()
            names.append(match.group().lower())
            return ("name", names[-1])
        match = re.compile(r"[a-z]+").match(text, at)
        if not match:
            raise ValueError
        word, at = match.group(), match.end()
        if word in ("all", "master", "others"):
            return (word,)
        expect("(")
        if word == "up":
            match = NAME.match(text, at)
            if not match:
                raise ValueError
            at = match.end()
            names.append(match.group().lower())
            name = names[-1]
            expect(",")
            steps = number(")")
            expect(")")
            return ("up", name, steps)
        if word not in ONE and word not in TWO and word != "top":
            raise ValueError
        first = tree(depth + 1)
        if word in ONE:
            expect(")")
            return (word, first)
        expect(",")
        second = number(")") if word == "top" else tree(depth + 1)
        expect(")")
        return (word, first, second)

    try:
        result = tree(1)
    except ValueError:
        return None
    return (result, names) if at == len(text) else None


def members(world, tree):
    head = tree[0]
    everything = set(world.parents)
    if head == "name":
        return {tree[1]}
    if head == "all":
        return everything
    if head == "master":
        return {name for name, _ in world.master}
    if head == "others":
        return {name for name, _ in world.others}
    if head == "up":
        name = tree[1]
        for _ in range(min(tree[2], len(everything) + 1)):
            if not world.parents[name]:
                return set()
            name = world.parents[name][0]
        return {name}
    if head == "top":
        some = sorted(members(world, tree[1]), key=world.ids.get, reverse=True)
        return set(some[: tree[2]])
    some = members(world, tree[1])
    parents = {p for name in some for p in world.parents[name]}
    children = {name for name in everything if any(p in some for p in world.parents[name])}
    if head == "parents":
        return parents
    if head == "children":
        return children
    if head == "ancestors":
        return world.reached(some)
    if head == "line":
        return world.line(some)
    if head == "descendants":
        return {name for name in everything if world.reached([name]) & some}
    if head == "heads":
        return some - parents
    if head == "roots":
        return some - children
    if head == "tips":
        return {x for x in some if not any(x != y and x in world.reached([y]) for y in some)}
    if head == "merges":
        return {name for name in some if len(world.parents[name]) >= 2}
    if head in ("common", "gca"):
        shared = set.intersection(*(world.reached([name]) for name in some)) if some else set()
        if head == "common":
            return shared
        return shared - {p for name in shared for p in world.parents[name]}
    other = members(world, tree[2])
    if head == "union":
        return some | other
    if head == "inter":
        return some & other
    if head == "minus":
        return some - other
    if head == "only":
        return world.reached(some) - world.reached(other)
    below = world.reached(other)
    return {name for name in below if world.reached([name]) & some}


# Segments, levels, and the bytes of payloads.


def flat_segments(first, parents):
    """Segments of ids that stand one behind the other from the first on: low, high, parents."""
    segments = []
    for i, ids in enumerate(parents, first):
        if segments and ids == [i - 1] and i > first:
            segments[-1][1] = i
        else:
            segments.append([i, i, ids])
    return segments


def levels_of(segments):
    """The segments of each level from 1 to 7: low, high, parents. The last flat segment may still grow, so it is in no group."""
    levels, level = [], segments[:-1]
    for _ in range(7):
        groups, i = [], 0
        while i + 16 <= len(level):
            j = max(j for j in range(i, i + 16) if has_one_head(level[i : j + 1]))
            group = level[i : j + 1]
            low = group[0][0]
            groups.append([low, group[-1][1], sorted({p for s in group for p in s[2] if p < low})])
            i = j + 1
        levels.append(groups)
        level = groups
    return levels


def level_sizes(segments):
    sizes = [len(segments), *map(len, levels_of(segments))]
    while len(sizes) > 1 and sizes[-1] == 0:
        sizes.pop()
    return sizes


def new_levels(old, new):
    """The segments of levels that come from one list of flat segments to the next, by level and then by low, with their levels."""
    pairs = zip(levels_of(old), levels_of(new))
    return [(level, s) for level, (before, after) in enumerate(pairs, 1) for s in after if s not in before]


def has_one_head(group):
    parents = {p for s in group for p in s[2]}
    return all(s[1] in parents for s in group[:-1])


def variable(number):
    out = bytearray()
    while number >= 128:
        out.append(number % 128 + 128)
        number //= 128
    out.append(number)
    return bytes(out)


def record(segment, level=0):
    low, high, parents = segment
    head = bytes([0 if parents else 1, level]) + high.to_bytes(8, "big") + variable(high - low)
    return head + variable(len(parents)) + b"".join(variable(p) for p in parents)


def ids_of(world, rows):
    """The parents' ids of these rows of a world."""
    return [[world.ids[p] for p in parents] for _, parents in rows]


def payload(old, new):
    """The payload of the change from one world to the next by a flush, a strip or a pull."""
    before = len(old.master)
    masters = flat_segments(before, ids_of(new, new.master[before:]))
    levels = new_levels(flat_segments(0, ids_of(new, new.master[:before])), flat_segments(0, ids_of(new, new.master)))
    known = list(enumerate((name for name, _ in new.master[before:]), before))
    return spelled(1, before, 0, masters, levels, known, [], new)


def clone_payload(new):
    """The payload of a clone of this master."""
    segments, known, heads = clone_data(new.master)
    return spelled(2, 0, len(new.master), segments, new_levels([], segments), known, heads, new)


def whole_payload(payloads, world):
    """The payload that alone holds what these hold, which is this world: with the names that any of them has, and with the
    cloned commits and heads of a clone that they begin with."""
    segments = flat_segments(0, ids_of(world, world.master))
    known = {i: name for data in payloads for i, name in read_payload(data)[2].items()}
    return spelled(3, 0, read_payload(payloads[0])[0], segments, new_levels([], segments), sorted(known.items()), read_heads(payloads[0]), world)


def spelled(kind, before, cloned, masters, levels, known, heads, new):
    """A payload of version 2, with all others of the new world."""
    others = flat_segments(OTHER, ids_of(new, new.others))
    return b"".join(
        [
            bytes([2, kind]),
            before.to_bytes(8, "big"),
            len(new.master).to_bytes(8, "big"),
            cloned.to_bytes(8, "big"),
            len(masters).to_bytes(4, "big"),
            *map(record, masters),
            len(levels).to_bytes(4, "big"),
            *(record(segment, level) for level, segment in levels),
            len(known).to_bytes(4, "big"),
            *(i.to_bytes(8, "big") + bytes.fromhex(name) for i, name in known),
            len(heads).to_bytes(2, "big"),
            *map(bytes.fromhex, heads),
            len(new.others).to_bytes(4, "big"),
            len(others).to_bytes(4, "big"),
            *map(record, others),
            *(bytes.fromhex(name) for name, _ in new.others),
        ]
    )


def bundle(rows):
    """The bundle of a master of these rows."""
    segments = flat_segments(0, ids_of(World(rows, []), rows))
    sizes = len(rows).to_bytes(4, "big") + len(segments).to_bytes(4, "big")
    return b"SEGBNDL1" + sizes + b"".join(map(record, segments)) + b"".join(bytes.fromhex(name) for name, _ in rows)


def clone_data(rows):
    """What is told to who clones this master: its flat segments; the names of the segments' highest ids and of the
    parents of merges, with their ids; and the heads' names."""
    world = World(rows, [])
    segments = flat_segments(0, ids_of(world, rows))
    below = {p for parents in ids_of(world, rows) for p in parents}
    ids = {high for _, high, _ in segments} | {p for _, _, parents in segments if len(parents) > 1 for p in parents}
    heads = [name for i, (name, _) in enumerate(rows) if i not in below]
    return segments, [(i, rows[i][0]) for i in sorted(ids)], heads


def cut_below(end, segments):
    """The segments' parts below an id."""
    return [[low, min(high, end - 1), parents] for low, high, parents in segments if low < end]


def read_variable(data, at):
    number, shift = 0, 0
    while True:
        byte = data[at]
        number |= (byte & 127) << shift
        at, shift = at + 1, shift + 7
        if byte < 128:
            return number, at


def read_records(data, at):
    """The parent ids of each id of the records behind a count, and the place behind them."""
    count, at = int.from_bytes(data[at : at + 4], "big"), at + 4
    rows = []
    for _ in range(count):
        high = int.from_bytes(data[at + 2 : at + 10], "big")
        length, at = read_variable(data, at + 10)
        parents, at = read_variable(data, at)
        ids = []
        for _ in range(parents):
            number, at = read_variable(data, at)
            ids.append(number)
        rows.append(ids)
        rows.extend([i] for i in range(high - length, high))
    return rows, at


def read_payloads(data):
    """The payloads of a log."""
    payloads, at = [], 0
    while len(data) > 1 and data[at] == 1:
        size = int.from_bytes(data[at + 1 : at + 9], "big")
        payloads.append(data[at + 9 : at + 9 + size])
        at += 9 + size
    return payloads


def log_of(payloads):
    return b"".join(b"\1" + len(p).to_bytes(8, "big") + p for p in payloads) + b"\0"


def first_version(data):
    """A flush or a clone of version 2 in version 1, which has no cloned count and no level segments."""
    _, levels = read_records(data, 26)
    _, known = read_records(data, levels)
    return b"\1" + data[1:18] + data[26:levels] + data[known:]


def read_payload(data):
    """Of a payload of either version: how many ids were cloned, the parents of the new master ids, the names of those
    that have one by their ids, and the others' parents and names. Segments of levels are passed over."""
    is_second = data[0] == 2
    after = int.from_bytes(data[10:18], "big")
    cloned = int.from_bytes(data[18:26], "big") if is_second else after * (data[1] == 2)
    masters, at = read_records(data, 26 if is_second else 18)
    if is_second:
        _, at = read_records(data, at)
    count, at = int.from_bytes(data[at : at + 4], "big"), at + 4
    names = {int.from_bytes(data[k : k + 8], "big"): data[k + 8 : k + 28].hex() for k in range(at, at + 28 * count, 28)}
    at += 28 * count
    at += 2 + 20 * int.from_bytes(data[at : at + 2], "big")
    count, at = int.from_bytes(data[at : at + 4], "big"), at + 4
    others, at = read_records(data, at)
    return cloned, masters, names, others, [data[at + 20 * j : at + 20 * j + 20].hex() for j in range(count)]


def read_heads(data):
    """The heads of the remote that a payload of either version has."""
    _, at = read_records(data, 26 if data[0] == 2 else 18)
    if data[0] == 2:
        _, at = read_records(data, at)
    at += 4 + 28 * int.from_bytes(data[at : at + 4], "big")
    count, at = int.from_bytes(data[at : at + 2], "big"), at + 2
    return [data[at + 20 * j : at + 20 * j + 20].hex() for j in range(count)]


def read_log(data, served=()):
    """The payloads of a log, of either version, and its world. A cloned commit without a stored name has the one to
    which the served rows lead from the commit above it, or where these don't have it or it is another's, a `?` and its
    id."""
    payloads = read_payloads(data)
    parents, names, others, other_names = [], {}, [], []
    for data in payloads:
        _, masters, known, others, other_names = read_payload(data)
        parents += masters
        names.update(known)
    rows, taken = dict(served), {*names.values(), *other_names}
    for i in reversed(range(len(parents))):
        if i not in names:
            led_to = (rows.get(names[i + 1]) or [f"?{i}"])[0]
            names[i] = f"?{i}" if led_to in taken else led_to
            taken.add(names[i])
    name = lambda i: names[i] if i < OTHER else other_names[i - OTHER]
    named = lambda own, list_: [(own[k], [name(p) for p in ids]) for k, ids in enumerate(list_)]
    return payloads, World(named(names, parents), named(other_names, others))


class Mirror:
    """A log that is asked for its master. It fails where there is none, where it is damaged, and where some commit of
    it has no name. What it read it keeps, up to a refresh or a fault."""

    def __init__(self, path):
        self.path = path
        self.rows = None

    def read(self):
        """The master rows that its log has now, or nothing."""
        try:
            with open(self.path, "rb") as log:
                master = read_log(log.read())[1].master
        except (OSError, IndexError):
            return None
        return None if any(name.startswith("?") for name, _ in master) else master

    def answers(self):
        if self.rows is None:
            self.rows = self.read()
        return self.rows is not None

    def refresh(self):
        self.rows = None
        return self.answers()


class Bundle(Mirror):
    """The same of a bundle."""

    def read(self):
        try:
            with open(self.path, "rb") as file:
                data = file.read()
        except OSError:
            return None
        parents, at = read_records(data, 12)
        names = [data[k : k + 20].hex() for k in range(at, len(data), 20)]
        return [(name, [names[p] for p in ids]) for name, ids in zip(names, parents)]


def mirror_of(word):
    """The mirror that a word names."""
    word = str(word)
    return Bundle(word[len("bundle:") :]) if word.startswith("bundle:") else Mirror(word)


class Store:
    def __init__(self, data, limits, mirrors=()):
        self.mirrors = list(mirrors)
        served = next((rows for rows in (mirror.read() for mirror in self.mirrors) if rows is not None), ())
        self.payloads, world = read_log(data, served)
        self.worlds = [world]
        self.limits = limits
        self.sessions = [[0, []] for _ in range(16)]
        self.note_cloned()

    def note_cloned(self):
        """What is stored of the cloned ids: how many they are, the names of some, and the names of the others, which
        aren't stored. No name of these was found yet."""
        first = read_payload(self.payloads[0]) if self.payloads else (0, [], {}, [], [])
        self.cloned = first[0]
        self.named = {i: name for i, name in first[2].items() if i < self.cloned}
        master = self.worlds[-1].master
        self.lazy = {master[i][0] for i in range(self.cloned) if i not in self.named}
        self.found = set()

    def ask(self, call):
        """The mirror that answers a call; each one that fails goes to the back."""
        for _ in range(len(self.mirrors)):
            if call(self.mirrors[0]):
                return self.mirrors[0]
            self.mirrors.append(self.mirrors.pop(0))
        raise Refused(f"err remote {len(self.mirrors)}" if self.mirrors else "err no-remote")

    def ask_for(self, names):
        """Asks for the names of commits. A mirror that answers has to have served when the log was read."""
        self.ask(Mirror.answers)
        if any(name.startswith("?") for name in self.lazy):
            sys.exit("plain_store: a mirror is asked for names that wasn't there at the beginning, or hasn't the clone")
        self.found |= self.lazy.intersection(names)

    def ask_name(self, world, name, pending=()):
        """Asks for a name that is looked up in a world, where the world has commits without stored names, and it is
        neither a stored name there nor that of a pending row."""
        is_stored = name in world.ids and name not in self.lazy
        if self.lazy and world.master and not is_stored and name not in (row[0] for row in pending):
            self.ask_for([name])

    def log_length(self):
        return 1 + sum(9 + len(p) for p in self.payloads)

    def log(self):
        return log_of(self.payloads)

    def view(self, s):
        base, pending = self.sessions[s]
        world = self.worlds[base]
        return World(world.master, world.others + pending)

    def check(self, what, count):
        if count > self.limits[what]:
            raise Refused(f"err full {what} {self.limits[what]}")

    def rebased(self, s):
        world, left = self.worlds[-1], []
        base, pending = self.sessions[s]
        if base != len(self.worlds) - 1:
            for name, _ in pending:
                self.ask_name(world, name)
        for name, parents in pending:
            if name not in world.ids:
                left.append((name, parents))
            elif world.parents[name] != parents:
                raise Refused(f"err conflict {name}")
        known = set(world.ids)
        for name, parents in left:
            for p in parents:
                if p not in known:
                    raise Refused(f"err lost {p}")
            known.add(name)
        return left

    def store(self, s, new, text=None):
        """Another world is stored, where it is another, by this payload or a flush's, and the session is on it."""
        world = self.worlds[-1]
        if not new.same(world):
            text = text or payload(world, new)
            self.check("log", self.log_length() + 9 + len(text))
            self.payloads.append(text)
            self.worlds.append(new)
        self.sessions[s] = [len(self.worlds) - 1, []]
        return f"{len(new.master)} {len(new.others)}"

    def find(self, world, name):
        if name not in world.ids:
            raise Refused(f"err unknown {name}")
        return world.ids[name]

    def look_up(self, s, name):
        """The id of a name that the session sees."""
        base, pending = self.sessions[s]
        self.ask_name(self.worlds[base], name, pending)
        return self.find(self.view(s), name)

    def add(self, s, name, parents):
        base, pending = self.sessions[s]
        self.ask_name(self.worlds[base], name, pending)
        for p in parents:
            self.look_up(s, p)
        view = self.view(s)
        for i, p in enumerate(parents):
            if p in parents[:i]:
                raise Refused(f"err twice {p}")
        if name in view.ids:
            if view.parents[name] != parents:
                raise Refused(f"err differs {name}")
            return [f"ok old {print_id(view.ids[name])}"]
        self.check("pending", len(self.sessions[s][1]) + 1)
        self.sessions[s][1].append((name, parents))
        return [f"ok added {print_id(self.view(s).ids[name])}"]

    def flush(self, s, heads):
        world = self.worlds[-1]
        known = World(world.master, world.others + [r for r in self.sessions[s][1] if r[0] not in world.ids])
        for head in heads:
            self.ask_name(world, head, self.sessions[s][1])
            self.find(known, head)
        view = World(world.master, world.others + self.rebased(s))
        order = [name for name, _ in view.master]
        placed = set(order)
        for head in heads:
            stack = [(head, 0)]
            while stack:
                name, k = stack.pop()
                if name in placed:
                    continue
                if k < len(view.parents[name]):
                    stack += [(name, k + 1), (view.parents[name][k], 0)]
                else:
                    placed.add(name)
                    order.append(name)
        new = World(
            [(name, view.parents[name]) for name in order],
            [row for row in view.others if row[0] not in placed],
        )
        self.check("others", len(new.others))
        self.check("master", len(new.master))
        return ["ok flushed " + self.store(s, new)]

    def strip(self, s, names):
        world, pending = self.worlds[-1], self.sessions[s][1]
        if pending:
            raise Refused(f"err pending {len(pending)}")
        for name in names:
            self.ask_name(world, name)
            if self.find(world, name) < OTHER:
                raise Refused(f"err master {name}")
        new = World(world.master, [row for row in world.others if not world.reached([row[0]]) & set(names)])
        if not new.parents:
            raise Refused(f"err empty {len(world.parents)}")
        return ["ok stripped " + self.store(s, new)]

    def reload(self, s):
        left = self.rebased(s)
        self.sessions[s] = [len(self.worlds) - 1, left]
        return [f"ok reloaded {len(left)}"]

    def discard(self, s):
        count = len(self.sessions[s][1])
        self.sessions[s][1] = []
        return [f"ok discarded {count}"]

    def clone(self, s):
        """The mirror's master, where nothing is stored."""
        world = self.worlds[-1]
        if world.master or world.others:
            raise Refused(f"err not-empty {len(world.master)} {len(world.others)}")
        if self.sessions[s][1]:
            raise Refused(f"err pending {len(self.sessions[s][1])}")
        new = World(self.ask(Mirror.refresh).rows, [])
        self.check("heads", len(clone_data(new.master)[2]))
        self.check("master", len(new.master))
        self.store(s, new, clone_payload(new))
        self.note_cloned()
        return [f"ok cloned {len(new.master)}"]

    def pull(self, s):
        """The mirror's new master rows, behind the ones that are there."""
        world, pending = self.worlds[-1], self.sessions[s][1]
        if pending:
            raise Refused(f"err pending {len(pending)}")
        rows = self.told_rows(self.ask(Mirror.refresh).rows)
        for name, parents in rows:
            if name in world.ids and world.parents[name] != parents:
                raise Refused(f"err conflict {name}")
        there = {name for name, _ in world.master}
        master = world.master + [row for row in rows if row[0] not in there]
        there = {name for name, _ in master}
        new = World(master, [row for row in world.others if row[0] not in there])
        self.check("master", len(new.master))
        return ["ok pulled " + self.store(s, new)]

    def told_rows(self, rows):
        """The master that a mirror with these rows tells to who pulls: the cloned rows are the stored ones, since
        neither their names nor their parents are taken from it. It is refused where what it tells of them is unlike
        what is stored, or where the name of a row behind them is a stored name of theirs."""
        data = clone_data(rows)
        at = self.first_unlike(data)
        if at is not None:
            raise Refused(f"err mismatch clone {at}")
        cloned, fetched = self.worlds[-1].master[: self.cloned], [name for name, _ in rows[self.cloned :]]
        for i, name in enumerate(fetched, self.cloned):
            if name in self.named.values():
                raise Refused(f"err mismatch row {i}")
        names = [name for name, _ in cloned] + fetched
        if len(set(names)) < len(names):
            sys.exit("plain_store: a mirror gave a new row the name of a commit whose name isn't stored")
        ids = ids_of(World(rows, []), rows)
        return [(name, [names[p] for p in ids[i]]) for i, name in enumerate(names)]

    def first_unlike(self, data):
        """The number of the first item of clone data, segments and then names, that is unlike what is stored of the
        cloned ids; where segments are wanting, how many items there are."""
        segments, known, heads = data
        world = self.worlds[-1]
        stored = cut_below(self.cloned, flat_segments(0, ids_of(world, world.master)))
        told = cut_below(self.cloned, segments)
        for i, segment in enumerate(told):
            if stored[i : i + 1] != [segment]:
                return i
        if len(told) < len(stored):
            return len(segments) + len(known) + len(heads)
        for i, (number, name) in enumerate(known, len(segments)):
            if self.named.get(number, name) != name:
                return i
        return None

    def drop(self, place):
        if place >= len(self.mirrors):
            raise Refused("err no-remote")
        del self.mirrors[place]
        return [f"ok dropped {len(self.mirrors)}"]

    def answer(self, s, expr):
        tree, names = expr
        for name in names:
            self.look_up(s, name)
        view = self.view(s)
        found = members(view, tree)
        return [name for name in view.down() if name in found]

    def query(self, s, expr):
        names = self.answer(s, expr)
        if len(names) > self.limits["answer"]:
            raise Refused(f"err answer {len(names)}")
        wanted = self.lazy.intersection(names) - self.found
        if wanted:
            self.ask_for(wanted)
        return names + [f"ok {len(names)}"]

    def count(self, s, expr):
        return [f"ok {len(self.answer(s, expr))}"]

    def status(self, s):
        base, pending = self.sessions[s]
        world = self.worlds[base]
        return [f"ok {len(world.master)} {len(world.others)} {len(pending)}"]

    def levels(self):
        world = self.worlds[-1]
        parents = [[world.ids[p] for p in parents] for _, parents in world.master]
        return ["ok " + " ".join(map(str, level_sizes(flat_segments(0, parents))))]

    def line(self, text):
        words = text.split(" ")
        if len(words) < 2 or not NUMBER.fullmatch(words[0]) or int(words[0]) > 15:
            return ["err syntax"]
        s, verb, args = int(words[0]), words[1], words[2:]
        names = [a.lower() for a in args] if all(NAME.fullmatch(a) for a in args) else None
        expr = parse_expr(args[0]) if len(args) == 1 else None
        try:
            if verb == "add" and names and len(names) <= 9:
                return self.add(s, names[0], names[1:])
            if verb == "flush" and names is not None:
                return self.flush(s, names)
            if verb == "strip" and names:
                return self.strip(s, names)
            if verb in ("reload", "discard", "status") and not args:
                return getattr(self, verb)(s)
            if verb == "levels" and not args:
                return self.levels()
            if verb in ("query", "count") and expr:
                return getattr(self, verb)(s, expr)
            if verb == "id" and names and len(names) == 1:
                return [f"ok {print_id(self.look_up(s, names[0]))}"]
            if verb == "mirrors" and not args:
                return [f"ok {len(self.mirrors)}"]
            if verb in ("clone", "pull") and not args:
                return getattr(self, verb)(s)
            if verb == "drop" and len(args) == 1 and NUMBER.fullmatch(args[0]) and int(args[0]) < 1 << 64:
                return self.drop(int(args[0]))
        except Refused as refusal:
            return [str(refusal)]
        return ["err syntax"]


def main():
    path, *remotes = sys.argv[1:]
    data = open(path, "rb").read() if os.path.exists(path) else b""
    store = Store(data, LIMITS, map(mirror_of, remotes))
    for line in sys.stdin.buffer:
        text = re.sub(r"\r?\n\Z", "", line.decode("latin-1"))
        if text and not text.startswith("#"):
            print("\n".join(store.line(text)), flush=True)
    with open(path, "wb") as log:
        log.write(store.log())


if __name__ == "__main__":
    main()
