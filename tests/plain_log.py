"""A log as docs/FORMAT.md has it: what its bytes say, rule by rule, or that they are no log. It shares no code with the program.

`read(data)` gives the payloads, each a `Payload`, and `stored(payloads)` what they leave; `Refused` says which rule is broken.
`spelled(payloads)` writes them again, lawful or not.
"""
import plain_store
from plain_store import OTHER

MOST_BYTES, MOST_MASTER, MOST_OTHERS, END = 1 << 30, 1 << 24, 1 << 16, 1 << 57


class Refused(Exception):
    pass


def need(holds, rule):
    if not holds:
        raise Refused(rule)


class Payload:
    """One payload: records are pairs of a level and [low, high, parents], known names pairs of an id and a name."""

    def __init__(self, version, kind, before, after, cloned, master, levels, known, heads, others, names):
        self.version, self.kind, self.before, self.after, self.cloned = version, kind, before, after, cloned
        self.master, self.levels, self.known, self.heads = master, levels, known, heads
        self.others, self.names = others, names


class Reader:
    def __init__(self, data):
        self.data, self.at = data, 0

    def take(self, size):
        need(self.at + size <= len(self.data), "cut")
        self.at += size
        return self.data[self.at - size : self.at]

    def fixed(self, size):
        return int.from_bytes(self.take(size), "big")

    def variable(self):
        number, shift = 0, 0
        while True:
            byte = self.fixed(1)
            need(not (byte == 0 and shift), "a number isn't in its shortest form")
            number |= (byte & 127) << shift
            need(number < 1 << 64, "a number has more than 64 bits")
            shift += 7
            if byte < 128:
                return number

    def record(self):
        flags, level, high, below, count = self.fixed(1), self.fixed(1), self.fixed(8), self.variable(), self.variable()
        need(flags == (1 if count == 0 else 0), "flags")
        need(level <= 7 and count <= (8 if level == 0 else MOST_MASTER), "level or number of parents")
        parents = [self.variable() for _ in range(count)]
        low = high - below
        need(0 <= low and high < END and (low < OTHER) == (high < OTHER), "the ids of a record")
        need(all(p < low for p in parents) and len(set(parents)) == count, "parents of a record")
        need(level == 0 or parents == sorted(parents), "parents of a segment of a level ascend")
        return level, [low, high, parents]

    def records(self):
        return [self.record() for _ in range(self.fixed(4))]

    def names(self, count):
        return [self.take(20) for _ in range(count)]


def payload(data):
    """The payload of these bytes, which keeps the rules that speak of it alone."""
    r = Reader(data)
    version, kind = r.fixed(1), r.fixed(1)
    need((version, kind) in [(1, 1), (1, 2), (2, 1), (2, 2), (2, 3)], "version or kind")
    before, after = r.fixed(8), r.fixed(8)
    cloned = r.fixed(8) if version == 2 else None
    master = r.records()
    levels = r.records() if version == 2 else []
    known = [(r.fixed(8), r.take(20)) for _ in range(r.fixed(4))]
    heads = r.names(r.fixed(2))
    count = r.fixed(4)
    others = r.records()
    need(count <= MOST_OTHERS, "too many others")
    names = r.names(count)
    need(r.at == len(data), "something follows")
    if version == 1:
        cloned = after if kind == 2 else 0
    p = Payload(version, kind, before, after, cloned, master, levels, known, heads, others, names)
    check_payload(p)
    return p


def check_section(records, first, end):
    """Records of level 0 that cover the ids from the first up to the end, each as long as it can be."""
    at = first
    for number, (level, (low, high, parents)) in enumerate(records):
        need(level == 0 and low == at, "a record's place or level")
        need(number == 0 or parents != [low - 1], "a record belongs to the one before")
        at = high + 1
    need(at == end, "records don't cover the ids")


def check_payload(p):
    need(p.before <= p.after <= MOST_MASTER, "counts")
    check_section(p.master, p.before, p.after)
    check_section(p.others, OTHER, OTHER + len(p.names))
    need(all(q < OTHER for _, s in p.master for q in s[2]), "a parent in master")
    need(all(q < p.after or q >= OTHER for _, s in p.others for q in s[2]), "a parent of the others")
    ids = [i for i, _ in p.known]
    need(all(a < b for a, b in zip(ids, ids[1:])), "ids with names ascend")
    need(all(p.before <= i < p.after for i in ids), "ids with names are new")
    known = set(ids)
    need(p.after + len(p.names) > 0, "there is some commit")
    if p.kind == 1:
        need(p.cloned == 0 and len(ids) == p.after - p.before and not p.heads, "a flush")
    else:
        need(p.before == 0 and p.cloned <= p.after, "a clone, or a whole store, is of all")
        need(p.kind == 3 or (p.cloned == p.after > 0 and not p.names), "a clone")
        need(all(i in known for i in range(p.cloned, p.after)), "names behind the cloned ids")
        for _, (low, high, parents) in p.master:
            if low < p.cloned:
                need(min(high, p.cloned - 1) in known, "the name of a segment's highest id")
                need(len(parents) < 2 or all(q in known for q in parents), "the names of a merge's parents")
    check_levels(p)


def check_levels(p):
    places = [(level, s[0]) for level, s in p.levels]
    need(all(1 <= level <= 7 for level, _ in places), "a level")
    need(all(a < b for a, b in zip(places, places[1:])), "segments of levels stand in order")
    need(all(s[1] < p.after and all(q < OTHER for q in s[2]) for _, s in p.levels), "segments of levels lie in master")


def joined(flat, section):
    """Flat segments with a section behind them: its first record may go on with the last of them."""
    flat = [list(s) for s in flat]
    for number, (_, (low, high, parents)) in enumerate(section):
        if number == 0 and flat and parents == [low - 1]:
            flat[-1][1] = high
        else:
            flat.append([low, high, parents])
    return flat


class Stored:
    """What payloads leave: the flat segments of master, its names by id, and the others."""

    def __init__(self):
        self.count, self.flat, self.names, self.cloned = 0, [], {}, 0
        self.others, self.other_names = [], []

    def add(self, p, number):
        need(p.before == self.count, "before isn't the after of the payload in front")
        need(p.kind == 1 or number == 0, "a clone, or a whole store, isn't the first payload")
        flat = joined(self.flat, p.master)
        names = dict(self.names)
        names.update(p.known)
        every = list(names.values()) + p.names
        need(len(set(every)) == len(every), "a name stands twice")
        if p.kind != 1:
            self.cloned = p.cloned
            need(p.heads == heads_of(flat, names, p.cloned), "the heads")
        if p.version == 2:
            need(p.levels == plain_store.new_levels(self.flat, flat), "the segments of levels")
        self.count, self.flat, self.names = p.after, flat, names
        self.others, self.other_names = p.others, p.names


def heads_of(flat, names, cloned):
    """The names of the ids below a count that are no parent of another one."""
    below = {i - 1 for low, high, _ in flat for i in range(low + 1, min(high, cloned - 1) + 1)}
    below |= {q for low, _, parents in flat if low < cloned for q in parents}
    heads = [i for i in range(cloned) if i not in below]
    need(all(i in names for i in heads), "a head has no name")
    return [names[i] for i in heads]


def batches(data):
    """The payloads' bytes: up to the first closed gate, behind which nothing counts."""
    need(len(data) <= MOST_BYTES, "too large")
    found, at = [], 0
    while len(data) > 1 and data[at] == 1:
        need(at + 9 <= len(data), "a length runs past the end")
        size = int.from_bytes(data[at + 1 : at + 9], "big")
        need(at + 10 + size <= len(data), "a payload or a gate runs past the end")
        found.append(data[at + 9 : at + 9 + size])
        at += 9 + size
    return found


def read(data):
    return [payload(batch) for batch in batches(data)]


def stored(payloads):
    left, is_second = Stored(), False
    for number, p in enumerate(payloads):
        need(not (is_second and p.version == 1), "version 1 behind version 2")
        is_second = p.version == 2
        left.add(p, number)
    return left


def spelled(payloads):
    return plain_store.log_of([spelled_payload(p) for p in payloads])


def spelled_payload(p):
    section = lambda records: len(records).to_bytes(4, "big") + b"".join(plain_store.record(s, level) for level, s in records)
    second = p.version == 2
    return b"".join(
        [
            bytes([p.version, p.kind]),
            p.before.to_bytes(8, "big"),
            p.after.to_bytes(8, "big"),
            p.cloned.to_bytes(8, "big") if second else b"",
            section(p.master),
            section(p.levels) if second else b"",
            len(p.known).to_bytes(4, "big"),
            *(i.to_bytes(8, "big") + name for i, name in p.known),
            len(p.heads).to_bytes(2, "big"),
            *p.heads,
            len(p.names).to_bytes(4, "big"),
            section(p.others),
            *p.names,
        ]
    )
