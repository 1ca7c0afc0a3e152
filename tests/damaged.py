"""Damaged logs: damaged.py PROGRAM FOLDER [LOGS] [SEED].

Draws logs of both versions, of clones and of whole stores, damages them, byte by byte or by their structure, and those with cloned
commits by what they say of these, too. Each is given to the built program, which has to refuse what tests/plain_log.py refuses, by
status 4 and with the file as it was, and else to answer what that reader finds. The last line counts how many of either there were, by
kind of damage: the same numbers each time.
"""
import copy
import random
import subprocess
import sys
from collections import Counter
from pathlib import Path

import plain_log
import plain_store
from plain_log import OTHER, Payload

LINES = b"0 status\n0 levels\n0 count all\n0 query others\n0 count merges(all)\n0 query heads(all)\n"


# ---- logs that are drawn


def draw_rows(draw, count, first_other):
    """Parents' ids of rows that stand one behind the other, and how many of them are master's: the others come last."""
    rows = []
    for i in range(count):
        own = i if i < first_other else OTHER + i - first_other
        before = [j if j < first_other else OTHER + j - first_other for j in range(max(0, i - 30), i)]
        before = [b for b in before if b < OTHER or own >= OTHER]
        kind = draw.random()
        if not before or kind < 0.04:
            rows.append([])
        elif kind < 0.7:
            rows.append([before[-1]])
        else:
            rows.append(draw.sample(before, min(len(before), draw.choice([1, 2, 2, 3]))))
    return rows


def name_of(i):
    return (i * 2654435761 % (1 << 160)).to_bytes(20, "big")[::-1]


def level_zero(segments):
    return [(0, s) for s in segments]


def draw_log(draw):
    """Payloads of a drawn history: flushes of either version, perhaps behind a clone or a whole store."""
    versions = draw.choice([[1], [2], [2], [1, 2]])
    begin = draw.choice([1, 1, 2, 3] if 2 in versions and versions[0] == 2 else [1, 1, 2])
    sizes = [draw.choice([0, 1, 2, 5, 9, 40, 300]) for _ in range(draw.choice([1, 2, 3]))]
    if begin != 1 and sizes[0] == 0:
        sizes[0] = 3
    total, payloads, at, flat = sum(sizes), [], 0, []
    rows = draw_rows(draw, total, total)
    for number, size in enumerate(sizes):
        version = versions[min(number, len(versions) - 1)]
        kind = begin if number == 0 else 1
        extra = 0 if kind == 2 else draw.choice([0, 0, 1, 4])
        after = at + size
        if after + extra == 0:
            extra = 1
        section = plain_store.flat_segments(at, rows[at:after])
        others = plain_store.flat_segments(OTHER, draw_others(draw, after, extra))
        new = plain_log.joined(flat, level_zero(section))
        levels = [] if version == 1 else plain_store.new_levels(flat, new)
        cloned = {1: 0, 2: after, 3: draw.randint(0, after)}[kind]
        known, heads = draw_names(draw, section, at, after, cloned if kind != 1 else 0)
        names = [name_of(10**6 * (number + 1) + j) for j in range(extra)]
        p = Payload(version, kind, at, after, cloned, level_zero(section), levels, known, [], level_zero(others), names)
        p.heads = plain_log.heads_of(new, dict(known), cloned) if kind != 1 else []
        payloads.append(p)
        at, flat = after, new
    return payloads


def draw_others(draw, after, extra):
    rows = []
    for j in range(extra):
        before = list(range(max(0, after - 5), after)) + [OTHER + k for k in range(j)]
        rows.append(draw.sample(before, min(len(before), draw.choice([0, 1, 1, 2]))))
    return rows


def draw_names(draw, section, at, after, cloned):
    """Names of new master ids: of all that aren't cloned, and of the cloned ones that need one, or by chance."""
    need = {i for i in range(at, after) if i >= cloned}
    for low, high, parents in section:
        if low < cloned:
            need.add(min(high, cloned - 1))
            need.update(parents if len(parents) > 1 else [])
    need |= {i for i in range(at, cloned) if draw.random() < 0.1}
    return [(i, name_of(i)) for i in sorted(need)], []


# ---- damage


def flip(draw, data):
    at = draw.randrange(len(data))
    return data[:at] + bytes([data[at] ^ draw.choice([1, 2, 127, 128, 255])]) + data[at + 1 :]


def cut(draw, data):
    return data[: draw.randrange(len(data))]


def remove(draw, data):
    at, size = draw.randrange(len(data)), draw.choice([1, 2, 9, 20, 28])
    return data[:at] + data[at + size :]


def double(draw, data):
    at, size = draw.randrange(len(data)), draw.choice([1, 8, 20, 28, 100])
    return data[: at + size] + data[at:]


def count_one_more(draw, data):
    at = draw.randrange(len(data))
    return data[:at] + bytes([(data[at] + draw.choice([1, 255])) % 256]) + data[at + 1 :]


def behind(draw, data):
    return data + draw.choice([b"\0", b"\1", b"\1" * 30, bytes(100)])


BYTES = [flip, cut, remove, double, count_one_more, behind]


def some(draw, payloads, section):
    """One of the payloads in which this section isn't empty, and a place in it; or None."""
    held = [p for p in payloads if getattr(p, section)]
    if not held:
        return None
    p = draw.choice(held)
    return getattr(p, section), draw.randrange(len(getattr(p, section)))


def drop_item(draw, payloads):
    found = some(draw, payloads, draw.choice(["master", "levels", "known", "heads", "others", "names"]))
    if found:
        del found[0][found[1]]


def double_item(draw, payloads):
    found = some(draw, payloads, draw.choice(["master", "levels", "known", "heads", "others", "names"]))
    if found:
        found[0].insert(found[1], copy.deepcopy(found[0][found[1]]))


def move_item(draw, payloads):
    found = some(draw, payloads, draw.choice(["master", "levels", "known", "heads", "others", "names"]))
    if found:
        found[0].insert(draw.randrange(len(found[0])), found[0].pop(found[1]))


def turn_record(draw, payloads):
    found = some(draw, payloads, draw.choice(["master", "levels", "levels", "others"]))
    if not found:
        return
    items, k = found
    level, (low, high, parents) = items[k]
    low, high, parents = low, high, list(parents)
    turn = draw.randrange(6)
    if turn == 0:
        high = max(low, high + draw.choice([-1, 1]))
    elif turn == 1:
        low = min(high, max(0, low + draw.choice([-1, 1])))
    elif turn == 2:
        level = draw.choice([0, 1, 2, 3, 7, 8])
    elif turn == 3 and parents:
        parents.pop(draw.randrange(len(parents)))
    elif turn == 4 and parents:
        at = draw.randrange(len(parents))
        parents[at] = max(0, parents[at] + draw.choice([-1, 1]))
    else:
        parents.append(max(0, low - draw.choice([1, 2, 3])))
    items[k] = (level, [low, high, parents])


def turn_name(draw, payloads):
    p = draw.choice(payloads)
    every = [name for q in payloads for name in [n for _, n in q.known] + q.names + q.heads]
    kind = draw.choice(["known", "id", "names", "heads"])
    if kind == "known" and p.known:
        k = draw.randrange(len(p.known))
        p.known[k] = (p.known[k][0], draw.choice(every))
    elif kind == "id" and p.known:
        k = draw.randrange(len(p.known))
        p.known[k] = (max(0, p.known[k][0] + draw.choice([-1, 1])), p.known[k][1])
    elif kind == "names" and p.names:
        p.names[draw.randrange(len(p.names))] = draw.choice(every)
    elif p.heads:
        p.heads[draw.randrange(len(p.heads))] = draw.choice(every)


def turn_number(draw, payloads):
    p = draw.choice(payloads)
    field = draw.choice(["before", "after", "cloned", "kind", "version"])
    setattr(p, field, max(0, getattr(p, field) + draw.choice([-1, 1])))


def turn_order(draw, payloads):
    k = draw.randrange(len(payloads))
    turn = draw.randrange(3)
    if turn == 0:
        payloads.insert(draw.randrange(len(payloads)), payloads.pop(k))
    elif turn == 1:
        payloads.insert(k, copy.deepcopy(payloads[k]))
    elif len(payloads) > 1:
        del payloads[k]


# ---- damage of what a clone, or a whole store, says of cloned commits


def lose_name(draw, p):
    """A cloned id without its name: lawful, where it needs none."""
    k = draw.choice([k for k, (i, _) in enumerate(p.known) if i < p.cloned])
    del p.known[k]


def give_name(draw, p):
    """A name for a cloned id that has none, which is lawful, or for a new one."""
    lazy = sorted(set(range(p.cloned)) - {i for i, _ in p.known})
    own = draw.choice(lazy) if lazy and draw.random() < 0.8 else p.after
    p.known = sorted(p.known + [(own, bytes([255]) * 20)])


def move_name(draw, p):
    """The name of a cloned id goes to another one that has none."""
    lazy = sorted(set(range(p.cloned)) - {i for i, _ in p.known})
    if lazy:
        k = draw.choice([k for k, (i, _) in enumerate(p.known) if i < p.cloned])
        p.known = sorted(p.known[:k] + p.known[k + 1 :] + [(draw.choice(lazy), p.known[k][1])])


def exchange_names(draw, p):
    """Two ids exchange their names: lawful, where no head is one of them."""
    a, b = draw.randrange(len(p.known)), draw.randrange(len(p.known))
    (i, first), (j, second) = p.known[a], p.known[b]
    p.known[a], p.known[b] = (i, second), (j, first)


def change_heads(draw, p):
    """A head goes, or is another commit, or one more comes, or all are turned."""
    turn, other = draw.randrange(4), draw.choice(p.known)[1]
    if turn == 0:
        del p.heads[draw.randrange(len(p.heads))]
    elif turn == 1:
        p.heads[draw.randrange(len(p.heads))] = other
    elif turn == 2:
        p.heads.insert(draw.randrange(len(p.heads) + 1), other)
    else:
        p.heads.reverse()


def count_cloned(draw, p):
    """Another number of cloned commits, perhaps with the heads that they have."""
    p.cloned = draw.choice([0, p.after, p.after + 1, max(0, p.cloned - 1), p.cloned + 1, draw.randint(0, p.after)])
    if draw.random() < 0.7:
        try:
            p.heads = plain_log.heads_of([s for _, s in p.master], dict(p.known), min(p.cloned, p.after))
        except plain_log.Refused:
            p.heads = p.heads[:1]


def change_kind(draw, p):
    """A clone that is told as a whole store, which is lawful, or the other way round; or either as a flush."""
    p.kind = draw.choice([5 - p.kind, 5 - p.kind, 1])
    if p.kind == 1 and draw.random() < 0.5:
        p.cloned, p.heads = 0, []


CLONED = [lose_name, give_name, move_name, exchange_names, change_heads, count_cloned, change_kind]


def damaged_clone(draw, payloads):
    """A kind of damage to what the first payload says of cloned commits, and the bytes of a log that has it."""
    kind, turned = draw.choice(CLONED), copy.deepcopy(payloads)
    kind(draw, turned[0])
    return kind.__name__, plain_log.spelled(turned)


STRUCTURE = [drop_item, double_item, move_item, turn_record, turn_name, turn_number, turn_order]


def damaged(draw, payloads):
    """A kind of damage, and the bytes of a log that has it."""
    if draw.random() < 0.4:
        kind = draw.choice(BYTES)
        return kind.__name__, kind(draw, plain_log.spelled(payloads))
    kind, turned = draw.choice(STRUCTURE), copy.deepcopy(payloads)
    kind(draw, turned)
    return kind.__name__, plain_log.spelled(turned)


# ---- what the program has to say


def answers(left):
    """The replies to LINES over what the payloads leave."""
    others = sum(s[1] - s[0] + 1 for _, s in left.others)
    segments = left.flat + [s for _, s in left.others]
    merges = sum(len(parents) > 1 for _, _, parents in segments)
    lines = [f"ok {left.count} {others} 0", "ok " + " ".join(map(str, plain_store.level_sizes(left.flat)))]
    lines += [f"ok {left.count + others}", *(name.hex() for name in reversed(left.other_names)), f"ok {others}", f"ok {merges}"]
    lines += head_lines(left, segments)
    return "".join(line + "\n" for line in lines).encode()


def head_lines(left, segments):
    """The heads of all, the greatest id first: each has its name, whatever was cloned."""
    below = {q for low, high, parents in segments for q in [*parents, *range(low, high)]}
    every = [(i, left.names.get(i)) for i in range(left.count)] + [(OTHER + j, name) for j, name in enumerate(left.other_names)]
    heads = [name.hex() for i, name in reversed(every) if i not in below]
    return [*heads, f"ok {len(heads)}"]


def wanted(data):
    try:
        return 0, answers(plain_log.stored(plain_log.read(data)))
    except plain_log.Refused:
        return 4, b""


def check(program, log, data, kind, seed):
    status, output = wanted(data)
    log.write_bytes(data)
    ran = subprocess.run([program, log, "--", "run"], input=LINES, stdout=subprocess.PIPE, stderr=subprocess.DEVNULL, timeout=1800)
    if (ran.returncode, ran.stdout) != (status, output):
        kept = Path("damaged.log")
        kept.write_bytes(data)
        sys.exit(f"damaged: {kind} of log {seed}: status {ran.returncode} for {status}; {kept} has the bytes\n{ran.stdout.decode()}--\n{output.decode()}")
    if len(data) > 1 and log.read_bytes() != data:
        sys.exit(f"damaged: {kind} of log {seed}: the file was written")
    return status


def main():
    program, log = sys.argv[1], Path(sys.argv[2], "log")
    logs, first = int(sys.argv[3]), int(sys.argv[4])
    taken, refused = Counter(), Counter()
    for seed in range(first, first + logs):
        draw = random.Random(seed)
        payloads = draw_log(draw)
        if check(program, log, plain_log.spelled(payloads), "no damage", seed) != 0:
            sys.exit(f"damaged: log {seed} is refused as it was drawn")
        ways = [damaged] * 12 + [damaged_clone] * (12 if payloads[0].cloned else 0)
        for way in ways:
            kind, data = way(draw, payloads)
            (refused if check(program, log, data, kind, seed) else taken)[kind] += 1
    kinds = " ".join(f"{kind} {refused[kind]}/{refused[kind] + taken[kind]}" for kind in sorted(refused | taken))
    print(f"damaged: {logs} drawn logs are taken; of {(refused + taken).total()} damaged ones {refused.total()} refused: {kinds}")


if __name__ == "__main__":
    main()
