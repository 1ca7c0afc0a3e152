"""Files that are logs or none, by what is wrong with each: damaged_files.py PROGRAM FOLDER.

Each goes to the built program as its log, which is loaded, or refused by status 4 and left as it is; and as a mirror, of which a clone is
made, or which fails. The plain reader (plain_log.py) has to say the same of each.
"""
import copy
import subprocess
import sys
from pathlib import Path

import plain_log
import plain_store
from plain_log import OTHER, Payload


def name(last):
    return bytes(19) + bytes([last])


# ---- payloads of a ladder: an odd id has the one before as its only parent, an even one the two before


def ladder(before, after):
    ends = [(low, min(low + 1, after - 1)) for low in range(before, after, 2)]
    return [(0, [low, high, [low - 2, low - 1] if low else []]) for low, high in ends]


def named(before, after):
    return [(i, name(i + 1)) for i in range(before, after)]


def flush(version, before, after, levels=()):
    return Payload(version, 1, before, after, 0 if version == 2 else None, ladder(before, after), list(levels), named(before, after), [], [], [])


def six(version, kind, cloned, *heads):
    """Six ids, of which so many were cloned."""
    return Payload(version, kind, 0, 6, cloned, ladder(0, 6), [], named(0, 6), [name(head) for head in heads], [], [])


def first(before, after):
    return flush(1, before, after)


def second(before, after, *levels):
    return flush(2, before, after, levels)


LOW, HIGH = (1, [0, 31, []]), (1, [32, 63, [30, 31]])
LOW_SHORT, HIGH_SHORT = (1, [0, 29, []]), (1, [32, 61, [30, 31]])
HIGH_FIRST, HIGH_SECOND, HIGH_TURNED = (1, [32, 63, [30]]), (1, [32, 63, [31]]), (1, [32, 63, [31, 30]])
LOW_ABOVE, LOW_FLAT, LAST = (2, [0, 31, []]), (0, [0, 31, []]), (1, [64, 64, [62, 63]])

# What a log is, its payloads, and how many commits master has, where it is loaded.
LISTED = [
    ("a level", [second(0, 35, LOW)], 35),
    ("a shorter one", [second(0, 35, LOW_SHORT)], None),
    ("none", [second(0, 35)], None),
    ("two", [second(0, 65, LOW, HIGH)], 65),
    ("the first dropped", [second(0, 65, HIGH)], None),
    ("the second dropped", [second(0, 65, LOW)], None),
    ("both dropped", [second(0, 65)], None),
    ("the first twice", [second(0, 65, LOW, LOW, HIGH)], None),
    ("the second twice", [second(0, 65, LOW, HIGH, HIGH)], None),
    ("one moved", [second(0, 65, HIGH, LOW)], None),
    ("the first shortened", [second(0, 65, LOW_SHORT, HIGH)], None),
    ("the second shortened", [second(0, 65, LOW, HIGH_SHORT)], None),
    ("one too many", [second(0, 65, LOW, HIGH, LAST)], None),
    ("no second parent", [second(0, 65, LOW, HIGH_FIRST)], None),
    ("no first parent", [second(0, 65, LOW, HIGH_SECOND)], None),
    ("parents turned", [second(0, 65, LOW, HIGH_TURNED)], None),
    ("one of a level above", [second(0, 65, HIGH, LOW_ABOVE)], None),
    ("a flat one", [second(0, 65, LOW_FLAT, HIGH)], None),
]

FOLLOWED = [
    ("both of the first", [first(0, 35), first(35, 35)], 35),
    ("second behind first", [first(0, 35), second(35, 35)], 35),
    ("both of the second", [second(0, 35, LOW), second(35, 35)], 35),
    ("first behind second", [second(0, 35, LOW), first(35, 35)], None),
    ("a level of the first", [first(0, 35), second(35, 35, LOW)], None),
    ("a level again", [second(0, 35, LOW), second(35, 35, LOW)], None),
    ("more ids", [second(0, 34, LOW), second(34, 65, HIGH)], 65),
    ("more ids behind first", [first(0, 34), second(34, 65, HIGH)], 65),
    ("levels afresh", [second(0, 34, LOW), second(34, 65, LOW, HIGH)], None),
    ("more ids without their level", [second(0, 34, LOW), second(34, 65)], None),
]

# Of the first five ids the fifth is the head; of all six it is the sixth.
WHOLE = [
    ("a whole store", [six(2, 3, 5, 5)], 6),
    ("a whole store without clone", [six(2, 3, 0)], 6),
    ("a whole store of a clone", [six(2, 3, 6, 6)], 6),
    ("more cloned than there are", [six(2, 3, 7, 6)], None),
    ("the head of all ids", [six(2, 3, 5, 6)], None),
    ("no head", [six(2, 3, 5)], None),
    ("a head too many", [six(2, 3, 5, 5, 6)], None),
    ("a whole store twice", [six(2, 3, 5, 5), six(2, 3, 5, 5)], None),
    ("a whole store second", [first(0, 6), six(2, 3, 5, 5)], None),
    ("a flush behind it", [six(2, 3, 5, 5), second(6, 9)], 9),
    ("a first one behind it", [six(2, 3, 5, 5), first(6, 9)], None),
    ("a whole store of the first version", [six(1, 3, 5, 5)], None),
    ("a clone", [six(2, 2, 6, 6)], 6),
    ("a clone of nothing", [six(2, 2, 0, 6)], None),
    ("a clone second", [six(2, 2, 6, 6), six(2, 2, 6, 6)], None),
]


# ---- bytes: the log of two others in either version, with bytes changed

OTHERS = [(0, [OTHER, OTHER + 1, []])]


def others(version):
    pair = [name(0xA1), name(0xB1)]
    return plain_log.spelled([Payload(version, 1, 0, 0, 0 if version == 2 else None, [], [], [], [], OTHERS, pair)])


FIRST, SECOND = others(1), others(2)


def changed(data, at, byte):
    return data[:at] + bytes([byte]) + data[at + 1 :]


def doubled(payload):
    """A log in which this payload stands twice."""
    return plain_log.spelled([payload, copy.deepcopy(payload)])


# The number 1 of a record, that of the ids below the highest one, in two bytes.
LONGER = bytes([1]) + (len(FIRST) - 9).to_bytes(8, "big") + FIRST[9:56] + b"\x81\x00" + FIRST[57:]
# One record whose parent isn't below it.
ABOVE = plain_log.spelled([Payload(1, 1, 0, 0, None, [], [], [], [], [(0, [OTHER, OTHER + 1, [1 << 63]])], [name(0xA1), name(0xB1)])])
PAIR = Payload(2, 1, 0, 2, 0, [(0, [0, 1, []])], [], [(0, name(0xA1)), (1, name(0xB1))], [], [], [])
LAZY = Payload(1, 2, 0, 2, None, [(0, [0, 1, []])], [], [(1, name(0x19))], [name(0x19)], [], [])

# What a file is, its bytes, and how many commits master and the others have, where it is loaded.
FILES = [
    ("nothing", b"", (0, 0)),
    ("a gate's byte alone", b"\1", (0, 0)),
    ("an open gate and a byte", b"\1\0", None),
    ("a length that runs past the end", bytes([1, 0, 0, 0, 0, 0, 0, 0, 5, 170]), None),
    ("no last byte", FIRST[:-1], None),
    ("the last gate open", changed(FIRST, 97, 1), None),
    ("the last gate half open", changed(FIRST, 97, 127), (0, 2)),
    ("a byte behind the closed gate", FIRST + b"\7", (0, 2)),
    ("another version", changed(FIRST, 9, 3), None),
    ("another kind", changed(FIRST, 10, 4), None),
    ("one name twice", changed(FIRST, 96, 161), None),
    ("a parent above", ABOVE, None),
    ("a longer spelling of a number", LONGER, None),
    ("the first version", FIRST, (0, 2)),
    ("the second version", SECOND, (0, 2)),
    ("no last byte of the second version", SECOND[:-1], None),
    ("the last gate open behind the second version", changed(SECOND, 109, 1), None),
    ("a third version", changed(SECOND, 9, 3), None),
    ("the second version called the first", changed(SECOND, 9, 1), None),
    ("a flush with a cloned id", changed(SECOND, 34, 1), None),
    ("a master record that isn't there", changed(SECOND, 38, 1), None),
    ("a level record that isn't there", changed(SECOND, 42, 1), None),
    ("one name twice in the second version", changed(SECOND, 108, 161), None),
    ("a payload of no bytes", bytes([1, *bytes(8), 0]), None),
    ("a flush of others twice", SECOND[:-1] + SECOND, (0, 2)),
    ("a flush into master twice", doubled(PAIR), None),
    ("a clone that lacks a name", plain_log.spelled([LAZY]), (2, 0)),
]


def plainly(data):
    """How many commits master and the others have by the plain reader, and whether all names of master are stored; `None` where the bytes
    are no log."""
    try:
        left = plain_log.stored(plain_log.read(data))
    except plain_log.Refused:
        return None
    return (left.count, len(left.other_names)), len(left.names) == left.count


def check(program, folder, what, data, wanted):
    log, fresh = Path(folder, "file"), Path(folder, "fresh")
    log.write_bytes(data)
    told = plainly(data)
    if (told and told[0]) != wanted:
        sys.exit(f"damaged_files: {what}: the plain reader tells {told}")
    done = subprocess.run([program, log, "--", "run"], input=b"0 status\n", stdout=subprocess.PIPE, timeout=1800)
    replies = b"" if wanted is None else b"ok %d %d 0\n" % wanted
    if (done.returncode, done.stdout) != (4 if wanted is None else 0, replies):
        sys.exit(f"damaged_files: {what}: status {done.returncode}, {done.stdout}")
    if wanted is None and log.read_bytes() != data:
        sys.exit(f"damaged_files: {what}: the file was written")
    log.write_bytes(data)
    fresh.unlink(missing_ok=True)
    done = subprocess.run([program, fresh, log, "--", "run"], input=b"0 clone\n0 clone\n", stdout=subprocess.PIPE, timeout=1800)
    is_mirror = told is not None and told[1]
    again = b"err not-empty %d 0" % wanted[0] if is_mirror and wanted[0] else b"ok cloned 0"
    replies = b"ok cloned %d\n%s\n" % (wanted[0], again) if is_mirror else b"err remote 1\n" * 2
    if done.stdout != replies or log.read_bytes() != data:
        sys.exit(f"damaged_files: {what}, as a mirror: {done.stdout}")


def main():
    program, folder = sys.argv[1:]
    if [len(plain_log.spelled([it])) for it in (second(0, 35, LOW), first(0, 35))] != [1_300, 1_276] or len(FIRST) != 98 or len(SECOND) != 110:
        sys.exit("damaged_files: the logs have other lengths")
    count = 0
    for what, payloads, master in [*LISTED, *FOLLOWED, *WHOLE]:
        check(program, folder, what, plain_log.spelled(payloads), None if master is None else (master, 0))
        count += 1
    for what, data, wanted in FILES:
        check(program, folder, what, data, wanted)
        count += 1
    print(f"damaged_files: {count} files are loaded or refused, as logs and as mirrors")


main()
