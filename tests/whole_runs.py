"""The runs of whole_runs.sh: whole_runs.py PROGRAM FOLDER. In lines and replies [b1] stands for the name of 19 zero bytes and b1."""
import os
import re
import subprocess
import sys

import plain_store

PROGRAM = os.path.abspath(sys.argv[1])
LOG = os.path.join(sys.argv[2], "log")


def spelled(text):
    return re.sub(r"\[(\w\w)\]", lambda found: found.group(1).rjust(40, "0"), text)


def check(what, lines, replies, status=0, size=None, mirrors=()):
    """The run over these lines, divided by line feeds or semicolons, beside these mirrors, has these replies; the log then has so many
    bytes."""
    lines, replies = ([line.strip() for line in re.split("[;\n]", text) if line.strip()] for text in (lines, replies))
    text = "".join(spelled(line) + "\n" for line in lines)
    done = subprocess.run([PROGRAM, LOG, *mirrors, "--", "run"], input=text.encode(), stdout=subprocess.PIPE, timeout=1800)
    given = done.stdout.decode().splitlines()
    wanted = [spelled(reply) for reply in replies]
    if done.returncode != status or given != wanted:
        at = next((at for at, (one, other) in enumerate(zip(given, wanted)) if one != other), min(len(given), len(wanted)))
        sys.exit(f"whole_runs: {what}: status {done.returncode}, from reply {at} on {given[at : at + 9]} for {wanted[at : at + 9]}")
    if size is not None and os.path.getsize(LOG) != size:
        sys.exit(f"whole_runs: {what}: the log has {os.path.getsize(LOG)} bytes")


def fresh(*arguments, **options):
    """The same over a new log."""
    if os.path.exists(LOG):
        os.remove(LOG)
    check(*arguments, **options)


def added(count):
    return "".join(f"ok added N{i}; " for i in range(count))


PAIR = "0 add [a1]; 0 add [b1] [a1]; "
CHAIN = PAIR + "0 add [c1] [b1]; "
FORK = PAIR + "0 add [c1] [a1]; "
DAY = "0 add [01]; 0 add [02] [01]; 0 add [03] [02]; 0 add [04] [02]; 0 add [05] [04]; 0 add [06] [03] [05]; "


def ladder():
    """Id 0, then by turns one on the newest and one on the two newest."""
    lines = "0 add [01]; "
    for i in range(1, 35):
        parents = [i - 1] if i % 2 else [i - 2, i - 1]
        lines += f"0 add [{i + 1:02x}] " + " ".join(f"[{parent + 1:02x}]" for parent in parents) + "; "
    return lines


fresh("no input", "", "", size=1)
fresh("two commits", PAIR + "0 query all", added(2) + "[b1]; [a1]; ok 2", size=1)
fresh("an unknown parent", "0 add [c1] [d1]; 0 status", "err unknown [d1]; ok 0 0 0")
fresh(
    "what is there already",
    PAIR + "0 add [b1] [a1]; 0 add [b1]; 0 add [c1] [a1] [a1]",
    added(2) + "ok old N1; err differs [b1]; err twice [a1]",
)
fresh("two flushes of nothing", PAIR + "0 flush; 0 flush", added(2) + "ok flushed 0 2; ok flushed 0 2", size=110)
fresh(
    "a flush of a branch",
    FORK + "0 flush [c1]; 0 query all",
    added(3) + "ok flushed 2 1; [b1]; [c1]; [a1]; ok 3",
    size=159,
)
check("the run after it", "3 query all", "[b1]; [c1]; [a1]; ok 3", size=159)
with open(LOG, "rb+") as log:
    older = plain_store.log_of(map(plain_store.first_version, plain_store.read_payloads(log.read())))
    log.seek(0)
    log.write(older)
    log.truncate()
check("the same in version 1, and a flush behind it", "0 add [d1] [b1]; 0 flush", "ok added N1; ok flushed 2 2", size=257)
check("the run after both versions", "3 query all", "[d1]; [b1]; [c1]; [a1]; ok 4", size=257)
fresh("heads and tips", CHAIN + "0 query heads(union([a1],[c1])); 0 query tips(union([a1],[c1]))", added(3) + "[c1]; [a1]; ok 2; [c1]; ok 1")
fresh(
    "two greatest common ancestors",
    FORK + "0 add [d1] [b1] [c1]; 0 add [e1] [c1] [b1]; 0 query gca(union([d1],[e1]))",
    added(5) + "[c1]; [b1]; ok 2",
)
fresh("what nothing has in common", "0 query common(minus(all,all))", "ok 0")
fresh("first parents", CHAIN + "0 query up([a1],1); 0 query up([c1],0)", added(3) + "ok 0; [c1]; ok 1")
fresh(
    "a session behind",
    FORK + "0 flush [c1]; 1 reload; 1 add [d1] [b1]; 0 flush [b1]; 1 query all; 1 flush; 1 id [d1]",
    added(3) + "ok flushed 2 1; ok reloaded 0; ok added N1; ok flushed 3 0; [d1]; [b1]; [c1]; [a1]; ok 4; ok flushed 3 1; ok N0",
)
fresh(
    "a conflict",
    PAIR + "0 flush; 1 add [b1]; 1 reload; 1 flush; 1 status; 1 discard; 1 reload; 1 status",
    added(2) + "ok flushed 0 2; ok added N0; err conflict [b1]; err conflict [b1]; ok 0 0 1; ok discarded 1; ok reloaded 0; ok 0 2 0",
)
fresh(
    "a strip, and a session that loses a parent",
    FORK + "0 flush [c1]; 1 reload; 1 add [d1] [b1]; 0 strip [c1]; 0 strip [b1]; 0 query all; 1 count all; 1 flush; 1 discard; 1 flush; 0 strip [b1]; 0 add [b1] [c1]",
    added(3) + "ok flushed 2 1; ok reloaded 0; ok added N1; err master [c1]; ok stripped 2 0; [c1]; [a1]; ok 2; ok 4; err lost [b1]; ok discarded 1; ok flushed 2 0; err unknown [b1]; ok added N0",
    size=216,
)
check("the run after a strip", "0 query all; 0 levels", "[c1]; [a1]; ok 2; ok 1", size=216)
fresh("descendants go too", CHAIN + "0 flush; 0 strip [b1]; 0 query all", added(3) + "ok flushed 0 3; ok stripped 0 1; [a1]; ok 1", size=219)
check("what was stripped comes again", "0 add [b1] [a1]; 0 flush; 0 query all", "ok added N1; ok flushed 0 2; [b1]; [a1]; ok 2", size=328)
fresh(
    "strips that are refused",
    PAIR + "0 strip [a1]; 0 flush; 0 strip; 0 strip [c1] [a1]; 0 strip [a1]; 0 status",
    added(2) + "err pending 2; ok flushed 0 2; err syntax; err unknown [c1]; err empty 2; ok 0 2 0",
    size=110,
)
fresh(
    "a ladder",
    ladder() + "0 flush [23]; 0 levels; 0 count ancestors([20])",
    added(35) + "ok flushed 35 0; ok 18 1; ok 32",
    size=1300,
)
fresh(
    "a day",
    DAY + "0 query only([06],[03]); 0 query range([02],[05]); 0 query merges(all)",
    added(6) + "[06]; [05]; [04]; ok 3; [05]; [04]; [02]; ok 3; [06]; ok 1",
)
fresh("its flush", DAY + "0 flush [06]", added(6) + "ok flushed 6 0")
check(
    "the day after",
    """0 id [05]; 0 levels; 0 query gca(union([03],[05])); 0 query roots(union([04],[05])); 0 query children([02])
    0 query descendants([03]); 0 query top(all,2); 0 query inter(ancestors([03]),ancestors([05]))
    0 query minus(all,ancestors([05])); 0 query parents([06]); 0 count master; 0 count others""",
    """ok 4; ok 3; [02]; ok 1; [04]; ok 1; [04]; [03]; ok 2
    [06]; [03]; ok 2; [06]; [05]; ok 2; [02]; [01]; ok 2
    [06]; [03]; ok 2; [05]; [03]; ok 2; ok 6; ok 0""",
)
fresh(
    "lines that are no commands",
    "16 status; 0 add; 0  status; 0 query all,all; 0 id a1; 00 status",
    "err syntax; " * 6,
)
fresh("a line that is too long", "0 " + "x" * 16383 + "; 0 status", "err line 16384; ok 0 0 0")
with open(LOG, "wb") as log:
    log.write(bytes([1, 0, 0, 0, 0, 0, 0, 0, 5, 170]))
check("a damaged log", "0 status", "", status=4, size=10)


# Demonstrations: commits whose parents are drawn, with a flush behind each thousand and the last, and four questions.


def clones():
    """As who comes new has it: a log, its clone, names that are asked, a mirror that is gone, and the clone unharmed."""
    there = LOG + ".there"
    ten = "".join(f"0 add [{i:02x}]" + (f" [{i - 1:02x}]" if i > 1 else "") + "; " for i in range(1, 11))
    fresh("ten commits in a chain", ten + "0 flush [0a]", added(10) + "ok flushed 10 0")
    os.rename(LOG, there)
    check("a clone", "0 clone; 0 status", "ok cloned 10; ok 10 0 0", mirrors=[there])
    size = os.path.getsize(LOG)
    check("names that are asked", "0 query top(all,3); 0 id [05]; 0 count ancestors([07])",
          "[0a]; [09]; [08]; ok 3; ok 4; ok 7", size=size, mirrors=[there])
    check("a mirror that isn't there before one that is", "0 id [05]; 0 mirrors", "ok 4; ok 2", size=size, mirrors=[there + ".not", there])
    check("no mirror", "0 id [05]; 0 id [0a]", "err no-remote; ok 9", size=size)
    os.rename(there, there + ".gone")
    check("the mirror is gone", "0 id [05]; 0 id [0a]; 0 add [0b] [0a]; 0 count all", "err remote 1; ok 9; err remote 1; ok 10", size=size, mirrors=[there])
    os.rename(there + ".gone", there)
    check("it is back", "0 id [05]; 0 query range([09],[0a])", "ok 4; [0a]; [09]; ok 2", size=size, mirrors=[there])
    check("the clone goes on", "0 add [0b] [0a]; 0 flush [0b]; 0 clone", "ok added N0; ok flushed 11 0; err not-empty 11 0", mirrors=[there])
    check("and is a log as any", "0 query top(all,2)", "[0b]; [0a]; ok 2")
    os.remove(there)
    os.remove(LOG)


def knows_pull():
    done = subprocess.run([PROGRAM, LOG, "--", "run"], input=b"0 pull\n", stdout=subprocess.PIPE, timeout=1800)
    os.remove(LOG)
    return done.stdout != b"err syntax\n"


def pulls():
    """As who keeps a clone has it: the log grows that was cloned, and the clone pulls."""
    there, here = LOG + ".there", LOG

    def grow(what, lines, replies):
        os.rename(here, here + ".aside")
        os.rename(there, here)
        check(what, lines, replies)
        os.rename(here, there)
        os.rename(here + ".aside", here)

    ten = "".join(f"0 add [{i:02x}]" + (f" [{i - 1:02x}]" if i > 1 else "") + "; " for i in range(1, 11))
    fresh("ten commits to be pulled from", ten + "0 flush [0a]", added(10) + "ok flushed 10 0")
    os.rename(here, there)
    check("their clone", "0 clone; 0 pull", "ok cloned 10; ok pulled 10 0", size=118, mirrors=[there])
    grow("two more", "0 add [0b] [0a]; 0 add [0c] [0b]; 0 flush [0c]", "ok added N0; ok added N1; ok flushed 12 0")
    check(
        "a pull, and the new names without a mirror",
        "0 pull; 0 query top(all,3); 0 id [0b]; 1 status; 1 reload; 1 status; 0 pull",
        "ok pulled 12 0; [0c]; [0b]; [0a]; ok 3; ok 10; ok 10 0 0; ok reloaded 0; ok 12 0 0; ok pulled 12 0",
        size=244,
        mirrors=[there],
    )
    replies = "[0c]; [0b]; [0a]; ok 3; ok 10; err no-remote"
    check("the run after it", "0 query top(all,3); 0 id [0b]; 0 id [05]", replies)
    check(
        "rows of one's own, of which the remote gets one",
        "0 add [0d] [0c]; 0 add [20] [0c]; 0 flush; 0 pull",
        "ok added N0; ok added N1; ok flushed 12 2; ok pulled 12 2",
        mirrors=[there],
    )
    grow(
        "it comes there behind another one",
        "0 add [0e] [0c]; 0 add [0d] [0c]; 0 flush [0e] [0d]",
        "ok added N0; ok added N1; ok flushed 14 0",
    )
    check(
        "it moves to master, where the remote has it",
        "0 add [21] [20]; 0 pull; 0 discard; 0 pull; 0 query top(all,4); 0 id [0d]; 0 levels",
        "ok added N2; err pending 1; ok discarded 1; ok pulled 14 1; [20]; [0d]; [0e]; [0c]; ok 4; ok 13; ok 2",
        mirrors=[there],
    )
    grow("one that was added here with another parent", "0 add [20] [0d]; 0 flush [20]", "ok added N0; ok flushed 15 0")
    check(
        "a conflict, and its commit taken out",
        "0 pull; 0 status; 0 strip [20]; 0 pull; 0 query top(all,2)",
        "err conflict [20]; ok 14 1 0; ok stripped 14 0; ok pulled 15 0; [20]; [0d]; ok 2",
        mirrors=[there],
    )
    size = os.path.getsize(here)
    os.rename(there, there + ".gone")
    check("the mirror is away", "0 pull; 0 status", "err remote 1; ok 15 0 0", size=size, mirrors=[there])
    check("no mirror", "0 pull; 0 status", "err no-remote; ok 15 0 0", size=size)
    os.rename(there + ".gone", there)
    both = [there + ".not", there]
    check("it is back, behind one that isn't", "0 pull; 0 mirrors", "ok pulled 15 0; ok 2", size=size, mirrors=both)
    os.rename(here, here + ".aside")
    fresh("another history", ten.replace("[0a]", "[1a]") + "0 flush [1a]", added(10) + "ok flushed 10 0")
    other = here + ".other"
    os.rename(here, other)
    replies = "ok pulled 10 0; [1a]; [09]; ok 2; ok 1"
    fresh("a pull over a new log", "0 pull; 0 query top(all,2); 0 levels", replies, mirrors=[other])
    os.rename(here + ".aside", here)
    replies = "err mismatch clone 1; err syntax; ok 15 0 0"
    check("which isn't the one that was cloned", "0 pull; 0 pull 1; 0 status", replies, size=size, mirrors=[other])
    for path in (here, there, other):
        os.remove(path)


def worlds():
    """Sixteen sessions on sixteen worlds of one log of a hundred flushes: each sees what it saw. Each flush has one commit on the one before;
    each fourth is a head, which moves with the three before it. Behind each sixth one more session is put on the newest world."""
    lines, replies = [], []

    def ask(line, *told):
        lines.append(line)
        replies.extend(told)

    def seen(count):
        return [f"{number:040}" for number in reversed(range(count))] + [f"ok {count}"]

    for number in range(100):
        others = number % 4
        ask(f"0 add {number:040}" + (f" {number - 1:040}" if number else ""), f"ok added N{others}")
        if others == 3:
            ask(f"0 flush {number:040}", f"ok flushed {number + 1} 0")
        else:
            ask("0 flush", f"ok flushed {number - others} {others + 1}")
        session = number // 6 + 1
        if number % 6 == 5 and session < 16:
            ask(f"{session} reload", "ok reloaded 0")
            ask(f"{session} query all", *seen(number + 1))
    ask("0 query all", *seen(100))
    for session in range(1, 16):
        ask(f"{session} query all", *seen(session * 6))
    fresh("sixteen sessions on sixteen worlds", "\n".join(lines), "\n".join(replies))


def numbered(number):
    """The name of 16 bytes, of which the last is 1, and this number."""
    return f"{1:032x}{number:08x}"


def grown(log, parts):
    """This log takes these parts, each of rows and of the heads with which they move to master."""
    lines = []
    for rows, heads in parts:
        lines += [f"0 add {' '.join(row)}" for row in rows] + [f"0 flush {' '.join(heads)}"]
    done = subprocess.run([PROGRAM, log, "--", "run"], input="".join(line + "\n" for line in lines).encode(), stdout=subprocess.PIPE, timeout=1800)
    replies = done.stdout.decode().splitlines()
    if done.returncode != 0 or len(replies) != len(lines) or any(not reply.startswith("ok ") for reply in replies):
        sys.exit(f"whole_runs: a log that grows by {len(lines)} lines: status {done.returncode}, {replies[-1:]}")


def large():
    """What bodies that give up at a thousand rows, or at no head too many, would be told by."""
    there = LOG + ".there"
    chain = [[numbered(number), *([numbered(number - 1)] if number else [])] for number in range(2_500)]
    grown(there, [(chain[:500], [numbered(499)])])
    fresh("a clone of five hundred", "0 clone", "ok cloned 500", mirrors=[there])
    grown(there, [(chain[500:], [numbered(2_499)])])
    others = "".join(f"0 add {numbered(2_500 + number)} {numbered(499)}; " for number in range(1_500))
    check(
        "a pull of two thousand beside fifteen hundred others",
        others + "0 flush; 0 pull; 0 count master; 0 count others; 0 count ancestors(" + numbered(2_499) + ")",
        "".join(f"ok added N{number}; " for number in range(1_500)) + "ok flushed 500 1500; ok pulled 2500 1500; ok 2500; ok 1500; ok 2500",
        mirrors=[there],
    )
    check("the run after it, without a mirror", f"0 id {numbered(2_499)}; 0 id {numbered(500)}; 0 count all", "ok 2499; ok 500; ok 4000")
    os.remove(there)
    os.remove(LOG)
    grown(LOG, [(chain[:2_000], [numbered(1_999)])])
    record = bytes([1, 0, *(1_999).to_bytes(8, "big"), 207, 15, 0])
    named_chain = b"".join(bytes.fromhex(numbered(number)) for number in range(2_000))
    ends("two thousand commits written anew", "compact", 0, b"ok compacted 2000 0 56071 56071\n")
    ends("their bundle", "bundle", 0, b"SEGBNDL1" + (2_000).to_bytes(4, "big") + (1).to_bytes(4, "big") + record + named_chain)
    os.remove(LOG + ".new")
    # Commits without parents, each of which is a head of master: as many as the log of a clone can name, and one more.
    apart = [numbered(number) for number in range(65_535)]
    # A line has room for four hundred names.
    blocks = [apart[at : at + 390] for at in range(0, len(apart), 390)]
    grown(there, [([[name] for name in block], block) for block in blocks])
    fresh("a clone of as many heads as there may be", "0 clone; 0 count heads(all)", "ok cloned 65535; ok 65535", mirrors=[there])
    check("the run after it", "0 count heads(all)", "ok 65535")
    last = numbered(65_535)
    grown(there, [([[last]], [last])])
    fresh("a clone of one more", "0 clone; 0 status", "err full heads 65535; ok 0 0 0", mirrors=[there], size=1)
    check("a pull of it, which names no heads", "0 pull; 0 count heads(all)", "ok pulled 65536 0; ok 65536", mirrors=[there])
    for path in (LOG, there):
        os.remove(path)


def leveled():
    """How many segments commits without parents have on each level, which come so many at a time."""
    for count, piece, sizes in [
        (1, 1, [1]),
        (16, 3, [16]),
        (19, 19, [19, 3]),
        # Each level has fifteen fewer than the one below, and one more is missing on the first.
        (122, 1, [122, 106, 91, 76, 61, 46, 31, 16]),
        # No ninth level comes.
        (2_000, 350, [2000, 1984, 1969, 1954, 1939, 1924, 1909, 1894]),
    ]:
        roots = [numbered(number) for number in range(count)]
        grown(LOG, [([[name] for name in roots[at : at + piece]], roots[at : at + piece]) for at in range(0, count, piece)])
        check(f"levels of {count} roots", "0 levels", "ok " + " ".join(map(str, sizes)))
        os.remove(LOG)


def deep():
    """Two hundred thousand segments, each of one commit: whatever called itself for each of them would run out of stack. The commits 0 and 1
    have no parents, and each other the one two before; each thousandth has the one before too."""
    rows = [[] if place < 2 else [place - 2] + [place - 1] * (place % 1_000 == 0) for place in range(200_000)]
    names = [numbered(place) for place in range(len(rows))]
    told = [[names[place], *(names[parent] for parent in row)] for place, row in enumerate(rows)]
    # Heads move one behind the other, so the ids are the places.
    grown(LOG, [(told[at : at + 390], names[at : at + 390]) for at in range(0, len(rows), 390)])

    def reached(*places):
        found = set(places)
        for place in range(max(places), -1, -1):
            if place in found:
                found.update(rows[place])
        return found

    def heads(found):
        return found - {parent for place in found for parent in rows[place]}

    def between(low, high):
        found = {low}
        for place in range(low, high + 1):
            if found.intersection(rows[place]):
                found.add(place)
        return found & reached(high)

    def listed(found):
        return "; ".join([*(names[place] for place in sorted(found, reverse=True)), f"ok {len(found)}"])

    flat = plain_store.flat_segments(0, rows)
    lines, replies = ["0 levels"], ["ok " + " ".join(map(str, plain_store.level_sizes(flat)))]
    if len(flat) != len(rows):
        sys.exit(f"whole_runs: {len(flat)} segments by the plain graph")

    def ask(text, found, size):
        if len(found) != size:
            sys.exit(f"whole_runs: {text} has {len(found)} commits by the plain graph, and not {size}")
        text = re.sub(r"\b\d+\b", lambda number: names[int(number[0])], text)
        short = len(found) <= 10_000
        lines.append(f"0 {'query' if short else 'count'} {text}")
        replies.append(listed(found) if short else f"ok {size}")

    # Each second one; and those below 9000, since 9000 merges 8999.
    ask("ancestors(9999)", reached(9_999), 5_000)
    ask("ancestors(9998)", reached(9_998), 9_500)
    ask("ancestors(union(9998,9999))", reached(9_998, 9_999), 10_000)
    ask("gca(union(9998,9999))", heads(reached(9_998) & reached(9_999)), 1)
    ask("gca(union(9999,9001))", heads(reached(9_999) & reached(9_001)), 1)
    ask("range(1,9999)", between(1, 9_999), 5_000)
    ask("range(0,9999)", between(0, 9_999), 0)
    # 4500 below 9000, and those from 1000 on.
    ask("range(1,9998)", between(1, 9_998), 9_000)
    ask("only(9999,9998)", reached(9_999) - reached(9_998), 500)
    ask("only(9998,9999)", reached(9_998) - reached(9_999), 5_000)
    ask("inter(0,ancestors(9998))", {0}, 1)
    ask("inter(1,ancestors(9998))", {1}, 1)
    ask("inter(0,ancestors(9999))", set(), 0)
    # The odd one reaches all odd ones, the even one those below the last merge too.
    ask("ancestors(199998)", reached(199_998), 199_500)
    ask("gca(union(199998,199999))", heads(reached(199_998) & reached(199_999)), 1)
    ask("range(1,199998)", between(1, 199_998), 199_000)
    ask("only(199999,199998)", reached(199_999) - reached(199_998), 500)
    ask("inter(0,ancestors(199999))", set(), 0)
    for place, steps, found in [
        (9_999, 4_999, {1}), (9_999, 5_000, set()), (9_998, 4_999, {0}), (9_998, 5_000, set()), (9_998, 3_210, {3_578}), (199_999, 99_999, {1}),
    ]:
        lines.append(f"0 query up({names[place]},{steps})")
        replies.append(listed(found))
    check("two hundred thousand segments", "\n".join(lines), "\n".join(replies))
    os.remove(LOG)


def ends(what, word, status, out, mirrors=()):
    """The program's run over the log by this word ends so, and puts these bytes."""
    done = subprocess.run([PROGRAM, LOG, *mirrors, "--", word], input=b"0 status\n", stdout=subprocess.PIPE, timeout=1800)
    if (done.returncode, done.stdout) != (status, out):
        sys.exit(f"whole_runs: {what}: status {done.returncode}, {done.stdout}")


def content(path):
    with open(path, "rb") as file:
        return file.read()


def put(path, data):
    with open(path, "wb") as file:
        file.write(data)


def named(number):
    return bytes(19) + bytes([number])


def anew():
    """Logs that are written anew: what is told, and that what is refused stays as it is."""
    new, apart = LOG + ".new", LOG + ".apart"
    fresh("two flushes", FORK + "0 flush [c1]; 0 add [d1] [b1]; 0 flush", added(3) + "ok flushed 2 1; ok added N1; ok flushed 2 2", size=269)
    data = content(LOG)
    ends("a log written anew", "compact", 0, b"ok compacted 2 2 269 179\n")
    ends("a second time", "compact", 14, b"")
    if content(LOG) != data or os.path.getsize(new) != 179:
        sys.exit("whole_runs: a log written again: the files differ")
    os.rename(LOG, apart)
    os.rename(new, LOG)
    check("the run over it", "0 query all; 0 levels; 0 add [e1] [d1]; 0 flush", "[d1]; [b1]; [c1]; [a1]; ok 4; ok 1; ok added N2; ok flushed 2 3")
    os.remove(LOG)
    os.rename(apart, LOG)
    put(new, bytes([1, 0, 0, 0, 0, 0, 0, 0, 5, 170]))
    ends("a damaged file in its place", "compact", 14, b"")
    if os.path.getsize(new) != 10:
        sys.exit("whole_runs: a damaged file in its place was written")
    os.remove(new)
    os.mkdir(new)
    ends("a folder in its place", "compact", 13, b"")
    os.rmdir(new)
    os.remove(LOG)
    ends("no log yet", "compact", 0, b"ok compacted 0 0 1 1\n")
    ends("no log yet, a second time", "compact", 0, b"ok compacted 0 0 1 1\n")
    os.remove(new)
    for word in ("compact", "bundle"):
        put(LOG, bytes([1, 0, 0, 0, 0, 0, 0, 0, 5, 170]))
        ends(f"a damaged log, {word}", word, 4, b"")
        os.remove(LOG)
        os.mkdir(LOG)
        ends(f"a folder as the log, {word}", word, 9, b"")
        os.rmdir(LOG)
    if os.path.exists(new):
        sys.exit("whole_runs: a file was written for a log that is none")


def bundles():
    """Bundles: of what they are, and mirrors that are read of them."""
    bundle, there = LOG + ".bundle", LOG + ".there"
    word = "bundle:" + bundle
    fork = b"SEGBNDL1" + bytes([0, 0, 0, 2, 0, 0, 0, 1, 1, 0, *bytes(7), 1, 1, 0]) + named(0xA1) + named(0xC1)
    fresh("a fork", FORK + "0 flush [c1]", added(3) + "ok flushed 2 1")
    ends("its bundle", "bundle", 0, fork)
    put(bundle, fork)
    os.rename(LOG, there)
    check("a clone of a bundle", "0 clone; 0 query all; 0 add [d1] [c1]; 0 flush [d1]", "ok cloned 2; [c1]; [a1]; ok 2; ok added N0; ok flushed 3 0", mirrors=[word])
    check("a pull from it", "0 pull; 0 count all", "ok pulled 3 0; ok 3", mirrors=[word + ".not", word])
    ends("the bundle of a clone that lacks a name", "bundle", 10, b"", mirrors=[word])
    put(bundle, fork[:-1])
    fresh("a clone of half a bundle", "0 clone; 0 clone", "err remote 1; err remote 1", mirrors=[word], size=1)
    check("and of a log as if it were one", "0 clone", "err remote 1", mirrors=["bundle:" + there], size=1)
    ends("the bundle of nothing", "bundle", 0, b"SEGBNDL1" + bytes(8))
    roots = [(f"{number:040x}", []) for number in (0xA1, 0xB1)]
    fresh("two roots", "0 add [a1]; 0 add [b1]; 0 flush [a1] [b1]", added(2) + "ok flushed 2 0")
    os.rename(LOG, there)
    check("their clone", "0 clone", "ok cloned 2", mirrors=[there])
    ends("the bundle of a clone that has all names", "bundle", 0, plain_store.bundle(roots))
    for path in (LOG, bundle, there):
        os.remove(path)


def knows_bundles():
    known = subprocess.run([PROGRAM, LOG, "--", "bundle"], stdout=subprocess.PIPE, stderr=subprocess.PIPE, timeout=1800).returncode == 0
    if known:
        os.remove(LOG)
    return known


def drawn(size, start):
    """Each commit's name with its parents' names."""
    x, rows = start, []
    for i in range(size):
        parents = [i - 1] if i else []
        if i >= 2:
            x = (x * 6364136223846793005 + 1442695040888963407) % (1 << 64)
            r = x >> 33
            far = i - 2 - r // 16 % (min(i, 65) - 1)
            parents = {0: [i - 1, far], 1: [far]}.get(r % 16, parents)
        rows.append((f"{i + 1:040x}", [f"{p + 1:040x}" for p in parents]))
    return rows


def plainly(rows, by_lines):
    """What the plain store answers at last. Where its adds would take long they are put among its pending rows at once."""
    store = plain_store.Store(b"", plain_store.LIMITS)
    for i, (name, parents) in enumerate(rows, 1):
        if by_lines:
            store.line(" ".join(["0 add", name] + parents))
        else:
            store.sessions[0][1].append((name, parents))
        if i % 1000 == 0 or i == len(rows):
            store.line(f"0 flush {name}")
    asked = ["0 status", f"0 count ancestors({rows[-1][0]})", "0 count merges(all)", "0 count heads(all)"]
    return [reply for line in asked for reply in store.line(line)]


def demonstrate(size, start, wanted):
    words = [PROGRAM, LOG, "--", "demo", "--size", str(size), "--start", str(start)]
    done = subprocess.run(words, input=b"0 status\n", stdout=subprocess.PIPE, timeout=1800)
    given = done.stdout.decode().splitlines()
    if done.returncode != 0 or given != wanted:
        sys.exit(f"whole_runs: a demonstration of {size} from {start}: status {done.returncode}, {given} for {wanted}")
    if os.path.exists(LOG):
        sys.exit(f"whole_runs: a demonstration of {size} from {start} made a log")


os.remove(LOG)
worlds()
os.remove(LOG)
clones()
if knows_pull():
    pulls()
else:
    print("whole_runs: the program doesn't know pull, so pulls are left out")
if knows_bundles():
    anew()
    bundles()
else:
    print("whole_runs: the program doesn't know bundles, so they and logs written again are left out")
leveled()
deep()
large()
for size, start in [(1, 0), (2, 0), (3, 0), (3, 5), (3, 10), (64, 3), (999, 10), (1000, 0), (1001, (1 << 64) - 1)]:
    demonstrate(size, start, plainly(drawn(size, start), by_lines=True))
many = plainly(drawn(20_000, 5), by_lines=False)
for _run in range(2):
    demonstrate(20_000, 5, many)
print("whole_runs: all are answered as they must")
