#!/usr/bin/env python3
"""Draws the pictures of docs/GUIDE.md from what the built program answers: draw.py PROGRAM [FOLDER].

It writes sessions.svg, log.svg and segments.svg beside itself, or into FOLDER. The program runs over logs in a temporary folder; what
is drawn are its replies and the bytes that it wrote, so the same program always gives the same pictures. `tests/pages.sh` compares.
"""
import random
import subprocess
import sys
import tempfile
from pathlib import Path

PROGRAM = Path(sys.argv[1]).resolve()
PLACE = Path(sys.argv[2]) if len(sys.argv) > 2 else Path(__file__).parent
MASTER, OTHERS, PENDING, LINE = "#4477aa", "#999999", "#cc6677", "#555555"
STYLE = ".t{font-size:13px}.s{font-size:11px;fill:#555}.w{font-size:11px;fill:white}.b{font-size:13px;font-weight:bold}"


def name(text):
    return text.rjust(40, "0")


def asked(log, lines):
    """The reply to each line, its names and its last line."""
    done = subprocess.run([PROGRAM, log, "--", "run"], input="".join(f"{line}\n" for line in lines), stdout=subprocess.PIPE, text=True)
    replies, names = [], []
    for line in done.stdout.splitlines():
        if line.startswith("ok") or line.startswith("err"):
            replies.append((names, line))
            names = []
        else:
            names.append(line.lstrip("0"))
    refused = [last for _names, last in replies if last.startswith("err")]
    if done.returncode != 0 or refused or len(replies) != len(lines):
        sys.exit(f"draw: status {done.returncode}, {refused}, {len(replies)} replies to {len(lines)} lines")
    return replies


# What is drawn, as lists of SVG elements.


def text(x, y, words, kind="t", anchor="start"):
    words = words.replace("&", "&amp;").replace("<", "&lt;")
    return f'<text x="{x:g}" y="{y:g}" class="{kind}" text-anchor="{anchor}">{words}</text>'


def box(x, y, wide, high, fill, stroke="none", dash=""):
    dashed = f' stroke-dasharray="{dash}"' if dash else ""
    return f'<rect x="{x:g}" y="{y:g}" width="{wide:g}" height="{high:g}" rx="3" fill="{fill}" stroke="{stroke}"{dashed}/>'


def line(x1, y1, x2, y2, colour=LINE):
    return f'<line x1="{x1:g}" y1="{y1:g}" x2="{x2:g}" y2="{y2:g}" stroke="{colour}"/>'


def commit(x, y, words, fill, dash=""):
    edge, inside, dashed = (PENDING, PENDING, f' stroke-dasharray="{dash}"') if dash else (fill, "white", "")
    return [
        f'<circle cx="{x:g}" cy="{y:g}" r="13" fill="{fill}" stroke="{edge}"{dashed}/>',
        f'<text x="{x:g}" y="{y + 4:g}" font-size="11" fill="{inside}" text-anchor="middle">{words}</text>',
    ]


def put(file, wide, high, parts):
    head = f'<svg xmlns="http://www.w3.org/2000/svg" viewBox="0 0 {wide} {high}" width="{wide}" height="{high}" font-family="sans-serif">'
    body = [head, f"<style>{STYLE}</style>", f'<rect width="{wide}" height="{high}" fill="white"/>', *parts, "</svg>"]
    (PLACE / file).write_text("\n".join(body) + "\n")


# A session's base and rows.

VERSIONS = [
    [],
    [f"2 add {name('a1')}", f"2 flush {name('a1')}"],
    [f"2 add {name('b1')} {name('a1')}", f"2 add {name('c1')} {name('a1')}", f"2 flush {name('c1')}"],
]
BETWEEN = {1: ["1 reload"], 2: [f"1 add {name('d1')} {name('a1')}", f"1 add {name('e1')} {name('d1')}"]}


def seen(session):
    return [f"{session} status", f"{session} query master", f"{session} query others"]


def view_of(replies):
    """What a session sees: master, others and pending rows, each with the lowest id first."""
    (_, status), (master, _), (others, _) = replies
    count = int(status.split()[3])
    return master[::-1], others[count:][::-1], others[:count][::-1]


def sessions(folder):
    lines, at = [], []
    for number, changes in enumerate(VERSIONS):
        lines += changes
        at.append(len(lines))
        lines += seen(2) + BETWEEN.get(number, [])
    for session in (0, 1, 2):
        at.append(len(lines))
        lines += seen(session)
    replies = asked(folder / "sessions", lines)
    views = [view_of(replies[k : k + 3]) for k in at]
    put("sessions.svg", 760, 330, sessions_drawn(views[:3], views[3:]))


def sessions_drawn(versions, own):
    parts = [text(10, 24, "What is stored, version by version", "b"), text(10, 186, "What sessions see", "b")]
    for number, (master, others, _) in enumerate(versions):
        x = 20 + 250 * number
        parts += [box(x, 40, 220, 76, "#f4f4f4", "#bbbbbb"), text(x + 8, 58, f"version {number}")]
        for k, word in enumerate([*master, *others]):
            parts += commit(x + 30 + 40 * k, 86, word, MASTER if k < len(master) else OTHERS)
        if not master + others:
            parts.append(text(x + 8, 90, "no commit", "s"))
    for session, (master, others, pending) in enumerate(own):
        x, base = 20 + 250 * session, next(k for k, it in enumerate(versions) if it[:2] == (master, others))
        parts += [box(x, 200, 220, 76, "white", "#bbbbbb"), text(x + 8, 218, f"session {session}: base is version {base}")]
        for k, word in enumerate([*master, *others, *pending]):
            kind = (MASTER, "") if k < len(master) else (OTHERS, "") if k < len(master + others) else ("white", "3 2")
            parts += commit(x + 30 + 40 * k, 248, word, *kind)
        if not master + others + pending:
            parts.append(text(x + 8, 250, "nothing, until it reloads", "s"))
        parts.append(line(x + 190, 200, 20 + 250 * base + 190, 116))
    for x, word, kind in ((20, "master", (MASTER, "")), (190, "others", (OTHERS, "")), (360, "pending rows of this session", ("white", "3 2"))):
        parts += [*commit(x + 15, 305, "", *kind), text(x + 36, 309, word, "s")]
    return parts


# A log's payloads behind gates.

CHANGES = [
    *(f"0 add {' '.join(name(word) for word in row.split())}" for row in ("a1", "b1 a1", "c1 a1", "d1 c1 b1")),
    f"0 flush {name('c1')}", f"0 flush {name('d1')}", f"0 add {name('e1')} {name('d1')}", "0 flush",
]


def payloads_of(data):
    """Where each open gate stands, and its payload; and where the closed one stands."""
    found, at = [], 0
    while data[at] == 1:
        size = int.from_bytes(data[at + 1 : at + 9], "big")
        found.append((at, data[at + 9 : at + 9 + size]))
        at += 9 + size
    return found, at


def log_of_changes(folder):
    changed = [last for _names, last in asked(folder / "log", CHANGES) if last.startswith("ok flushed")]
    data = (folder / "log").read_bytes()
    payloads, end = payloads_of(data)
    scale, x, parts = 220 / end, 10.0, [text(10, 24, f"A log of {len(payloads)} changes, {len(data)} bytes", "b")]
    if len(changed) != len(payloads):
        sys.exit(f"draw: {changed}, and the log has {len(payloads)} payloads")
    for (at, payload), reply in zip(payloads, changed):
        before, after = (int.from_bytes(payload[k : k + 8], "big") for k in (2, 10))
        wide = 130 + len(payload) * scale
        parts += gate(x, at, True)
        parts += [box(x + 26, 50, 34, 60, "#eeeeee", "#bbbbbb"), text(x + 43, 84, str(len(payload)), "s", "middle")]
        parts.append(box(x + 60, 50, wide - 60, 60, MASTER))
        told = [reply, f"version {payload[0]}, kind {payload[1]}", f"master {before} to {after}"]
        parts += [text(x + 66, 68 + 16 * k, word, "w") for k, word in enumerate(told)]
        x += wide
    parts += gate(x, end, False)
    parts += [box(x + 26, 50, 740 - x - 26, 60, "white", "#bbbbbb", "4 3"), text(x + 34, 84, "what is here", "s"), text(x + 34, 98, "means nothing", "s")]
    parts.append(text(10, 150, "A gate is one byte. 1 is open: the payload behind it counts, whole. Anything else is closed, and the log ends there.", "s"))
    parts.append(text(10, 168, "A change: its length, its payload and a closed gate are written and synced; then its gate is opened and synced.", "s"))
    put("log.svg", 760, 184, parts)


def gate(x, at, is_open):
    colour = "#228833" if is_open else "#cc3311"
    return [box(x, 50, 24, 60, colour), text(x + 12, 84, "1" if is_open else "0", "w", "middle"), text(x + 12, 126, f"{at}", "s", "middle")]


# Segments and levels over a small history.

COMMITS = 96


def drawn_rows():
    """Parents by number: three of ten commits are merges of a near one, and one in twelve begins a branch nearby."""
    draw = random.Random(5)
    for i in range(COMMITS):
        kind = draw.randrange(12) if i > 3 else 11
        near = max(i - draw.randrange(2, 6), 0)
        yield [i - 1, near] if kind < 4 else [near] if kind == 4 else [i - 1] if i else []


def number_at(data, at):
    value, shift = 0, 0
    while True:
        value, shift, at = value | (data[at] & 127) << shift, shift + 7, at + 1
        if data[at - 1] < 128:
            return value, at


def records_at(data, at):
    """The records behind a count: level, lowest id, highest id, parents; and the place behind them."""
    found, count, at = [], int.from_bytes(data[at : at + 4], "big"), at + 4
    for _ in range(count):
        level, high = data[at + 1], int.from_bytes(data[at + 2 : at + 10], "big")
        below, at = number_at(data, at + 10)
        size, at = number_at(data, at)
        parents = []
        for _ in range(size):
            parent, at = number_at(data, at)
            parents.append(parent)
        found.append((level, high - below, high, parents))
    return found, at


def segments(folder):
    rows = list(drawn_rows())
    lines = [" ".join(["0 add", name(f"{i + 1:x}"), *(name(f"{p + 1:x}") for p in row)]) for i, row in enumerate(rows)]
    childless = set(range(COMMITS)) - {parent for row in rows for parent in row}
    lines += ["0 flush " + " ".join(name(f"{i + 1:x}") for i in sorted(childless)), "0 levels"]
    told = asked(folder / "segments", lines)[-1][1]
    payloads, _end = payloads_of((folder / "segments").read_bytes())
    flat, at = records_at(payloads[0][1], 26)
    higher, _at = records_at(payloads[0][1], at)
    found = flat + higher
    counts = [sum(1 for it in found if it[0] == level) for level in range(max(it[0] for it in found) + 1)]
    if told.split()[1:] != [str(count) for count in counts]:
        sys.exit(f"draw: {told}, and the log has {counts}")
    put("segments.svg", 760, 250, segments_drawn(found, counts, told))


def segments_drawn(found, counts, told):
    across = lambda number: 90 + number * 660 / COMMITS
    top = 110 - 44 * (len(counts) - 1)
    parts = [text(10, 24, f"{COMMITS} commits in segments: levels is answered by {told}", "b")]
    for level, low, high, parents in found:
        y = top + 44 * (len(counts) - 1 - level)
        parts.append(box(across(low), y, across(high + 1) - across(low) - 1.5, 24, MASTER if level == 0 else "#228833"))
        for parent in parents if level == 0 else ():
            x, to = across(low) + 3, across(parent) + 3
            parts.append(f'<path d="M{x:.1f} {y + 24} Q{(x + to) / 2:.1f} {y + 40 + (low - parent) * 5} {to:.1f} {y + 24}" fill="none" stroke="#bbbbbb"/>')
    for level in range(len(counts)):
        parts.append(text(10, top + 44 * (len(counts) - 1 - level) + 16, "flat" if level == 0 else f"level {level}"))
    parts += [text(across(k), 196, str(k), "s") for k in range(0, COMMITS, 16)]
    parts.append(text(10, 222, "Within a flat segment each commit but the first has the one before it as its only parent; curves lead to the parents of its first.", "s"))
    parts.append(text(10, 238, "Up to sixteen segments that have one head together make one of the next level, so a walk passes over all of them at once.", "s"))
    return parts


def main():
    with tempfile.TemporaryDirectory() as folder:
        for draw in (sessions, log_of_changes, segments):
            draw(Path(folder))


main()
