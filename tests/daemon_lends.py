"""Parts of daemon.sh: what becomes of sessions of clients that are idle, where others wait."""
import os
import random
import time
from contextlib import suppress

from daemon_lib import COUNT, FOLDER, Served, drawn_lines, drawn_text, fail, forked, judged, moments, name, raw, waited
from segdag_tools.lines import Socket
from segdag_tools.refused import Refused

CHANGED = "connection was idle"  # what the client module makes of `err ended 17`


def lends():
    """An idle client lends its session to one who waits. It goes on as if nothing had been where nothing was stored meanwhile, and is told
    where something was. Who has rows pending lends nothing."""
    served = Served("--idle-client", "0.2")
    held = [Socket(served.path) for _ in range(16)]
    for one in held[:12]:
        one.must("status")
    held[0].socket.send(b"sta")  # Half a line keeps no session.
    for k, one in enumerate(held[12:]):
        one.must(f"add {name(100 + k)}")
    late = Socket(served.path)
    late.must("status")
    for _ in moments("who asks not to wait isn't lent a session that is idle"):
        with raw(served.path) as hasty:
            hasty.sendall(b"nowait\n")
            if hasty.recv(100) == b"ok session\n":
                break
    found = [held[0].must("tus").last, *(one.must("status").last for one in held[1:])]
    if found != ["ok 0 0 0"] * 12 + ["ok 0 0 1"] * 4:
        fail(f"who lent its session, or had rows pending, was told {found}")
    changed(served, held, late)
    served.end()
    return "who is idle lends its session, and goes on or is told that the store has changed"


def changed(served, held, late):
    """All lend their sessions, and the store changes."""
    more = [Socket(served.path) for _ in range(12)]
    for one in more:
        one.must("status")
    late.must(f"add {name(1)}")
    late.must("flush")
    told = [answered(one) for one in held[:12]]
    if any(text != "ok 0 0 0" and CHANGED not in text for text in told) or sum(CHANGED in text for text in told) < 8:
        fail(f"behind a change who lent its session was told {told}")
    if [one.must("flush").last for one in held[12:]] != [f"ok flushed 0 {2 + k}" for k in range(4)]:
        fail("rows of a client that was idle were lost")


def answered(one):
    try:
        return one.must("status").last
    except Refused as refused:
        return str(refused)


def sessions(order):
    """The sessions that each client had."""
    found = {}
    for line in order.read_bytes().splitlines():
        if line != b"new run":
            number, session, _ = line.split(b" ", 2)
            found.setdefault(int(number), set()).add(int(session))
    return found


def chat(path, text, out, draw):
    """Sends some lines, waits for their replies, and goes on, until all is sent or no more comes."""
    lines = [line for line in text.split(b"\n")[:-1] if line.strip(b"\r") and not line.startswith(b"#")]
    at, came = 0, b""
    # Who is let go of when it has sent more may read no end, but a broken connection.
    with raw(path) as sock, open(out, "wb", buffering=0) as kept, suppress(ConnectionError):
        while at < len(lines):
            some = lines[at : at + draw.choice([1, 1, 2, 5])]
            with suppress(BrokenPipeError):
                sock.sendall(b"".join(line + b"\n" for line in some))
            at, left = at + len(some), len(some)
            while left:
                piece = sock.recv(1 << 16)
                if not piece:
                    return
                kept.write(piece)
                *whole, came = (came + piece).split(b"\n")
                left -= sum(line.startswith((b"ok", b"err")) for line in whole)
            if draw.random() < 0.05:
                time.sleep(draw.random() * 0.05)


def asking(draw, text):
    """The same lines with few that store or add, so that most who lend a session find the store as it was."""
    few = {b"add": 0.2, b"flush": 0.005, b"strip": 0.005}
    lines = (line for line in text.split(b"\n")[:-1] if draw.random() < few.get(line.split(b" ")[0], 1))
    return b"".join(line + b"\n" for line in lines)


def shares():
    """Forty clients share sixteen sessions, each lent as soon as it is idle: nobody can tell, but for who is told so."""
    draw = random.Random(15)
    lines = drawn_lines(draw, 40)
    texts = [asking(draw, drawn_text(lines, draw, k, max(200, COUNT // 5), settles=True)) for k in range(40)]
    served = Served("--idle-client", "0", "--run-bytes", "300000", "--slow", "3600")
    outs = [FOLDER / f"out{k}" for k in range(40)]
    waited([forked(chat, served.path, text, out, random.Random(k)) for k, (text, out) in enumerate(zip(texts, outs))])
    served.end()
    by_first = {sent[0][0]: sent for number, sent in judged(served.order, shared=True)[0].items() if number}
    told = count = 0
    for text, out in zip(texts, outs):
        sent = by_first[text.split(b"\n", 1)[0]]
        replies, given = b"".join(reply for _, reply in sent), out.read_bytes()
        told += given == replies + b"err ended 17\n"
        count += len(sent)
        if given not in (replies, replies + b"err ended 17\n", replies + b"err ended 8\n"):
            at = max(0, len(os.path.commonprefix([given, replies])) - 100)
            fail(f"a client that lent its session was answered {given[at : at + 200]!r}, and not {replies[at : at + 200]!r}")
    lent = sum(len(some) > 1 for number, some in sessions(served.order).items() if number)
    return f"forty clients share sixteen sessions: {count} lines are answered as if each had its own; {lent} had several, {told} were told of a change"
