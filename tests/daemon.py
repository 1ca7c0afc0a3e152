"""The parts of daemon.sh: daemon.py PART PROGRAM FOLDER LINES. Each ends with status 1 where the daemon did something else."""
import atexit
import os
import random
import select
import signal
import socket
import stat
import subprocess
import sys
import time
from contextlib import suppress
from pathlib import Path

import daemon_losses
from daemon_lends import lends, shares
from daemon_lib import (
    COUNT, FOLDER, HANGS, LINE, PART, PROGRAM, SEGDAGD, TOO_LONG, Served, at_once, compare, drawn_lines, drawn_text, exactly, fail, forked,
    judged, moments, name, raw, same_store, talk, talk_in_turn, told_whole, waited, whole,
)
from segdag_tools.lines import Socket
from segdag_tools.refused import Refused


def drawn():
    """Sixteen clients of drawn lines each at once."""
    draw = random.Random(11)
    lines = drawn_lines(draw, 60)
    texts = [drawn_text(lines, draw, k, COUNT) for k in range(16)]
    served = Served()
    outs = at_once(served, texts, 1)
    served.end()
    count, store = compare(texts, outs, served.order)
    same_store(served.log, store)
    return f"{count} lines of sixteen clients at once are answered as by the definitions, over {len(store.worlds)} versions"


def stretch(text, is_end):
    """The most bytes of lines in a row, with a session's number each, of which none but the last is such an end."""
    most = since = 0
    for line in text.split(b"\n"):
        since += len(line) + 4
        most = max(most, since)
        if is_end(line):
            since = 0
    return most


def run_sizes(order):
    """How many bytes each run was given."""
    sizes = [0]
    for line in order.read_bytes().split(b"\n")[:-1]:
        if line == b"new run":
            sizes.append(0)
        else:
            sizes[-1] += len(line.split(b" ", 1)[1]) + 1
    return sizes


def alone():
    """Clients of which each waits for every reply: one by itself, and three at once that go over to new runs."""
    draw = random.Random(15)
    lines = drawn_lines(draw, 40)
    text = drawn_text(lines, draw, 0, max(300, COUNT // 2))
    served = Served()
    outs = at_once(served, [text], 5, talk_in_turn)
    served.end()
    count, store = compare([text], outs, served.order)
    same_store(served.log, store)
    texts = [drawn_text(lines, draw, k, max(300, COUNT // 2), settles=True) for k in range(3)]
    served = Served("--run-bytes", str(1 << 16), "--slow", "3600", log="other")
    with Socket(served.path) as one, Socket(served.path) as two:
        for line in (b"# a note\n", b"\n", b"\r\n"):
            # What gets no reply takes none from another client.
            if one.must("status").last != "ok 0 0 0" or one.socket.sendall(line) or two.must("status").last != "ok 0 0 0":
                fail(f"behind {line!r} others are told something else")
    outs = at_once(served, texts, 6, talk_in_turn)
    served.end()
    more, store = compare(texts, outs, served.order)
    same_store(served.log, store)
    if len(run_sizes(served.order)) < 2:
        fail("there was no new run, so this tries less")
    return f"{count} lines of a client that waits for each reply are answered so, and {more} of three over {len(run_sizes(served.order)) - 1} new runs"


def runs():
    """The same while the daemon goes over to new runs. In the part of a run that is kept for it each client has room to settle, so none
    is let go of, however fast or slow anything here is."""
    draw = random.Random(12)
    lines = drawn_lines(draw, 40)
    texts = [drawn_text(lines, draw, k, max(500, COUNT // 2), settles=True) for k in range(16)]
    settling = sum(stretch(text, lambda line: line.startswith((b"flush", b"discard"))) for text in texts)
    holding = sum(stretch(text, lambda line: line.startswith(b"add")) for text in texts)
    limit = max(1 << 16, (settling + holding + 10_000) * 16 // 3)
    served = Served("--run-bytes", str(limit), "--slow", "3600")
    outs = at_once(served, texts, 2)
    served.end()
    count, store = compare(texts, outs, served.order)
    same_store(served.log, store)
    *ended, last = run_sizes(served.order)
    if max(last, *ended, 0) > limit or min(ended, default=limit) < limit // 2:
        fail(f"a run has {limit} bytes, and these had {ended}, the last one {last}")
    if not ended:
        fail("there was no new run, so this tries nothing")
    return f"{count} lines are answered so over {len(ended)} new runs under load, none of which was given more than {limit} bytes"


def settled():
    """A client that has rows pending when all others have none is let go of, behind the time of --slow or where the run has no more room."""
    size, line = 1 << 16, "x" * 5000
    for slow, log, count in ((1, "slow", 10), (3600, "spent", 14)):
        served = Served("--run-bytes", str(size), "--slow", str(slow), log=log, path=f"{log}.socket")
        late, busy, asking = (Socket(served.path) for _ in range(3))
        late.must(f"add {name(1)}")
        for _ in range(count):
            asking.ask(line)
        # This waits for the new run, and the one who keeps the others from it is told before it begins.
        busy.must(f"add {name(2)}")
        busy.must("flush")
        late.socket.settimeout(600)
        if whole(late.socket) != b"err ended 8\n":
            fail("who kept rows pending was told something else")
        if busy.must("status").last != "ok 0 1 0":
            fail("the other client isn't on the newest version")
        served.end()
        sizes = run_sizes(served.order)
        if len(sizes) != 2 or max(sizes) > size:
            fail(f"a run has {size} bytes, and these had {sizes}")
    return "who keeps rows pending is told and let go, behind some time or where a run has no more room"


def wrong():
    """Lines that are too long, or no command, one byte at a time; and the end in the middle of a line."""
    served = Served()
    text = b"".join(
        line + b"\n"
        for line in [b"status", b"", b"\r", b"#", b"# " + b"x" * LINE, b"0 status", b"16 status", b"1", b"x" * LINE, b"x" * (LINE + 1)]
        + [b"x" * LINE + b"\r", b"status\r\r", b"status\r", b"status\0", b"\0", b"\xff" * 9, b" # note", b"nowait", b"s" * 40_000, b"status"]
    )
    fine, bad, long = b"ok 0 0 0\n", b"err syntax\n", TOO_LONG
    replies = [fine, long, bad, bad, bad, bad, long, bad, bad, fine, bad, bad, bad, bad, bad, long, fine]
    for size in (1, 1000, 1 << 20):
        sock = raw(served.path)
        for at in range(0, len(text), size):
            sock.sendall(text[at : at + size])
        sock.sendall(b"add " + name(1).encode())  # No line: nothing ends it.
        sock.shutdown(socket.SHUT_WR)
        got = whole(sock)
        if got != b"".join(replies):
            fail(f"in pieces of {size}: {got!r}")
    served.end()
    if b"add" in served.order.read_bytes():
        fail("half of a line was sent on")
    return "lines that are too long, or none, get the program's refusals, however they come in pieces"


def seventeenth():
    """The seventeenth waits in turn, or is refused; who comes behind one that left sees nothing of it."""
    served = Served()
    held = [Socket(served.path) for _ in range(16)]
    for k, one in enumerate(held):
        one.must(f"add {name(k + 1)}")
    if told_whole(served.path, b"nowait\nstatus\n") != b"err busy 16\n":
        fail("who asks not to wait isn't refused")
    silent = [raw(served.path) for _ in range(40)]  # They say nothing, and are in nobody's way.
    waiting = [raw(served.path) for _ in range(3)]
    for one in waiting:
        one.sendall(b"status\n")
        served.seen()
    if select.select(waiting, [], [], 0.3)[0]:
        fail("there are seventeen sessions")
    held[7].must("flush")
    waiting[1].close()
    for leaves, one in ((7, waiting[0]), (3, waiting[2])):
        held[leaves].close()
        if one.recv(100) != b"ok 0 1 0\n":
            fail("who waited isn't on the newest version, or has rows of somebody else")
    if select.select(silent, [], [], 0)[0]:
        fail("who says nothing is told something")
    held[0].close()
    held[1].close()
    for _ in moments("a session that was left isn't free"):
        sock = raw(served.path)
        sock.sendall(b"nowait\nstatus\n")
        got = sock.recv(100)
        if got != b"err busy 16\n":
            break
    got += sock.recv(100) if got == b"ok session\n" else b""
    if got != b"ok session\nok 0 1 0\n":
        fail(f"who asks not to wait is told {got!r} where a session is free")
    served.end()
    return "the seventeenth waits in turn or is refused, and finds nothing of who was there before"


def two():
    """Two daemons at once, and what stands at the socket's path."""
    served = Served()
    second = Served(path="other", waits=False)
    if "log: another daemon serves it" not in second.end(None, 16):
        fail(f"a second daemon over a log said {second.said.read_text()}")
    third = Served(log="other", waits=False)
    if "somebody serves there" not in third.end(None, 16):
        fail(f"a second daemon at a socket said {third.said.read_text()}")
    if Socket(served.path).must("status").last != "ok 0 0 0":
        fail("the first daemon is gone")
    served.end(signal.SIGKILL, -signal.SIGKILL)
    if not os.path.exists(served.path):
        fail("a killed daemon leaves no socket, so this tries nothing")
    served = Served()
    served.end()
    if os.path.exists(served.path):
        fail("a daemon that ended left its socket")
    (FOLDER / "file").write_text("kept")
    Served(path="file", waits=False).end(None, 1)
    if (FOLDER / "file").read_text() != "kept":
        fail("a file was taken for a socket")
    foreign = socket.socket(socket.AF_UNIX, socket.SOCK_STREAM)
    foreign.bind(str(FOLDER / "foreign"))
    foreign.listen()
    Served(path="foreign", waits=False).end(None, 16)
    foreign.close()
    served = Served(log="slow", program=stand_in())
    sock = raw(served.path)
    sock.sendall(b"status\npull\n")  # Both are sent on at once, and the pull isn't done before there is a file.
    sock.recv(100)
    served.end(signal.SIGKILL, -signal.SIGKILL)
    served = Served(log="slow", program=stand_in(), waits=False)
    time.sleep(0.5)
    with suppress(Refused):
        Socket(served.path)
        fail("a new daemon doesn't wait for the run of one that was killed")
    PULLED.touch()
    # It waits for five seconds; where this process has slept for longer, it is begun again.
    served.first(again=(16,)).close()
    served.end()
    return "a log and a socket have one daemon, and what a killed one left is taken over"


def rights():
    """Who may connect: the owner alone, or a group; at no moment more."""
    for umask in (0, 0o777):
        served = Served(preexec_fn=lambda: os.umask(umask))
        if stat.S_IMODE(os.stat(served.path).st_mode) != 0o600:
            fail(f"the socket's mode is {os.stat(served.path).st_mode:o}")
        served.end()
    import grp

    group = grp.getgrgid(os.getgroups()[-1] if os.getgroups() else os.getgid())
    served = Served("--group", group.gr_name)
    found = os.stat(served.path)
    if stat.S_IMODE(found.st_mode) != 0o660 or found.st_gid != group.gr_gid:
        fail(f"the socket's mode is {found.st_mode:o} and its group {found.st_gid}")
    served.end()
    Served("--group", "no such group", waits=False).end(None, 2)
    long = FOLDER / ("d" * 120)
    long.mkdir()
    served = Served(path=f"{'d' * 120}/socket")
    if Socket(served.path).must("status").last != "ok 0 0 0":
        fail("a socket with a long path doesn't answer")
    served.end()
    return "a socket is its owner's, or a group's"


def activated():
    """A socket that is handed over, as systemd does."""
    code = (
        "import os, socket, sys\n"
        "sock = socket.socket(socket.AF_UNIX)\n"
        "sock.bind(sys.argv[1])\n"
        "sock.listen()\n"
        "os.dup2(sock.fileno(), 3)\n"
        "os.set_inheritable(3, True)\n"
        "os.environ.update(LISTEN_PID=str(os.getpid()), LISTEN_FDS='1', LISTEN_FDNAMES='segdagd')\n"
        "os.execv(sys.argv[2], sys.argv[2:])\n"
    )
    served = Served(launcher=[sys.executable, "-c", code, str(FOLDER / "socket")])
    one = Socket(served.path)
    if one.must("status").last != "ok 0 0 0":
        fail("a handed socket doesn't answer")
    served.end()
    if not os.path.exists(served.path):
        fail("the daemon took away a socket that isn't its own")
    os.unlink(served.path)
    bare = subprocess.run([sys.executable, SEGDAGD, str(FOLDER / "log")], env=dict(os.environ, SEGDAG=PROGRAM), capture_output=True)
    if bare.returncode != 2:
        fail(f"without a socket it ended with {bare.returncode}")
    return "a socket that is handed over is served, and left where it is"


def idle():
    """A daemon that nobody uses ends; one that somebody uses doesn't."""
    served = Served("--idle", "1", waits=False)
    with served.first(again=(0,)) as one:
        one.must("status")
        time.sleep(2.5)
        one.must("status")
    served.end(None)
    ours, theirs = os.openpty()
    served, shown = Served("--idle", "1", waits=False, stderr=theirs), b""
    with served.first(again=(0,)) as one:
        one.must("status")
        while b"segdagd: 1 clients, 0 lines a second, 0 waiting" not in shown:
            if not select.select([ours], [], [], HANGS)[0]:
                fail(f"the terminal shows {shown!r}")
            shown += os.read(ours, 1 << 16)
    served.end(None)
    if not os.read(ours, 1 << 16).endswith(b"\n"):
        fail("the terminal's line isn't ended")
    return "it ends when nobody was there for the time of --idle, and shows a terminal who is there"


STAND_IN = """#!{python}
import fcntl, os, sys, time
log = open(sys.argv[1], "ab")
fcntl.flock(log, fcntl.LOCK_EX)
for line in sys.stdin.buffer:
    word = line.split()[1]
    while word == b"pull" and not os.path.exists("{pulled}"):
        time.sleep(0.01)
    reply = {{b"status": b"ok 0 0 0", b"reload": b"ok reloaded 0", b"discard": b"ok discarded 0"}}.get(word, b"err syntax")
    if word == b"fail":
        os.write(1, b"err disk\\n")
        sys.exit(3)
    if word == b"query":
        sys.stdout.buffer.write(b"{name}\\n" * {many})
        reply = b"ok {many}"
    sys.stdout.buffer.write(reply + b"\\n")
    sys.stdout.buffer.flush()
"""
MANY = 500_000
PULLED = FOLDER / "pulled"


def stand_in():
    """A program whose disk fails when it is told so, whose queries have many members, and whose pulls take until there is a file."""
    path = FOLDER / "program"
    path.write_text(STAND_IN.format(python=sys.executable, name=name(1), many=MANY, pulled=PULLED))
    path.chmod(0o755)
    return path


def ends():
    """How it ends: by a signal, when the program ends, and where it can't begin."""
    served = Served()
    one, other, silent = raw(served.path), raw(served.path), raw(served.path)
    one.sendall(b"".join(f"add {name(i)}\n".encode() for i in range(1, 3000)) + b"flush\n")
    other.sendall(b"status\n")
    other.recv(100)
    served.end()
    told = [whole(sock) for sock in (one, other, silent)]
    if told[1:] != [b"err ended 0\n"] * 2 or not told[0].endswith(b"\nerr ended 0\n"):
        fail(f"at the end clients are told {[text[-60:] for text in told]}")
    clients, store = judged(served.order)
    replies = b"".join(reply for _, reply in clients[2]) if clients[2][0][0].startswith(b"add") else None
    if told[0] != b"".join(reply for _, reply in clients.get(2, [])) + b"err ended 0\n" and replies:
        fail("replies under way were lost at the end")
    same_store(served.log, store)
    for program, way, status in ((stand_in(), "fail", 3), (PROGRAM, None, 137)):
        served = Served(program=program)
        one, other, silent = raw(served.path), raw(served.path), raw(served.path)
        other.sendall(b"status\n")
        other.recv(100)
        if way:
            one.sendall(f"status\n{way}\nstatus\n".encode())
        else:
            one.sendall(b"status\n")
            one.recv(100)
            child = Path(f"/proc/{served.process.pid}/task/{served.process.pid}/children").read_text().split()[0]
            os.kill(int(child), signal.SIGKILL)
        served.end(None, status)
        told = [whole(sock) for sock in (one, other, silent)]
        last = b"err ended %d\n" % status
        if told != [b"ok 0 0 0\n" * bool(way) + last, last, last]:
            fail(f"when the program ended clients were told {told}")
    (FOLDER / "damaged").write_bytes(b"\1\0\0\0\0\0\0\0\5\252")
    Served(log="damaged", waits=False).end(None, 4)
    Served(log="nowhere/log", waits=False).end(None, 9)
    return "it ends when the replies under way are out, and as the program does, and tells each client"


def fill(served, count):
    """Stores so many commits."""
    with Socket(served.path) as one:
        for reply in one.ask_all([*(f"add {name(i)}" for i in range(1, count + 1)), "flush"]):
            if not reply.ok:
                fail(f"the log isn't filled: {reply.last}")


def turns():
    """Clients of many lines have them sent on evenly, and one of two lines isn't behind them all."""
    served, count = Served(program=stand_in()), 1500
    barred, *many, brief = (raw(served.path) for _ in range(16))
    barred.sendall(b"pull\n")
    for sock in many:
        sock.sendall(b"status\n" * count)
    brief.sendall(b"id 1\nid 2\n")
    PULLED.touch()
    for sock in many:
        if b"".join(exactly(sock, count * 9)) != b"ok 0 0 0\n" * count:
            fail("replies are lost")
    served.end()
    sent = [line.split(b" ") for line in served.order.read_bytes().splitlines() if not line.startswith(b"0 ")]
    owners = [number for number, _, word, *_ in sent if word == b"status"]
    begin = max(map(owners.index, set(owners)))
    end = min(len(owners) - owners[::-1].index(number) for number in set(owners))
    shares = [owners[begin:end].count(number) for number in set(owners)]
    if len(shares) != len(many) or min(shares) < max(shares) // 2 or sum(shares) < count:
        fail(f"of clients that send as much as they can so many lines were sent on: {shares}")
    before = max(at for at, line in enumerate(sent) if line[2] == b"id")
    if before > 2 * count:
        fail(f"two lines were behind {before} of others")
    return f"{len(many)} clients of many lines have turns, and two lines of another one were behind {before} of them"


def kept_file(served):
    """How many bytes a file without a name has that the daemon keeps."""
    sizes = [0]
    for entry in Path(f"/proc/{served.process.pid}/fd").iterdir():
        with suppress(OSError):
            found = entry.stat()
            if stat.S_ISREG(found.st_mode) and found.st_nlink == 0:
                sizes.append(found.st_size)
    return max(sizes)


def spilled():
    """Large replies that a client takes late are kept in a file, and come out whole; or there isn't so much room."""
    reply = f"{name(1)}\n".encode() * MANY + b"ok %d\n" % MANY
    program, worst, kilobytes = stand_in(), 0.0, 0
    for options in ([], ["--spill", "1"]):
        served = Served("--slow", "3600", *options, program=program)
        late, other = raw(served.path), Socket(served.path)
        other.must("status")
        before, until = served.status("VmRSS"), time.monotonic() + HANGS
        late.sendall(b"query all\n" * 2)
        while not options and kept_file(served) < len(reply) - 3_000_000:
            asked = time.monotonic()
            other.must("status")
            worst = max(worst, time.monotonic() - asked)
            if time.monotonic() > until:
                fail(f"{kept_file(served)} bytes are kept in a file")
            time.sleep(0.01)
        for _ in moments("who has more to come than there is room for has its session still") if options else ():
            if b"discard" in served.order.read_bytes():
                break
        kilobytes = max(kilobytes, served.status("VmHWM") - before)
        got = whole(late) if options else b"".join(exactly(late, 2 * len(reply)))
        if options and (len(got) >= len(reply) or not got.endswith(b"\nerr ended 20\n")) or not options and got != reply * 2:
            fail(f"with {options} {len(got)} bytes came, the last of them {got[-60:]}")
        if kept_file(served):
            fail("the file is still there")
        other.must("status")
        served.end()
    if kilobytes > 10_000:
        fail(f"a large reply takes {kilobytes} kB")
    return f"replies of {len(reply) >> 20} MB that are taken late take {kilobytes} kB and a file, and another one waits {1000 * worst:.0f} ms"


def unread():
    """A client that never reads is let go of, and nobody else waits for it, nor is its memory everybody's."""
    served = Served("--slow", "3")
    fill(served, 4000)
    descriptors, before = served.alone(), served.status("VmRSS")
    rude = raw(served.path)
    rude.sendall(b"query all\n" * 400)
    ruder = raw(served.path)
    ruder.setblocking(False)
    with suppress(BlockingIOError):
        while True:
            ruder.send(b"status\n" * 1000)
    one, worst = Socket(served.path), 0.0
    for _ in moments("clients that don't read are still there"):
        asked = time.monotonic()
        one.must(f"id {name(7)}")
        if kept_file(served):
            fail("lines of a client that doesn't read are sent on")
        worst = max(worst, time.monotonic() - asked)
        if served.descriptors() <= descriptors + 1:
            break
    kilobytes = served.status("VmHWM") - before
    if kilobytes > 20_000:
        fail(f"clients that don't read take {kilobytes} kB")
    one.close()
    if served.alone() > descriptors:
        fail("what clients that don't read had is still there")
    if whole(rude).count(b"\n") >= 400 * 4001:
        fail("nothing was kept back, so this tries nothing")
    served.end()
    sent = [line.split(b" ")[2] for line in served.order.read_bytes().splitlines() if line[:2] != b"0 "]
    if sent.count(b"query") > 20 or sent.count(b"status") > 200_000:
        fail(f"of clients that don't read {sent.count(b'query')} queries and {sent.count(b'status')} short lines were sent on")
    return f"who never reads is let go of; meanwhile another one waited {1000 * worst:.0f} ms at most, and it took {kilobytes} kB"


def killed():
    """Clients that are killed at any moment, sixteen at a time."""
    draw = random.Random(13)
    lines = drawn_lines(draw, 60)
    served, texts, outs, ran = Served(), [], [], {}
    count = max(40, COUNT // 10)
    while len(texts) < count or ran:
        while len(texts) < count and len(ran) < 16:
            texts.append(drawn_text(lines, draw, len(texts), 120))
            outs.append(FOLDER / f"out{len(texts)}")
            outs[-1].touch()
            ran[forked(talk, served.path, texts[-1], outs[-1], random.Random(len(texts)))] = time.monotonic() + draw.random() * 0.3
        for pid, late in list(ran.items()):
            if time.monotonic() > late:
                os.kill(pid, signal.SIGKILL)
            if os.waitpid(pid, os.WNOHANG)[0]:
                del ran[pid]
        time.sleep(0.005)
    last = Socket(served.path)
    if not last.must("status").last.endswith(" 0"):
        fail("rows of a client that was killed are pending")
    last.close()
    served.end()
    answered, store = compare(texts, outs, served.order, is_whole=False)
    same_store(served.log, store)
    cut = sum(Path(out).read_bytes().count(b"\n") == 0 for out in outs)
    return f"of {count} clients that were killed or left {cut} had no reply; {answered} lines are answered as by the definitions"


def storing(path, first, kept):
    """Adds and flushes a commit after the other, and keeps the name of each that was acknowledged."""
    with open(kept, "ab", buffering=0) as file:
        for i in range(first, first + 1_000_000):
            try:
                with Socket(path) as one:
                    while True:
                        one.must(f"add {name(i)}")
                        if one.must("flush").ok:
                            file.write(name(i).encode() + b"\n")
                        i += 1
            except Refused:
                return


def crashed():
    """Daemons that are killed at any moment, and begun again: nothing that was acknowledged is lost. One client sends far ahead, so that
    a run whose daemon was killed has still lines to do when the next one begins."""
    draw, rounds = random.Random(14), max(4, COUNT // 200)
    kept, out = FOLDER / "kept", FOLDER / "out"
    kept.touch()
    for round_ in range(rounds):
        served, first = Served(*(["--run-bytes", "65536"] if round_ % 2 else []), waits=False), round_ << 60
        # It waits five seconds for the run of the one that was killed.
        served.first(again=(16,)).close()
        ahead = "".join(f"add {name(first + i)}\nflush\n" for i in range(1, 2000)).encode()
        out.write_bytes(b"")
        pids = [forked(storing, served.path, first + (k << 40), kept) for k in range(1, 4)]
        pids.append(forked(talk, served.path, ahead, out, random.Random(round_)))
        before = kept.stat().st_size
        for _ in moments("nothing is acknowledged"):
            if kept.stat().st_size > before:
                break
        time.sleep(draw.random() * 0.7)
        served.end(signal.SIGKILL, -signal.SIGKILL)
        for pid in pids:
            os.waitpid(pid, 0)
        with open(kept, "a", encoding="ascii") as file:
            file.writelines(name(first + i) + "\n" for i in range(1, out.read_bytes().count(b"ok flushed") + 1))
    served = Served(waits=False)
    names = kept.read_text().split()
    with served.first(again=(16,)) as one:
        lost = [reply.last for reply in one.ask_all(f"id {word}" for word in names) if not reply.ok]
    served.end()
    if lost or not names:
        fail(f"of {len(names)} changes that were acknowledged {len(lost)} are lost")
    return f"behind {rounds} daemons that were killed all {len(names)} changes that were acknowledged are there"


def many():
    """Ten thousand connections in a row: neither memory nor descriptors are lost."""
    served, count = Served(), 5 * COUNT
    sizes = []
    for k in range(count):
        sock = raw(served.path)
        if k % 7 == 1:
            sock.sendall(b"sta")
        elif k % 7 != 2:
            sock.sendall(b"add %040x\nstatus\n" % (k + 1))
            if k % 7 != 3 and not sock.recv(1):
                fail("no reply")
        sock.close()
        if k in (count // 10, count - 1):
            with Socket(served.path) as one:
                if one.must("status").last != "ok 0 0 0":
                    fail("rows of clients that left are there")
            descriptors = served.alone()
            sizes.append((served.status("VmRSS"), descriptors))
    served.end()
    if sizes[1][1] > sizes[0][1] or sizes[1][0] > sizes[0][0] + 1000:
        fail(f"kilobytes and descriptors were {sizes[0]} behind a tenth of {count} connections, and {sizes[1]} at the end")
    return f"{count} connections in a row leave {sizes[1][0] - sizes[0][0]} kB and no descriptor"


PARTS = [wrong, seventeenth, two, rights, activated, idle, ends, unread, spilled, turns, drawn, alone, runs, settled, lends, shares, killed, crashed, many]
LOSSES = [getattr(daemon_losses, part) for part in "closed foreign removed crowded starved cut stopped hurried numbers sized lines".split()]

if __name__ == "__main__":
    FOLDER.mkdir()
    # Nothing is left behind, however this ends; the processes of clients don't come here.
    atexit.register(lambda: [served.process.kill() for served in Served.all])
    begun = time.monotonic()
    told = next(part for part in PARTS + LOSSES if part.__name__ == PART)()
    print(f"daemon: {told} ({time.monotonic() - begun:.1f} s)")
