"""What the parts of daemon.sh share: daemons, clients as they come, and what these are to be answered by the definitions.

What clients are answered is compared with tests/plain_store.py over the order in which the daemon sent lines on, which its
option --order writes: each line behind the number of its client, 0 for the daemon's own, and `new run` where a run began.
"""
import os
import random
import select
import signal
import socket
import subprocess
import sys
import time
from contextlib import suppress
from pathlib import Path

import plain_store
from random_lines import Lines

TOP = Path(__file__).resolve().parent.parent
sys.path.insert(0, str(TOP / "tools"))
from segdag_tools.lines import Socket  # noqa: E402  (the folder is on the path now)
from segdag_tools.refused import Refused  # noqa: E402

PART, PROGRAM, FOLDER = sys.argv[1], os.path.abspath(sys.argv[2]), Path(sys.argv[3]) / sys.argv[1]
COUNT = int(sys.argv[4])
SEGDAGD = str(TOP / "tools/segdagd")
LINE = 16_384 - 3
HANGS = 1800  # seconds behind which something is taken to hang: no demand here is nearer to what a machine takes
TOO_LONG = b"err line 16384\n"


def fail(text):
    for log in FOLDER.glob("said*"):
        print(log.read_text(), end="")
    sys.exit(f"daemon: {PART}: {text}")


def name(i):
    return f"{i:040x}"


class Served:
    """A daemon over a log, which listens."""

    all = []

    def __init__(self, *options, log="log", path="socket", program=PROGRAM, waits=True, launcher=(), remotes=(), **others):
        self.path, self.log, self.order = str(FOLDER / path), str(FOLDER / log), FOLDER / f"{log}.order"
        words = [sys.executable, SEGDAGD, self.log, *map(str, remotes), "--order", str(self.order), *options]
        self.words = [*launcher, *words, *([] if launcher else ["--socket", self.path])]
        self.others = {"env": dict(os.environ, SEGDAG=str(program)), **others}
        self.said = FOLDER / f"said{len(Served.all)}"
        self.start()
        Served.all.append(self)
        if waits:
            self.first().close()

    def start(self):
        with open(self.said, "wb") as said:
            self.process = subprocess.Popen(self.words, **{"stderr": said, **self.others})

    def first(self, again=()):
        """The first who comes in, as soon as somebody listens. Where the daemon ended with one of these statuses it is begun again."""
        for _ in moments("nobody listens"):
            with suppress(Refused):
                return Socket(self.path)
            status = self.process.poll()
            if status in again:
                self.start()
            elif status is not None:
                fail(f"the daemon ended with {status}: {self.said.read_text()}")

    def end(self, number=signal.SIGTERM, wanted=0):
        if number:
            self.process.send_signal(number)
        try:
            status = self.process.wait(HANGS)
        except subprocess.TimeoutExpired:
            fail("the daemon doesn't end")
        if status != wanted:
            fail(f"the daemon ended with {status}, and {wanted} was wanted: {self.said.read_text()}")
        return self.said.read_text()

    def status(self, word):
        """A number of kilobytes that the system tells of the daemon."""
        text = Path(f"/proc/{self.process.pid}/status").read_text()
        return next(int(line.split()[1]) for line in text.splitlines() if line.startswith(word))

    def descriptors(self):
        return len(os.listdir(f"/proc/{self.process.pid}/fd"))

    def alone(self):
        """Waits until nobody is connected; how many descriptors the daemon has then."""
        for _ in moments("a client that is gone is still there"):
            if sum(to.startswith("socket:") for to in self.links()) <= 1:
                return self.descriptors()

    def links(self):
        for entry in Path(f"/proc/{self.process.pid}/fd").iterdir():
            with suppress(OSError):
                yield os.readlink(entry)

    def seen(self):
        """Waits until the daemon has seen all that came before. All sessions are taken."""
        if told_whole(self.path, b"nowait\n") != b"err busy 16\n":
            fail("who asks not to wait isn't refused")


def moments(text):
    """Goes on and on, twenty times a second, for as long as nothing is taken to hang."""
    began = time.monotonic()
    while time.monotonic() - began < HANGS:
        yield
        time.sleep(0.05)
    fail(text)


# Clients as they come: processes that send bytes, and keep what they are answered.


def raw(path):
    sock = socket.socket(socket.AF_UNIX, socket.SOCK_STREAM)
    sock.settimeout(HANGS)
    sock.connect(path)
    return sock


def told_whole(path, text):
    """All that who sends this is told, up to the end of the connection."""
    with raw(path) as sock:
        sock.sendall(text)
        return whole(sock)


def whole(sock):
    """All bytes up to the end."""
    data = b""
    with suppress(ConnectionError):
        while True:
            piece = sock.recv(1 << 16)
            if not piece:
                break
            data += piece
    return data


def exactly(sock, count):
    """Pieces of so many bytes together."""
    while count:
        piece = sock.recv(min(count, 1 << 16))
        if not piece:
            return
        count -= len(piece)
        yield piece


def talk(path, text, out, draw):
    """Sends the text in drawn pieces, reads meanwhile, tells that it sends nothing more, and reads on to the end."""
    sock, at, size = raw(path), 0, draw.choice([1, 9, 80, 3000, 60000])
    sock.setblocking(False)
    waiting = select.poll()
    waiting.register(sock, select.POLLIN | select.POLLOUT)
    with open(out, "wb", buffering=0) as kept:
        while True:
            (_, event), *_ = waiting.poll(1000 * HANGS) or [(0, select.POLLNVAL)]
            if event & select.POLLNVAL:
                sys.exit("a client waits and waits")
            if event & select.POLLOUT and at < len(text):
                with suppress(BlockingIOError):
                    at += sock.send(text[at : at + size])
                if draw.random() < 0.01:
                    size = draw.choice([1, 9, 80, 3000, 60000])
                if at == len(text):
                    sock.shutdown(socket.SHUT_WR)
                    waiting.modify(sock, select.POLLIN)
            if event & ~select.POLLOUT:
                piece = sock.recv(1 << 16)
                if not piece:
                    return
                kept.write(piece)


def forked(work, *words):
    """A process that does this work; its number."""
    pid = os.fork()
    if pid == 0:
        status = 1
        try:
            work(*words)
            status = 0
        except ConnectionError:
            status = 2
        finally:
            os._exit(status)
    return pid


# What is answered, by the definitions.


def judged(order, log=b"", shared=False):
    """What each client was to be answered by the order: for each number the lines that were sent on, and their replies. Behind it the
    store as it is then. Where sessions are `shared` each client has the one that it had first for good, whichever it was given later."""
    store, clients, own = plain_store.Store(log, plain_store.LIMITS), {}, {}
    for line in order.read_bytes().split(b"\n")[:-1]:
        if line == b"new run":
            store = plain_store.Store(store.log(), plain_store.LIMITS)
            own = dict.fromkeys(own, (0, ()))  # All are on the newest version.
            continue
        number, text = line.split(b" ", 1)
        session, sent = text.split(b" ", 1)
        number, session = int(number), int(session)
        if shared and number in own:
            base, pending = own[number]
            store.sessions[session] = [base, list(pending)]
        replies = store.line(text.decode("latin-1")[: -1 if text.endswith(b"\r") else None])
        if shared and number:
            own[number] = store.sessions[session][0], tuple(store.sessions[session][1])
        clients.setdefault(number, []).append((sent, "".join(reply + "\n" for reply in replies).encode("latin-1")))
    return clients, store


def wanted(text, sent):
    """The replies to a client's text, of which these lines were sent on, in this order, and answered so; each by itself."""
    sent, replies = iter(sent), []
    for line in text.split(b"\n")[:-1]:
        bare = line[:-1] if line.endswith(b"\r") else line
        if len(bare) > LINE:
            replies.append(TOO_LONG)
        elif bare and not bare.startswith(b"#"):
            passed, reply = next(sent, (None, None))
            if passed is None:
                return replies
            if passed != line:
                fail(f"the line {line[:200]!r} was sent on as {passed[:200]!r}")
            replies.append(reply)
    if next(sent, None) is not None:
        fail("more lines were sent on than came")
    return replies


def compare(texts, outs, order, is_whole=True):
    """Compares what clients were answered with the definitions; how many lines, and the store behind them."""
    by_number, store = judged(order)
    by_first = {lines[0][0]: lines for number, lines in by_number.items() if number}
    count = 0
    for text, out in zip(texts, outs):
        replies = wanted(text, by_first.get(text.split(b"\n", 1)[0], []))
        given, whole_reply = Path(out).read_bytes(), b"".join(replies)
        if given != whole_reply and (is_whole or not whole_reply.startswith(given)):
            at = next((k for k in range(len(replies)) if not given.startswith(b"".join(replies[: k + 1]))), len(replies))
            place = len(b"".join(replies[:at]))
            fail(f"reply {at} is {given[place : place + 300]!r}, and {(replies[at : at + 1] or [None])[0]!r} was wanted")
        count += len(replies)
    return count, store


def drawn_text(lines, draw, number, count, settles=False):
    """Lines of one client: mostly commands, and some that are none, or get no reply, or are too long or almost so. One that settles
    lets go of what a flush didn't store, every twenty lines at least, and has no long lines."""
    made = [f"id {name((1 << 100) + number)}".encode()]
    for place in range(count):
        line = lines.command().encode()
        kind = draw.random()
        if kind < 0.02:
            line = draw.choice([b"", b"# a note", b"16 status", b" status", b"00 status", b"\r", b"3 discard", b"st\0tus", b"\xff\xfe", b"nowait"])
        elif kind < 0.03 and not settles:
            line = draw.choice([b"status" + b"x" * (LINE - 6), b"y" * (LINE + 1), b"#" * (LINE + 1), b"query " + b"z" * 40_000])
        elif kind < 0.05:
            line += b"\r"
        made.append(line)
        if settles and line.startswith(b"flush") or settles and place % 20 == 19:
            made.append(b"discard")
    return b"".join(line + b"\n" for line in made)


def drawn_lines(draw, names):
    lines = Lines(draw)
    lines.names = [name(i) for i in draw.sample(range(1, 1 << 24), names)]
    lines.known = lines.names[:1]
    return lines


def same_store(served_log, store):
    """The log's world is the one that the definitions have."""
    found = plain_store.read_log(Path(served_log).read_bytes())[1]
    if not found.same(store.worlds[-1]):
        fail("the log holds another world")
    if Path(served_log).read_bytes() != store.log():
        fail("the log has other bytes")


def talk_in_turn(path, text, out, draw):
    """Sends each line of the text, in one piece or two, when the one before it is answered."""
    with raw(path) as sock, open(out, "wb", buffering=0) as kept:
        for line in [line + b"\n" for line in text.split(b"\n")[:-1]]:
            cut = draw.randrange(len(line)) if draw.random() < 0.2 else 0
            for piece in (line[:cut], line[cut:]):
                sock.sendall(piece)
            reply = b"" if line.strip(b"\r\n") and not line.startswith(b"#") else b"ok\n"
            while not (b"\n" + reply).rpartition(b"\n")[0].rpartition(b"\n")[2].startswith((b"ok", b"err")):
                piece = sock.recv(1 << 16)
                if not piece:
                    sys.exit("the connection ended before a reply")
                kept.write(piece)
                reply += piece


def at_once(served, texts, seed, talks=talk):
    """A client for each text, all at once; what they were answered."""
    outs = [FOLDER / f"out{k}" for k in range(len(texts))]
    pids = [forked(talks, served.path, text, out, random.Random(seed + k)) for k, (text, out) in enumerate(zip(texts, outs))]
    waited(pids)
    return outs


def waited(pids):
    for pid in pids:
        if os.waitpid(pid, 0)[1] != 0:
            fail("a client failed")
