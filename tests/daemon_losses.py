"""Parts of daemon.sh: descriptors that are closed or wanting, files that are no log, logs that are removed or moved, and a program that stops."""
import itertools
import os
import resource
import select
import signal
import subprocess
import sys
import time
from contextlib import suppress
from pathlib import Path

import plain_store
from daemon_lib import FOLDER, PROGRAM, SEGDAGD, Served, exactly, fail, moments, name, raw, whole
from segdag_tools.lines import Socket
from segdag_tools.refused import Refused

FOREIGN, GONE, NO_ROOM = 18, 19, 20  # numbers of the daemon's own


def stored(log, names):
    """Whether the log opens, and has these commits in its master."""
    world = plain_store.read_log(Path(log).read_bytes())[1]
    text = "".join(f"0 id {word}\n" for word in names)
    told = subprocess.run([PROGRAM, log, "--", "run"], input=text, text=True, capture_output=True)
    return world is not None and told.returncode == 0 and told.stdout.count("ok") == len(names)


def store(one, number, parent=None):
    """Adds a commit, and flushes it."""
    one.must(f"add {name(number)}" + (f" {name(parent)}" if parent else ""))
    return one.must(f"flush {name(number)}").last


def ending(sock):
    """All that comes to a connection up to its end."""
    sock.settimeout(60)
    return whole(sock)


def closed():
    """Each of the eight ways to close standard input, output and error: the daemon lives, and loses nothing."""
    ways = [which for count in range(4) for which in itertools.combinations(range(3), count)]
    daemons = []
    for place, which in enumerate(ways):
        served = Served(log=f"log{place}", path=f"socket{place}", preexec_fn=lambda which=which: [os.close(number) for number in which])
        with Socket(served.path) as one:
            store(one, 1)
        daemons.append(served)
    # What is looked at each second is looked at once a client was there.
    time.sleep(2)
    for which, served in zip(ways, daemons):
        with Socket(served.path) as one:
            if one.must("status").last != "ok 1 0 0" or store(one, 2, 1) != "ok flushed 2 0":
                fail(f"with {which} closed it answers otherwise")
        served.end()
        if not stored(served.log, [name(1), name(2)]):
            fail(f"with {which} closed what was acknowledged is lost")
    return f"with each of {len(ways)} ways to close three descriptors it lives, and loses nothing"


def foreign():
    """A file that is no log is refused, and stays as it is, unless --force says that it is one."""
    bundle, other = FOLDER / "bundle", FOLDER / "other"
    subprocess.run([PROGRAM, other, "--", "run"], input=f"0 add {name(1)}\n0 flush {name(1)}\n", text=True, capture_output=True, check=True)
    bundle.write_bytes(subprocess.run([PROGRAM, other, "--", "bundle"], capture_output=True, check=True).stdout)
    files, refused = {}, []
    for place, data in enumerate((b"# A page\n", Path(sys.executable).read_bytes()[:5000], b"\2\0", bundle.read_bytes())):
        path = FOLDER / f"file{place}"
        path.write_bytes(data)
        files[path] = data
        refused += [(path, Served(log=path.name, path=f"own{place}", waits=False))]
        refused += [(path, Served(remotes=[path], log=f"new{place}", path=f"other{place}", waits=False))]
    for path, served in refused:
        if "no log" not in (said := served.end(None, FOREIGN)):
            fail(f"a file that begins with {files[path][:9]} is told as {said}")
        if path.read_bytes() != files[path] or list(FOLDER.glob("new?")):
            fail(f"a file that begins with {files[path][:9]} was changed, or a log was made beside it")
    for place, data in enumerate((b"", b"x", b"\0\0\0")):
        (FOLDER / f"fresh{place}").write_bytes(data)
        Served(log=f"fresh{place}", path=f"fresh.socket{place}").end()
    served = Served("--force", log="file0")
    with Socket(served.path) as one:
        store(one, 1)
    served.end()
    if not stored(served.log, [name(1)]):
        fail("--force takes no file")
    lone = Served(remotes=[f"bundle:{bundle}"], log="beside")
    with Socket(lone.path) as one:
        if one.must("clone").last != "ok cloned 1":
            fail("a bundle is no mirror")
    lone.end()
    return "a file that is no log, and a mirror that is none, are refused by a sentence and stay as they are"


def removed():
    """A log that is removed, or moved, or behind which another is put: a change is refused and not lost, and a new run begins."""
    other = FOLDER / "other"
    subprocess.run([PROGRAM, other, "--", "run"], input=f"0 add {name(7)}\n0 flush {name(7)}\n", text=True, capture_output=True, check=True)
    ways = {
        "removed": lambda log: os.unlink(log),
        "moved": lambda log: os.rename(log, log + ".moved"),
        "another one's": lambda log: os.replace(other, log),
    }
    for place, (what, act) in enumerate(ways.items()):
        served = Served(log=f"log{place}", path=f"socket{place}")
        one, idle = Socket(served.path), Socket(served.path)
        store(one, 1)
        idle.must("status")
        one.must(f"add {name(2)} {name(1)}")
        act(served.log)
        for sock, text in ((one, b"flush %b\n" % name(2).encode()), (idle, b"")):
            if text:
                sock.socket.sendall(text)
            if (told := ending(sock.socket)) != b"err ended %d\n" % GONE:
                fail(f"behind a log that is {what} a client is told {told}")
        with Socket(served.path) as late:
            wanted = "ok 1 0 0" if what == "another one's" else "ok 0 0 0"
            if (told := late.must("status").last) != wanted:
                fail(f"behind a log that is {what} the next one is told {told}")
            store(late, 3)
        os.unlink(served.log)
        with Socket(served.path) as asking:
            if (told := asking.must("status").last) != "ok 0 0 0":
                fail(f"who comes behind a log that is {what} is told {told}")
            store(asking, 4)
        served.end()
        if not stored(served.log, [name(4)]):
            fail(f"behind a log that is {what} a change is lost")
    return f"a log that is removed, moved or replaced is seen before a change, and {amid()}; {folders()}"


def child(served):
    return int(Path(f"/proc/{served.process.pid}/task/{served.process.pid}/children").read_text().split()[0])


def amid():
    """The log is moved while a change is under way: that isn't acknowledged."""
    served = Served(log="amid", path="amid.socket")
    one = Socket(served.path)
    store(one, 1)
    os.kill(child(served), signal.SIGSTOP)
    one.socket.sendall(f"add {name(2)} {name(1)}\nflush {name(2)}\n".encode())
    for _ in moments("a line isn't sent on"):
        if f"flush {name(2)}".encode() in served.order.read_bytes():
            break
    os.rename(served.log, served.log + ".moved")
    os.kill(child(served), signal.SIGCONT)
    told = ending(one.socket)
    if not told.endswith(b"err ended %d\n" % GONE) or b"flushed" in told:
        fail(f"a change of a log that was moved meanwhile is told as {told}")
    late = [Socket(served.path) for _ in range(16)]
    if any(other.must("status").last != "ok 0 0 0" for other in late) or store(late[0], 3) != "ok flushed 1 0":
        fail("behind a log that was moved while a change was under way not all sessions are had again")
    served.end()
    if not stored(served.log, [name(3)]):
        fail("behind a log that was moved while a change was under way a change is lost")
    return "not acknowledged where that was while it was under way"


def folders():
    """Who takes the folder away ends its daemon."""
    (FOLDER / "deep").mkdir()
    (FOLDER / "quiet").mkdir()
    served, quiet = Served(log="deep/log", path="deep.socket"), Served(log="quiet/log", path="quiet/socket")
    (FOLDER / "own").mkdir()
    words = [sys.executable, SEGDAGD, "log", "--socket", "socket"]
    inside = subprocess.Popen(words, cwd=FOLDER / "own", env=dict(os.environ, SEGDAG=PROGRAM), stderr=subprocess.DEVNULL)
    for _ in moments("nobody listens in the folder"):
        if (FOLDER / "own/socket").exists():
            break
    one = Socket(served.path)
    store(one, 1)
    for path in ("deep", "quiet", "own"):
        for file in (FOLDER / path).iterdir():
            file.unlink()
        (FOLDER / path).rmdir()
    if (told := ending(one.socket)) != b"err ended %d\n" % GONE:
        fail(f"when its folder went a client was told {told}")
    for ended in (served, quiet):
        if "folder" not in ended.end(None, GONE):
            fail(f"when its folder went the daemon said {ended.said.read_text()}")
    if inside.wait(60) != GONE:
        fail("a daemon that was begun in its folder doesn't end with it")
    return "a daemon ends when its folder goes"


def limited(count):
    return lambda: resource.setrlimit(resource.RLIMIT_NOFILE, (count, count))


def answered(sock, seconds):
    """What comes within some time, or None."""
    sock.settimeout(seconds)
    try:
        return sock.recv(100)
    except (TimeoutError, OSError) as error:
        return None if isinstance(error, TimeoutError) else b"reset"


def crowded():
    """Who comes when all connections are taken waits at the door, and isn't thrown out; who said nothing for some time makes room."""
    served, held, late = Served("--idle-client", "0", preexec_fn=limited(104)), [], None
    while late is None:
        sock = raw(served.path)
        sock.sendall(b"status\n")
        told = answered(sock, 2)
        if told == b"ok 0 0 0\n":
            held.append(sock)
        elif told is None:
            late = sock
        else:
            fail(f"the client behind {len(held)} others is told {told}")
    if not 15 <= len(held) <= 104:
        fail(f"there is room for {len(held)} clients")
    held.pop().close()
    if answered(late, 30) != b"ok 0 0 0\n":
        fail("who waits at the door isn't let in when another one leaves")
    held.pop().close()
    silent = raw(served.path)
    time.sleep(1.5)
    more = raw(served.path)
    more.sendall(b"status\n")
    if answered(more, 30) != b"ok 0 0 0\n" or answered(silent, 30) != b"":
        fail("who says nothing doesn't make room")
    for sock in held:
        sock.sendall(b"status\n")
        if answered(sock, 30) != b"ok 0 0 0\n":
            fail("one who stays was thrown out")
    served.end()
    return f"with room for {len(held) + 2} clients the next one waits at the door, and only who says nothing makes room"


def processor(served):
    """Seconds of a processor that the daemon took."""
    words = Path(f"/proc/{served.process.pid}/stat").read_text().rpartition(")")[2].split()
    return (int(words[11]) + int(words[12])) / os.sysconf("SC_CLK_TCK")


def starved():
    """Without descriptors it waits for somebody to leave, and takes no time meanwhile."""
    served = Served("--idle-client", "0", preexec_fn=limited(22))
    many = [raw(served.path) for _ in range(40)]
    for sock in many:
        sock.sendall(b"status\n")
    time.sleep(1)
    before = processor(served)
    time.sleep(3)
    took = processor(served) - before
    if took > 0.6:
        fail(f"without descriptors it took {took} s of a processor within three")
    left = set(many)
    while left:
        told = select.select(left, [], [], 30)[0]
        if not told or any(answered(sock, 1) != b"ok 0 0 0\n" for sock in told):
            fail(f"{len(left)} of them aren't answered when others leave")
        for sock in told:
            sock.close()
        left -= set(told)
    served.end()
    return f"without descriptors it took {took:.2f} s within three, and all {len(many)} were answered in their turn"


STAND_IN = """#!{python}
import fcntl, os, sys
log = open(sys.argv[1], "ab")
fcntl.flock(log, fcntl.LOCK_EX)
for line in sys.stdin.buffer:
    word = line.split()[1]
    reply = {{b"status": b"ok 0 0 0", b"reload": b"ok reloaded 0", b"discard": b"ok discarded 0"}}.get(word, b"err syntax")
    if word == b"query":
        sys.stdout.buffer.write(b"{name}\\n" * {many})
        reply = b"ok {many}"
    sys.stdout.buffer.write(reply + b"\\n")
    sys.stdout.buffer.flush()
"""
MANY = 200_000


def stand_in():
    """A program whose queries have many members."""
    path = FOLDER / "program"
    path.write_text(STAND_IN.format(python=sys.executable, name=name(1), many=MANY))
    path.chmod(0o755)
    return path


def unread(served, count):
    """Clients that ask and never read."""
    rude = [raw(served.path) for _ in range(count)]
    for sock in rude:
        sock.sendall(b"query all\n")
        time.sleep(0.1)
    return rude


def cut():
    """Where there is no room for replies that aren't read, who reads gets each of them whole; who doesn't is told at the end."""
    program, reply, ways = stand_in(), f"{name(1)}\n".encode() * MANY + b"ok %d\n" % MANY, []
    small = FOLDER / "small"
    small.mkdir()
    script = f'mount -t tmpfs -o size=8m none {small} && TMPDIR={small} exec "$@"'
    inner = ["unshare", "-m", "sh", "-c", script, "sh"]
    if subprocess.run(["unshare", "-m", "mount", "-t", "tmpfs", "-o", "size=8m", "none", small], capture_output=True).returncode == 0:
        ways.append(("full", dict(launcher=inner, options=["--socket", str(FOLDER / "socket")])))
    else:
        told = "daemon: no folder can be mounted here, so a full one isn't tried"
        print(told)
        if os.environ.get("SKIPPED"):
            with open(os.environ["SKIPPED"], "a", encoding="utf-8") as skipped:
                skipped.write(told + "\n")
    ways.append(("bounded", dict(options=["--spill-all", "8"])))
    for what, words in ways:
        served = Served(*words.pop("options", []), program=program, **words)
        rude = unread(served, 12)
        for place in range(6):
            with raw(served.path) as sock:
                sock.sendall(b"query all\n")
                got = b"".join(exactly(sock, len(reply)))
            if got != reply:
                fail(f"{what}: reader {place} got {len(got)} of {len(reply)} bytes")
        ends, last = [b"".join(exactly(sock, len(reply))) for sock in rude], b"\nerr ended %d\n" % NO_ROOM
        if not any(end.endswith(last) for end in ends) or any(end != reply and not end.endswith(last) for end in ends):
            fail(f"{what}: who didn't read is told {[(len(end), end[-60:]) for end in ends]}")
        for sock in rude:
            sock.close()
        served.end()
    return "who reads gets whole replies whatever room others take, and who doesn't is told that there was none"


def stopped():
    """A program that is stopped keeps no daemon from ending: a second signal ends both."""
    served = Served("--slow", "3600")
    one = Socket(served.path)
    store(one, 1)
    os.kill(child(served), signal.SIGSTOP)
    one.socket.sendall(b"status\n")
    time.sleep(0.3)
    served.process.send_signal(signal.SIGTERM)
    time.sleep(0.5)
    if served.process.poll() is not None:
        fail("it ends at the first signal, and doesn't wait for replies")
    served.process.send_signal(signal.SIGTERM)
    began = time.monotonic()
    served.end(None, 137)
    took = time.monotonic() - began
    if (told := ending(one.socket)) != b"err ended 137\n" or took > 20:
        fail(f"behind {took:.1f} s a client is told {told}")
    if not stored(served.log, [name(1)]):
        fail("what was acknowledged is lost")
    served = Served("--slow", "1", log="other")
    os.kill(child(served), signal.SIGSTOP)
    raw(served.path).sendall(b"status\n")
    time.sleep(0.3)
    served.end(wanted=137)
    return "a program that is stopped is ended by a second signal, or some time behind the first"


def hurried():
    """Clients that say a line and stay: the more wait, the sooner a session is lent."""
    served, many = Served(), [None] * 80
    for place in range(len(many)):
        many[place] = raw(served.path)
        many[place].sendall(b"status\n")
    began = time.monotonic()
    for sock in many:
        if answered(sock, 60) != b"ok 0 0 0\n":
            fail(f"who waits isn't answered behind {time.monotonic() - began:.1f} s")
    took = time.monotonic() - began
    if took > 12:
        fail(f"{len(many)} clients that stay are answered within {took:.1f} s")
    served.end()
    return f"{len(many)} clients that say a line and stay are answered within {took:.1f} s"


def numbers():
    """Words that are no seconds, or no megabytes, are refused."""
    many = []
    for words in (["--slow", "nan"], ["--slow", "-5"], ["--spill", "-1"], ["--idle", "nan"], ["--idle", "-1"], ["--idle-client", "-1"], ["--cache", "0"], ["--cache", "x"]):
        many.append((words[0], Served(*words, waits=False)))
    for word, served in many:
        if word not in served.end(None, 2):
            fail(f"{word} is told as {served.said.read_text()}")
    return "words that are no seconds or megabytes are refused"


def sized():
    """A file that may not grow is a disk that fails: what was acknowledged is there."""
    served = Served(preexec_fn=lambda: resource.setrlimit(resource.RLIMIT_FSIZE, (4096, 4096)))
    count = 0
    with suppress(Refused), Socket(served.path) as one:
        while True:
            store(one, count + 1)
            count += 1
    served.end(None, 3)
    if not count or not stored(served.log, [name(number) for number in range(1, count + 1)]):
        fail(f"of {count} changes some are lost")
    return f"where a file may not grow it ends with the disk's status, and all {count} changes are there"


def lines():
    """The client in Python: replies that are none are refused by a sentence, and a daemon that says nothing is given up."""
    import socket
    import threading

    for place, text in enumerate((b"err ended x\n", b"err ended\n", b"err ended 99999999999999999999\n", b"err ended -3\n", None)):
        door = socket.socket(socket.AF_UNIX)
        door.bind(str(FOLDER / f"door{place}"))
        door.listen()

        def answer(door=door, text=text):
            one = door.accept()[0]
            one.recv(100)
            if text is not None:
                one.sendall(text)
            time.sleep(5)

        threading.Thread(target=answer, daemon=True).start()
        began = time.monotonic()
        try:
            Socket(str(FOLDER / f"door{place}"), patience=1).ask("status")
            fail(f"{text} is a reply")
        except Refused as refused:
            if time.monotonic() - began > 4 or str(FOLDER) not in str(refused):
                fail(f"{text} is refused as {refused}")
    return "the client refuses lines that are no reply, and gives up who says nothing"
