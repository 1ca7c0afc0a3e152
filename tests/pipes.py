"""Drawn mirrors over paths and behind pipes, of which the built program is to tell the same: `pipes.py PROGRAM [RUNS [SEED]]`.

Each run draws a log, clones it by lines that ask for names, grows it, and pulls, once beside the log's path and once beside a pipe behind
which `serve` answers. Between the two ends a relay may cut the bytes, be late, stop within a frame, change a byte or kill the server.
"""

import itertools
import os
import random
import signal
import subprocess
import sys
import tempfile
import time
from pathlib import Path

import serve_client
from pipe_peers import Behind

TOOL = Path(__file__).resolve().parent.parent / "tools/segdag-ssh"


def fail(text):
    sys.exit(f"pipes: {text}")


def told(program, log, mirrors, lines, cache):
    words = [program, log, *mirrors, "--", "run", "--cache", str(cache)]
    done = subprocess.run(words, input="".join(line + "\n" for line in lines), text=True, capture_output=True, timeout=1800)
    return done.returncode, done.stdout


def hexed(name):
    return name.hex()


def asks(draw, rows):
    """Lines that want names of a clone."""
    lines = ["0 clone"]
    for _ in range(draw.choice([3, 12])):
        name = hexed(draw.choice(rows)[0])
        lines.append(draw.choice([f"0 id {name}", f"0 query top(ancestors({name}),{draw.randrange(1, 30)})", "0 query all", f"0 count ancestors({name})"]))
    return [*lines, "0 query all", "0 count all"]


def grown(draw, rows):
    """Lines that put more commits behind the newest of a log's master."""
    parent, lines = hexed(rows[-1][0]), []
    for _ in range(draw.randrange(1, 8)):
        name = "".join(draw.choice("0123456789abcdef") for _ in range(40))
        lines.append(f"0 add {name} {parent}")
        parent = name
    return [*lines, f"0 flush {parent}"]


def one_run(program, draw, folder):
    """A clone and a pull beside a path and beside a pipe."""
    there, by_path, by_pipe = (Path(folder, name) for name in ("there", "path", "pipe"))
    rows = serve_client.draw_log(program, draw, there, draw.choice([1, 8, 60, 300]))
    how = draw.choice([None, None, {}, {"ones": True}, {"late": 0.02}])
    cache = draw.choice([1, 3, 4096])
    for lines in (asks(draw, rows), [*(grown(draw, rows)), None], ["0 pull", "0 query all", "0 levels"]):
        if lines[-1] is None:
            if told(program, there, [], lines[:-1], 4096)[0] != 0:
                fail("the mirror's log didn't grow")
            continue
        wanted = told(program, by_path, [there], lines, cache)
        behind = Behind(program, there, folder, how, draw)
        try:
            found = told(program, by_pipe, [behind.word], lines, cache)
        finally:
            behind.end()
        if found != wanted:
            fail(f"behind a pipe ({how}) it told\n{found[1]}in place of\n{wanted[1]}for\n" + "\n".join(lines))
        if by_path.read_bytes() != by_pipe.read_bytes():
            fail(f"behind a pipe ({how}) the log is another")


def broken_run(program, draw, folder):
    """A peer that stops, lies or is killed: it is passed over beside a path, alone it loses nothing, and started again it answers."""
    there, by_path, by_pipe, alone = (Path(folder, name) for name in ("there", "path", "pipe", "alone"))
    rows = serve_client.draw_log(program, draw, there, draw.choice([8, 60, 300]))
    lines, cache = asks(draw, rows), draw.choice([1, 3, 4096])
    how = {"limit": draw.choice([0, 2, 4, 5, 9, 40, 200, 3000]), "end": draw.choice(["stop", "lie"])}
    wanted = told(program, by_path, [there], lines, cache)
    if how["end"] == "stop":
        behind = Behind(program, there, folder, how, draw)
        try:
            found = told(program, by_pipe, [behind.word, there], lines, cache)
        finally:
            behind.end()
        if found != wanted:
            fail(f"beside a pipe that stops ({how}) it told\n{found[1]}in place of\n{wanted[1]}")
    behind = Behind(program, there, folder, how, draw)
    try:
        found = told(program, alone, [behind.word], lines, cache)
    finally:
        behind.end()
    if found[0] != 0:
        fail(f"with a peer that ends ({how}) the status is {found[0]}")
    again = told(program, alone, [], ["0 count all"], cache)
    if again[0] != 0 or not again[1].startswith("ok "):
        fail(f"behind a peer that ends ({how}) the log doesn't open")
    if how["end"] == "stop":
        behind = Behind(program, there, folder)
        try:
            found = told(program, alone, [behind.word], ["0 clone", *lines[1:]] if again[1] == "ok 0\n" else lines[1:], cache)
        finally:
            behind.end()
        if found[0] != 0 or "err remote" in found[1]:
            fail(f"a peer that was started again told\n{found[1]}")


def words_run(program, draw, folder):
    """Paths that aren't there, a regular file that is written over, and modes that ask nobody."""
    there, here = Path(folder, "there"), Path(folder, "here")
    serve_client.draw_log(program, draw, there, 8)
    before = there.read_bytes()
    for word in (f"pipe:{folder}/no:{folder}/none", f"pipe:{there}:{there}", "pipe::", "pipe:/dev/full:/dev/null", "pipe:/dev/null:/dev/null"):
        found = told(program, here, [word], ["0 clone", "0 count all"], 4096)
        if found != (0, "err remote 1\nok 0\n"):
            fail(f"{word} told {found}")
    if there.read_bytes() != before:
        fail("a log was written over")
    for mode in ("serve", "bundle", "compact", "demo"):
        found = subprocess.run([program, here, f"pipe:{folder}/to:{folder}/from", "--", mode], input=b"", capture_output=True, timeout=1800)
        if mode == "serve" and found.returncode != 11:
            fail(f"a pipe is served: status {found.returncode}")


def is_read(pipe):
    """Whether somebody has opened the pipe for reading, or waits to."""
    try:
        os.close(os.open(pipe, os.O_WRONLY | os.O_NONBLOCK))
        return True
    except OSError:
        return False


def quiet_run(program, draw, folder):
    """The pipes of a mirror that isn't asked aren't opened. When it is, the one is opened and the request put before the other is."""
    to, come, here = (Path(folder, name) for name in ("to", "from", "here"))
    for pipe in (to, come):
        os.mkfifo(pipe)
    word = f"pipe:{to}:{come}"
    if told(program, here, [word], ["0 status", "0 query all", "0 drop 0"], 4096) != (0, "ok 0 0 0\nok 0\nok dropped 0\n"):
        fail("beside a mirror that nobody asks")
    with subprocess.Popen([program, here, word, "--", "run"], stdin=subprocess.PIPE, stdout=subprocess.PIPE) as child:
        child.stdin.write(b"0 clone\n")
        child.stdin.flush()
        time.sleep(0.2)
        if is_read(come):
            fail("the pipe of the answers is opened before that of the requests")
        asked = os.open(to, os.O_RDONLY)
        if os.read(asked, 100) != b"\0\0\0\1\1":
            fail("the first request is no refresh")
        with open(come, "wb"):
            os.close(asked)
        if child.communicate()[0] != b"err remote 1\n":
            fail("a peer that closes its ends")


def lazy_names(program, log, rows):
    """Names of a clone that it doesn't store."""
    lines = [f"0 id {hexed(name)}" for name, _ in rows]
    replies = told(program, log, [], lines, 4096)[1].splitlines()
    return [hexed(name) for (name, _), reply in zip(rows, replies) if reply == "err no-remote"]


def closed_run(program, draw, folder):
    """A peer that closes its ends behind three answers: a request that nobody reads fails, no signal ends the run, and nothing is lost."""
    there, here = Path(folder, "there"), Path(folder, "here")
    rows = serve_client.draw_log(program, draw, there, 300)
    told(program, here, [there], ["0 clone"], 4096)
    a, b, c = lazy_names(program, here, rows)[:3]
    new, tip = "f" * 40, hexed(rows[-1][0])
    lines = [f"0 id {a}", f"0 add {new} {tip}", f"0 id {b}", f"0 id {c}", f"0 id {a}", f"0 flush {new}", "0 count all", "0 mirrors"]
    for others, wanted in (([], ["err remote 1"] * 2), ([there], ["ok"] * 2)):
        log = Path(folder, f"log{len(others)}")
        log.write_bytes(here.read_bytes())
        behind = Behind(program, there, folder, {"answers": 3}, draw)
        try:
            status, text = told(program, log, [behind.word, *others], lines, 4096)
        finally:
            behind.end()
        replies = text.splitlines()
        if status != 0 or len(replies) != len(lines) or not all(reply.startswith("ok") for reply in replies[:3] + replies[5:]):
            fail(f"a peer that closes its ends, among {1 + len(others)}: {status}\n{text}")
        if not all(reply.startswith(want) for reply, want in zip(replies[3:5], wanted)) or replies[6:] != [f"ok {len(rows) + 1}", f"ok {1 + len(others)}"]:
            fail(f"a peer that closes its ends, among {1 + len(others)}:\n{text}")
        if told(program, log, [], ["0 count all"], 4096) != (0, f"ok {len(rows) + 1}\n"):
            fail("what was flushed behind a peer that closed its ends is lost")


def diamonds(count):
    """Lines that put merges of two lines of three commits each, one behind another: a clone has to ask for the first two of each."""
    name, lines, tip = (f"{number:040x}" for number in range(1, 10 * count)), [], ""
    for _ in range(count):
        ends = []
        for _ in range(2):
            parent = tip
            for _ in range(3):
                own = next(name)
                lines.append(f"0 add {own} {parent}".rstrip())
                parent = own
            ends.append(parent)
        tip = next(name)
        lines.append(f"0 add {tip} {ends[0]} {ends[1]}")
    return [*lines, f"0 flush {tip}"]


AHEAD = [{"hold": 2}, {"hold": 64}, {"hold": 20, "ones": True}, {"late": 0.002}]
BROKEN_AHEAD = [{"hold": 9, "answers": 1}, {"answers": 7}, {"answers": 64}, *({"hold": 5, "limit": limit, "end": end} for limit in (2, 60, 700) for end in ("stop", "tag"))]


def ahead_run(program, draw, folder):
    """Names that are asked ahead, by many requests before the first answer: they are the right ones. A peer that breaks off or lies in the
    midst of them is passed over beside a path, and alone it loses nothing and answers when it is started again."""
    there, here, log = (Path(folder, name) for name in ("there", "here", "log"))
    if told(program, there, [], diamonds(45), 4096)[0] != 0 or told(program, here, [there], ["0 clone"], 4096) != (0, "ok cloned 315\n"):
        fail("the diamonds aren't cloned")
    lines = ["0 query all", "0 query top(all,40)"]

    def beside(words):
        log.write_bytes(here.read_bytes())
        return told(program, log, words, lines, 4096)

    def behind(how, *others):
        peer = Behind(program, there, folder, how, draw)
        try:
            return beside([peer.word, *others])
        finally:
            peer.end()

    wanted = beside([there])
    for how in AHEAD:
        if (found := behind(how)) != wanted:
            fail(f"what was asked ahead ({how}) is\n{found[1]}in place of\n{wanted[1]}")
    for how in BROKEN_AHEAD:
        if (found := behind(how, there)) != wanted:
            fail(f"beside a peer that breaks off ahead ({how}) it told\n{found[1]}in place of\n{wanted[1]}")
        status, text = behind(how)
        if status != 0 or not text.startswith("err remote 1\n"):
            fail(f"a peer that breaks off ahead ({how}) told {status}\n{text}")
        if behind(None) != wanted:
            fail(f"behind a peer that broke off ahead ({how}) another one answers otherwise")


SSH = """#!/bin/sh
[ "$1" = -- ] || exit 97
printf '%s' "$2" > "$TOLD"
shift 2
exec sh -c "$*"
"""
HOSTS = ["host", "user@host", "-oProxyCommand=touch bad", "--", "a b", "$(touch bad)", "`touch bad`", "'; touch bad; '", "*", "\n"]
ODD = "it's a \"log\" $(touch bad);\\ `touch bad` *"


class Tool:
    """tools/segdag-ssh in a folder of its own, with a shell in place of ssh."""

    def __init__(self, program, folder):
        self.rooms, commands = Path(folder, "rooms"), Path(folder, "commands")
        self.rooms.mkdir()
        commands.mkdir()
        (commands / "ssh").write_text(SSH)
        (commands / "ssh").chmod(0o755)
        path = f"{commands}:{os.environ['PATH']}"
        self.told = Path(folder, "told")
        self.env = {**os.environ, "SEGDAG": str(program), "SEGDAG_THERE": f"'{program}'", "TMPDIR": str(self.rooms), "PATH": path, "TOLD": str(self.told)}
        self.folder = folder

    def begin(self, *words, closes=()):
        """What is begun may be interrupted, whatever this test inherited, and has these descriptors closed."""

        def plain():
            for number in closes:
                os.close(number)
            for number in (signal.SIGINT, signal.SIGHUP, signal.SIGTERM):
                signal.signal(number, signal.SIG_DFL)

        pipes = dict.fromkeys(("stdin", "stdout", "stderr"), subprocess.PIPE)
        return subprocess.Popen([TOOL, *words], env=self.env, cwd=self.folder, preexec_fn=plain, text=True, **pipes)

    def wants(self, begun, lines, wanted):
        out, said = begun.communicate("".join(line + "\n" for line in lines), timeout=1800)
        if (begun.returncode, out) != wanted:
            fail(f"{begun.args} told {begun.returncode}\n{out}{said}in place of\n{wanted}")

    def is_clean(self):
        if left := [*self.rooms.iterdir(), *Path(self.folder).glob("bad")]:
            fail(f"segdag-ssh left {left}")


def tool_run(program, draw, folder):
    """Clones by tools/segdag-ssh, with their statuses, two at once, from hosts and logs with odd names."""
    there, odd = Path(folder, "there"), Path(folder, ODD)
    rows = serve_client.draw_log(program, draw, there, 60)
    odd.write_bytes(there.read_bytes())
    lines, tool = asks(draw, rows), Tool(program, folder)
    wanted = told(program, Path(folder, "path"), [there], lines, 4096)
    serve = f"exec '{program}' none '{there}' -- serve"
    two = [tool.begin("--command", serve, Path(folder, f"here{number}"), "--", "run") for number in range(2)]
    for begun in two:
        tool.wants(begun, lines, wanted)
    tool.wants(tool.begin("--command", f"cat | {{ {serve[5:]}; }} | cat", "piped", "--", "run"), lines, wanted)
    for number, host in enumerate(HOSTS):
        tool.wants(tool.begin(f"{host}:{odd}", f"host{number}", "--", "run"), lines, wanted)
        if tool.told.read_text() != host:
            fail(f"ssh was given {tool.told.read_text()!r} for {host!r}")
    tool.wants(tool.begin("host:missing", "none", "--", "run"), ["0 clone"], (0, "err remote 1\n"))
    tool.wants(tool.begin("--command", "exit 255", "none", "--", "run"), ["0 clone"], (0, "err remote 1\n"))
    for words in ([], ["host"], [":log", "here", "--", "run"], ["--command", "", "here", "--", "run"], ["--command", serve, "here", "--", "walk"]):
        tool.wants(tool.begin(*words), [], (2, ""))
    tool.is_clean()
    tool.env["TMPDIR"] = str(Path(folder, "a:b"))
    Path(folder, "a:b").mkdir()
    tool.wants(tool.begin("--command", serve, "here", "--", "run"), [], (2, ""))
    if list(Path(folder, "a:b").iterdir()):
        fail("segdag-ssh left a folder whose path has a colon")


def killed_run(program, draw, folder):
    """What tools/segdag-ssh began ends with it, whatever it waits for: lines, a peer that says nothing, or nothing yet; two at once."""
    there = Path(folder, "there")
    rows = serve_client.draw_log(program, draw, there, 60)
    tool = Tool(program, folder)
    serve, silent = f"'{program}' none '{there}' -- serve; exit 1", "sleep 1000 | sleep 1000; exit 1"
    for number, status in ((signal.SIGTERM, 143), (signal.SIGINT, 130), (signal.SIGHUP, 129)):
        begun = [tool.begin("--command", command, f"{number}.{place}", "--", "run") for place, command in enumerate((serve, silent, serve))]
        for child, line in zip(begun, (f"0 id {hexed(rows[0][0])}\n0 clone\n", "0 clone\n", "0 status\n")):
            child.stdin.write(line)
            child.stdin.flush()
        begun[0].stdout.readline()
        begun[2].stdout.readline()
        while len(list(tool.rooms.iterdir())) < len(begun):
            time.sleep(0.01)
        time.sleep(draw.choice([0, 0.1, 0.3]))
        for child in begun:
            child.send_signal(number)
        for child in begun:
            if child.wait(timeout=1800) != status:
                fail(f"segdag-ssh ended by signal {number} with {child.returncode}: {child.stderr.read()}")
            for pipe in (child.stdin, child.stdout, child.stderr):
                pipe.close()
    tool.is_clean()


def closed_ways(tool, serve, folder):
    """Each of the eight ways to close three descriptors: what was acknowledged is there, and the log opens."""
    for place, which in enumerate(which for count in range(4) for which in itertools.combinations(range(3), count)):
        log = Path(folder, f"closed{place}")
        for line, names in (("0 clone", 0), (f"0 add {'e' * 40}\n0 flush {'e' * 40}", 1)):
            begun = tool.begin("--command", serve, log, "--", "run", closes=which)
            out = begun.communicate(f"{line}\n0 status\n0 query top(all,5)\n")[0]
            if begun.returncode != (6 if 1 in which and 0 not in which else 0) or (out == "") != bool({0, 1} & set(which)):
                fail(f"with {which} closed segdag-ssh ended with {begun.returncode} and told {out!r}")
        status, text = told(tool.env["SEGDAG"], log, [], ["0 count all"], 4096)
        if status != 0 or text == "ok 0\n" and 0 not in which:
            fail(f"with {which} closed segdag-ssh left a log that ends with {status}: {text}")


def foreign_files(tool, serve, folder):
    """A file that is no log is refused as LOCAL and as REMOTE, and stays as it is; --force goes on."""
    for place, data in enumerate((b"# A page\n", b"SEGBNDL1" + bytes(40), b"\x7fELF" + bytes(90))):
        path = Path(folder, f"file {place}")
        path.write_bytes(data)
        for words in ([path], ["fresh", path]):
            tool.wants(tool.begin("--command", serve, *words, "--", "run"), [f"0 add {'e' * 40}", "0 flush"], (18, ""))
        if path.read_bytes() != data or Path(folder, "fresh").exists():
            fail(f"a file that begins with {data[:9]} was changed")
        begun = tool.begin("--force", "--command", serve, path, "--", "run")
        if not begun.communicate("0 clone\n")[0].startswith("ok cloned") or begun.returncode != 0:
            fail("--force takes no file")


def left_pipe(tool):
    """A peer that ends and leaves a process with the pipe keeps nobody waiting."""
    began = time.monotonic()
    tool.wants(tool.begin("--command", "sleep 90 & exit 0", "left", "--", "run"), ["0 clone"], (0, "err remote 1\n"))
    if time.monotonic() - began > 60:
        fail(f"a peer that ended kept the run waiting for {time.monotonic() - began:.0f} s")


def losses_run(program, draw, folder):
    """tools/segdag-ssh with closed descriptors, with files that are no log, and beside peers that leave somebody behind."""
    there = Path(folder, "there")
    serve_client.draw_log(program, draw, there, 60)
    tool, serve = Tool(program, folder), f"exec '{program}' none '{there}' -- serve"
    closed_ways(tool, serve, folder)
    foreign_files(tool, serve, folder)
    left_pipe(tool)
    tool.is_clean()


def left_behind(folder):
    """Processes that speak of the folder, five seconds later still: one whose input has ended takes a moment to end."""
    for _ in range(100):
        found = speaking_of(folder)
        if not found:
            break
        time.sleep(0.05)
    return found


def speaking_of(folder):
    """Processes that speak of the folder by their words or their environment."""
    found = []
    for entry in Path("/proc").glob("[0-9]*"):
        try:
            text = (entry / "cmdline").read_bytes()
            if folder.encode() in text + (entry / "environ").read_bytes() and int(entry.name) != os.getpid():
                found.append(text.replace(b"\0", b" "))
        except OSError:
            pass
    return found


def main():
    program, runs, seed = os.path.abspath(sys.argv[1]), int(sys.argv[2] if len(sys.argv) > 2 else 20), int(sys.argv[3] if len(sys.argv) > 3 else 1)
    for number in range(runs):
        draw = random.Random(f"{seed} {number}")
        for run in (one_run, broken_run, closed_run, *((words_run, quiet_run, ahead_run, tool_run, killed_run, losses_run) if number % 10 == 0 else ())):
            with tempfile.TemporaryDirectory() as folder:
                run(program, draw, folder)
                if left := left_behind(folder):
                    fail(f"left behind by {run.__name__}: {left}")
    print(f"pipes: {runs} runs: mirrors behind pipes answer as those at paths do, and what breaks is passed over")


if __name__ == "__main__":
    main()
