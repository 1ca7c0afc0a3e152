"""The parts of beside.sh: beside.py PART PROGRAM FOLDER. Each ends with status 1 where the program did something else."""
import os
import signal
import sys
import threading
import time
from subprocess import PIPE, Popen, run

PROGRAM = os.path.abspath(sys.argv[2])
FOLDER = sys.argv[3]
ROUNDS = int(os.environ.get("ROUNDS", "1000"))  # writers that are refused, and readers
COMMITS = int(os.environ.get("COMMITS", "30000"))  # what the log holds before the writer that never pauses begins


def fail(text):
    sys.exit(f"beside: {text}")


def fresh(kind):
    path = os.path.join(FOLDER, kind)
    for old in (path, path + ".new"):
        if os.path.lexists(old):
            os.remove(old)
    return path


def name(i):
    return f"{i:040x}"


def added(i):
    """The line that adds a chain's commit."""
    return f"0 add {name(i)} {name(i - 1)}\n" if i > 1 else f"0 add {name(i)}\n"


def ended(words, text=""):
    """The status of a run of the program over this input, its output and what it says on standard error."""
    done = run([PROGRAM, *words], input=text, stdout=PIPE, stderr=PIPE, encoding="ascii", timeout=1800)
    return done.returncode, done.stdout, done.stderr


class Writer:
    """A run that keeps the log: it asks a line, and waits for the reply."""

    def __init__(self, log, *more):
        self.process = Popen([PROGRAM, log, "--", "run", *more], stdin=PIPE, stdout=PIPE, stderr=PIPE, encoding="ascii", bufsize=1)

    def ask(self, line):
        self.process.stdin.write(line)
        return self.process.stdout.readline()

    def end(self):
        self.process.stdin.close()
        status = self.process.wait(1800)
        self.process.stdout.close()
        self.process.stderr.close()
        return status


def is_refused(end):
    status, output, told = end
    return status == 16 and output == "" and told.count("\n") == 1


def writers():
    """Beside a run that keeps the log each other run and each compact is refused, and changes nothing; who only reads isn't."""
    log = fresh("writers")
    writer = Writer(log)
    writer.ask(added(1))
    writer.ask(f"0 flush {name(1)}\n")
    with open(log, "rb") as file:
        data = file.read()
    for at in range(ROUNDS):
        words = [log, "--", "compact"] if at % 10 == 9 else [log, "--", "run"]
        end = ended(words, added(2) + f"0 flush {name(2)}\n")
        if not is_refused(end):
            fail(f"writers: while another one writes {words[2]} ended with {end}")
    if os.path.exists(log + ".new"):
        fail("writers: a compact that was refused made its file")
    with open(log, "rb") as file:
        if file.read() != data:
            fail("writers: a refused writer wrote")
    status, output, _ = ended([fresh("clone"), log, "--", "run"], "0 clone\n")
    if (status, output) != (0, "ok cloned 1\n"):
        fail(f"writers: a clone while another writes: {status}, {output}")
    if ended([log, "--", "bundle"])[0] != 0 or ended(["none", log, "--", "serve"])[0] != 0:
        fail("writers: a bundle or a served mirror was refused while another writes")
    if writer.ask("0 status\n") != "ok 1 0 0\n" or writer.end() != 0:
        fail("writers: the writer was disturbed")
    if ended([log, "--", "run"], "0 status\n")[:2] != (0, "ok 1 0 0\n"):
        fail("writers: after the writer the log isn't free")


def unwritten():
    """A bundle of a log in which nothing is stored yet would write its first byte, so it is refused while another process has it."""
    log = fresh("unwritten")
    writer = Writer(log)
    if writer.ask("0 status\n") != "ok 0 0 0\n" or not is_refused(ended([log, "--", "bundle"])):
        fail("unwritten: a bundle of another one's new log isn't refused")
    writer.ask(added(1))
    writer.ask(f"0 flush {name(1)}\n")
    if ended([log, "--", "bundle"])[0] != 0:
        fail("unwritten: a bundle is refused though something is stored")
    if writer.end() != 0 or ended([log, "--", "run"], "0 status\n")[:2] != (0, "ok 1 0 0\n"):
        fail("unwritten: what was stored is lost")
    if ended([fresh("nobody's"), "--", "bundle"])[0] != 0:
        fail("unwritten: a bundle of a new log that nobody has is refused")


def waits():
    """With --wait a run waits for the log, and then has the file that stands at its path, whichever that is then."""
    log = fresh("waits")
    writer = Writer(log)
    writer.ask(added(1))
    writer.ask(f"0 flush {name(1)}\n")
    waiting = Writer(log, "--wait")
    waiting.process.stdin.write("0 status\n")
    time.sleep(0.3)
    if waiting.process.poll() is not None:
        fail("waits: it didn't wait")
    if ended([log, "--", "compact"])[0] != 16:
        fail("waits: a compact while another writes isn't refused")
    writer.ask(added(2))
    writer.ask(f"0 flush {name(2)}\n")
    # another file takes the log's place before the writer lets it go
    other = fresh("other")
    text = "".join(map(added, (1, 2, 3))) + f"0 flush {name(3)}\n"
    if ended([other, "--", "run"], text)[0] != 0:
        fail("waits: the other log isn't made")
    os.rename(other, log)
    if writer.end() != 0:
        fail("waits: the writer failed")
    if waiting.process.stdout.readline() != "ok 3 0 0\n" or waiting.ask(added(4)) != "ok added N0\n":
        fail("waits: it doesn't have the file at the path")
    if not is_refused(ended([log, "--", "run"])):
        fail("waits: the file at the path isn't kept")
    if waiting.end() != 0:
        fail("waits: it failed")


def killed():
    """A lock never outlives its process."""
    log = fresh("killed")
    for at in range(max(1, ROUNDS // 20)):
        writer = Writer(log)
        writer.ask("0 status\n")
        writer.process.send_signal(signal.SIGKILL)
        writer.process.wait(1800)
        if ended([log, "--", "run"], "0 status\n")[0] != 0:
            fail("killed: the log of a killed run isn't free")
        for stream in (writer.process.stdin, writer.process.stdout, writer.process.stderr):
            stream.close()


class Busy(threading.Thread):
    """A writer that never pauses: how many commits it has sent, and how many are acknowledged."""

    def __init__(self, log):
        super().__init__()
        self.writer, self.stops, self.bad = Writer(log), False, None
        lines = "".join(map(added, range(1, COMMITS + 1)))
        feeder = threading.Thread(target=self.writer.process.stdin.write, args=(lines,))
        feeder.start()
        for _ in range(COMMITS):
            self.writer.process.stdout.readline()
        feeder.join()
        self.writer.ask(f"0 flush {name(COMMITS)}\n")
        self.sent = self.acknowledged = COMMITS

    def run(self):
        while not self.stops:
            self.sent += 1
            self.writer.ask(added(self.sent))
            reply = self.writer.ask(f"0 flush {name(self.sent)}\n")
            if reply != f"ok flushed {self.sent} 0\n":
                self.bad = reply
                return
            self.acknowledged = self.sent


def told_sizes(words, text, wanted, least, busy):
    """A run beside the writer, whose last reply but for its numbers is this one: the size that it tells."""
    status, output, told = ended(words, text)
    last = output.splitlines()[-1:]
    if status != 0 or not last or not last[0].startswith(wanted):
        fail(f"readers: {words[-1]} of {text.split()[-1:]}: status {status}, {output[-200:]!r}, {told}")
    size = int(last[0].split()[2])
    if not least <= size <= busy.sent:
        fail(f"readers: {last[0]} over a log that grew from {least} to {busy.sent} meanwhile")
    return size


def readers():
    """Clones, pulls, bundles and lazy names beside a writer that never pauses: none is refused, and each has a size of some moment meanwhile."""
    log = fresh("busy")
    busy = Busy(log)
    clone = fresh("puller")
    first = told_sizes([clone, log, "--", "run"], "0 clone\n", "ok cloned ", COMMITS, busy)
    busy.start()
    rounds, moved, pulled = max(4, ROUNDS // 4), 0, first
    try:
        for _ in range(rounds):
            least = busy.acknowledged
            moved += told_sizes([fresh("cloner"), log, "--", "run"], "0 clone\n", "ok cloned ", least, busy) > least
            least = busy.acknowledged
            pulled = told_sizes([clone, log, "--", "run"], "0 pull\n", "ok pulled ", max(least, pulled), busy)
            least = busy.acknowledged
            with open(fresh("bundle"), "wb") as file:
                done = run([PROGRAM, log, "--", "bundle"], stdout=file, stderr=PIPE, timeout=1800)
            if done.returncode != 0:
                fail(f"readers: a bundle ended with {done.returncode}")
            told_sizes([fresh("cloner"), f"bundle:{file.name}", "--", "run"], "0 clone\n", "ok cloned ", least, busy)
            status, output, _ = ended([clone, log, "--", "run"], f"0 query parents({name(pulled)})\n")
            if (status, output) != (0, f"{name(pulled - 1)}\nok 1\n"):
                fail(f"readers: a lazy name: {status}, {output!r}")
    finally:
        busy.stops = True
        busy.join()
    if busy.bad is not None or busy.writer.end() != 0:
        fail(f"readers: the writer failed: {busy.bad}")
    print(f"beside: readers: {4 * rounds} during {busy.sent - COMMITS} flushes, {moved} clones with what came meanwhile")


PARTS = {part.__name__: part for part in (writers, unwritten, waits, killed, readers)}
began = time.monotonic()
PARTS[sys.argv[1]]()
print(f"beside: {sys.argv[1]}: {time.monotonic() - began:.1f} s")
