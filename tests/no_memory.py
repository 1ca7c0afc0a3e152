"""Want of memory: no_memory.py PROGRAM FOLDER, where tests/no_memory.sh has put the library no_memory.so into FOLDER.

Runs lines over logs, alone and beside mirrors, and each other mode, as often as each asks for memory: each time another one of these
calls finds none. Then either the status is 7, nothing was put, and no file has a change; or one reply is `err memory`, and all others
and the log are what they are without that line; or all is as ever. A demonstration puts the last four of such replies alone, and of a
served mirror one answer is ff04. Of a log that is written anew the status is 13, which is a fault of the new file's disk, where the C
library finds no memory for the new file's folder.
"""
import itertools
import os
import subprocess
import sys
from pathlib import Path

CASES = Path("crates/run_rows/stdin")
MEMORY = b"err memory\n"


def name(last):
    return f"{last:040x}"


def chain(last):
    """Lines that add a chain of commits, from 10 up to this one, and move it to master."""
    lines = [f"0 add {name(k)} {name(k - 1) if k > 0x10 else ''}".rstrip() for k in range(0x10, last + 1)]
    return [*lines, f"0 flush {name(last)}"]


# Over the clone of a chain of twelve commits that isn't made yet, and over what it leaves.
CLONED = [
    "0 clone",
    f"0 id {name(0x14)}",
    f"0 add {name(0x20)} {name(0x19)}",
    f"0 add {name(0x21)} {name(0x13)}",
    "0 flush",
    f"1 query up({name(0x19)},3)",
    "1 reload",
    "1 query all",
    f"1 strip {name(0x20)}",
    "0 reload",
    "0 status",
]

# Beside a mirror that has eight more, of which one is stored among the others.
PULLED = [f"0 add {name(0x1C)} {name(0x1B)}", "0 flush", "0 pull", "1 pull", "1 query top(master,9)", f"1 id {name(0x11)}", "0 status"]

LOADED = ["0 status", "0 levels", "0 count merges(all)", "0 query gca(all)", "0 query heads(all)", "0 query roots(all)"]


def joined(lines):
    return "".join(line + "\n" for line in lines).encode()


class Runs:
    """Runs of the program with these words, over a log that each time begins with the same bytes, or isn't there."""

    def __init__(self, program, folder, words, start=None):
        self.log, self.new, self.start = Path(folder, "log"), Path(folder, "log.new"), start
        self.words = [program, *(str(self.log) if word == "LOG" else str(word) for word in words)]
        self.env = {"LD_PRELOAD": str(Path(folder, "no_memory.so"))}

    def run(self, text, fails=0):
        """The status, the output, the bytes of the log and of one that is written anew, and how many calls for memory there were."""
        for path in (self.log, self.new):
            path.unlink(missing_ok=True)
        if self.start is not None:
            self.log.write_bytes(self.start)
        env = {**self.env, "FAIL_ALLOC": str(fails)}
        done = subprocess.run(self.words, input=text, env=env, stdout=subprocess.PIPE, stderr=subprocess.PIPE, timeout=1800)
        told = done.stderr.decode(errors="replace").split()
        calls = int(told[-1]) if told and told[-1].isdigit() else 0
        return done.returncode, done.stdout, [path.read_bytes() if path.exists() else b"" for path in (self.log, self.new)], calls

    def is_unchanged(self, files):
        """Whether these bytes have no change; a log that wasn't there may be made."""
        log, new = files
        return (log == self.start or (self.start is None and log in (b"", b"\0"))) and new in (b"", b"\0")


class Tried:
    """An input, and what comes of it where no call fails."""

    def __init__(self, what, runs, text):
        self.what, self.runs, self.text = what, runs, text
        self.status, self.output, self.files, self.calls = runs.run(text)
        if self.status != 0 or self.calls == 0:
            sys.exit(f"no_memory: {what}: status {self.status} and {self.calls} calls for memory, where none fails")

    def came(self, fails):
        """What came of that call finding no memory; nothing where it can't be."""
        status, output, files, _ = self.runs.run(self.text, fails)
        if status == 7 and output == b"" and self.runs.is_unchanged(files):
            return "status 7"
        if (status, output, files) == (self.status, self.output, self.files):
            return "as ever"
        return "no memory told" if status == self.status and self.is_told(output, files) else None

    def is_told(self, output, files):
        return False

    def fail_each(self, told):
        """Fails each call in turn, and counts what came of it."""
        for fails in range(1, self.calls + 1):
            came = self.came(fails)
            if came is None:
                status, output, files, _ = self.runs.run(self.text, fails)
                sizes = " and ".join(str(len(data)) for data in files)
                print(f"no_memory: {self.what}: call {fails} of {self.calls} ends with status {status}, files of {sizes} bytes, and")
                sys.stdout.buffer.write(output)
                sys.exit(1)
            told[came] = told.get(came, 0) + 1


class Anew(Tried):
    """A log that is written anew. Where a call of the system that the new file is opened by finds no memory, the new file's disk has failed."""

    def came(self, fails):
        status, output, files, _ = self.runs.run(self.text, fails)
        if status == 13 and output == b"" and self.runs.is_unchanged(files):
            return "status 13"
        return super().came(fails)


class Lines(Tried):
    """Lines, of which one may be refused for want of memory."""

    def __init__(self, what, runs, lines):
        super().__init__(what, runs, joined(lines))
        self.lines, self.refused = lines, {}

    def refusal(self, k):
        """The output and the files where line k is refused: those without it, and the refusal in the place of its reply."""
        if k not in self.refused:
            front = self.runs.run(joined(self.lines[:k]))[1]
            _, output, files, _ = self.runs.run(joined(self.lines[:k] + self.lines[k + 1 :]))
            self.refused[k] = (front + MEMORY + output[len(front) :], files)
        return self.refused[k]

    def is_told(self, output, files):
        return any((output, files) == self.refusal(k) for k in range(len(self.lines)))


class Demonstration(Tried):
    """A demonstration, which runs over lines that it draws, and puts the replies to the last four."""

    def __init__(self, what, runs, beside, size, start):
        super().__init__(what, runs, b"")
        self.lines = Lines(what + ", by its lines", beside, drawn(size, start))

    def is_told(self, output, files):
        every = (self.lines.refusal(k)[0] for k in range(len(self.lines.lines)))
        return any(output.splitlines() == replies.splitlines()[-4:] for replies in every)


def drawn(size, start):
    """The lines of a demonstration, as `demo_input` defines them; there are fewer commits than a thousand."""
    lines, x = [], start
    for i in range(size):
        parents = [i - 1] if i else []
        if i > 1:
            x = (x * 6364136223846793005 + 1442695040888963407) % (1 << 64)
            r = x >> 33
            far = i - 1 - (1 + r // 16 % (min(i, 65) - 1))
            parents = {0: [i - 1, far], 1: [far]}.get(r % 16, parents)
        lines.append(" ".join(["0 add", *(name(k + 1) for k in [i, *parents])]))
    last = [f"0 flush {name(size)}", "0 status", f"0 count ancestors({name(size)})", "0 count merges(all)", "0 count heads(all)"]
    return [*lines, *last]


class Requests(Tried):
    """Requests to a served mirror of the chain."""

    ASKED = [
        b"\2",
        b"\1",
        b"\3" + bytes.fromhex(name(0x19)) + (2).to_bytes(8, "big") + (5).to_bytes(4, "big"),
        b"\4\0\1" + bytes.fromhex(name(0x1B)) + bytes.fromhex(name(0x14)),
        b"\7",
        b"\2",
    ]

    def __init__(self, what, runs):
        super().__init__(what, runs, b"".join(len(body).to_bytes(4, "big") + body for body in self.ASKED))

    @staticmethod
    def bodies(output):
        found, at = [], 0
        while at < len(output):
            size = int.from_bytes(output[at : at + 4], "big")
            found.append(output[at + 4 : at + 4 + size])
            at += 4 + size
        return found

    def is_told(self, output, files):
        answers, right = self.bodies(output), self.bodies(self.output)
        return len(answers) == len(right) and [a for a, b in zip(answers, right) if a != b] == [b"\xff\4"]


def longest_cases(count):
    """The longest of those cases of run_rows that go over a fresh log beside no mirror: what each is, and its lines."""
    found = []
    for part in ("\n" + CASES.read_text()).split("\n== ")[1:]:
        title, *lines = part.split("\n")
        if " beside: " not in title and not title.startswith("again"):
            found.append((title, [line for line in lines if line.strip("\r") and not line.startswith("#")]))
    return sorted(found, key=lambda case: -len(case[1]))[:count]


def made(program, path, lines, *mirrors):
    """The bytes of the log that these lines make at the path."""
    subprocess.run([program, path, *mirrors, "--", "run"], input=joined(lines), check=True, stdout=subprocess.DEVNULL)
    return path.read_bytes()


def bundled(program, log, path):
    """The bundle of the log, at the path."""
    path.write_bytes(subprocess.run([program, log, "--", "bundle"], check=True, stdout=subprocess.PIPE).stdout)


def tried_alone(program, folder):
    """The longest cases, and each mode over the log of one."""
    alone, ladder = ["LOG", "--", "run"], None
    for what, lines in longest_cases(6):
        yield Lines(what, Runs(program, folder, alone), lines)
        if "ladder" in what:
            ladder = made(program, Path(folder, "ladder"), lines)
    groups = made(program, Path(folder, "groups"), [*drawn(30, 7)[:-5], f"0 flush {name(20)}"])
    for what, log in [("a ladder", ladder), ("a log with both groups", groups)]:
        yield Lines(what + ", loaded", Runs(program, folder, alone, log), LOADED)
        yield Tried(what + ", bundled", Runs(program, folder, ["LOG", "--", "bundle"], log), b"")
        yield Anew(what + ", written anew", Runs(program, folder, ["LOG", "--", "compact"], log), b"")
    demo = Runs(program, folder, ["LOG", "--", "demo", "--size", "40", "--start", "7"])
    yield Demonstration("a demonstration", demo, Runs(program, folder, alone), 40, 7)


def tried_beside(program, folder):
    """Clones and pulls beside mirrors, and mirrors that are served."""
    there, more, missing, bundle = (Path(folder, word) for word in ("there", "more", "missing", "bundle"))
    made(program, there, chain(0x1B))
    made(program, more, chain(0x23))
    bundled(program, there, bundle)
    cloned = made(program, Path(folder, "cloned"), ["0 clone"], there)
    for what, mirrors in [("a log", [there]), ("one that isn't there and a log", [missing, there]), ("a bundle", [f"bundle:{bundle}"])]:
        yield Lines("a clone beside " + what, Runs(program, folder, ["LOG", *mirrors, "--", "run", "--cache", "1"]), CLONED)
    yield Lines("a pull", Runs(program, folder, ["LOG", more, "--", "run"], cloned), PULLED)
    yield Anew("a clone, written anew", Runs(program, folder, ["LOG", "--", "compact"], cloned), b"")
    for what, mirror in [("log", there), ("bundle", f"bundle:{bundle}")]:
        yield Requests(f"a served {what}", Runs(program, folder, ["LOG", mirror, "--", "serve"]))


def main():
    told, calls, words = {}, 0, (os.path.abspath(sys.argv[1]), sys.argv[2])
    for tried in itertools.chain(tried_alone(*words), tried_beside(*words)):
        tried.fail_each(told)
        calls += tried.calls
    print(f"no_memory: each of {calls} calls for memory found none:", ", ".join(f"{came} {told[came]}" for came in sorted(told)))


if __name__ == "__main__":
    main()
