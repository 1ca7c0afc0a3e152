"""Servers behind named pipes, for tests: as they are, or with a relay that cuts the bytes, is late, or breaks off."""

import os
import random
import signal
import subprocess
import time
from pathlib import Path


def relay(to, come, command, how, draw):
    """Passes requests from one pipe to a server and answers to another, as it is told; a process of its own.

    `ones`: bytes come one by one. `late`: each answer comes so many seconds later. `hold`: the first answer comes when so many requests
    have. `answers`: behind so many it closes its ends. `limit`: of the answers only so many bytes come, and then as `end` says: `stop`
    closes its ends, `lie` changes a byte, `tag` the tag of the answer.
    """
    asked = os.open(to, os.O_RDONLY)
    server = subprocess.Popen(command, stdin=subprocess.PIPE, stdout=subprocess.PIPE)
    told, passed, number, limit = None, 0, 0, how.get("limit")

    def exactly(count):
        data = b""
        while len(data) < count:
            more = os.read(asked, count - len(data))
            if not more:
                return None
            data += more
        return data

    def requests():
        """Each whole request; the first of them only when as many have come as are held."""
        held, hold = [], how.get("hold", 1)
        while (head := exactly(4)) is not None and (body := exactly(int.from_bytes(head, "big"))) is not None:
            held.append(head + body)
            if len(held) == hold:
                yield from held
                held, hold = [], 1

    def give(data):
        step = 1 if how.get("ones") else len(data)
        for at in range(0, len(data), max(step, 1)):
            os.write(told, data[at : at + step])

    try:
        for request in requests():
            if told is None:
                told = os.open(come, os.O_WRONLY)
            server.stdin.write(request)
            server.stdin.flush()
            size = server.stdout.read(4)
            answer = size + server.stdout.read(int.from_bytes(size, "big"))
            time.sleep(how.get("late", 0))
            if limit is not None and passed + len(answer) > limit:
                cut = max(limit - passed, 0)
                if how["end"] == "stop":
                    give(answer[:cut])
                    break
                limit = None
                place = 4 if how["end"] == "tag" else min(cut, len(answer) - 1)
                answer = answer[:place] + bytes([answer[place] ^ draw.choice([0x10, 0x20, 0x40])]) + answer[place + 1 :]
                if place < 4:  # A length that is too great would be waited for.
                    give(answer)
                    break
            give(answer)
            passed, number = passed + len(answer), number + 1
            if number == how.get("answers"):
                break
    except BrokenPipeError:
        pass
    finally:
        server.kill()
        server.wait()


class Behind:
    """A server behind two named pipes in a folder, and a relay between where one is asked for."""

    def __init__(self, program, remote, folder, how=None, draw=None, number=""):
        self.to, self.come = Path(folder, f"to{number}"), Path(folder, f"from{number}")
        for pipe in (self.to, self.come):
            pipe.unlink(missing_ok=True)
            os.mkfifo(pipe)
        command = [program, "none", remote, "--", "serve"]
        if how is None:
            script = 'exec "$0" none "$1" -- serve < "$2" > "$3"'
            self.child = subprocess.Popen(["sh", "-c", script, program, remote, self.to, self.come])
            self.pid = None
        else:
            self.pid = os.fork()
            if self.pid == 0:
                signal.signal(signal.SIGPIPE, signal.SIG_IGN)
                try:
                    relay(self.to, self.come, command, how, draw)
                finally:
                    os._exit(0)
        self.word = f"pipe:{self.to}:{self.come}"

    def end(self):
        """Ends it, whether it was asked or not."""
        if self.pid is None:
            self.child.terminate()
            self.child.wait()
        else:
            os.kill(self.pid, signal.SIGTERM)
            os.waitpid(self.pid, 0)


class Peers:
    """The words of a run's mirrors, some of which are put behind pipes, until they are ended."""

    HOWS = [None, None, {}, {"ones": True}, {"late": 0.002}]

    def __init__(self, program, draw, folder, words, share=0.3):
        self.program, self.folder, self.draw, self.peers = program, folder, random.Random(draw.random()), []
        self.words = [self.put(word, self.draw.choice(self.HOWS)) if self.draw.random() < share else str(word) for word in words]

    def put(self, word, how):
        """The word of a mirror behind a pipe."""
        peer = Behind(self.program, str(word), self.folder, how, self.draw, len(self.peers))
        self.peers.append(peer)
        return peer.word

    def put_broken(self, word):
        """The same of one that breaks off at some of its answers."""
        ends = [{"answers": self.draw.choice([1, 2, 3])}, *({"limit": self.draw.choice([0, 3, 4, 90, 3000]), "end": end} for end in ("stop", "tag"))]
        return self.put(word, self.draw.choice(ends))

    def end(self):
        """Ends them all, once."""
        while self.peers:
            self.peers.pop().end()

    def __enter__(self):
        return self

    def __exit__(self, *_):
        self.end()
