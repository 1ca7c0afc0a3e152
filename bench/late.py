#!/usr/bin/env python3
"""Passes the requests of standard input to a server, and its answers to standard output, each so much later than it came: `late.py
MILLISECONDS COUNT COMMAND..`. The file COUNT has how many ways there and back there were so far: a request begins one where every answer
to those before it was passed on. docs/SERVE.md says what a request is.
"""
import os
import queue
import subprocess
import sys
import threading
import time

PIECE = 1 << 20


def exactly(source, count):
    """So many bytes of the open file; fewer where it ends."""
    data = b""
    while len(data) < count:
        more = os.read(source, min(count - len(data), PIECE))
        if not more:
            break
        data += more
    return data


def write(sink, data):
    """Writes all of the bytes."""
    left = memoryview(data)
    while left:
        left = left[os.write(sink, left) :]


class Ways:
    """How many ways there were, in a file."""

    def __init__(self, path):
        self.counted = os.open(path, os.O_WRONLY | os.O_CREAT | os.O_TRUNC)
        self.lock, self.waiting, self.number = threading.Lock(), 0, 0

    def asked(self):
        with self.lock:
            if self.waiting == 0:
                self.number += 1
                os.pwrite(self.counted, b"%d\n" % self.number, 0)
            self.waiting += 1

    def answered(self):
        with self.lock:
            self.waiting -= 1


def take(come, delay, answers):
    """Puts the server's answers, with the times when they are due, into the queue, and then nothing."""
    while len(size := exactly(come, 4)) == 4:
        due = time.monotonic() + delay
        body = exactly(come, int.from_bytes(size, "big"))
        answers.put((due, size + body))
    answers.put(None)


def give(answers, ways):
    """Passes the answers on when they are due. Where nobody takes them all ends."""
    while (answer := answers.get()) is not None:
        time.sleep(max(answer[0] - time.monotonic(), 0))
        ways.answered()
        try:
            write(1, answer[1])
        except BrokenPipeError:
            os._exit(1)


def main():
    delay, ways, answers = float(sys.argv[1]) / 1000, Ways(sys.argv[2]), queue.SimpleQueue()
    with subprocess.Popen(sys.argv[3:], stdin=subprocess.PIPE, stdout=subprocess.PIPE) as server:
        threads = (threading.Thread(target=take, args=(server.stdout.fileno(), delay, answers)), threading.Thread(target=give, args=(answers, ways)))
        for thread in threads:
            thread.start()
        to = server.stdin.fileno()
        while len(head := exactly(0, 4)) == 4:
            body = exactly(0, int.from_bytes(head, "big"))
            ways.asked()
            write(to, head + body)
        server.stdin.close()
        for thread in threads:
            thread.join()


if __name__ == "__main__":
    main()
