"""Runs a program from a small process of its own, begun before a script holds any data: the system counts what a process took at
most from before it became the program, so from a large process each program would seem to take as much.

    run(words, given, out)    the seconds of a run over the open file `given`, into the open file `out`; the most memory that it took
                              in MB; and its status
"""
import json
import os
import subprocess
import sys
import time


def serve():
    for line in sys.stdin:
        words, given, out = json.loads(line)
        with open(given, "rb") as source, open(out, "wb") as sink:
            begun = time.perf_counter()
            child = subprocess.Popen(words, stdin=source, stdout=sink)
            _, status, usage = os.wait4(child.pid, 0)
            taken = time.perf_counter() - begun
        print(json.dumps([taken, usage.ru_maxrss / 1024, os.waitstatus_to_exitcode(status)]), flush=True)


def begin():
    words = [sys.executable, os.path.abspath(__file__)]
    return subprocess.Popen(words, stdin=subprocess.PIPE, stdout=subprocess.PIPE, text=True)


def run(words, given, out):
    given.flush()
    paths = [f"/proc/{os.getpid()}/fd/{file.fileno()}" for file in (given, out)]
    small.stdin.write(json.dumps([[str(word) for word in words], *paths]) + "\n")
    small.stdin.flush()
    return json.loads(small.stdout.readline())


if __name__ == "__main__":
    serve()
else:
    small = begin()
