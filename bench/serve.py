"""Times a served mirror: so many requests for one name each, over a pipe. serve.py [REQUESTS] [COMMITS]"""

import os
import struct
import subprocess
import sys
import tempfile
import threading
import time

PROGRAM = os.path.join(os.path.dirname(os.path.abspath(__file__)), "../crates/segdag/out/segdag")


def name(number):
    """The name of the commit with this number: scattered as hashes are."""
    return struct.pack(">QIQ", number * 0x9E3779B97F4A7C15 % 2**64, number, 7)


def store(path, commits):
    """A log of a chain of so many commits, with a flush every ten thousand."""
    with subprocess.Popen([PROGRAM, path, "--", "run"], stdin=subprocess.PIPE, stdout=subprocess.DEVNULL) as process:
        for number in range(commits):
            parent = f" {name(number - 1).hex()}" if number else ""
            process.stdin.write(f"0 add {name(number).hex()}{parent}\n".encode())
            if number % 10000 == 9999 or number == commits - 1:
                process.stdin.write(f"0 flush {name(number).hex()}\n".encode())


def peak(pid):
    """The most memory that the process has used so far, in megabytes."""
    with open(f"/proc/{pid}/status", encoding="ascii") as status:
        return next(int(line.split()[1]) / 1024 for line in status if line.startswith("VmHWM"))


def ask(path, requests, commits):
    """The seconds that the answers took behind the first, and the memory at the end."""
    with subprocess.Popen([PROGRAM, path + ".none", path, "--", "serve"], stdin=subprocess.PIPE, stdout=subprocess.PIPE) as process:
        frames = b"".join(
            struct.pack(">IB", 33, 3) + name(number * 7919 % commits) + struct.pack(">QI", 0, 1) for number in range(requests)
        )
        process.stdin.write(struct.pack(">IB", 1, 1))
        process.stdin.flush()
        assert process.stdout.read(5) == b"\0\0\0\1\x81"
        begin = time.monotonic()
        writer = threading.Thread(target=lambda: (process.stdin.write(frames), process.stdin.flush()))
        writer.start()
        answers = process.stdout.read(29 * requests)
        took = time.monotonic() - begin
        writer.join()
        memory = peak(process.pid)
        process.stdin.close()
    for number in range(requests):
        assert answers[29 * number : 29 * number + 29] == b"\0\0\0\x19\x83\0\0\0\1" + name(number * 7919 % commits), number
    return took, memory


def main():
    requests = int(sys.argv[1]) if len(sys.argv) > 1 else 100_000
    commits = int(sys.argv[2]) if len(sys.argv) > 2 else 100_000
    with tempfile.TemporaryDirectory() as room:
        store(f"{room}/a", commits)
        for count in (requests // 10, requests):
            took, memory = ask(f"{room}/a", count, commits)
            print(f"{count} requests over {commits} commits: {took:.2f} s, {memory:.0f} MB")


if __name__ == "__main__":
    main()
