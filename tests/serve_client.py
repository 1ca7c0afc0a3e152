"""A client of `segdag LOG REMOTE -- serve` in forty lines, and a test of it: docs/SERVE.md is the protocol."""

import random
import struct
import subprocess
import sys
import tempfile


class Client:
    """Asks a mirror over the pipes of a process, one request after another."""

    def __init__(self, command):
        self.process = subprocess.Popen(command, stdin=subprocess.PIPE, stdout=subprocess.PIPE)

    def ask(self, body):
        self.process.stdin.write(struct.pack(">I", len(body)) + body)
        self.process.stdin.flush()
        (size,) = struct.unpack(">I", self.process.stdout.read(4))
        answer = self.process.stdout.read(size)
        if answer[:1] == b"\xff":
            raise OSError({1: "the mirror failed", 2: "too long", 3: "no request", 4: "no memory"}[answer[1]])
        return answer[:1], answer[1:]

    def refresh(self):
        self.ask(b"\x01")

    def clone_data(self):
        data, at = self.ask(b"\x02")[1], 4
        segments, names = [], []
        for _ in range(struct.unpack_from(">I", data)[0]):
            low, high, count = struct.unpack_from(">QQB", data, at)
            segments.append((low, high, list(struct.unpack_from(f">{count}Q", data, at + 17))))
            at += 17 + 8 * count
        (count,) = struct.unpack_from(">I", data, at)
        for place in range(at + 4, at + 4 + 28 * count, 28):
            names.append((struct.unpack_from(">Q", data, place)[0], data[place + 8 : place + 28]))
        at += 4 + 28 * count
        heads = [data[place : place + 20] for place in range(at + 4, len(data), 20)]
        return segments, names, heads

    def names_of(self, name, back, count):
        data = self.ask(b"\x03" + name + struct.pack(">QI", back, count))[1]
        return [data[at : at + 20] for at in range(4, len(data), 20)]

    def path_of(self, heads, name):
        kind, data = self.ask(b"\x04" + struct.pack(">H", len(heads)) + b"".join(heads) + name)
        return (data[:20], struct.unpack(">Q", data[20:])[0]) if kind == b"\x84" else None

    def end(self):
        self.process.stdin.close()
        return self.process.wait()


def draw_log(program, draw, path, size):
    """A log of so many drawn commits in master, and its rows: names with the names of their parents."""
    rows, lines = [], []
    for number in range(size):
        name = bytes([draw.randrange(256) for _ in range(18)]) + struct.pack(">H", number)
        newest = [row for row, _ in rows[-6:]]
        parents = draw.sample(newest, min(len(newest), draw.choice((0, 1, 1, 1, 1, 2, 3)))) if rows else []
        rows.append((name, parents))
        lines.append(f"0 add {' '.join(it.hex() for it in (name, *parents))}")
    tips = {name for name, _ in rows} - {parent for _, parents in rows for parent in parents}
    lines.append("0 flush " + " ".join(it.hex() for it in sorted(tips)))
    lines.append("0 query all")
    told = subprocess.run([program, path, "--", "run"], input="\n".join(lines) + "\n", text=True, capture_output=True, check=True)
    order = [bytes.fromhex(it) for it in told.stdout.split("\n")[size + 1 :] if len(it) == 40]
    parents_of = dict(rows)
    return [(name, parents_of[name]) for name in reversed(order)]


def flat_segments(rows):
    """The maximal runs of ids each of which has the one before it as its only parent."""
    ids = {name: number for number, (name, _) in enumerate(rows)}
    segments = []
    for number, (_, parents) in enumerate(rows):
        numbers = [ids[it] for it in parents]
        if segments and numbers == [number - 1] and segments[-1][1] == number - 1:
            segments[-1] = (segments[-1][0], number, segments[-1][2])
        else:
            segments.append((number, number, numbers))
    return segments


def line_of(rows, name, back, count):
    """The names that first parents lead to, from so many steps on."""
    parents = dict(rows)
    line = []
    while name in parents and len(line) < back + count:
        line.append(name)
        name = parents[name][0] if parents[name] else None
    return line[back:]


def known_by(rows, heads):
    """The heads, and the parents of merges that they reach."""
    parents = dict(rows)
    reached, left = set(), [it for it in heads if it in parents]
    while left:
        name = left.pop()
        if name not in reached:
            reached.add(name)
            left.extend(parents[name])
    merged = {parent for name in reached if len(parents[name]) > 1 for parent in parents[name]}
    return reached, merged | {it for it in heads if it in parents}


def compare(client, rows, draw):
    """Compares what the mirror tells with the rows, and answers how many requests that took."""
    segments, names, heads = client.clone_data()
    assert segments == flat_segments(rows), "segments"
    merged = {number for _, _, parents in segments if len(parents) > 1 for number in parents}
    wanted = sorted({high for _, high, _ in segments} | merged)
    assert names == [(number, rows[number][0]) for number in wanted], "names"
    children = {parent for _, parents in rows for parent in parents}
    assert heads == [name for name, _ in rows if name not in children], "heads"
    for _ in range(40):
        name = draw.choice(rows)[0]
        back, count = draw.randrange(len(rows)), draw.randrange(1, 9)
        assert client.names_of(name, back, count) == line_of(rows, name, back, count), "names_of"
    for _ in range(40):
        given = [draw.choice(rows)[0] for _ in range(draw.randrange(4))]
        name = draw.choice(rows)[0]
        reached, known = known_by(rows, given)
        found = client.path_of(given, name)
        assert (found is None) == (name not in reached), "a way"
        if found is not None:
            assert found[0] in known and line_of(rows, found[0], found[1], 1) == [name], "where it leads"
    return 81


def main():
    program, runs, seed = sys.argv[1], int(sys.argv[2]), int(sys.argv[3])
    draw, requests = random.Random(seed), 0
    for _ in range(runs):
        with tempfile.TemporaryDirectory() as room:
            rows = draw_log(program, draw, f"{room}/a", draw.randrange(1, 120))
            client = Client([program, f"{room}/none", f"{room}/a", "--", "serve"])
            client.refresh()
            requests += compare(client, rows, draw)
            try:
                client.ask(b"\x07")
                raise AssertionError("no request was answered")
            except OSError as told:
                assert str(told) == "no request"
            assert client.end() == 0, "status"
            alone = subprocess.run([program, f"{room}/none", "--", "serve"], input=b"\0\0\0\1\1", capture_output=True)
            assert (alone.returncode, alone.stdout) == (11, b""), "no mirror"
            cut = subprocess.run([program, f"{room}/none", f"{room}/a", "--", "serve"], input=b"\0\0\0", capture_output=True)
            assert (cut.returncode, cut.stdout) == (12, b""), "a cut frame"
    print(f"serve_client: {runs} mirrors of drawn logs told {requests} times what the rows say")


if __name__ == "__main__":
    main()
