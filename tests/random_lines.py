"""Command lines that are drawn, for runs whose replies are compared."""
import plain_store

SETS = sorted(plain_store.ONE) * 2 + sorted(plain_store.TWO) * 2 + ["up", "top"]


class Lines:
    """Lines that are mostly commands, over a few names, so that many meet."""


    def __init__(self, draw):
        self.draw = draw
        self.names = [f"{i:040x}" for i in draw.sample(range(1, 1 << 24), draw.choice([12, 40, 90]))]
        self.known = self.names[:1]

    def name(self):
        return self.draw.choice(self.known if self.draw.random() < 0.95 else self.names)

    def expr(self, depth=0):
        draw = self.draw
        if depth > 3 or draw.random() < 0.3:
            return draw.choice([self.name(), self.name(), self.name(), "all", "master", "others"])
        head = draw.choice(SETS)
        if head == "up":
            return f"up({self.name()},{draw.choice([0, 1, 2, 3, 9, 2**64 - 1])})"
        if head == "top":
            return f"top({self.expr(depth + 1)},{draw.choice([0, 1, 2, 5, 2**64 - 1])})"
        if head in plain_store.ONE:
            return f"{head}({self.expr(depth + 1)})"
        return f"{head}({self.expr(depth + 1)},{self.expr(depth + 1)})"

    def add(self):
        draw = self.draw
        name = draw.choice(self.names)
        count = draw.choice([0, 1, 1, 1, 1, 1, 2, 2, 3, 8])
        parents = [self.name() for _ in range(min(count, len(self.known)))]
        if draw.random() < 0.9:
            parents = list(dict.fromkeys(p for p in parents if p != name))
        if name not in self.known:
            self.known.append(name)
        return " ".join(["add", name, *parents])

    def command(self):
        draw = self.draw
        kind = draw.random()
        if kind < 0.42:
            return self.add()
        if kind < 0.52:
            return " ".join(["flush", *(self.name() for _ in range(draw.choice([0, 0, 1, 1, 2])))])
        if kind < 0.57:
            return " ".join(["strip", *(self.name() for _ in range(draw.choice([1, 1, 1, 1, 2])))])
        if kind < 0.67:
            return draw.choice(["reload", "discard", "status", "levels", "status", "levels", "mirrors", "drop 0"])
        if kind < 0.75:
            return f"id {self.name()}"
        if kind < 0.77:
            wrong = ["add", "flush ", "strip", "query", "id x", "level", "drop 01", "count all all", "up(all,1)"]
            return draw.choice(wrong + ["clone", "clone 1"] + ["pull", "pull 1", f"pull {self.name()}"])
        return f"{draw.choice(['query', 'count'])} {self.expr()}"

    def line(self):
        draw = self.draw
        if draw.random() < 0.01:
            return draw.choice(["", "# a note", "16 status", "00 status", " 0 status"])
        session = draw.choice([0, 0, 0, 1, 1, 2, draw.randrange(16)])
        command = self.command()
        if command.startswith("strip"):
            # A session with rows would be refused, and most have none.
            session = draw.randrange(16)
        text = f"{session} {command}"
        return text.upper().lower() if draw.random() < 0.9 else text
