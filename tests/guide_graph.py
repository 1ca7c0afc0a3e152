"""A part of guide.sh: what `git segdag graph` draws is read back, and has each commit once and each edge, whatever the history is."""
import random

from guide_lib import Repository, fail, refuse

ODD = "main..topic next|main...topic|--all|--all -5|topic --skip=2 -n 3|--first-parent --all|main ^topic next|main^@|--branches=t*|main -n1|".split("|")


def graphs():
    drawn = edges = 0
    for number, (count, wide, roots) in enumerate(((1, 0, 1), (30, 0, 0.3), (60, 0.5, 0.1), (120, 0.8, 0.02), (40, 1, 0))):
        repository = Repository(f"graph{number}", random.Random(number))
        repository.grow(count, most=12, wide=wide, roots=roots)
        for branch in ("main", "topic", "next"):
            repository.point(branch, repository.draw.choice(repository.commits[-20:]))
        repository.must("tag", "light", "topic")
        repository.lose()
        repository.sync()
        for words in ODD if number else ("main", "--all", ""):
            edges += compared(repository, words.split())
            drawn += 1
    criss_cross()
    refused(repository)
    print(f"guide: {drawn} drawings have {edges} edges, which are those of the commits")


def criss_cross():
    """Two lines that merge each other, and a root amid other lanes."""
    repository = Repository("graph-cross", random.Random(3))
    one, other = repository.commit(), repository.commit()
    for _ in range(6):
        one, other = repository.commit(one, other), repository.commit(other, one)
        repository.commit()
    for number, commit in enumerate(repository.commits):
        repository.point(f"b{number}", commit)
    repository.lose()
    repository.sync()
    compared(repository, ["--all"])


def compared(repository, words):
    """How many edges a drawing has; it tells the commits, their texts and their order as `git log --graph --oneline` does."""
    shown = repository.must("segdag", "graph", *words).splitlines()
    where = f"{repository.path.name}: graph {words}:\n" + "\n".join(shown)
    texts, edges = read(shown, where)
    wanted = repository.must("log", "--graph", "--oneline", "--decorate", *(words or ["HEAD"])).splitlines()
    if texts != [line.partition("*")[2].lstrip("|\\/-._ ") for line in wanted if "*" in line]:
        fail(f"{where}\nand git\n" + "\n".join(wanted))
    names = {text.split()[0] for text in texts}
    told = repository.must("log", "--no-walk", "--format=%h %p", "--stdin", text="\n".join([*names, ""])) if names else ""
    right = set()
    for name, *parents in map(str.split, told.splitlines()):
        right |= {(name, parent) for parent in (parents[:1] if "--first-parent" in words else parents) if parent in names}
    if edges != right:
        fail(f"{where}\nhas {sorted(edges - right)} and lacks {sorted(right - edges)}")
    return len(edges)


def read(lines, where):
    """The texts of a drawing and its edges, by the lanes alone."""
    lanes, texts, edges, node = {}, [], set(), None
    for line in lines:
        begin = next((at for at, letter in enumerate(line) if letter not in "*| "), len(line)) if "*" in line else len(line)
        cells = line[:begin]
        if line != line.rstrip() or any(letter != " " for letter in cells[1::2]) and "*" in cells:
            fail(f"{where}\n{line!r} is no line")
        if node is not None and cells[2 * node : 2 * node + 1] in ("", " "):
            del lanes[node]  # nothing goes on below it
        if "*" in cells:
            at = cells.index("*") // 2
            name = line[begin:].split()[0]
            edges |= {(child, name) for child in lanes.get(at, ())}
            if cells.count("*") != 1 or {it for it in range(len(cells) // 2 + 1) if cells[2 * it : 2 * it + 1] == "|"} != set(lanes) - {at}:
                fail(f"{where}\n{line!r}: the lanes are {sorted(lanes)}")
            lanes[at], node = {name}, at
            texts.append(line[begin:])
        else:
            linked(lanes, node, line, where)
            node = None
    return texts, edges


def linked(lanes, node, line, where):
    """Takes a line without a commit, which leads from the one before to its parents' lanes."""
    joined = [at // 2 for at, letter in enumerate(line) if letter in "+.'"]
    if not joined:
        if {at // 2 for at, letter in enumerate(line) if letter == "|"} != set(lanes) or set(line) - set("| "):
            fail(f"{where}\n{line!r}: the lanes are {sorted(lanes)}")
        return
    if node not in joined:
        fail(f"{where}\n{line!r} leads from no commit")
    name = next(iter(lanes[node]))
    below = [at for at in joined if line[2 * at] in "+."]
    for at in range((len(line) + 1) // 2):
        letter, inside = line[2 * at], joined[0] <= at <= joined[-1]
        gap = line[2 * at + 1 : 2 * at + 2]
        is_right = {
            "+": at in lanes, ".": at not in lanes, "'": at == node or at in lanes and len(below) == 1,
            "|": at in lanes and at != node, "-": inside and at not in lanes, " ": not inside and at not in lanes,
        }
        if not is_right.get(letter) or (gap == "-") != (joined[0] <= at < joined[-1]):
            fail(f"{where}\n{line!r}: its lane {at} is wrong, and the lanes are {sorted(lanes)}")
    # What ends beside the commit's own lane leads to the only one that goes on.
    ended = set().union({name}, *(lanes.pop(at) for at in joined if line[2 * at] == "'"))
    for at in below:
        lanes[at] = lanes.get(at, set()) | (ended if len(below) == 1 else {name})


def refused(repository):
    for words, sentence in (
        (["--oneline"], "graph takes"), (["--reverse"], "not '--reverse'"), (["nosuch"], "bad revision"), (["main", "--", "file"], "no paths"),
    ):
        refuse(repository, ["graph", *words], 128, sentence)
