#!/usr/bin/env python3
"""How many definitions, and lines of them, stand under the main clause: definitions.py [CRATES].

From `StatusMeans` and `Begins` on it goes down through what each definition names, in the files specs/*.antt of all
crates. It counts without comments and blank lines, and twice: with all opened, and with those closed that the table of boxes in
docs/HEADLINE.md names, by the file too where two have one name.
"""
import re
import sys
from pathlib import Path

TOP = Path(__file__).resolve().parent.parent
CRATES = Path(sys.argv[1]) if len(sys.argv) > 1 else TOP / "crates"
STARTS = [("dag_run.Ends", "StatusMeans"), ("dag_run.Ends", "Begins")]
HEAD = re.compile(r"(?:pub )?(?:abbrev|record|data|def) (?:pub )?([^\s:({]+)")
USE = re.compile(r"use Rattle\.(\w+)\.specs\.([\w.]+)\.\{(.*)\}")


def read_all():
    """Of each file its definitions by name, each a list of lines, and where its other names come from."""
    defined, used = {}, {}
    for path in CRATES.glob("*/specs/**/*.antt"):
        crate = path.relative_to(CRATES).parts[0]
        module = ".".join([crate, *path.relative_to(CRATES / crate / "specs").with_suffix("").parts])
        here, there, lines = {}, {}, []
        for line in path.read_text().splitlines():
            use, head = USE.match(line), HEAD.match(line)
            if use:
                for name in use.group(3).split(", "):
                    of, _, own = name.partition(" as ")
                    there[own or of] = (f"{use.group(1)}.{use.group(2)}", of)
            elif head:
                lines = here.setdefault(head.group(1), [])
            if head or lines and line.strip() and not line.strip().startswith("--"):
                lines.append(line)
        # A constructor stands for its type.
        for name, lines in list(here.items()):
            if re.match(r"(pub )?data", lines[0]):
                here.update({word: name for word in re.findall(r"^  (?:pub )?([A-Z]\w*) :", "\n".join(lines), re.MULTILINE)})
        defined[module], used[module] = here, there
    return defined, used


def below(defined, used, closed):
    """The definitions that a reader meets, in the order in which they are named; a closed one isn't gone into."""
    found, waiting = {}, list(STARTS)
    while waiting:
        module, name = waiting.pop(0)
        text = defined.get(module, {}).get(name)
        if isinstance(text, str):
            name, text = text, defined[module][text]
        if text is None or (module, name) in found:
            continue
        is_closed = bool({name, f"{module.split('.')[-1]}.{name}"} & closed)
        found[module, name] = 1 if is_closed else len(text)
        if not is_closed:
            for word in re.findall(r"[A-Za-z_]\w*", "\n".join(text)):
                waiting.append((module, word) if word in defined[module] else used[module].get(word, ("", "")))
    return found


def main():
    page = TOP / "docs/HEADLINE.md"
    table = page.read_text().partition("## Closed boxes")[2].partition("\n## ")[0] if page.exists() else ""
    closed = {name for row in re.findall(r"^\| (.*?) \|", table, re.MULTILINE) for name in re.findall(r"`([\w.]+)`", row)}
    defined, used = read_all()
    for what, boxes in (("all opened", set()), ("boxes closed", closed)):
        found = below(defined, used, boxes)
        print(f"{what}: {len(found)} definitions, {sum(found.values())} lines")
    files = {}
    for (module, _), lines in found.items():
        count, sum_ = files.get(module, (0, 0))
        files[module] = (count + 1, sum_ + lines)
    for module, (count, lines) in files.items():
        print(f"    {module.replace('.', '/specs/', 1)}: {count} definitions, {lines} lines")


main()
