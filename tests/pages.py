"""The pages against the repository: pages.py PROGRAM FOLDER. It tells all that isn't so, and ends with status 1 where there is any.

Names in backquotes are there (pages_names.py), links lead somewhere, counts are those of the sources, figures of README stand in
bench/README, pages are short, and the pictures are those that are drawn again. `pages.py write PROGRAM FOLDER` writes counts and pictures.
"""
import os
import re
import subprocess
import sys
from pathlib import Path

from pages_names import CRATES, TOP, Names, read

PAGES = ["README.md", "CHANGELOG.md", "CONTRIBUTING.md", "SECURITY.md", *sorted(str(path.relative_to(TOP)) for path in TOP.glob("docs/*.md")), "bench/README.md"]
# The most that a page may have, so that it is cut before it is too long to be read; from nine tenths on that is told.
KILOBYTES = {
    "README.md": 16, "docs/DECISIONS.md": 32, "docs/PROVING.md": 32, "docs/CONTRACTS.md": 27, "docs/MAP.md": 18, "docs/REVIEW.md": 14,
    "bench/README.md": 11,
}
PICTURES = ("sessions.svg", "log.svg", "segments.svg")
WRONG = []


def wrong(page, text):
    WRONG.append(f"{page}: {text}")


def prose(text):
    """A page without its blocks of code."""
    text = re.sub(r"^```.*?^```$", "", text, flags=re.MULTILINE | re.DOTALL)
    return re.sub(r"^\n(?: {4}.*\n|\n)+", "\n", text, flags=re.MULTILINE)


def spans(text):
    return [re.sub(r"\s+", " ", span).replace("\\|", "|") for span in re.findall(r"`([^`]+)`", text)]


# Names.


def check_names(names):
    for page in PAGES:
        for span in dict.fromkeys(spans(prose(read(TOP / page)))):
            if not names.is_there(span):
                wrong(page, f"`{span}` isn't there")
    check_map(names)
    check_contracts(names)


def check_map(names):
    """In the last table of the map each row has crates, and definitions or files of their specs/."""
    table = read(TOP / "docs/MAP.md").partition("| Crate |")[2]
    crates = set(spans(table))
    for row in re.findall(r"^\| (`.*?) \| .*? \| (.*) \|$", table, re.MULTILINE):
        own = set().union(*(names.sources.specs.get(crate, set()) for crate in spans(row[0])))
        for span in spans(row[1]):
            if span not in own:
                wrong("docs/MAP.md", f"`{span}` isn't in specs/ of {row[0]}")
    for crate in names.sources.below:
        if crate not in crates:
            wrong("docs/MAP.md", f"the crate `{crate}` is missing")


def check_contracts(names):
    """What stands behind a bold crate's name is of that crate or below it; lower-case names in brackets are its own clauses and laws."""
    text = read(TOP / "docs/CONTRACTS.md").partition("## Answers and their causes")[0]
    parts = re.split(r"((?:\*\*`\w+`\*\*(?:, | and )?)+)", text)
    for crates, told in zip(map(spans, parts[1::2]), parts[2::2]):
        told = told.partition("\n## ")[0]
        for span in spans(told):
            if not any(names.is_there(span, crate) for crate in crates):
                wrong("docs/CONTRACTS.md", f"`{span}` isn't in {' or '.join(crates)}, nor below")
        for bracket in re.findall(r"\(([^()]*)\)", told):
            for clause in re.findall(r"`([a-z]\w*)`", bracket):
                if not any(clause in names.sources.calls[crate] for crate in crates):
                    wrong("docs/CONTRACTS.md", f"`{clause}` is no clause or law of {' or '.join(crates)}")
    missing = set(names.sources.below) - set(spans(text)) - {it for it in names.sources.below if it.endswith("_rows") or it.startswith("sample_")}
    for crate in sorted(missing - {"bench", "pipe_files", "worked_rows"}):
        wrong("docs/CONTRACTS.md", f"the crate `{crate}` is missing")


def check_tables():
    """The tables of docs/COMMANDS.md have all that the program knows, and nothing else."""
    page = read(TOP / "docs/COMMANDS.md")
    literal = lambda place: re.findall(r'text == b"(\w+)"', read(CRATES / place))
    known = {
        "Modes": re.findall(r'word == "(\w+)"', read(CRATES / "program_words/src/usage.rt").partition("fn mode_of")[2].partition("\nfn ")[0]),
        "Lines": literal("command_lines/src/words.rt"),
        "Expressions": literal("set_expr/src/words.rt"),
        "Refusals": re.findall(r'codes "(err [a-z -]+)', read(CRATES / "step_rules/specs/Reply.antt") + read(CRATES / "run_rules/specs/Ends.antt")),
        "Statuses": re.findall(r"\d+", re.search(r"IsStatus status = .*?\((0 .*)\[\]", read(CRATES / "dag_run/specs/Stops.antt"))[1]) + ["9", "16"],
    }
    for heading, words in known.items():
        cells = "\n".join(re.findall(r"^\| (?!---)(.*?) \|", page.partition(f"\n## {heading}\n")[2].partition("\n## ")[0], re.MULTILINE))
        told = {
            "Modes": re.findall(r"`([a-z]+)`", cells), "Lines": re.findall(r"`S ([a-z]+)", cells),
            "Expressions": re.findall(r"`([a-z]+)", cells), "Refusals": [it.strip() for it in re.findall(r"`(err(?: [a-z-]+)+)", cells)],
            "Statuses": re.findall(r"\d+", cells),
        }[heading]
        for word in sorted({word.strip() for word in words} ^ set(told)):
            wrong("docs/COMMANDS.md", f"{heading}: '{word}' is {'missing' if word not in told else 'nothing that the program knows'}")


# Links, sizes, figures, counts.


def anchors(text):
    """The anchors of a page's headings, as git hosts make them."""
    heads = re.findall(r"^#+ (.*)$", re.sub(r"^```.*?^```$", "", text, flags=re.MULTILINE | re.DOTALL), re.MULTILINE)
    return {re.sub(r"[^\w -]", "", re.sub(r"[`*]|\[(.*?)\]\(.*?\)", r"\1", head)).strip().lower().replace(" ", "-") for head in heads}


def check_links():
    for page in PAGES:
        for target in re.findall(r"\]\(([^)\s]+)\)", prose(read(TOP / page))):
            path, _, anchor = target.partition("#")
            found = (TOP / page).parent / path if path else TOP / page
            if not re.match(r"\w+:", target) and not found.exists():
                wrong(page, f"the link to {target} leads nowhere")
            elif anchor and found.suffix == ".md" and anchor not in anchors(read(found)):
                wrong(page, f"the link to {target} leads to no heading")


def check_sizes():
    for page, most in KILOBYTES.items():
        size = (TOP / page).stat().st_size
        if size > most * 1024:
            wrong(page, f"it has {size} bytes, and {most} KB is the most")
        elif size > most * 922:
            print(f"pages: {page} has {size} bytes of the {most * 1024} that it may have: cut where you add")


def check_figures():
    """Each number of README's figures is one that bench/README has."""
    figures = read(TOP / "README.md").partition("\n## Numbers\n")[2].partition("\n## ")[0]
    number = r"(?<![\w.,-])\d[\d,]*(?:\.\d+)?(?![\w-])"
    known = set(re.findall(number, read(TOP / "bench/README.md")))
    for figure in re.findall(number, re.sub(r"\]\(.*?\)", "", figures)):
        if figure not in known:
            wrong("README.md", f"the figure {figure} isn't in bench/README.md")


def definitions():
    """What tests/definitions.py counts: definitions and lines, with all opened and with boxes closed."""
    told = subprocess.run([sys.executable, TOP / "tests/definitions.py"], stdout=subprocess.PIPE, text=True, check=True).stdout
    return [int(number) for number in re.findall(r"\d+", " ".join(told.splitlines()[:2]))]


def counted(names):
    """What pages count, by a name, from the sources."""
    code = {crate: "".join(read(path) for path in CRATES.glob(f"{crate}/src/**/*.rt")) for crate in names.sources.below}
    edits = {crate: len(list(CRATES.glob(f"{crate}/must-fail/*.edit"))) for crate in names.sources.below}
    tests = {crate: text.count("#[test]") for crate, text in code.items()}
    cases = ("\n" + read(CRATES / "run_rows/stdin")).count("\n== ")
    lines = {kind: sum(read(path).count("\n") for path in CRATES.glob(f"*/{kind}/**/*") if path.is_file()) for kind in ("src", "specs", "proofs")}
    return {
        "crates": len(code), "tests": sum(tests.values()), "tested": sum(map(bool, tests.values())), "edits": sum(edits.values()),
        "edited": sum(map(bool, edits.values())), "runs": cases,
        **{kind: f"{round(count, -2):,}" for kind, count in lines.items()},
        **{kind: f"{int(count):,}" for kind, count in re.findall(r"(\w+) = (\d+);", read(CRATES / "change_rules/specs/Standard.antt"))},
        **dict(zip(("definitions", "definition_lines", "closed", "closed_lines"), (f"{it:,}" for it in definitions()))),
    }


# Sentences of pages with counts in them, as {name}.
COUNTS = {
    "README.md": [
        "{master} commits in master, {others} others, {pending} pending in a session", "{edits} planted bugs",
        "{tests} tests in Rattle in {tested} crates, {runs} whole runs as data",
    ],
    "docs/COMMANDS.md": ["more than {answer} names"],
    "docs/TESTED.md": ["{tests} functions in {tested} crates", "{runs} cases as data"],
    "docs/REVIEW.md": ["plants {edits} of them"],
    "docs/PROVING.md": ["{src} lines of code, {specs} of definitions and {proofs} of proofs in {crates} crates, with {edits} edits in {edited} of them"],
    "docs/HEADLINE.md": ["{definitions} definitions with {definition_lines} lines when all is opened, and {closed} with {closed_lines} when"],
}


def check_counts(names, writes=False):
    """The sentences have the counts; or they are written into the pages."""
    found = counted(names)
    for page, sentences in COUNTS.items():
        text = read(TOP / page)
        for sentence in sentences:
            wanted = sentence.format(**found)
            shape = r"\s+".join(re.sub(r"\\{\w+\\}", r"[\\d,]+", re.escape(word)) for word in sentence.split())
            here = re.search(shape, text)
            if not here or here[0].split() != wanted.split():
                wrong(page, f"it should say: {wanted}")
            if here and writes:
                blanks = iter(re.findall(r"\s+", here[0]))
                text = text.replace(here[0], re.sub(" ", lambda _: next(blanks), wanted))
        if writes:
            (TOP / page).write_text(text)


# Pictures.


def draw(program, folder):
    """The pictures drawn again: those of the guide by the program, and that of README from the table of bench/README."""
    quiet = {**os.environ, "PYTHONDONTWRITEBYTECODE": "1"}
    subprocess.run([sys.executable, TOP / "docs/pictures/draw.py", program, folder], check=True, env=quiet)
    subprocess.run([sys.executable, TOP / "bench/growth_picture.py", TOP / "bench/README.md", folder / "growth.svg"], check=True, env=quiet)
    return {folder / "growth.svg": TOP / "bench/growth.svg", **{folder / name: TOP / "docs/pictures" / name for name in PICTURES}}


def check_pictures(program, folder):
    for drawn, kept in draw(program, folder).items():
        if not kept.exists() or read(drawn) != read(kept):
            wrong(str(kept.relative_to(TOP)), "drawn again it is another picture")


def main():
    program, folder, names = Path(sys.argv[-2]).resolve(), Path(sys.argv[-1]), Names()
    if sys.argv[1] == "write":
        check_counts(names, writes=True)
        for drawn, kept in draw(program, folder).items():
            kept.write_text(read(drawn))
        return
    check_names(names)
    check_tables()
    check_links()
    check_sizes()
    check_figures()
    check_counts(names)
    check_pictures(program, folder)
    for text in WRONG:
        print(f"pages: {text}", file=sys.stderr)
    if WRONG:
        sys.exit(1)
    print(f"pages: names, links, figures, counts, sizes and pictures of {len(PAGES)} pages are as the repository has them")


main()
