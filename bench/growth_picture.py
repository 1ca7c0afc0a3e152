#!/usr/bin/env python3
"""The picture of growth.sh, drawn from its table: growth_picture.py PAGE PICTURE draws it again from the table that a page has."""
import math
import sys
from pathlib import Path

MEASURES = {
    "stored, s": "all commits stored, seconds",
    "bytes a commit": "bytes of log a commit",
    "loaded, ms": "a log loaded, milliseconds",
    "cloned, ms": "a log cloned, its reading included, milliseconds",
    "MB at most": "memory of the import at most, MB",
    "1,000 adds, ms": "1,000 commits added, milliseconds",
    "and a flush, ms": "1,000 commits added and flushed, milliseconds",
    "merge base, ms": "a merge base of far commits, milliseconds",
    "only, ms": "far commits of one and not the other, milliseconds",
    "all ancestors, ms": "all ancestors counted, milliseconds",
}
DRAWN = ("stored, s", "loaded, ms", "and a flush, ms", "merge base, ms")
COLOURS = {"linear": "#4477aa", "by the demo's rule": "#228833", "merge-heavy": "#cc6677"}
WIDTH, HEIGHT, LEFT, FOOT = 390, 230, 50, 30


def panel(at, measure, sizes, found):
    """One measure of all histories, on scales of powers of ten."""
    values = [found[kind, size][measure] for kind in COLOURS for size in sizes]
    low, high = math.floor(math.log10(min(values))), math.ceil(math.log10(max(values)) + 1e-9)
    first, last = math.log10(sizes[0]), max(math.log10(sizes[-1]), math.log10(sizes[0]) + 1e-9)
    across = lambda size: at % 2 * WIDTH + LEFT + (math.log10(size) - first) / (last - first) * (WIDTH - LEFT - 30)
    down = lambda value: at // 2 * HEIGHT + 60 + (high - math.log10(value)) / max(high - low, 1) * (HEIGHT - 60 - FOOT)
    parts = [f'<text x="{at % 2 * WIDTH + LEFT}" y="{at // 2 * HEIGHT + 45}" class="name">{MEASURES[measure]}</text>']
    for power in range(low, high + 1):
        y = down(10.0**power)
        parts.append(f'<line x1="{across(sizes[0]):.0f}" x2="{across(sizes[-1]):.0f}" y1="{y:.1f}" y2="{y:.1f}" class="grid"/>')
        parts.append(f'<text x="{across(sizes[0]) - 6:.0f}" y="{y + 4:.1f}" class="scale" text-anchor="end">{10.0**power:g}</text>')
    for size in sizes:
        y = at // 2 * HEIGHT + HEIGHT - 12
        parts.append(f'<text x="{across(size):.0f}" y="{y}" class="scale" text-anchor="middle">{size:,}</text>')
    for kind, colour in COLOURS.items():
        points = " ".join(f"{across(size):.1f},{down(found[kind, size][measure]):.1f}" for size in sizes)
        parts.append(f'<polyline points="{points}" fill="none" stroke="{colour}" stroke-width="2"/>')
        parts += [f'<circle cx="{p.split(",")[0]}" cy="{p.split(",")[1]}" r="3" fill="{colour}"/>' for p in points.split()]
    return parts


def picture(sizes, found):
    """Four measures by the number of commits, a line for each kind of history."""
    wide, high = 2 * WIDTH + 20, 2 * HEIGHT + 20
    parts = [
        f'<svg xmlns="http://www.w3.org/2000/svg" viewBox="0 0 {wide} {high}" width="{wide}" height="{high}" font-family="sans-serif">',
        "<style>.name{font-size:12px;font-weight:bold}.scale{font-size:10px;fill:#555}.grid{stroke:#ddd}.key{font-size:12px}</style>",
        f'<rect width="{wide}" height="{high}" fill="white"/>',
    ]
    for at, (kind, colour) in enumerate(COLOURS.items()):
        parts.append(f'<rect x="{LEFT + at * 160}" y="12" width="12" height="12" fill="{colour}"/>')
        parts.append(f'<text x="{LEFT + 18 + at * 160}" y="22" class="key">{kind.replace(chr(39), "&#39;")}</text>')
    for at, measure in enumerate(DRAWN):
        parts += panel(at, measure, sizes, found)
    return "\n".join([*parts, "</svg>"]) + "\n"


def rounded(value):
    """As the table tells it, so that the picture can be drawn from the table."""
    return float(f"{value:.3g}")


def read_table(text):
    """The sizes, and what was found of each history and size."""
    rows = text.partition("| History | Commits |")[2].partition("\n\n")[0].splitlines()[2:]
    found = {}
    for row in rows:
        kind, size, *values = (cell.strip() for cell in row.strip("|").split("|"))
        found[kind, int(size.replace(",", ""))] = dict(zip(MEASURES, map(float, values)))
    return sorted({size for _kind, size in found}), found


if __name__ == "__main__":
    Path(sys.argv[2]).write_text(picture(*read_table(Path(sys.argv[1]).read_text())))
