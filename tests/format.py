"""The file of docs/FORMAT.md: format.py PROGRAM FOLDER. Each pair of blocks, lines and their listing, is tried."""
import re
import subprocess
import sys
from pathlib import Path

import plain_store

PAGE = Path(__file__).resolve().parent.parent / "docs/FORMAT.md"
LINE = re.compile(r"([0-9a-f]{4})  ((?:[0-9a-f]{2} )*[0-9a-f]{2})(?:  .*)?")


def listed(text):
    """The bytes of a listing, each line at its place."""
    found = bytearray()
    for line in text.splitlines():
        match = LINE.fullmatch(line)
        if not match or int(match.group(1), 16) != len(found):
            sys.exit(f"format: this line isn't one of a listing at {len(found):04x}: {line}")
        found += bytes.fromhex(match.group(2))
    return bytes(found)


def main():
    blocks = re.findall(r"```(input|listing)\n(.*?)```", PAGE.read_text(), re.DOTALL)
    if not blocks or [kind for kind, _ in blocks] != ["input", "listing"] * (len(blocks) // 2):
        sys.exit("format: docs/FORMAT.md has no pairs of lines and listings")
    for number, ((_, lines), (_, listing)) in enumerate(zip(blocks[::2], blocks[1::2])):
        log = Path(sys.argv[2], f"log{number}")
        text = re.sub(r"\[(\w\w)\]", lambda found: found.group(1).rjust(40, "0"), lines)
        subprocess.run([sys.argv[1], log, "--", "run"], input=text.encode(), stdout=subprocess.DEVNULL, check=True, timeout=1800)
        wanted, made = listed(listing), log.read_bytes()
        if made != wanted:
            place = next((at for at, pair in enumerate(zip(wanted, made)) if pair[0] != pair[1]), min(len(wanted), len(made)))
            sys.exit(f"format: the file has {len(made)} bytes, the listing {len(wanted)}; they differ from {place:04x} on")
        # What the page says of a reader of fifty lines holds of the plain one.
        payloads, world = plain_store.read_log(made)
        if len(payloads) != lines.count("flush") or len(world.parents) != lines.count("add"):
            sys.exit("format: the plain reader reads another world")
    print(f"format: {len(blocks) // 2} file of docs/FORMAT.md is made to the byte")


main()
