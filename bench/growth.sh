#!/bin/sh
# How the built program grows: stored, loaded, cloned, added to, flushed and asked at 10,000, 100,000 and 1,000,000 commits of three kinds of
# history. Prints a table, and writes the picture bench/growth.svg. Behind `make proved`, on a machine with nothing else to do: a minute or two.
#     bench/growth.sh [COMMITS]...
set -eu
cd "$(dirname "$0")/.."
[ $# -gt 0 ] || set -- 10000 100000 1000000
PYTHONDONTWRITEBYTECODE=1 exec python3 bench/growth.py "${SEGDAG:-crates/segdag/out/segdag}" "${PICTURE:-bench/growth.svg}" "$@"
