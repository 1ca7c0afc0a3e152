#!/usr/bin/env bash
# Times the built program over a million comment lines, and over a history of commits.
# Usage: bench/lines.sh [COMMITS], behind `make proved`.
set -eu
cd "$(dirname "$0")/.."
program=crates/segdag/out/segdag
work=$(mktemp -d)
trap 'rm -rf "$work"' EXIT
yes '# a comment line of some bytes' | head -n 1000000 > "$work/comments"
python3 - "${1:-3000}" > "$work/history" <<'PY'
import sys
count = int(sys.argv[1])
name = lambda i: '%040x' % (i + 1)
for i in range(count):
    parents = ([name(i - 1)] if i else []) + ([name(i - 6)] if i % 10 == 9 else [])
    print('0 add', name(i), *parents)
print('0 count all')
print('0 count ancestors(%s)' % name(count - 1))
PY
for input in comments history; do
  echo "== $input"
  ( time "$program" "$work/log-$input" -- run < "$work/$input" | tail -n 2 ) 2>&1 | grep -v '^$'
done
