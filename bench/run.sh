#!/bin/sh
# Proves and builds the benchmarks, and runs one of them three times.
# What was counted goes to the output, how long each work took to the error output.
# Usage: bench/run.sh flat|levels|map|names|placing|spans|walks [--size COMMITS]
set -eu
cd "$(dirname "$0")/../crates/bench"
"${RT:-rt}" run -- placing >/dev/null 2>&1
for _run in 1 2 3; do
    ./out/bench "$@" >/dev/null
done
