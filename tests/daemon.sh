#!/bin/sh
# tools/segdagd with real processes: what sixteen clients are answered against the plain definitions, clients and daemons that are killed,
# clients that never read, wrong lines, who may come in, and a new run under load. Two minutes at most.
#     sh tests/daemon.sh [--lines N] [PART]...     N lines of each client (2000); the parts are those of tests/daemon.py
. "$(dirname "$0")/lib.sh"
wants_program
wants python3
lines=2000
if [ "${1:-}" = --lines ]; then
    lines=$2
    shift 2
fi
[ $# -gt 0 ] || set -- wrong seventeenth two rights activated idle ends unread spilled turns drawn alone runs settled lends shares killed crashed many closed foreign removed crowded starved cut stopped hurried numbers sized lines
wants_folder
for part in "$@"; do
    python tests/daemon.py "$part" "$program" "$folder" "$lines"
done
