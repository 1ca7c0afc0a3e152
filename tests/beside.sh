#!/bin/sh
# One log among several processes: a second writer is refused or waits, a lock ends with its process and follows the path, and who
# reads, bundles, clones and pulls beside a writer that never pauses is never refused, and finds the log of some moment meanwhile.
#     sh tests/beside.sh [PART]...     the parts are writers, unwritten, waits, killed and readers; ROUNDS says how often, COMMITS how long the log is
. "$(dirname "$0")/lib.sh"
wants_program
wants python3
[ $# -gt 0 ] || set -- writers unwritten waits killed readers
wants_folder
for part in "$@"; do
    python tests/beside.py "$part" "$program" "$folder"
done
