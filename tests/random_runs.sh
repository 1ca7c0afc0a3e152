#!/bin/sh
# Drawn command lines, answered by the built program and by the plain definitions in Python: the replies and the logs' bytes agree.
# Over logs alone, over clones beside the logs that they were made of, and over logs that pull from others which grow.
. "$(dirname "$0")/lib.sh"
wants_program
wants python3
python tests/random_runs.py "$program" "${1:-60}" "${2:-1}"
