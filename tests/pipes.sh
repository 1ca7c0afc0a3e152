#!/bin/sh
# Mirrors behind pipes, as the built program asks them: they answer as the paths of their logs do, also where the pipe cuts the bytes in
# pieces of one, where the answers come late, and where the first comes when many requests have; and one that stops within a frame, lies, or
# is killed, also while requests wait, is passed over, loses nothing, and may be started again. The same by tools/segdag-ssh. No process and no pipe is left.
#     sh tests/pipes.sh [RUNS [SEED]]
. "$(dirname "$0")/lib.sh"
wants_program
wants python3 mkfifo
python tests/pipes.py "$program" "${1:-20}" "${2:-1}"
