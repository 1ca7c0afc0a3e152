#!/bin/sh
# The built program where its surroundings are odd: standard streams that are closed, a log that is removed, moved or replaced under its
# writer, a new log behind a symbolic link, or in a folder whose name is no UTF-8. Nothing that was acknowledged is lost, and nothing is acknowledged that is.
#     sh tests/edges.sh
. "$(dirname "$0")/lib.sh"
wants_program
wants python3
wants_folder
for part in closed replaced linked unnamed; do
    python tests/edges.py "$part" "$program" "$folder"
done
