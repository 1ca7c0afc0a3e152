#!/bin/sh
# What the built program makes of real files, which no contract can say: places where no log can stand, a file system that has no
# room left, a process that is killed or whose calls fail at any moment, and the order of its calls. Two minutes at most.
#     sh tests/real_files.sh [PART]...
. "$(dirname "$0")/lib.sh"
wants_program
wants python3
[ $# -gt 0 ] || set -- places limit full kill moments anew order
wants_folder
chmod 755 "$folder"
for part in "$@"; do
    python tests/real_files.py "$part" "$program" "$folder"
done
