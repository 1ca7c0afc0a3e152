#!/bin/sh
# The file of docs/FORMAT.md: the built program makes it of the lines that stand there, and it is the listing to the byte.
. "$(dirname "$0")/lib.sh"
wants_program
wants python3
wants_folder
python tests/format.py "$program" "$folder"
