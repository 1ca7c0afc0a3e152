#!/bin/sh
# Whole runs of the built program over files: what each line is answered, and what is left for the next run. Behind them
# demonstrations, which touch no file.
. "$(dirname "$0")/lib.sh"
wants_program
wants python3
wants_folder
python tests/whole_runs.py "$program" "$folder"
