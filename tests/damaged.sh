#!/bin/sh
# Files that are logs or none, by what is wrong with each, as logs and as mirrors. Then logs of both versions, of clones and of whole
# stores, damaged by bytes and by structure: the built program refuses exactly what docs/FORMAT.md, read by a plain reader in Python, says
# is no log, and leaves the file; else it answers what that reader finds.
#     sh tests/damaged.sh [LOGS [SEED]]
. "$(dirname "$0")/lib.sh"
wants_program
wants python3
wants_folder
python tests/damaged_files.py "$program" "$folder"
python tests/damaged.py "$program" "$folder" "${1:-150}" "${2:-1}"
