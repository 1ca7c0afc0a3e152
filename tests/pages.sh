#!/bin/sh
# The pages against the repository: names in backquotes, links, figures, counts, sizes, and pictures that are drawn again. The
# transcripts of pages are run by guide.sh.
. "$(dirname "$0")/lib.sh"
wants_program
wants python3
wants_folder
python tests/pages.py "$program" "$folder"
