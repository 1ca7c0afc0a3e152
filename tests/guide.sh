#!/bin/sh
# The command git-segdag against git's own answers, over drawn repositories whose branches are rewritten between two syncs, and the
# transcripts of docs/GUIDE.md, docs/COMMANDS.md and README.md, word for word. Some minutes; each part can be run by itself.
#     sh tests/guide.sh [PART]...     the parts are those of tests/guide.py; large, kernel and given, which take long, are run where they are named
. "$(dirname "$0")/lib.sh"
wants_program
wants git python3
[ $# -gt 0 ] || set -- answers octopuses shapes kinds typed graphs elsewhere many truth files told refusals faults logs published shared killed enemies daemons \
    hooks quick transcripts
wants_folder
for part in "$@"; do
    python tests/guide.py "$part" "$program" "$folder"
done
