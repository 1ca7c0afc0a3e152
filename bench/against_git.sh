#!/bin/sh
# The same questions, asked of the built program and of git with its commit-graph, over one history. Behind `make proved`.
#     bench/against_git.sh [REPOSITORY | COMMITS [demo]]
# A repository is copied by its references and left as it is; of so many commits (100,000 where nothing is said) one is drawn, in which three of
# ten are merges, or by the demonstration's rule, with 2,000 branches and 5,000 tags. The answers are compared name by name, and the status is 1
# where one differs. Then three tables are printed, milliseconds for each question: by itself, from the start of a process to its end, and so of
# lists of all references.
set -eu
cd "$(dirname "$0")/.."
for wanted in git python3; do
    command -v "$wanted" > /dev/null || { echo "against_git: there is no $wanted" >&2; exit 2; }
done
PYTHONDONTWRITEBYTECODE=1 exec python3 bench/against_git.py "${SEGDAG:-crates/segdag/out/segdag}" "${1:-100000}" "${2:-merges}"
