#!/bin/sh
# Puts the licences of those crates of the kit that are linked into the program and the library.
#     RT=rt sh packaging/notices.sh
set -eu
kit=$(dirname "$("${RT:-rt}" doc)")/rattle
echo "segdag has ports of these crates linked in. Each licence stands below the names of the crates that have it."
for crate in arrayvec clap hex itoa lru memchr; do
    for licence in LICENSE-MIT LICENSE; do
        if [ -f "$kit/$crate/$licence" ]; then
            printf '\n== %s\n\n' "$crate"
            cat "$kit/$crate/$licence"
            continue 2
        fi
    done
    echo "notices: the kit has no licence of $crate in $kit/$crate" >&2
    exit 1
done
