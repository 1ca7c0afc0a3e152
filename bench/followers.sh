#!/bin/sh
# How many merge bases followers of one log answer, each by a thread of its own: one follower, four, and four threads that share one store. The
# log has so many commits, each tenth of which is a merge.
#     sh bench/followers.sh [COMMITS [SECONDS]]     LIBRARY is the library
set -eu
cd "$(dirname "$0")/.."
cc=${CC:-cc}
folder=$(mktemp -d)
trap 'rm -rf "$folder"' EXIT
for program in bench/followers.c tests/clib.c; do
    "$cc" -O2 -pthread -I bindings/c "$program" "${LIBRARY:-out/libsegdag.a}" -o "$folder/$(basename "$program" .c)"
done
"$folder/clib" import "$folder/log" "${1:-100000}" 1000 > "$folder/told"
"$folder/followers" "$folder/log" "${2:-3}"
