#!/bin/sh
# What the library adds to the engine: of each call near the newest commit of a log of so many drawn commits, the instructions that it takes, those
# of them within the engine's own call, and their ratio. Callgrind counts them, so that a busy machine changes nothing.
#     sh bench/clib_cost.sh [COMMITS]     LIBRARY is the library
set -eu
cd "$(dirname "$0")/.."
cc=${CC:-cc}
commits=${1:-100000}
times=200
folder=$(mktemp -d)
trap 'rm -rf "$folder"' EXIT
"$cc" -O2 -I bindings/c bench/clib_cost.c "${LIBRARY:-out/libsegdag.a}" -o "$folder/cost"
"$cc" -O2 -pthread -I bindings/c tests/clib.c "${LIBRARY:-out/libsegdag.a}" -o "$folder/import"
"$folder/import" import "$folder/log" "$commits" 1000 > "$folder/told"
echo "0 query top(master,10)" | "$folder/import" "$folder/log" -- run > "$folder/names"

# $1 is the call, and what stands behind it are the engine's functions, of which the first that wasn't inlined counts.
ask() {
    call=$1
    shift
    valgrind --tool=callgrind --callgrind-out-file="$folder/$call" --toggle-collect="segdag_$call" \
        "$folder/cost" "$folder/log" "$call" "$times" "$(sed -n 10p "$folder/names")" "$(sed -n 1p "$folder/names")" 2> "$folder/told"
    callgrind_annotate --inclusive=yes --threshold=100 "$folder/$call" > "$folder/tree"
    whole=$(sed -n 's/^ *\([0-9,]*\) .*PROGRAM TOTALS.*/\1/p' "$folder/tree" | tr -d ,)
    for engine in "$@"; do
        within=$(sed -n "s/^ *\([0-9,]*\) .*:$engine.*/\1/p" "$folder/tree" | head -1 | tr -d ,)
        if [ -n "$within" ]; then
            break
        fi
    done
    awk -v call="$call" -v whole="$whole" -v within="${within:-0}" -v engine="$engine" -v times="$times" 'BEGIN {
        printf "%-20s %9d of them %9d in %s: %.3f\n", call, whole / times, within / times, engine, within ? whole / within : 0
    }'
}

echo "over $commits commits, instructions of a call:"
ask commit_is_ancestor dag_store::store::Store::count dag_store::query::members
ask commit_merge_bases dag_store::store::Store::query
ask commit_ahead_behind dag_store::store::Store::count dag_store::query::members
ask commit_number dag_store::store::Store::id
ask commit_id dag_store::store::Store::query
