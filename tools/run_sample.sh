#!/bin/sh
# Runs the sample over a new log: by the proved program, where it is built of this text, and else by the unproved one, which is built
# first where that is missing or older than this text. The last line says which it was.
#     RT=rt sh tools/run_sample.sh
set -eu
cd "$(dirname "$0")/.."

# Whether the program at $1 is there, and newer than all files of the kinds that follow.
is_current() {
    [ -x "$1" ] || return 1
    program=$1
    shift
    for kind in "$@"; do
        [ -z "$(find crates -path "crates/*/$kind/*" -type f -newer "$program" | head -n 1)" ] || return 1
    done
    [ -z "$(find crates.txt -newer "$program")" ]
}

# Whether the proved program is built of this text: what was proved last, by `make proved` or by the gate, had the sums of these files, or no
# file is newer. (A checkout gives files new times also where nothing changed.)
is_proved() {
    [ -x crates/segdag/out/segdag ] || return 1
    sums=$(sh packaging/sums.sh)
    for record in out/proved out/gate; do
        if [ -f "$record" ] && [ "$(cat "$record")" = "$sums" ]; then return 0; fi
    done
    is_current crates/segdag/out/segdag src specs proofs
}

if is_proved; then
    program=crates/segdag/out/segdag
    last="this was the proved program, $program"
else
    program=out/segdag
    if ! is_current out/segdag src; then
        sh tools/build_unproved.sh
    fi
    last="this was the unproved program, $program: \`make proved\` proves it and builds it anew, in some hours"
fi
folder=$(mktemp -d)
trap 'rm -rf "$folder"' EXIT
while read -r line; do
    echo "> $line"
done < crates/segdag/stdin
"$program" "$folder/log" -- run < crates/segdag/stdin | tee "$folder/told"
if ! cmp -s "$folder/told" crates/segdag/stdout; then
    echo "run: these aren't the replies that crates/segdag/stdout has" >&2
    exit 1
fi
echo "run: each reply is the one that is wanted; $last"
