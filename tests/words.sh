#!/bin/sh
# What the built program makes of its words: those that are no usage end it with status 2 and one line on standard error, and a
# usage without any input with status 0, and a log of one byte that it makes. Neither writes anything on standard output.
. "$(dirname "$0")/lib.sh"
wants_program
wants_folder
told=$folder/told
cd "$folder"

# The status is the first word, the number of lines on standard error the second; the program's words are those behind.
ends() {
    wanted=$1
    lines=$2
    shift 2
    status=0
    out=$("$program" "$@" < /dev/null 2> "$told") || status=$?
    if [ "$status" != "$wanted" ] || [ -n "$out" ] || [ "$(wc -l < "$told")" -ne "$lines" ]; then
        echo "words: '$*' ended with $status, '$out' and these lines on standard error:"
        cat "$told"
        exit 1
    fi
}

ends 2 1
ends 2 1 log
ends 2 1 log run
ends 2 1 -- run
ends 2 1 log --
ends 2 1 log -- walk
ends 2 1 log -- --help
ends 2 1 log -- run run
ends 2 1 log -- run --cache 0
ends 2 1 log -- run --cache
ends 2 1 log -- demo run
ends 2 1 log -- bundle compact
ends 2 1 log -- bundles
ends 2 1 log -- compact 1
ends 2 1 log -- demo --size 0
ends 2 1 log -- demo --size 60001
ends 2 1 log remote -- Run
ends 2 1 -- log -- run
ends 2 1 "$(printf '\377')" -- run
if [ "$("$program" log -- demo --cache 7 | tr '\n' ' ')" != "ok 503 497 0 ok 503 ok 60 ok 54 " ]; then
    echo "words: the demonstration's lines are others"
    exit 1
fi
if [ -e log ]; then
    echo "words: a log was made for words that are no usage of a run"
    exit 1
fi
ends 0 0 log -- run
if [ "$(od -An -tx1 log | tr -d ' ')" != 00 ]; then
    echo "words: the new log is $(od -An -tx1 log)"
    exit 1
fi
ends 0 0 log remote other -- run
ends 0 0 log bundle:remote bundle: -- run
ends 0 0 log -- run --cache 5
ends 0 0 log -- --cache=5 run
ends 0 0 run -- run
echo "words: all end as they must"
