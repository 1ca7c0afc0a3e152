#!/bin/sh
# What the library's calls take over a log of so many drawn commits, in microseconds of processor time each; and beside it what libgit2's take
# over a git repository of the same shape, where libgit2 and git are there.
#     sh bench/clib.sh [COMMITS]     LIBRARY is the library
set -eu
cd "$(dirname "$0")/.."
cc=${CC:-cc}
commits=${1:-100000}
folder=$(mktemp -d)
trap 'rm -rf "$folder"' EXIT
"$cc" -O2 -I bindings/c bench/clib.c "${LIBRARY:-out/libsegdag.a}" -o "$folder/clib"
"$cc" -O2 -pthread -I bindings/c tests/clib.c "${LIBRARY:-out/libsegdag.a}" -o "$folder/import"
"$folder/import" import "$folder/log" "$commits" 1000 > "$folder/told"
# The newest commit, the tenth of the ids below it, and the first.
printf '%s\n' "0 query top(master,10)" "0 query roots(master)" | "$folder/import" "$folder/log" -- run | grep -v '^ok' > "$folder/names"
newest=$(sed -n 1p "$folder/names") near=$(sed -n 10p "$folder/names") first=$(sed -n 11p "$folder/names")
echo "over $commits commits, $(wc -c < "$folder/log") bytes:"
echo "the newest and one near it:"
"$folder/clib" "$folder/log" "$near" "$newest"
echo "the newest and the first:"
"$folder/clib" "$folder/log" "$first" "$newest"

# What git fast-import reads: row N is a child of row N-1, and of row N/2 where N ends in 9, as in tests/clib.c.
stream() {
    awk -v count="$commits" 'BEGIN {
        for (n = 0; n < count; n++) {
            printf "commit refs/heads/main\nmark :%d\ncommitter a <a@b> %d +0000\ndata 0\n", n + 1, 1000000000 + n
            if (n > 0) printf "from :%d\n", n
            if (n % 10 == 9) printf "merge :%d\n", int(n / 2) + 1
            printf "\n"
        }
    }'
}
name() {
    sed -n "s/^:$1 //p" "$folder/marks"
}
if ! command -v git > "$folder/told"; then
    echo "libgit2: there is no git to make a repository"
elif ! "$cc" -O2 bench/libgit2.c -lgit2 -o "$folder/libgit2" 2> "$folder/told"; then
    echo "libgit2: it isn't there (Debian's libgit2-dev)"
else
    git init -q --bare "$folder/git"
    stream | git -C "$folder/git" fast-import --quiet --export-marks="$folder/marks"
    for graph in without with; do
        if [ $graph = with ]; then
            git -C "$folder/git" commit-graph write --reachable 2> "$folder/told"
        fi
        echo "libgit2 over the same commits in git, $graph a commit-graph: the newest and one near it, the newest and the first:"
        "$folder/libgit2" "$folder/git" "$(name $((commits - 9)))" "$(name "$commits")" "$(name 1)" "$(name "$commits")"
    done
fi
