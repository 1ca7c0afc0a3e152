#!/bin/sh
# Makes out/git-segdag, the quick way of `git segdag`, of tools/git_segdag.c and the library that was built, out/libsegdag.a.
#     [LIBRARY=out/libsegdag.a] [FOLDER=out] sh tools/build_front.sh
set -eu
cd "$(dirname "$0")/.."
folder=${FOLDER:-out} library=${LIBRARY:-out/libsegdag.a}
if [ ! -f "$library" ]; then
    echo "build_front: $library isn't there: make lib-try builds it" >&2
    exit 1
fi
mkdir -p "$folder"
"${CC:-cc}" -std=c11 -O2 -Wall -Wextra -Wpedantic ${CFLAGS:-} -pthread -I bindings/c tools/git_segdag.c "$library" -o "$folder/git-segdag"
echo "$folder/git-segdag is built"
