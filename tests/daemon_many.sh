#!/bin/sh
# tools/segdagd --root, which is segdagd-many, with real processes: logs by the thousand against the plain definitions, names that leave the
# root, servers that are killed under load, long questions, many clients of one log, replies that nobody takes, logs that go away, wrong lines,
# closed and wanting descriptors, numbers, and a bound on memory. The same by the sanitizers, where the compiler has them. Two minutes or so.
#     sh tests/daemon_many.sh [--logs N] [PART]...     N logs (2000); the parts are those of tests/daemon_many.py; LIBRARY is a library that is built
. "$(dirname "$0")/lib.sh"
wants_program
cc=${CC:-cc}
wants python3 "$cc"
logs=2000
if [ "${1:-}" = --logs ]; then
    logs=$2
    shift 2
fi
is_whole=no
if [ $# -eq 0 ]; then
    is_whole=yes
    set -- drawn names killed left waits crowd unread removed wrong ends starved numbers memory mirrors rights clients
fi
wants_folder
library=${LIBRARY:-out/libsegdag.a}
if [ ! -f "$library" ]; then
    library=$folder/built/libsegdag.a
    RT="${RT:-rt}" FOLDER=$folder/built sh tools/build_library_unproved.sh > "$folder/told" || cat "$folder/told"
fi
library=$(dirname "$(realpath "$library")")
CFLAGS=-Werror FOLDER=$folder/plain sh tools/segdagd_build.sh "$library"
export CLIENT="$folder/client" SEGDAG_LIBRARY="$library/libsegdag.so"
for flags in "-g -fsanitize=address,undefined -fno-sanitize-recover=all" ""; do
    # shellcheck disable=SC2086
    "$cc" -std=c11 -O1 -Wall -Wextra -pedantic -Wconversion -Werror $flags tests/daemon_client.c bindings/client/segdag_client.c -o "$CLIENT" 2> "$folder/told" && break
done
[ -x "$CLIENT" ] || { cat "$folder/told" && exit 1; }
for part in "$@"; do
    python tests/daemon_many.py "$part" "$folder/plain/segdagd-many" "$program" "$folder" "$logs"
done

# The parts in which the most comes together, once more, by a sanitizer.
by_sanitizer() {
    by=$1
    shift
    if CFLAGS="-g -fsanitize=$by -fno-sanitize-recover=all" FOLDER=$folder/$by sh tools/segdagd_build.sh "$library" 2> "$folder/told"; then
        mkdir "$folder/by_$by"
        for part in "$@"; do
            python tests/daemon_many.py "$part" "$folder/$by/segdagd-many" "$program" "$folder/by_$by" 200 > "$folder/told" || cat "$folder/told"
            [ "$(cat "$folder/told")" ] && grep -q "^daemon_many: .* s)$" "$folder/told"
        done
        echo "daemon_many: the sanitizers of $by find nothing in $*"
    else
        untried sanitizers "$cc has no sanitizers of $by"
    fi
}

if [ "$is_whole" = yes ]; then
    by_sanitizer address,undefined drawn names left wrong removed mirrors rights
    by_sanitizer thread drawn left crowd mirrors
fi
