#!/bin/sh
# A log in PostgreSQL, over servers of the test's own on Unix sockets in a temporary folder: drawn lines of several writers against the
# definitions and the program; lines that are cut, servers and writers that are killed, a full disk; a standby that is stopped, a primary that
# is lost, also over two network namespaces; bugs that are planted in the shim, which have to be seen; rights, refusals, whole logs, Python and
# segdagd. Two minutes or so, and some more where the library has to be built, which then isn't proved.
#     sh tests/postgres.sh [PART]...     the parts are drawn faults standby planted traps machines git, side by side; LIBRARY is
#                                        a libsegdag_postgres.a
#     sh tests/postgres.sh long          thousands of flushes and of lines, in half an hour
. "$(dirname "$0")/lib.sh"
cc=${CC:-cc}

# $library is LIBRARY, or what this text makes without its proofs.
wants_library() {
    if [ -n "${LIBRARY:-}" ]; then
        library=$(realpath "$LIBRARY")
        echo "postgres: over $library"
    else
        library=$folder/built/libsegdag_postgres.a
        RT="${RT:-rt}" FOLDER=$folder/built SHIM=tools/build_postgres.sh sh tools/build_library_unproved.sh > "$folder/told" || cat "$folder/told"
        [ -f "$library" ]
        echo "postgres: over the library of this text, built without its proofs"
    fi
}

# Compiles sources of the shim, as they are here, into the folder $1 with the flags $2.
compile() {
    into=$folder/plants/$1 flags=$2
    shift 2
    mkdir -p "$into"
    for source in "$@"; do
        # shellcheck disable=SC2086
        "$cc" -pthread $flags -I bindings/c -I "$include" -c "$source" -o "$into/$(basename "$source" .c).o" || return 1
    done
}

# Makes the program of the objects in the folder $1, which stand in front of the library's own, with the flags $2.
link() {
    made=$folder/plants/$1/segdag-postgres
    # shellcheck disable=SC2086
    "$cc" -pthread $2 -Wl,--allow-multiple-definition "$folder/plants/$1"/*.o "$library" -lpq -o "$made"
}

# Makes the program $1 with what the macro $2 changes: sources that don't have it are those of the plain program.
plant() {
    mkdir -p "$folder/plants/$1"
    cp "$folder"/plants/plain/*.o "$folder/plants/$1"
    # Where no source has it nothing would be planted.
    touched=$(grep -lw "${2%%=*}" bindings/postgres/*.c bindings/c/*.c)
    # shellcheck disable=SC2086
    compile "$1" "-O0 -D$2" $touched
    link "$1" ""
}

# The plain program, the one that the sanitizers watch, or else the plain one again, the one that cuts rows into pieces, and those with
# planted bugs.
wants_programs() {
    compile plain "-O1 -Wall -Wextra -Werror" bindings/postgres/*.c bindings/c/*.c
    link plain ""
    plain=$made
    FOLDER=$folder CFLAGS=-Werror sh tools/segdagd_build.sh "$(dirname "$library")" postgres
    watching="-O1 -g -fsanitize=address,undefined -fno-sanitize-recover=all"
    if (compile sanitized "$watching" bindings/postgres/*.c bindings/c/*.c && link sanitized "$watching") 2> "$folder/told"; then
        watched=$folder/plants/sanitized/segdag-postgres
    else
        watched=$plain
        untried sanitizers "$cc has no sanitizers"
    fi
    plant pieces PIECE=50
    for bug in EARLY_OK NO_LOOK NO_LOCK ASYNCHRONOUS WARNING_IGNORED BEHIND; do
        plant "$bug" "SEGDAG_PLANT_$bug"
    done
}

# Runs parts of a script, over a program, and keeps what it puts.
begin() {
    script_of=$1 over=$2
    shift 2
    PLANTS=$folder/plants SERVER=$folder/segdagd-many-postgres PYTHONPATH=bindings/python SEGDAG_LIBRARY=$(dirname "$library")/libsegdag_postgres.so \
        PYTHONDONTWRITEBYTECODE=1 python3 "tests/postgres_$script_of.py" "$over" "$program" "$folder" "$@" > "$folder/told.$script_of.$1" 2>&1 \
        || touch "$folder/failed"
}

# Whether machines can be had: network namespaces, as root.
has_namespaces() {
    [ "$(id -u)" = 0 ] && command -v setpriv > /dev/null && ip netns add "segdag$$" 2> /dev/null && ip netns delete "segdag$$"
}

wants_program
wants "$cc" python3 ld ar objcopy ps
include=${PQ_INCLUDE:-$(pg_config --includedir 2> /dev/null || echo /usr/include/postgresql)}
if ! PYTHONDONTWRITEBYTECODE=1 PYTHONPATH=tests python3 -c 'import sys, postgres_lib; sys.exit(postgres_lib.binaries() is None)'; then
    skip postgres "there is no PostgreSQL server: Debian's is postgresql"
fi
[ -f "$include/libpq-fe.h" ] || skip postgres "there is no libpq-fe.h: Debian's is in libpq-dev"
[ $# -gt 0 ] || set -- drawn faults standby planted traps machines git
wants_folder
chmod 755 "$folder"
wants_library
wants_programs
python tests/postgres_lib.py "$plain" "$program" "$folder"
if [ "$1" = long ]; then
    begin drawn "$plain" long
    begin faults "$plain" many
    begin standby "$plain" many
else
    for part in "$@"; do
        case $part in
            git) if command -v git > /dev/null; then begin git "$plain" git & else untried git "there is no git"; fi ;;
            drawn) begin drawn "$watched" quick & ;;
            faults) begin faults "$watched" cut & begin faults "$watched" killed ended full & ;;
            standby) begin standby "$plain" stopped unsure promoted & ;;
            planted) begin planted "$plain" lines locks standbys & ;;
            traps) begin traps "$watched" operator logs moved clients & ;;
            machines) if has_namespaces; then begin machines "$plain" killed cut & else untried namespaces "there are no network namespaces"; fi ;;
            *) echo "postgres: no part is $part" >&2 && touch "$folder/failed" ;;
        esac
    done
    wait
fi
for part in "$folder"/told.*.*; do
    [ ! -f "$part" ] || cat "$part"
done
[ ! -f "$folder/failed" ]
