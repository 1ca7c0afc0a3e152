#!/bin/sh
# The release as a stranger has it: `make dist` in two folders, whose bytes have to be alike, and then without `rt` and without a checkout on the
# PATH the Debian package in an empty root, the tarball, the wheel in a virtual environment, and `make install`; each is used and taken away
# again; so is the Debian package of logs in PostgreSQL, over a server of the test's own. README's session with the installed program. A minute or
# so, and three more where the library has to be built, which isn't proved then.
#     sh tests/install.sh [PART]...     the parts are those of tests/install.py; LIBRARY is a library that is built, and POSTGRES the
#                                       libsegdag_postgres.a, beside which its program is; else they are looked for beside LIBRARY
. "$(dirname "$0")/lib.sh"

# $library is a folder with LIBRARY, or with a library of this text, which is built where there is none or a source is newer; and with what is
# built over it, as `make lib` leaves it.
wants_library() {
    from=$PWD/tests/out/library library=$folder/library
    if [ -n "${LIBRARY:-}" ]; then
        from=$(dirname "$(realpath "$LIBRARY")")
    elif [ ! -f "$from/libsegdag.so" ] || { has_libpq && [ ! -f "$from/libsegdag_postgres.a" ]; } \
        || [ -n "$(find crates.txt VERSION bindings/c bindings/postgres tools/*library* tools/*postgres* crates/*/src -newer "$from/libsegdag.so")" ]; then
        # Both libraries, of one core.
        { ! has_libpq || echo 'sh tools/build_postgres.sh "$1"'; echo 'sh tools/build_library.sh "$1"'; } > "$folder/both.sh"
        RT="${RT:-rt}" FOLDER=$from SHIM=$folder/both.sh sh tools/build_library_unproved.sh > "$folder/told" || cat "$folder/told"
    fi
    mkdir "$library"
    cp -P "$from"/libsegdag.* "$from"/segdag.h "$from"/segdag_core.h "$library"
    LIBRARY=$library/libsegdag.a FOLDER=$library sh tools/build_front.sh > "$folder/told"
    FOLDER=$library sh tools/segdagd_build.sh "$library"
    from=$(dirname "${POSTGRES:-$from/libsegdag_postgres.a}")
    if ! has_libpq; then
        untried postgres "there is no libpq-fe.h: Debian's is in libpq-dev"
    elif [ ! -f "$from/segdag-postgres" ]; then
        untried postgres "there is no segdag-postgres in $from"
    else
        cp -P "$from"/libsegdag_postgres.* "$from/segdag-postgres" "$library"
        FOLDER=$library sh tools/segdagd_build.sh "$library" postgres
    fi
}

has_libpq() {
    [ -f "${PQ_INCLUDE:-$(pg_config --includedir 2> /dev/null || echo /usr/include/postgresql)}/libpq-fe.h" ]
}

wants_program
wants python3 git pandoc dpkg-deb tar
wants_folder
wants_library
python tests/install.py "$program" "$library" "$folder" "$@" > "$folder/said" || { cat "$folder/said"; exit 1; }
# What couldn't be tried for want of a tool stands in lines `untried TOOL: REASON`.
while read -r first second rest; do
    if [ "$first" = untried ]; then
        untried "${second%:}" "$rest"
    else
        echo "install: $first $second $rest"
    fi
done < "$folder/said"
