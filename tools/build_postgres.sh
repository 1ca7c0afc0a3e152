#!/bin/sh
# Makes libsegdag_postgres.a, libsegdag_postgres.so, their headers, the tables' SQL and the program segdag-postgres in the folder out of the
# core, an archive or an object, and of bindings/c and bindings/postgres. They have all of libsegdag, and want libpq beside the
# C library.
#     RT=rt FOLDER=out sh tools/build_postgres.sh CORE
# Over a core without its proofs:
#     SHIM=tools/build_postgres.sh sh tools/build_library_unproved.sh
set -eu
core=$(realpath "$1")
cd "$(dirname "$0")/.."
cc=${CC:-cc}
version=$(sed -n 's/^#define SEGDAG_VERSION "\(.*\)"$/\1/p' bindings/c/segdag.h)
shared=libsegdag_postgres.so.$(echo "$version" | cut -d . -f 1)
heap=$(dirname "$("${RT:-rt}" doc)")/c/liblibc_c.a
include=${PQ_INCLUDE:-$(pg_config --includedir 2> /dev/null || echo /usr/include/postgresql)}
if [ ! -f "$include/libpq-fe.h" ]; then
    echo "build_postgres: there is no libpq-fe.h in $include: install libpq-dev, or set PQ_INCLUDE to the folder that has it" >&2
    exit 1
fi
folder=$(mktemp -d)
trap 'rm -rf "$folder"' EXIT
for source in bindings/c/*.c bindings/postgres/database.c bindings/postgres/rows.c bindings/postgres/store.c bindings/postgres/transfer.c; do
    # What CFLAGS has is one word for each flag.
    # shellcheck disable=SC2086
    "$cc" -O2 -fPIC -Wall -Wextra -pedantic ${CFLAGS:-} -I bindings/c -I "$include" -c "$source" -o "$folder/shim_$(basename "$source" .c).o"
done
printf 'SEGDAG_%s {\n    global: %s\n    local: *;\n};\n' "$(echo "$version" | cut -d . -f 1,2)" \
    "$(cat bindings/c/segdag.h bindings/postgres/segdag_postgres.h | grep -o '^[a-z].*\bsegdag_[a-z_]*(' | sed 's/.*\(segdag_[a-z_]*\)($/\1;/' | sort | tr '\n' ' ')" > "$folder/segdag.map"
(
    cd "$folder"
    case $core in
        *.a) ar x "$core" ;;
        *) cp "$core" core.o ;;
    esac
    ar x "$heap"
    ld -r -o whole.o ./*.o
    objcopy --wildcard --keep-global-symbol='segdag_*' whole.o segdag_whole.o
    ar rcs libsegdag_postgres.a segdag_whole.o
    "$cc" -shared -Wl,-soname,"$shared" -Wl,--version-script=segdag.map -o libsegdag_postgres.so segdag_whole.o -lpq
)
"$cc" -O2 -Wall -Wextra -pedantic -I bindings/c bindings/postgres/program.c "$folder/libsegdag_postgres.a" -lpq -o "$folder/segdag-postgres"
made=${FOLDER:-out}
mkdir -p "$made"
mv "$folder/libsegdag_postgres.a" "$folder/libsegdag_postgres.so" "$folder/segdag-postgres" "$made/"
ln -sf libsegdag_postgres.so "$made/$shared"
cp bindings/c/segdag.h bindings/postgres/segdag_postgres.h bindings/postgres/schema.sql bindings/postgres/rights.sql "$made/"
echo "$made/libsegdag_postgres.a, $made/libsegdag_postgres.so and $made/segdag-postgres are built"
