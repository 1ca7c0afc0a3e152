#!/bin/sh
# Makes libsegdag.a, libsegdag.so and their headers in the folder out of the core, an archive or an object, and of the shim in bindings/c. They
# want the C library alone. The archive exports segdag_*; the shared library leaves out segdag_core_*, and gives its calls a version. The name
# by which a program finds the shared one has the first number of the version.
#     RT=rt FOLDER=out sh tools/build_library.sh CORE
set -eu
core=$(realpath "$1")
cd "$(dirname "$0")/.."
cc=${CC:-cc}
version=$(sed -n 's/^#define SEGDAG_VERSION "\(.*\)"$/\1/p' bindings/c/segdag.h)
shared=libsegdag.so.$(echo "$version" | cut -d . -f 1)
if [ -f VERSION ] && [ "$(cat VERSION)" != "$version" ]; then
    echo "build_library: VERSION says $(cat VERSION), but bindings/c/segdag.h says $version: make them the same" >&2
    exit 1
fi
heap=$(dirname "$("${RT:-rt}" doc)")/c/liblibc_c.a
folder=$(mktemp -d)
trap 'rm -rf "$folder"' EXIT
for source in bindings/c/*.c; do
    "$cc" -O2 -fPIC -Wall -Wextra -pedantic -c "$source" -o "$folder/shim_$(basename "$source" .c).o"
done
printf 'SEGDAG_%s {\n    global: %s\n    local: *;\n};\n' "$(echo "$version" | cut -d . -f 1,2)" \
    "$(grep -ho '^[a-z].*\bsegdag_[a-z_]*(' bindings/c/segdag.h | sed 's/.*\(segdag_[a-z_]*\)($/\1;/' | sort | tr '\n' ' ')" > "$folder/segdag.map"
(
    cd "$folder"
    case $core in
        *.a) ar x "$core" ;;
        *) cp "$core" core.o ;;
    esac
    ar x "$heap"
    ld -r -o whole.o ./*.o
    objcopy --wildcard --keep-global-symbol='segdag_*' whole.o segdag_whole.o
    ar rcs libsegdag.a segdag_whole.o
    "$cc" -shared -Wl,-soname,"$shared" -Wl,--version-script=segdag.map -o libsegdag.so segdag_whole.o
)
made=${FOLDER:-out}
mkdir -p "$made"
mv "$folder/libsegdag.a" "$folder/libsegdag.so" "$made/"
ln -sf libsegdag.so "$made/$shared"
cp bindings/c/segdag.h bindings/c/segdag_core.h "$made/"
echo "$made/libsegdag.a, $made/libsegdag.so, $made/segdag.h and $made/segdag_core.h are built"
