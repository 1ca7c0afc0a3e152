#!/bin/sh
# Makes an object of a crate's code without its proofs, as the unproved program and library are linked of: LLVM's module of a run of
# `rt try`, with neither the address sanitizer nor its costs, by the kit's clang at -O2. The checks for overflows and indices stay in it.
# Two minutes or so.
#     RT=rt [EDIT=sed's script] sh tools/unproved_module.sh CRATE'S-FOLDER OBJECT [rt try's words]...
#
# The kit builds nothing that isn't proved and keeps nothing of a try, by no word and no variable. But it calls the clang of the folder
# that has its toolchain. So it is run from a folder that has all of the kit by links, and for clang these lines, which keep the module that
# they are given and end; the try then has nothing to compile with the sanitizer or to run, which would take as long again.
set -eu
crate=$(realpath "$1")
object=$(realpath -m "$2")
shift 2
kit=$(dirname "$("${RT:-rt}" doc)")
folder=$(mktemp -d)
ticker=
leave() {
    rm -rf "$folder"
    [ -z "$ticker" ] || kill "$ticker" 2> /dev/null || true
}
trap leave EXIT
trap 'exit 130' INT
trap 'exit 143' TERM

# Runs a command of some time. A terminal is shown for how long it has run.
step() {
    told=$1
    shift
    if [ -t 2 ]; then
        (seconds=0 && while printf '\r%s: %s s ' "$told" "$seconds" && sleep 1; do seconds=$((seconds + 1)); done) >&2 &
        ticker=$!
    fi
    "$@" && status=0 || status=$?
    if [ -n "$ticker" ]; then
        kill "$ticker" 2> /dev/null || true
        ticker=
        echo >&2
    fi
    return "$status"
}

# What stands in $1, with a link in $2 to each that isn't there by itself.
link_all() {
    for it in "$1"/*; do
        [ -e "$2/${it##*/}" ] || ln -s "$it" "$2/"
    done
}

mkdir -p "$folder/kit/bin" "$folder/kit/toolchain/bin"
# rt takes for its kit the folder that its own files stand in.
cp "$kit/bin/rt" "$kit/bin/rtlib.py" "$folder/kit/bin/"
cat > "$folder/kit/toolchain/bin/clang" << END
#!/bin/sh
# The first module is a small one, by which the kit finds out what clang can do.
case "\$*" in *" -fsanitize=address"*) cp module.bc "$folder/module.bc" && exit 1 ;; esac
exec "$kit/toolchain/bin/clang" "\$@"
END
# The check beside a try only hints at names that a proof would refuse.
echo '#!/bin/sh' > "$folder/kit/bin/rattle"
chmod +x "$folder/kit/toolchain/bin/clang" "$folder/kit/bin/rattle"
link_all "$kit/toolchain/bin" "$folder/kit/toolchain/bin"
link_all "$kit/toolchain" "$folder/kit/toolchain"
link_all "$kit/bin" "$folder/kit/bin"
link_all "$kit" "$folder/kit"

# It ends by a failure, since its clang does.
try() {
    (cd "$crate" && "$folder/kit/bin/rt" try "$@" < /dev/null > "$folder/told" 2>&1) || true
}

step "1 of 2, reading $(basename "$crate") and the crates below it" try "$@"
if [ ! -s "$folder/module.bc" ]; then
    cat "$folder/told" >&2
    echo "$0: the kit made no module of $crate: what it said stands above" >&2
    exit 1
fi
clang=$kit/toolchain/bin/clang
"$clang" -S -emit-llvm -o "$folder/module.ll" "$folder/module.bc"
sed -E "s/ sanitize_address//
${EDIT:-}" "$folder/module.ll" > "$folder/core.ll"
mkdir -p "$(dirname "$object")"
step "2 of 2, compiling it" "$clang" -O2 -fPIC -Wno-override-module -c "$folder/core.ll" -o "$object"
