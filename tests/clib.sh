#!/bin/sh
# The library as its users have it. C programs that know the headers alone try each call, answer drawn lines as the program does, also
# beside mirrors, import rows while they are killed, and load damaged logs; what failures tell, drawn calls of threads, and what processes do at
# their edges; want of memory at each allocation; followers beside writers; the sanitizers; the module in Python; the examples. Two minutes or so, and one or two more where the library has to be built, which then isn't proved.
#     sh tests/clib.sh [PART]...     the parts are typed face edges python drawn mirrors killed damaged memory follow crates examples; LIBRARY is a library that is built
. "$(dirname "$0")/lib.sh"
cc=${CC:-cc}

# $library is LIBRARY, or what this text makes without its proofs.
wants_library() {
    if [ -n "${LIBRARY:-}" ]; then
        library=$(realpath "$LIBRARY")
        echo "clib: over $library"
    else
        library=$folder/built/libsegdag.a
        RT="${RT:-rt}" FOLDER=$folder/built sh tools/build_library_unproved.sh > "$folder/told" || cat "$folder/told"
        [ -f "$library" ]
        echo "clib: over the library of this text, built without its proofs"
    fi
}

# Builds $folder/$1 of the C file $2 over the library, with the flags that follow.
over_library() {
    made=$1 source=$2
    shift 2
    "$cc" -O1 -Wall -Wextra -Werror -pthread "$@" -I bindings/c "$source" "$library" -o "$folder/$made"
}

# Builds $folder/sanitized of the C file $1. The shim is built with it, so that the sanitizers see what it does, and stands in front of the
# library's own.
sanitized() {
    by_sanitizers address,undefined "${1:-tests/clib.c}" sanitized
}

by_sanitizers() {
    "$cc" -O1 -g "-fsanitize=$1" -fno-sanitize-recover=all -pthread -Wl,--allow-multiple-definition -I bindings/c \
        "$2" bindings/c/*.c "$library" -o "$folder/$3" 2> "$folder/told"
}

# Both headers, as compilers read them that warn of all they can.
headers() {
    for header in segdag.h segdag_core.h; do
        for standard in c99 c17; do
            echo "#include \"$header\"" | "$cc" -std=$standard -pedantic -Wall -Wextra -Wconversion -Werror -I bindings/c -fsyntax-only -x c -
        done
        if command -v "${CXX:-c++}" > "$folder/where"; then
            echo "#include \"$header\"" | "${CXX:-c++}" -std=c++11 -pedantic -Wall -Wextra -Wconversion -Werror -I bindings/c -fsyntax-only -x c++ -
        fi
    done
}

typed() {
    headers
    over_library core tests/core.c
    "$folder/core"
    if sanitized tests/core.c; then
        "$folder/sanitized"
    fi
    "$folder/clib" typed "$folder/typed.log"
    if sanitized; then
        "$folder/sanitized" typed "$folder/sanitized.log"
        HISTORIES=3 python tests/clib.py drawn "$folder/sanitized" "$program" "$folder"
        echo "clib: the typed calls answer, and the sanitizers find nothing"
    else
        untried sanitizers "$cc has no sanitizers"
    fi
    PYTHONPATH=bindings/python SEGDAG_LIBRARY=$(dirname "$library")/libsegdag.so python tests/clib.py beside "$folder/clib" "$program" "$folder"
}

# Runs $folder/$1 in a new folder, behind what words follow.
in_folder() {
    ran=$1
    shift
    rm -rf "$folder/within"
    mkdir "$folder/within"
    "$folder/$ran" "$@" "$folder/within"
}

# Drawn calls of so many threads by $folder/$1.
fuzzed() {
    for threads in 1 4; do
        rm -rf "$folder/within"
        mkdir "$folder/within"
        "$folder/$1" fuzz "$folder/within" "${SEED:-7}" "${CALLS:-4000}" "$threads"
    done
}

# The shared library lends what its header has, with the version's first two numbers, and nothing else.
exports() {
    version=$(sed -n 's/^#define SEGDAG_VERSION "\([0-9]*[.][0-9]*\)[.].*/\1/p' bindings/c/segdag.h)
    sed -n "s/^[a-z].*[ *]\(segdag_[a-z_]*\)(.*/\1@@SEGDAG_$version/p" bindings/c/segdag.h | sort > "$folder/wanted"
    nm -D --defined-only --with-symbol-versions "$(dirname "$library")/libsegdag.so" | awk '$2 != "A" { print $3 }' | sort | cmp - "$folder/wanted"
    [ -s "$folder/wanted" ]
}

face() {
    over_library clib_face tests/clib_face.c
    in_folder clib_face
    for kind in address,undefined thread; do
        if by_sanitizers "$kind" tests/clib_face.c by_face; then
            in_folder by_face
            fuzzed by_face
        else
            untried sanitizers "$cc has no $kind sanitizer"
        fi
    done
    exports
    echo "clib: failures tell why, answers come in pieces, and drawn calls of one thread and of four end as they say; no sanitizer finds anything"
}

edges() {
    over_library clib_edges tests/clib_edges.c
    in_folder clib_edges
    for kind in address,undefined thread; do
        if by_sanitizers "$kind" tests/clib_edges.c by_edges; then
            in_folder by_edges
        fi
    done
    echo "clib: what is closed, foreign, gone, forked, limited or shared by threads is told as what it is, and nothing is lost"
}

# Builds what lets a call for memory find none.
no_memory() {
    "$cc" -shared -fPIC -O1 -o "$folder/no_memory.so" tests/no_memory.c 2> "$folder/told"
}

memory() {
    if no_memory; then
        python tests/clib.py memory "$folder/clib" "$program" "$folder"
    else
        untried "$cc" "$cc doesn't make a library of tests/no_memory.c"
    fi
}

mirrors() {
    "$folder/clib" mirrors "$folder/m.log" "$folder/m.there" "$folder/m.other"
    if sanitized; then
        "$folder/sanitized" mirrors "$folder/s.log" "$folder/s.there" "$folder/s.other"
    fi
    PYTHONPATH=bindings/python SEGDAG_LIBRARY=$(dirname "$library")/libsegdag.so python tests/clib.py mirrors "$folder/clib" "$program" "$folder"
}

python_edges() {
    mkdir "$folder/python"
    PYTHONPATH=bindings/python SEGDAG_LIBRARY=$(dirname "$library")/libsegdag.so python tests/clib_python.py "$folder/python"
}

# A part of tests/follow.py.
followed() {
    PYTHONPATH=bindings/python SEGDAG_LIBRARY=$(dirname "$library")/libsegdag.so python tests/follow.py "$1" "$folder/follow" "$folder/clib" "$program" "$folder"
}

follow() {
    over_library follow tests/follow.c
    "$folder/follow" typed "$folder/f.log"
    if sanitized tests/follow.c; then
        "$folder/sanitized" typed "$folder/f.log"
        echo "clib: followers answer, and the sanitizers find nothing"
    fi
    for case in alone quick drawn compared busy; do
        followed "$case"
    done
    if no_memory; then
        followed memory
    fi
}

has_cargo() {
    command -v cargo > "$folder/where"
}

# Runs cargo over the crates for the library, without a network.
rust() {
    (cd bindings/rust && SEGDAG_LIBRARY=$library CARGO_TARGET_DIR=$folder/rust cargo "$@" --quiet --offline --locked)
}

crates() {
    if has_cargo; then
        rust test > "$folder/told" 2>&1 || {
            cat "$folder/told"
            exit 1
        }
        echo "clib: the crates in Rust do as they say"
    else
        untried cargo "there is no cargo for the crates in Rust"
    fi
}

# What git fast-import reads: commits of which each tenth begins anew or is a merge, and each is a child of one of the seven before it.
drawn_commits() {
    awk 'BEGIN {
        srand(3)
        for (n = 1; n <= 600; n++) {
            printf "commit refs/heads/b%d\nmark :%d\ncommitter a <a@b> %d +0000\ndata 0\n", n % 40, n, 1000000000 + n
            if (n > 9 && rand() > 0.05) {
                first = n - 1 - int(rand() * 7)
                printf "from :%d\n", first
                if (rand() < 0.3) { second = n - 8 - int(rand() * (n > 60 ? 50 : 2)); if (second > 0) printf "merge :%d\n", second }
            }
            printf "\n"
        }
    }'
}

# The graph calls of libgit2 beside ours, over drawn commits.
beside_libgit2() {
    if ! "$cc" -O1 -Wall -Wextra -Werror -I bindings/c bindings/examples/libgit2.c "$library" -lgit2 -o "$folder/libgit2" 2> "$folder/told"; then
        untried libgit2 "there is no libgit2 (Debian's libgit2-dev) for the example beside it"
    elif ! command -v git > "$folder/where"; then
        untried git "there is no git to make a repository for the example beside libgit2"
    else
        git init -q --bare "$folder/repository"
        drawn_commits | git -C "$folder/repository" fast-import --quiet --force
        "$folder/libgit2" "$folder/repository" "$folder/git.log" 400 > "$folder/told" || {
            cat "$folder/told"
            exit 1
        }
        echo "clib: beside libgit2: $(head -1 "$folder/told")"
    fi
}

# The programs of docs/CLIB.md as they stand there; the header's is the page's.
page() {
    mkdir "$folder/page" "$folder/page/src"
    for language in c python rust; do
        awk -v first="\`\`\`$language" '$0 == first { on = 1; next } /^```$/ { on = 0 } on' docs/CLIB.md > "$folder/page/$language"
    done
    awk '/^   WORDS\. / { exit } /^       #include <segdag.h>$/ { on = 1 } on { sub(/^       /, ""); print }' bindings/c/segdag.h > "$folder/page/header"
    echo | cat "$folder/page/c" - | cmp - "$folder/page/header"
    "$cc" -std=c99 -O1 -Wall -Wextra -pedantic -Werror -I bindings/c -x c "$folder/page/c" -x none "$library" -o "$folder/page/by_c"
    page_says ./by_c | grep -qx '2 commits; the first is an ancestor of the second: 1'
    told="C and Python"
    page_says env PYTHONPATH="$PWD/bindings/python" SEGDAG_LIBRARY="$(dirname "$library")/libsegdag.so" python3 python > "$folder/page/told"
    printf '%040d\n' 0 | sed 's/00/01/g; p; s/01/02/g' | cmp - "$folder/page/told"
    if has_cargo; then
        mv "$folder/page/rust" "$folder/page/src/main.rs"
        printf '[package]\nname = "page"\nversion = "0.1.0"\nedition = "2021"\n[dependencies]\nsegdag = { path = "%s" }\n[workspace]\n' "$PWD/bindings/rust/segdag" > "$folder/page/Cargo.toml"
        page_says env SEGDAG_LIBRARY="$library" CARGO_TARGET_DIR="$folder/rust" cargo run --quiet --offline | grep -qx '\(02\)\{20\}'
        told="$told and Rust"
    fi
    echo "clib: the page's programs in $told run as they stand"
}

# Runs these words in the page's folder, where there is no log yet.
page_says() {
    rm -f "$folder/page/log"
    (cd "$folder/page" && "$@")
}

examples() {
    page
    over_library example bindings/examples/example.c
    "$folder/example" "$folder/c.log" > "$folder/c.told"
    tail -1 "$folder/c.told" | grep -qx '0101010101010101010101010101010101010101'
    PYTHONPATH=bindings/python SEGDAG_LIBRARY=$(dirname "$library")/libsegdag.so python bindings/examples/example.py "$folder/py.log" > "$folder/py.told"
    tail -1 "$folder/py.told" | grep -q '^refused: unknown 0'
    told="C and Python"
    if command -v "${CXX:-c++}" > "$folder/where"; then
        "${CXX:-c++}" -std=c++17 -O1 -Wall -Wextra -pedantic -Werror -I bindings/c bindings/examples/example.cpp "$library" -o "$folder/example_cpp"
        "$folder/example_cpp" "$folder/cpp.log" | tail -1 | grep -q '^refused: differs 0'
        told="$told and C++"
    else
        untried c++ "there is no compiler for the example in C++"
    fi
    if command -v go > "$folder/where"; then
        GOENV=off GOFLAGS='' GOPATH=$folder/go GOCACHE=$folder/go/cache CGO_ENABLED=1 CC=$cc CGO_CFLAGS="-I$PWD/bindings/c" CGO_LDFLAGS="-L$(dirname "$library")" \
            go build -o "$folder/example_go" bindings/examples/example.go
        LD_LIBRARY_PATH=$(dirname "$library") "$folder/example_go" "$folder/go.log" | tail -1 | grep -q '^refused: differs 02'
        told="$told and Go"
    else
        untried go "there is no compiler for the example in Go"
    fi
    if has_cargo; then
        rust build --example history
        "$folder/rust/debug/examples/history" "$folder/rs.log" | tail -1 | grep -qx 'the first is an ancestor of the third: true'
        told="$told and Rust"
    else
        untried cargo "there is no cargo for the example in Rust"
    fi
    echo "clib: the examples in $told run"
    beside_libgit2
}

wants_program
wants "$cc" python3 ld ar objcopy
[ $# -gt 0 ] || set -- typed face edges python drawn mirrors killed damaged memory follow crates examples
wants_folder
wants_library
over_library clib tests/clib.c
for part in "$@"; do
    case $part in
        typed | face | edges | mirrors | memory | follow | crates | examples) "$part" ;;
        python) python_edges ;;
        damaged) python tests/damaged.py "$folder/clib" "$folder" 40 1 ;;
        *) python tests/clib.py "$part" "$folder/clib" "$program" "$folder" ;;
    esac
done
