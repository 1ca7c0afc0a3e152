#!/bin/sh
# Puts the sums of what is proved and of its proofs: of all files in which definitions, contracts and code stand, and of all proofs. Each is
# the SHA-256 of the lines that sha256sum puts for these files, sorted by path.
set -eu
cd "$(dirname "$0")/.."
export LC_ALL=C
sum_of() {
    find "$@" -type f -print0 | sort -z | xargs -0 sha256sum | sha256sum | cut -d ' ' -f 1
}
echo "statements: $(sum_of crates.txt HANDLES crates/*/specs crates/*/src)"
echo "proofs: $(sum_of crates/*/proofs)"
