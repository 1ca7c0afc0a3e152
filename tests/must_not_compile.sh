#!/bin/sh
# A log is taken by its commit and a store by its flush, so that a payload or a name that is lent from it must be let go before. No
# contract can say so: here the compiler has to refuse a program that holds one longer, and to take the same program without that.
# Nothing is proved here.
. "$(dirname "$0")/lib.sh"
rt=${RT:-rt}
wants "$rt"
wants_folder
copy=$folder
mkdir -p "$copy/crates/lent/src"
roots='dag_store mirror_set remote_trait disk_trait gated_log'
# The lines of crates.txt for these and for all that they stand on, and no others.
awk -v roots="$roots" '
    { split($0, sides, ":"); split(sides[1], head, " "); line[head[1]] = $0; below[head[1]] = sides[2] }
    function take(name, parts, n, i) {
        if (taken[name]++ || !(name in line)) return
        n = split(below[name], parts, " ")
        for (i = 1; i <= n; i++) take(parts[i])
        print line[name]
    }
    END { n = split(roots, wanted, " "); for (i = 1; i <= n; i++) take(wanted[i]) }' crates.txt > "$copy/crates.txt"
for crate in $(cut -d: -f1 "$copy/crates.txt"); do
    mkdir "$copy/crates/$crate"
    for part in src specs proofs; do
        if [ -d "crates/$crate/$part" ]; then
            cp -R "crates/$crate/$part" "$copy/crates/$crate/$part"
        fi
    done
done
echo "lent: $roots" >> "$copy/crates.txt"

# Writes a program that commits and flushes, with these lines in the functions, and prints what the compiler says of it.
compile() {
    cat > "$copy/crates/lent/src/main.rt" << END
#![tactic(auto)]

use dag_store::{Ask, Changed, Found, Store};
use disk_trait::Disk;
use gated_log::{Committed, Log};
use mirror_set::Mirrors;
use remote_trait::Remote;
use std::process::ExitCode;

fn commit<D: Disk>(log: Log, disk: &mut D, payload: &[u8]) -> Committed {
    let lent = log.bytes();
$1
}

fn flush<D: Disk, R: Remote>(
    store: Store,
    disk: &mut D,
    mirrors: &mut Mirrors<R>,
    found: &Found,
) -> Changed {
    let mut lent = store.names(0, found);
$2
}

fn main(_rt: HostRuntime) -> ExitCode {
    ExitCode::SUCCESS
}
END
    (cd "$copy/crates/lent" && "$rt" try 2>&1) || true
}

# Each try: what it is, what the compiler has to say, and the lines of the commit and of the flush.
try() {
    said=$(compile "$3" "$4")
    case $said in
        *"$2"*) ;;
        *)
            echo "must_not_compile: $1:"
            echo "$said"
            exit 1
            ;;
    esac
}

commits='    let _size = lent.len();
    log.commit(disk, payload)'
flushes='    let _first = lent.next();
    store.change(disk, 0, mirrors, Ask::Flush(&[]))'
try "a commit and a flush behind the loans are refused" "run=ended status=0" "$commits" "$flushes"
try "a commit while bytes are lent isn't refused" "borrow-e0505" '    let committed = log.commit(disk, payload);
    let _size = lent.len();
    committed' "$flushes"
try "a flush while names are lent isn't refused" "borrow-e0505" "$commits" '    let flushed = store.change(disk, 0, mirrors, Ask::Flush(&[]));
    let _first = lent.next();
    flushed'
echo "must_not_compile: a commit while bytes are lent is refused, and a flush while names are"
