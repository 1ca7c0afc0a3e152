# What each script here begins with, by `. "$(dirname "$0")/lib.sh"`: it goes on in the top folder of the checkout, and ends at the first
# failure. Where the program isn't built that is a failure. Where a tool is missing the script is skipped: it says so, writes it to the
# file $SKIPPED, which `make test` reads at its end, and fails where $SEGDAG_NO_SKIP has the tool's name, or is 1, which is
# python3, git, cc and strace.
set -eu
cd "$(dirname "$0")/.."
script=$(basename "$0" .sh)

# $program is the built program, or $PROGRAM. Without it nothing is tried, and that is no success.
wants_program() {
    program=${PROGRAM:-$PWD/crates/segdag/out/segdag}
    if [ ! -x "$program" ]; then
        echo "$script: $program isn't built; make proved builds it" >&2
        exit 1
    fi
}

# $folder is a new folder, which is gone when the script ends.
wants_folder() {
    folder=$(mktemp -d)
    trap 'rm -rf "$folder"' EXIT
}

# Ends the script where one of these tools is missing.
wants() {
    for tool in "$@"; do
        command -v "$tool" > /dev/null || skip "$tool" "there is no $tool"
    done
}

# Ends the script for want of a tool, with a reason.
skip() {
    untried "$@"
    exit 0
}

# Says, with a reason, what isn't tried for want of a tool, and goes on.
untried() {
    needed=${SEGDAG_NO_SKIP:-}
    [ "$needed" != 1 ] || needed="python3 git cc strace"
    case " $needed " in
        *" $(basename "$1") "*)
            echo "$script: $2" >&2
            exit 1
            ;;
    esac
    echo "$script: $2, so this isn't tried"
    [ -z "${SKIPPED:-}" ] || echo "$script: $2" >> "$SKIPPED"
}

# Runs a script of tests/ in Python, which leaves no compiled files behind.
python() {
    PYTHONDONTWRITEBYTECODE=1 python3 "$@"
}
