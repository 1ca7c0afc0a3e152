#!/bin/sh
# The last words of `make test`: what wasn't tried, as the scripts wrote it to the file $SKIPPED.
. "$(dirname "$0")/lib.sh"
if [ -s "${SKIPPED:-}" ]; then
    echo "tests: $(wc -l < "$SKIPPED") tries were skipped for want of what they need:"
    sed 's/^/    /' "$SKIPPED"
else
    echo "tests: no try was skipped"
fi
