#!/bin/sh
# The package of the tools has the types that it says: mypy finds nothing, in strict mode and for the oldest Python that README names. A mypy
# that doesn't know that one any more takes the next.
. "$(dirname "$0")/lib.sh"
wants mypy
cd tools
for python in 3.8 3.9 3.10; do
    ! mypy --python-version "$python" --cache-dir /dev/null --command "" > /dev/null 2>&1 || break
done
mypy --strict --python-version "$python" --cache-dir /dev/null --package segdag_tools
