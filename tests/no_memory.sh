#!/bin/sh
# Want of memory at each allocation in turn of the built program, in each of its modes: each reply is the right one or
# that memory is wanting, which changes nothing, and all goes on; or the status is 7, and nothing was done.
. "$(dirname "$0")/lib.sh"
wants_program
wants "${CC:-cc}" python3
wants_folder
if ! "${CC:-cc}" -shared -fPIC -O1 -o "$folder/no_memory.so" tests/no_memory.c 2> "$folder/told"; then
    skip "${CC:-cc}" "${CC:-cc} doesn't make a library of tests/no_memory.c"
fi
python tests/no_memory.py "$program" "$folder"
