#!/bin/sh
# A client in Python asks mirrors of drawn logs, which the built program serves over a pipe, and compares the answers with the rows.
. "$(dirname "$0")/lib.sh"
wants_program
wants python3
python tests/serve_client.py "$program" "${1:-20}" "${2:-1}"
