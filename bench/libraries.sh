#!/bin/sh
# Measures the libraries beside the plain Rust peer, and prints a table. README.md says what is measured.
#
#   PEER=FOLDER bench/libraries.sh [ROUNDS]
set -eu
here=$(cd "$(dirname "$0")" && pwd)
root=$(dirname "$here")
exec python3 "$here/libraries.py" "$root" "${PEER:-$root/../shared/peer}" "${1:-25}"
