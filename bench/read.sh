#!/bin/sh
# Times the reading of a scenario file of 4 MB beside serde_json of Rust, where Debian's package has put it on the machine, and beside
# Python's json, and prints a table. README.md says what is measured.
#
#   bench/read.sh [ROUNDS]
set -eu
here=$(cd "$(dirname "$0")" && pwd)
program=$("$here/build.sh" bench_read)
exec python3 "$here/read.py" "$program" "${1:-15}"
