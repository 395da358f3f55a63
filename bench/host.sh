#!/bin/sh
# Times `host` over loopback TCP beside the plain Rust peer's server, which writes no log, and prints a table. README.md says what is measured.
#
#   PEER=FOLDER DISK=FOLDER bench/host.sh [ROUNDS [ACTIONS]]
set -eu
here=$(cd "$(dirname "$0")" && pwd)
root=$(dirname "$here")
program=${HOST:-$root/crates/sv_main/out/sv_main}
[ -x "$program" ] || program=$("$root/tools/unproved.sh" host_alone)
exec python3 "$here/host.py" "$program" "${PEER:-$root/../shared/peer}" "${DISK:-${TMPDIR:-/tmp}}" "${1:-5}" "${2:-20000}"
