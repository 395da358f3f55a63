#!/bin/sh
# Times `load N` over loopback TCP and over links in memory beside the plain Rust peer, and prints a table. README.md says what is measured.
#
#   PEER=FOLDER bench/play.sh [ROUNDS]
set -eu
here=$(cd "$(dirname "$0")" && pwd)
root=$(dirname "$here")
[ -x "$root/crates/sv_main/out/sv_main" ] || (cd "$root/crates/sv_main" && rt run -- load 1 >/dev/null 2>&1)
in_memory=$("$here/build.sh" bench_play)
exec python3 "$here/play.py" "$root/crates/sv_main/out/sv_main" "$in_memory" "${PEER:-$root/../shared/peer}" "${1:-15}"
