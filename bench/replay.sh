#!/bin/sh
# Times `replay` of the generated load beside the peer's replay of the same load, and prints a table. README.md says what is measured.
#
#   PEER=FOLDER bench/replay.sh [ROUNDS]
set -eu
here=$(cd "$(dirname "$0")" && pwd)
root=$(dirname "$here")
[ -x "$root/crates/sv_main/out/sv_main" ] || (cd "$root/crates/sv_main" && rt run >/dev/null 2>&1)
exec python3 "$here/replay.py" "$root/crates/sv_main/out/sv_main" "${PEER:-$root/../shared/peer}" "${1:-9}"
