#!/bin/sh
# Times a client that takes replies beside one in plain Rust, in turn, and prints a table: turns and items a second, best and
# median. README.md says what is measured.
#
#   bench/take.sh [ROUNDS]
set -eu
here=$(cd "$(dirname "$0")" && pwd)
rounds=${1:-15}
work=$(mktemp -d)
trap 'rm -rf "$work"' EXIT
program=$("$here/build.sh" bench_libraries)
rustc -C opt-level=3 -o "$work/rust" "$here/take.rs"
for _ in $(seq "$rounds"); do
    for work_of in "1 20000" "33 1000"; do
        # shellcheck disable=SC2086
        "$work/rust" $work_of | sed "s/^take/rust ${work_of% *}/"
        # shellcheck disable=SC2086
        "$program" take $work_of | sed "s/^take/here ${work_of% *}/"
    done
done >"$work/figures"
python3 "$here/take.py" "$work/figures"
