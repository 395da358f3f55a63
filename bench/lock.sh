#!/bin/sh
# Times the lock beside the mutex of the toolchain's standard library and that of Rust's, on one small object, and
# prints a table: nanoseconds a call, best and median. README.md says what is measured.
#
#   [BEFORE=PROGRAM] bench/lock.sh [ROUNDS [CALLS]]
set -eu
here=$(cd "$(dirname "$0")" && pwd)
rounds=${1:-5}
calls=${2:-100000}
work=$(mktemp -d)
trap 'rm -rf "$work"' EXIT
program=$("$here/build.sh" bench_lock)
rustc -C opt-level=3 -o "$work/rust" "$here/lock.rs"
for _ in $(seq "$rounds"); do
    for threads in 1 2 4 8 64; do
        for kind in lock mutex; do
            timeout 60 "$program" "$kind" "$threads" "$calls" || echo "$kind $threads 1 0 60000000000"
        done
        timeout 60 "$work/rust" "$threads" "$calls"
        if [ -n "${BEFORE:-}" ]; then
            timeout 60 "$BEFORE" lock "$threads" "$calls" | sed 's/^lock/before/'
        fi
    done
done >"$work/figures"
python3 "$here/lock.py" "$work/figures"
