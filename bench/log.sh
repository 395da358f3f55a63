#!/bin/sh
# Times a log over a folder of the system, beside a plain program that appends the same bytes, and prints a table. README.md says what is
# measured.
#
#   bench/log.sh [ROUNDS [LINES]]
set -eu
here=$(cd "$(dirname "$0")" && pwd)
rounds=${1:-5}
most=${2:-300000}
work=$(mktemp -d "${DISK:-${TMPDIR:-/tmp}}/log-XXXXXX")
trap 'rm -rf "$work"' EXIT
program=${WRITER:-$("$here/../tools/unproved.sh" log_writer)}
rustc -C opt-level=3 -o "$work/append" "$here/append.rs"
spare=1048576
for _ in $(seq "$rounds"); do
    for mode in waits never; do
        for batch in 1 16 256; do
            lines=$((batch * 400))
            [ "$mode" = waits ] || lines=102400
            rm -rf "$work/dir"
            "$program" time "$work/dir" "$mode" "$spare" "$batch" "$lines" | sed "s/^/$mode /"
            for how in zeros longer; do
                "$work/append" "$work/dir/journal-00000000000000000001.txt" "$work/plain" "$how" "$mode" "$spare" "$batch" | sed "s/^/$mode /"
            done
        done
    done
done >"$work/figures"
rm -rf "$work/dir"
"$program" time "$work/dir" never "$spare" 256 "$most" >/dev/null
for _ in $(seq "$rounds"); do
    "$program" read "$work/dir"
done >"$work/reads"
python3 "$here/log.py" "$work/figures" "$work/reads"
