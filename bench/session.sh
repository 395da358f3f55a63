#!/bin/sh
# Times one session's loop over links in memory and over loopback TCP, beside the plain Rust peer and a bare ping-pong of the same sizes,
# and then 1, 8 and 32 clients at once over TCP beside the peer's, and prints two tables. README.md says what is measured.
#
#   PEER=FOLDER bench/session.sh [ROUNDS [REQUESTS]]
set -eu
here=$(cd "$(dirname "$0")" && pwd)
top=$(dirname "$here")
peer=${PEER:-$top/../shared/peer}
rounds=${1:-7}
requests=${2:-4000}
work=$(mktemp -d)
trap 'rm -rf "$work"' EXIT
cp -r "$peer" "$work/peer"
(cd "$work/peer" && cargo build --release --offline >"$work/log" 2>&1)
program=$("$here/build.sh" bench_session)
for _ in $(seq "$rounds"); do
    for kind in pipe tcp; do
        for together in 1 16; do
            echo "ours $(timeout 120 "$program" "$kind" "$requests" "$together")"
        done
    done
    # A Submit's frame has 39 bytes, and that of its Relay 56.
    timeout 120 "$work/peer/target/release/peer" bench pingpong "$requests" 39 56 | sed 's/^/pingpong /'
    timeout 120 "$work/peer/target/release/peer" bench latency 1 "$((requests / 2))" | sed 's/^/peer-pipe /'
    for clients in 1 8 32; do
        # One client and one Submit at a time were timed above.
        [ "$clients" = 1 ] || echo "ours $(timeout 120 "$program" tcp "$requests" 1 "$clients")"
        timeout 120 "$work/peer/target/release/peer" bench latency "$clients" "$((requests / 2))" --tcp | sed "s/^/peer-tcp-$clients /"
    done
done >"$work/figures"
python3 "$here/session.py" "$work/figures"
