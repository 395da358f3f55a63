"""Times loads of some sizes over TCP and over links in memory: the program, and the plain Rust peer, in turn."""

import statistics
import subprocess
import sys
import tempfile
import time

from loads import SIZES, load
from peers import built_peer


def run(words):
    """The seconds of a whole process, and what it printed."""
    start = time.perf_counter()
    printed = subprocess.run(words, check=True, stdout=subprocess.PIPE, timeout=120).stdout
    return time.perf_counter() - start, printed


def times(n, mine, theirs, rounds):
    """The seconds of ours and of the peer, each run in turn, with the same printed."""
    ours, peers = [], []
    for _ in range(rounds):
        here, said = run(mine)
        there, wanted = run(theirs)
        if said != wanted:
            sys.exit(f"load {n}: the summaries differ")
        ours.append(here)
        peers.append(there)
    return ours, peers


def print_row(n, link, ours, theirs):
    _, actions = load(n)
    best, middle = min(theirs) / min(ours), statistics.median(theirs) / statistics.median(ours)
    print(
        f"| {link} | {n} | {actions} | {actions / min(ours):,.0f} | {actions / statistics.median(ours):,.0f} | {min(ours) * 1e6 / actions:.1f} "
        f"| {actions / min(theirs):,.0f} | {actions / statistics.median(theirs):,.0f} | {best:.2f} | {middle:.2f} |",
        flush=True,
    )


def main(program, in_memory, sources, rounds):
    with tempfile.TemporaryDirectory() as folder:
        peer = built_peer(folder, sources)
        print("| Links | Size | Actions | Here: actions/s, best | median | µs an action, best | Peer: actions/s, best | median | Here / peer, best | median |")
        print("|---|---|---|---|---|---|---|---|---|---|")
        for n in SIZES:
            print_row(n, "TCP", *times(n, [program, "load", str(n)], [peer, "load", str(n), "--tcp"], rounds))
            print_row(n, "memory", *times(n, [in_memory, str(n)], [peer, "load", str(n)], rounds))


main(sys.argv[1], sys.argv[2], sys.argv[3], int(sys.argv[4]))
