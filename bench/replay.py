"""Times replays of the generated load of some sizes: the program, and the plain Rust peer, which prints a summary or its journal too, in turn."""

import statistics
import subprocess
import sys
import tempfile
import time

from loads import SIZES, write_load
from peers import built_peer


def seconds(words):
    start = time.perf_counter()
    subprocess.run(words, check=True, stdout=subprocess.DEVNULL)
    return time.perf_counter() - start


def main(program, sources, rounds):
    with tempfile.TemporaryDirectory() as folder:
        peer = built_peer(folder, sources)
        print(
            "| Size | Actions | Here: actions/s, best | median | µs an action, best | Peer with its journal: actions/s, best | median | Here / peer, best | median "
            "| Peer without: actions/s, best | Here / peer, best |"
        )
        print("|---|---|---|---|---|---|---|---|---|---|---|")
        for n in SIZES:
            path, _, actions = write_load(folder, n)
            ours, theirs, brief = [], [], []
            for _ in range(rounds):
                ours.append(seconds([program, "replay", path]))
                theirs.append(seconds([peer, "replay-load", str(n), "--journal"]))
                brief.append(seconds([peer, "replay-load", str(n)]))
            middle = statistics.median(theirs) / statistics.median(ours)
            print(
                f"| {n} | {actions} | {actions / min(ours):,.0f} | {actions / statistics.median(ours):,.0f} | {min(ours) * 1e6 / actions:.1f} "
                f"| {actions / min(theirs):,.0f} | {actions / statistics.median(theirs):,.0f} | {min(theirs) / min(ours):.2f} | {middle:.2f} "
                f"| {actions / min(brief):,.0f} | {min(brief) / min(ours):.2f} |"
            )


main(sys.argv[1], sys.argv[2], int(sys.argv[3]))
