"""Prints the table of bench/take.sh, from the lines of its runs: turns a second, best and median."""

import statistics
import sys

from lines import nanos_by


def main():
    found = nanos_by(sys.argv[1])
    print("| Items | Rust: best | median | Here: best | median | Here / Rust: best | median |")
    print("|---|---|---|---|---|---|---|")
    for items in (1, 33):
        rust, here = ([1e9 / nanos for nanos in found[side, items]] for side in ("rust", "here"))
        best, median = max(here) / max(rust), statistics.median(here) / statistics.median(rust)
        cells = [f"{way(side):,.0f}" for side in (rust, here) for way in (max, statistics.median)]
        print(f"| {items} | {' | '.join(cells)} | {best:.2f} | {median:.2f} |")


main()
