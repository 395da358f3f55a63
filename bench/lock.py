"""Prints the table of bench/lock.sh, from the lines of its runs: nanoseconds a call, the best run, and the median of all in parentheses."""

import statistics
import sys

from lines import nanos_by

COLUMNS = {"lock": "The lock", "mutex": "Mutex here", "rust": "Mutex of Rust", "before": "The lock before"}


def main():
    found = nanos_by(sys.argv[1])
    kinds = [kind for kind in COLUMNS if (kind, 1) in found]
    print("| Threads | " + " | ".join(COLUMNS[kind] for kind in kinds) + " |")
    print("|---|" + "---|" * len(kinds))
    for threads in (1, 2, 4, 8, 64):
        cells = [found[kind, threads] for kind in kinds]
        print(f"| {threads} | " + " | ".join(f"{min(cell):,.0f} ({statistics.median(cell):,.0f})" for cell in cells) + " |")


main()
