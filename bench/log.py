"""Prints the tables of bench/log.sh: lines a second, the best run, and the median of all in parentheses."""

import collections
import statistics
import sys

COLUMNS = {"append": "The log", "zeros": "Plain, over zeros", "longer": "Plain, a longer file"}


def cell(rates):
    return f"{max(rates):,.0f} ({statistics.median(rates):,.0f})"


def main():
    rates = collections.defaultdict(list)
    with open(sys.argv[1], encoding="utf-8") as file:
        for line in file:
            mode, how, batch, lines, _, nanos = line.split()
            rates[mode, int(batch), how].append(int(lines) * 1e9 / int(nanos))
    for mode, title in (("waits", "Synced"), ("never", "Not synced")):
        print(f"| {title}, lines in a batch | " + " | ".join(COLUMNS.values()) + " |")
        print("|---|" + "---|" * len(COLUMNS))
        for batch in (1, 16, 256):
            print(f"| {batch} | " + " | ".join(cell(rates[mode, batch, how]) for how in COLUMNS) + " |")
        print()
    with open(sys.argv[2], encoding="utf-8") as file:
        rows = [[int(word) for word in line.split()[1:]] for line in file]
    for name, place in (("read_log", 2), ("open_log", 3)):
        print(f"{name} of {rows[0][0]:,} lines, {rows[0][1]:,} bytes: {cell([row[0] * 1e9 / row[place] for row in rows])} lines a second")


main()
