#!/usr/bin/env python3
"""What it costs `host` that the steward alone reports, beside a world where the first report counts.

    python3 bench/authority.py PROGRAM PEER [ROUNDS [ACTIONS]]

PEER is the built peer, whose `drive` makes ACTIONS actions (20,000) by 32 and by 256 clients, in both worlds in turn, ROUNDS times (5),
with `--sync none`. Told are actions a second, the bytes that the server sent and the entries that it wrote for each action, and how long
an action has no result: how many have none, looked at 50 times a second, by how many come in a second.
"""

import json
import os
import statistics
import sys
import tempfile
import threading
from collections import defaultdict

from host import OBJECTS, Server, cell, driven

RESULTS = ("first", "authority")


def watched(server, peer, clients, actions):
    """What `drive` measured, with the status afterwards and the mean number of actions without a result."""
    is_over, waiting = threading.Event(), []

    def look():
        while not is_over.wait(0.02):
            waiting.append(server.status()["uncommitted"])
    watcher = threading.Thread(target=look)
    before = server.status()
    watcher.start()
    found = driven(peer, server.port, clients, actions)
    is_over.set()
    watcher.join()
    after = server.status()
    made = after["accepted"] - before["accepted"]
    return {"rate": found["drive"], "sent": (after["bytes_out"] - before["bytes_out"]) / made, "entries": (after["entries"] - before["entries"]) / made,
            "waits": 1000 * statistics.mean(waiting or [0]) / found["drive"], "p50": found["drive_submit_p50"] / 1000, "p99": found["drive_submit_p99"] / 1000}


def main(program, peer, rounds=5, actions=20000):
    figures = defaultdict(list)
    with tempfile.TemporaryDirectory() as room:
        for place in range(rounds):
            for clients in (32, 256):
                for results in RESULTS:
                    world = os.path.join(room, f"{results}.json")
                    with open(world, "w", encoding="ascii") as file:
                        json.dump({"attrs": 1, "objects": [[1000]] * OBJECTS, "bound": 32, "results": results}, file)
                    server = Server("none", program, peer, world, os.path.join(room, f"{results}-{clients}-{place}"))
                    for name, figure in watched(server, peer, clients, actions).items():
                        figures[name, results, clients].append(figure)
                    server.close()
    rows = (("rate", "actions a second", "{:,.0f}", max), ("sent", "bytes sent for an action", "{:,.0f}", min), ("entries", "entries for an action", "{:.2f}", min),
            ("waits", "without a result, ms", "{:.2f}", min), ("p50", "a Submit answered at the middle, ms", "{:.2f}", min), ("p99", "at the 99th, ms", "{:.2f}", min))
    print("| | " + " | ".join(f"{results}, {clients}" for clients in (32, 256) for results in RESULTS) + " |\n|---|---|---|---|---|")
    for name, title, form, best in rows:
        print(f"| {title} | " + " | ".join(cell(figures[name, results, clients], form, best) for clients in (32, 256) for results in RESULTS) + " |")


if __name__ == "__main__":
    main(sys.argv[1], sys.argv[2], *map(int, sys.argv[3:]))
