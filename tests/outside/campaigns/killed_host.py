#!/usr/bin/env python3
"""Kills `host` again and again while clients play.

    python3 tests/outside/campaigns/killed_host.py PROGRAM [KILLS [CLIENTS]]

200 kills by SIGKILL at random moments, under 100 clients, if not said otherwise. The clients move numbers from object to object, and
join again by themselves. Then each reply that a client ever got must be in the log, for its session and in order (but for what an
Observe showed that showed nothing); the log must be that of one legal history whose values are serial; and no number may be lost.
A kill loses nothing that the system has taken: this tries the order of appending and answering, and the way back, and no disk.
Prints the figures. The status is 1 where something is wrong.
"""

import json
import os
import random
import sys
import tempfile
import time

sys.path.insert(0, os.path.dirname(os.path.dirname(os.path.abspath(__file__))))

from campaigns.hosting import EACH, Mover, judge, stop, told
from doubles.programs import free_port, stop_all
from tests.test_host import Host, Test


def main(words):
    """The status of these words."""
    if not 1 <= len(words) <= 3:
        print("words: PROGRAM [KILLS [CLIENTS]]", file=sys.stderr)
        return 2
    kills, clients = ([*map(int, words[1:])] + [200, 100][len(words) - 1:])[:2]
    with tempfile.TemporaryDirectory() as room:
        test, folder, port, chance = Test(os.path.abspath(words[0]), room), os.path.join(room, "world"), free_port(), random.Random()
        world = test.file("world.json", json.dumps({"attrs": 1, "objects": [[EACH]] * 64, "bound": 32}).encode())
        host, longest = Host(test, world, folder, port=port), 0
        movers = [Mover(number, port, 64, 0.05) for number in range(clients)]
        for each in movers:
            each.start()
        for kill in range(kills):
            time.sleep(chance.choice((0.01, 0.05, 0.2, 0.5)) * chance.random() * 2)
            host.kill()
            begun = time.monotonic()
            host = Host(test, world, folder, port=port)
            longest = max(longest, time.monotonic() - begun)
            if kill % 20 == 19:
                print(f"{kill + 1} kills, {host.lines[-1].strip()}", flush=True)
        faults = stop(movers)
        if host.stop() != 0:
            faults.append("it does not stop in order")
        more, history = judge(world, folder, movers)
        stop_all()
        return told(faults + more, history, movers, f"; {kills} kills, the longest start took {longest:.2f} s")


if __name__ == "__main__":
    sys.exit(main(sys.argv[1:]))
