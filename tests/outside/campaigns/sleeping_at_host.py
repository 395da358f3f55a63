#!/usr/bin/env python3
"""One client sleeps behind an action whose result it owes, and others play on, at a `host`.

    python3 tests/outside/campaigns/sleeping_at_host.py PROGRAM [SECONDS [CLIENTS [RATE]]]

20 others, each on two objects of its own at 40 actions a second, for 10 seconds, if not said otherwise: none of their actions may be
dropped in a world of bound 32 where the first report counts, and none in a world of bound 0 where the steward's reports alone count. Then
the same with one that comes back, acts, is silent and is cut, ten times a second. Prints the figures. The status is 1 where one is dropped.
"""

import json
import os
import sys
import tempfile
import threading
import time

sys.path.insert(0, os.path.dirname(os.path.dirname(os.path.abspath(__file__))))

from campaigns.hosting import EACH, Mover, judge, move, stop, told
from doubles.programs import free_port, reset, stop_all
from tests.test_host import Host, Test, Wire

SLEEPER = 999


def sleep(port, is_over, objects):
    """Acts once, and owes the result."""
    link = Wire(port)
    link.ask("join", SLEEPER, 1, ())
    link.ask("submit", 1, move(objects - 2, objects - 1, 1))
    is_over.wait()
    link.link.close()


def come_and_go(port, is_over, objects):
    """Comes back, acts and is cut, again and again."""
    life = 0
    while not is_over.wait(0.1):
        life += 1
        link = Wire(port)
        link.ask("join", SLEEPER, life, ())
        link.ask("submit", life, move(objects - 2, objects - 1, 1))
        reset(link.link)


def trial(program, name, sleeper, seconds, clients, rate, **more):
    """One world. Answers the status."""
    with tempfile.TemporaryDirectory() as room:
        objects = 2 * clients + 2
        test, folder, port, is_over = Test(program, room), os.path.join(room, "world"), free_port(), threading.Event()
        world = test.file("world.json", json.dumps({"attrs": 1, "objects": [[EACH]] * objects, **more}).encode())
        host = Host(test, world, folder, port=port)
        movers = [Mover(number, port, objects, 1 / rate, (2 * number, 2 * number + 1)) for number in range(clients)]
        for each in movers:
            each.start()
        one = threading.Thread(target=sleeper, args=(port, is_over, objects), daemon=True)
        one.start()
        time.sleep(seconds)
        status = host.status()
        is_over.set()
        one.join(10)
        faults = stop(movers)
        host.stop()
        wrong, history = judge(world, folder, movers)
        stop_all()
        dropped = sum(each.outcomes["dropped"] for each in movers)
        made = sum(each.client.made for each in movers)
        if dropped:
            wrong.append(f"{dropped} of {made} actions were dropped")
        print(f"{name}: {made / seconds / clients:.1f} actions a second of each; {status['reported_by_steward']} results by the steward; "
              f"{status['uncommitted']} uncommitted at last")
        return told(faults + wrong, history, movers)


def main(words):
    """The status of these words."""
    if not 1 <= len(words) <= 4:
        print("words: PROGRAM [SECONDS [CLIENTS [RATE]]]", file=sys.stderr)
        return 2
    program, numbers = os.path.abspath(words[0]), ([*map(int, words[1:])] + [10, 20, 40][len(words) - 1:])[:3]
    return max(trial(program, f"{what}, {name}", sleeper, *numbers, **more)
               for what, more in (("first, bound 32", {"bound": 32}), ("authority, bound 0", {"bound": 0, "results": "authority"}))
               for name, sleeper in (("one sleeps", sleep), ("one comes and goes", come_and_go)))


if __name__ == "__main__":
    sys.exit(main(sys.argv[1:]))
