#!/usr/bin/env python3
"""A liar among honest clients, at a `host` whose world has "results": "authority".

    python3 tests/outside/campaigns/lying_to_host.py PROGRAM [SECONDS [CLIENTS]]

20 honest clients for 20 seconds, if not said otherwise. The liar joins under many numbers and lives, asks for all that it can, and reports
wrong results of everything that it is sent. The world must be the serial one of the log's actions, by an evaluator of our own, and no
honest client may hold a value that is not. Prints the figures. The status is 1 where something is wrong.
"""

import json
import os
import random
import sys
import tempfile
import threading
import time

sys.path.insert(0, os.path.dirname(os.path.dirname(os.path.abspath(__file__))))

from campaigns.hosting import EACH, Mover, judge, move, stop, told
from doubles.programs import free_port, stop_all
from tests.test_host import Host, Test, Wire

OBJECTS = 16


class Liar(threading.Thread):
    """Joins under one number after the other, and lies."""

    def __init__(self, port):
        super().__init__(daemon=True)
        self.port, self.chance, self.is_over, self.lies, self.noted = port, random.Random(1), threading.Event(), 0, 0

    def lie(self, link, reply):
        """Reports wrong results of all items of a reply."""
        if not reply or not reply.items:
            return
        results = tuple((item.position, tuple((self.chance.randrange(10 ** 6),) for _ in item.action.writes)) for item in reply.items)
        answer = link.ask("done", results)
        self.lies += len(results)
        self.noted += bool(answer) and answer.kind == "noted"

    def run(self):
        life = 0
        while not self.is_over.is_set():
            number = 100 + self.chance.randrange(50)
            life += 1
            link = Wire(self.port)
            reply = link.ask("join", number, 1, tuple(range(8)))
            if reply and reply.kind == "refused" and reply.code == 11:
                reply = link.ask("join", number, reply.detail + 1, tuple(range(8)))
            for turn in range(self.chance.randrange(1, 30)):
                self.lie(link, link.ask("observe", tuple(sorted(self.chance.sample(range(OBJECTS), 8))), 0))
                self.lie(link, link.ask("poll"))
                if turn == 0:
                    upcoming = link.ask("submit", 0, move(0, 1, 1))
                    number = upcoming.detail if upcoming and upcoming.kind == "refused" and upcoming.code == 5 else None
                if number is not None:
                    self.lie(link, link.ask("submit", number, move(*self.chance.sample(range(OBJECTS), 2), 1)))
                    number += 1
            link.link.close()


def main(words):
    """The status of these words."""
    if not 1 <= len(words) <= 3:
        print("words: PROGRAM [SECONDS [CLIENTS]]", file=sys.stderr)
        return 2
    seconds, clients = ([*map(int, words[1:])] + [20, 20][len(words) - 1:])[:2]
    with tempfile.TemporaryDirectory() as room:
        test, folder, port = Test(os.path.abspath(words[0]), room), os.path.join(room, "world"), free_port()
        world = test.file("world.json", json.dumps({"attrs": 1, "objects": [[EACH]] * OBJECTS, "bound": 8, "results": "authority"}).encode())
        host = Host(test, world, folder, port=port)
        movers, liar = [Mover(number, port, OBJECTS, 0.02) for number in range(clients)], Liar(port)
        for each in (*movers, liar):
            each.start()
        time.sleep(seconds)
        liar.is_over.set()
        liar.join(30)
        faults = stop(movers)
        if host.stop() != 0:
            faults.append("it does not stop in order")
        more, history = judge(world, folder, movers, False)
        stop_all()
        if liar.is_alive() or not liar.noted:
            faults.append("the liar was not heard")
        return told(faults + more, history, movers, f"; {liar.lies} lies, in {liar.noted} reports that were noted")


if __name__ == "__main__":
    sys.exit(main(sys.argv[1:]))
