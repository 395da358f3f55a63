#!/usr/bin/env python3
"""Lets clients come and go at a `host` for a long time, and looks at its memory and its open files.

    python3 tests/outside/campaigns/soak_host.py PROGRAM [SECONDS [CLIENTS [PAUSE]]]

An hour with 300 clients, if not said otherwise, who wait up to PAUSE (0.4) seconds after each action. A client joins, acts and watches for some seconds, and leaves, or is gone, or falls
silent for a while; then it comes back under another number, of twice as many as there are clients. Sixty times the resident memory, the
open files and the status are printed. The memory of the last five sixths may not be above that of the first one by more than 5 percent,
and at the end the files are those of the beginning. The status is 1 where that is not so.
"""

import json
import os
import random
import socket
import sys
import tempfile
import threading
import time

sys.path.insert(0, os.path.dirname(os.path.dirname(os.path.abspath(__file__))))

from campaigns.hosting import EACH, move
from doubles.programs import free_port, reset, stop_all
from tests.test_client import Client, Fault
from tests.test_host import Host, Test

OBJECTS, SAMPLES = 1024, 60


def stay(chance, port, number, pause, is_over):
    """One stay of a client."""
    own = sorted(chance.sample(range(OBJECTS), 4))
    client = Client(number, OBJECTS, 1, tuple(own), retry=(0.1, 1, 50), connect=lambda: socket.create_connection(("127.0.0.1", port), timeout=20))
    client.join()
    client.watch(own, lambda values, changed: None)
    for _ in range(chance.randrange(1, 40)):
        if is_over.is_set():
            break
        if len(client.pending) < 8:
            client.make(move(*chance.sample(own, 2), 1))
        client.run(chance.random() * pause)
    ending = chance.randrange(4)
    if ending == 0:
        client.leave()
    elif ending == 1 and client.link:
        reset(client.link)
    elif ending == 2:
        is_over.wait(chance.random() * 5)
    client.close()


def work(seed, port, pause, is_over, faults):
    """Stays, one after the other. A number that another stay has at that moment is pushed out, and that is no fault."""
    chance = random.Random(seed)
    while not is_over.is_set():
        try:
            stay(chance, port, 2 * seed + chance.randrange(2), pause, is_over)
        except (Fault, OSError) as fault:
            faults.append(f"{type(fault).__name__}: {fault}")
            if len(faults) > 1000:
                return


def main(words):
    """The status of these words."""
    if not 1 <= len(words) <= 4:
        print("words: PROGRAM [SECONDS [CLIENTS [PAUSE]]]", file=sys.stderr)
        return 2
    seconds, clients = ([*map(int, words[1:3])] + [3600, 300][len(words[1:3]):])[:2]
    pause = float(words[3]) if len(words) > 3 else 0.4
    with tempfile.TemporaryDirectory() as room:
        test, faults, is_over = Test(os.path.abspath(words[0]), room), [], threading.Event()
        world = test.file("world.json", json.dumps({"attrs": 1, "objects": [[EACH]] * OBJECTS, "bound": 32}).encode())
        host = Host(test, world, os.path.join(room, "world"), "--idle", 3, port=free_port())
        files = f"/proc/{host.process.pid}/fd"
        opened, memory = len(os.listdir(files)), []
        threads = [threading.Thread(target=work, args=(number, host.port, pause, is_over, faults), daemon=True) for number in range(clients)]
        for each in threads:
            each.start()
        print("seconds  resident  files  open  sessions  entries  uncommitted  log")
        for sample in range(SAMPLES):
            time.sleep(seconds / SAMPLES)
            with open(f"/proc/{host.process.pid}/status", encoding="ascii") as file:
                memory.append(int(file.read().split("VmRSS:")[1].split()[0]))
            try:
                now = host.status()
            except ValueError:          # there are too many connections at that moment
                continue
            print(f"{seconds * (sample + 1) / SAMPLES:7.0f}  {memory[-1]:8}  {len(os.listdir(files)):5}  {now['open']:4}  {now['sessions']:8}  "
                  f"{now['entries']:7}  {now['uncommitted']:11}  {now['log_bytes']}", flush=True)
        is_over.set()
        for each in threads:
            each.join(60)
        latest = time.monotonic() + 30
        while len(os.listdir(files)) > opened and time.monotonic() < latest:
            time.sleep(0.1)
        left, status = len(os.listdir(files)), host.status()
        host.stop()
        stop_all()
        first, rest = max(memory[:SAMPLES // 6]), max(memory[SAMPLES // 6:])
        print(f"memory {first} kB, then at most {rest} kB ({100 * rest / first - 100:+.1f} percent); files {opened}, then {left}; "
              f"{status['sessions']} sessions, {status['entries']} entries; {len(faults)} stays broke off: {sorted(set(faults))[:3]}")
        is_right = rest <= 1.05 * first and left <= opened + 1 and status["open"] == 1
        print("all is right" if is_right else "something is wrong")
        return 0 if is_right else 1


if __name__ == "__main__":
    sys.exit(main(sys.argv[1:]))
