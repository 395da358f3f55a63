#!/usr/bin/env python3
"""Joins a served world, makes actions of its own, and shows its views as they change.

    python3 clients/python/example.py FILE NUMBER PORT [COUNT]

Plays client NUMBER of the scenario FILE on 127.0.0.1, in the place of its script: it adds 1 to attribute 0 of each
object of its interest in turn, COUNT times in all (6), and looks at all of them at last.
"""

import json
import socket
import sys
import time

from dimboetu import Client, Fault, action, obj


def connect(port, tries=100):
    """A connection to the server, which may come up to ten seconds later."""
    for _ in range(tries):
        try:
            return socket.create_connection(("127.0.0.1", port))
        except ConnectionRefusedError:
            time.sleep(0.1)
    return socket.create_connection(("127.0.0.1", port))


def last_words(fault):
    """What a program says that ends by this fault."""
    return f"stopped: {fault}"


def play(path, number, port, count=6):
    """One session. A line is printed for each change of a view: what the client expects, until it sees the outcome."""
    with open(path, encoding="utf-8") as file:
        scenario = json.load(file)
    interest = scenario["clients"][number]["interest"]

    def show(target, old, new):
        word = "expects" if any(target in act.writes for _, act, _ in client.pending) else "sees"
        print(f"client {number} {word} object {target}: {old} -> {new}", flush=True)

    client = Client(number, len(scenario["objects"]), scenario["attrs"], interest, show)
    client.join(connect(port))
    client.finish()
    for place in range(count if interest else 0):
        target = obj(interest[place % len(interest)])
        client.act(action(target.attr(0).set(target.attr(0) + 1)))
        while len(client.pending) > 3:
            client.take()
    client.finish()
    for first in range(0, len(interest), 16):
        client.act(action(reads=interest[first:first + 16]))
    client.leave()
    print(f"client {number} made {client.made} actions; the last commit that it was told is {client.told}")


if __name__ == "__main__":
    if len(sys.argv) not in (4, 5) or not all(word.isdigit() for word in sys.argv[2:]):
        sys.exit("words: FILE NUMBER PORT [COUNT]")
    try:
        play(sys.argv[1], *map(int, sys.argv[2:]))
    except (Fault, OSError, ValueError, LookupError) as fault:
        sys.exit(last_words(fault))
