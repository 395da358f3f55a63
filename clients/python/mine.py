#!/usr/bin/env python3
"""Two players dig a mine of 21 nuggets in turns. Who takes the last one wins.

    python3 clients/python/mine.py PLAYER PORT

PLAYER is 0 or 1, and the server at 127.0.0.1:PORT serves clients/python/mine.json. Object 0 is the mine: its nuggets,
and whose turn it is. Objects 1 and 2 are the purses of the players: their nuggets, and how often they dug.
"""

import random
import sys

from dimboetu import Client, Fault, action, obj, when
from example import connect, last_words

MINE = obj(0)


def digging(me, nuggets):
    """The rule of the game: it checks for itself that it is the digger's turn, and that so many nuggets are there."""
    left, turn = MINE.attr(0), MINE.attr(1)
    purse = obj(me + 1)
    return action(when((turn == me) & (left >= nuggets), [
        left.set(left - nuggets), turn.set(1 - me),
        purse.attr(0).set(purse.attr(0) + nuggets), purse.attr(1).set(purse.attr(1) + 1)]))


def play(me, port):
    """Player 0 knows the trick; player 1 takes what comes to mind."""
    client = Client(number=me, objects=3, attributes=2, interest=(0, 1, 2), pause=0.2,
                    on_change=lambda target, old, new: print(f"player {me} sees object {target}: {new}", flush=True))
    client.join(connect(port))

    def look(values, changed):
        left, turn = values[0]
        if left > 0 and turn == me:
            client.act(digging(me, (left % 4 or 1) if me == 0 else random.randint(1, min(3, left))))
        return left == 0

    client.watch((0, 1, 2), look)
    client.run()
    client.leave()


if __name__ == "__main__":
    if len(sys.argv) != 3 or sys.argv[1] not in ("0", "1") or not sys.argv[2].isdigit():
        sys.exit("words: PLAYER PORT, and PLAYER is 0 or 1")
    try:
        play(int(sys.argv[1]), int(sys.argv[2]))
    except (Fault, OSError) as fault:
        sys.exit(last_words(fault))
