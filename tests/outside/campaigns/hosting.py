"""What the campaigns over `host` share: clients that move numbers about and keep what they were told, and the judging of the log."""

import os
import random
import socket
import sys
import threading
import time
from collections import defaultdict

sys.path.insert(0, os.path.dirname(os.path.dirname(os.path.abspath(__file__))))

from rules.living import check_log, log_text, world_in
from rules.report import Fault as Wrong, reply_text
from tests.test_client import Client, Fault, action, obj, printed

EACH = 1000


def move(source, target, size):
    """Moves so much of one object to another one."""
    return action(obj(source).attr(0).set(obj(source).attr(0) - size), obj(target).attr(0).set(obj(target).attr(0) + size))


class Told(Client):
    """A client that keeps the text of each reply that came, by its life."""

    def __init__(self, *words, **more):
        super().__init__(*words, **more)
        self.came_to = defaultdict(list)

    def accept(self, reply):
        self.came_to[self.life].append(reply_text(printed(reply)))
        return super().accept(reply)


class Mover(threading.Thread):
    """A client that moves numbers among its objects until it is told to stop, and then takes what is due."""

    def __init__(self, number, port, objects, pause=0.0, mine=None, kind=Told):
        super().__init__(daemon=True)
        self.chance, self.mine, self.pause = random.Random(number), mine or range(objects), pause
        self.client = kind(number, objects, 1, tuple(self.mine)[:4], retry=(0.02, 0.2, 100_000),
                           connect=lambda: socket.create_connection(("127.0.0.1", port), timeout=20))
        self.is_over, self.fault, self.outcomes = threading.Event(), None, defaultdict(int)
        self.client.on_reply = self.note

    def note(self, reply):
        self.outcomes[reply.kind] += 1

    def act(self):
        """One more action."""
        self.client.make(move(*self.chance.sample(self.mine, 2), self.chance.randrange(1, 9)))

    def run(self):
        try:
            self.client.join()
            while not self.is_over.is_set():
                start = time.monotonic()
                if len(self.client.pending) < 6:
                    self.act()
                self.client.go_on(0.05)
                self.client.run(max(start + self.pause - time.monotonic(), 0))
            self.client.finish()
            self.client.leave()
        except (Fault, OSError) as fault:
            self.fault = f"{type(fault).__name__}: {fault}"


def stop(movers):
    """They take what is due, and leave. Answers what went wrong."""
    for each in movers:
        each.is_over.set()
    for each in movers:
        each.join(120)
    return [f"client {each.client.number}: {each.fault or 'it does not end'}" for each in movers if each.fault or each.is_alive()]


def is_quiet(text):
    """Whether a reply is a Seen with no value and no item, which may have no entry."""
    return text.startswith("seen ") and text.endswith(" [] []")


def stands_in(came, entered):
    """Whether all that came stands among the entries' replies, in order, but for quiet Seens."""
    place = 0
    for text in came:
        if place < len(entered) and entered[place] == text:
            place += 1
        elif not is_quiet(text):
            return False
    return True


def judge(world, folder, movers, is_honest=True):
    """What is wrong with a log, or with what clients were told; and the history."""
    text, sessions, joins = log_text(folder), defaultdict(list), defaultdict(list)

    def note(entry):
        if entry.request.kind == "join":
            joins[(entry.request.client, entry.request.life)].append(entry.session)
        if entry.request.kind != "end":
            sessions[entry.session].append(entry.reply_text)

    try:
        history, serial = check_log(world_in(world), text, is_honest, note)
    except Wrong as fault:
        return [f"{fault}: {text.splitlines()[fault.line - 1] if fault.line else ''}"], None
    faults, count = [], len(history.accepted)
    last = [serial.value(target, count) for target in range(history.objects)]
    if history.committed != [serial.value(target, history.commit) for target in range(history.objects)]:
        faults.append("the committed world is not the serial one")
    if sum(value[0] for value in last) != EACH * history.objects:
        faults.append(f"the sum is {sum(value[0] for value in last)}")
    for each in movers:
        client = each.client
        for life, came in client.came_to.items():
            asked = [place for place in joins[(client.number, life)] if stands_in(came, sessions[place])]
            if came and not asked and came != [f"refused 11 {life}"]:
                faults.append(f"client {client.number}, life {life}: a reply that came is not in the log: {came[:3]}")
        wrong = [(target, place) for target, held in client.versions.items() for place, value in held.items() if value != serial.value(target, place)]
        if wrong:
            faults.append(f"client {client.number} holds what is not serial: {wrong[:3]}")
    return faults, history


def told(faults, history, movers, more=""):
    """Prints what came out, and answers the status."""
    for each in faults[:20]:
        print(f"wrong: {each}")
    replies = sum(len(came) for each in movers for came in each.client.came_to.values())
    if history:
        print(f"{replies} replies came, {len(history.accepted)} actions were accepted, commit {history.commit}, {history.next_session} sessions{more}")
    print("all is right" if not faults else f"{len(faults)} things are wrong")
    return 1 if faults else 0
