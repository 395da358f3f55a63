#!/usr/bin/env python3
"""Tests of the clients in Python and JavaScript against a server that holds Observes, and whose connections break.

    python3 tests/outside/tests/test_living.py

The server is the double of doubles/holding.py. First what it answers itself, by tables; then both clients: what `watch` tells,
how often it asks, connections that break at each message in turn, programs that are pushed out or take up a place,
keys; and eight clients of each at once in one world, whose sum must be kept. Where there is no node, the Python client
alone. Closes with `N passed, M failed`.
"""

import json
import math
import os
import random
import select
import shutil
import signal
import socket
import subprocess
import sys
import threading
import time
from concurrent.futures import ThreadPoolExecutor
from types import SimpleNamespace

sys.path.insert(0, os.path.dirname(os.path.dirname(os.path.abspath(__file__))))

from doubles.holding import MOMENTS, Holding
from rules import wire
from rules.report import Fault as Wrong, Reply, reply_text
from tests.counting import ROOT
from tests.test_client import Client, Compared, Fault, Lied, Payload, action, history_of, obj, printed, reply, request_bytes, scenario

LONGEST = 100
ADD = ["reads {0} writes {0} {{ set @{0}.0 (@{0}.0 + 1); }}".format(target) for target in range(2)]
KEYS = {bytes(range(16)): 0, bytes(range(64)): 1}
NODE = ["node", "--no-warnings", "--experimental-websocket"]
PLAYED = os.path.join(ROOT, "clients", "js", "test", "living.js")


class Shared(Compared):
    """What passed and what failed, counted by several threads."""

    lock = threading.Lock()

    def expect(self, holds, name):
        """One thing tried."""
        with self.lock:
            super().expect(holds, name)


def judge(count, name, server, opening, bound=32):
    """The journal is legal, and no action counts twice; answers the history and the serial world."""
    text, sessions = server.journal()
    plan = SimpleNamespace(attributes=1, opening=opening, bound=bound, reach=None, sessions=sessions)
    try:
        history, serial = history_of(plan, text)
    except Wrong as fault:
        count.expect(False, f"{name}: {fault}: {text.splitlines()[fault.line - 1] if fault.line else ''}")
        return None, None
    pairs = [(one.author, one.number) for one in history.accepted]
    count.same(len(set(pairs)), len(pairs), f"{name}: no action twice")
    return history, serial


# The double itself.

class Raw:
    """A connection whose bytes the test has."""

    def __init__(self, server):
        self.link, self.frames = socket.create_connection(("127.0.0.1", server.port), timeout=5), wire.Frames()

    def say(self, *requests):
        """Sends requests at once."""
        self.link.sendall(b"".join(wire.frame(request_bytes(*each)) for each in requests))

    def hear(self, seconds=2.0):
        """The next reply as a text; `nothing` where none came in time, `closed` at the end."""
        end = time.monotonic() + seconds
        while (payload := self.frames.next()) is None:
            if not select.select([self.link], [], [], max(end - time.monotonic(), 0))[0]:
                return "nothing"
            try:
                piece = self.link.recv(65_536)
            except OSError:
                piece = b""
            if not piece:
                return "closed"
            self.frames.feed(piece)
        return reply_text(printed(Payload(payload).reply()))


JOIN = ("join", 0, 1, (0,))
# Each row: what is said over one connection, and what is heard: each reply, with the least and the greatest time before it.
HELD = (
    ("what was not given yet is news", [JOIN, ("observe", (0, 1), 500)],
     [("welcome 0 [0=(0)]", 0, .2), ("seen 0 at 0 [1=(0)] []", 0, .2)]),
    ("no news before the wait is over", [JOIN, ("observe", (0,), 200)],
     [("welcome 0 [0=(0)]", 0, .1), ("seen 0 at 0 [] []", .2, .4)]),
    ("no wait", [JOIN, ("observe", (0,), 0)], [("welcome 0 [0=(0)]", 0, .1), ("seen 0 at 0 [] []", 0, .1)]),
    ("another request", [JOIN, ("observe", (0,), 5000), ("poll",)],
     [("welcome 0 [0=(0)]", 0, .1), ("seen 0 at 0 [] []", 0, .1), ("idle", 0, .1)]),
    ("an Observe is another request too", [JOIN, ("observe", (0,), 5000), ("observe", (0,), 200)],
     [("welcome 0 [0=(0)]", 0, .1), ("seen 0 at 0 [] []", 0, .1), ("seen 0 at 0 [] []", .2, .4)]),
    ("who did not join is refused at once", [("observe", (0,), 5000)], [("refused 2 0", 0, .1)]),
    ("and who names what the world lacks", [JOIN, ("observe", (9,), 5000)], [("welcome 0 [0=(0)]", 0, .1), ("refused 8 0", 0, .1)]),
    ("a life that is not above the last one", [("join", 0, 3, ()), ("poll",)], [("welcome 0 []", 0, .1), ("idle", 0, .1)]),
    ("or too far above it", [("join", 0, 1001, ()), ("join", 0, 1000, ())], [("refused 11 0", 0, .1), ("welcome 0 []", 0, .1)]),
    ("a Hello says nothing where there are no keys", [("hello", bytes(16)), JOIN], [("welcome 0 [0=(0)]", 0, .1)]),
    ("a later one is no request", [JOIN, ("hello", bytes(16))],
     [("welcome 0 [0=(0)]", 0, .1), ("refused 1 0", 0, .1), ("closed", 0, .1)]))
KEYED = (
    ("the key of this number", [("hello", bytes(range(16))), JOIN], ["welcome 0 [0=(0)]"]),
    ("the key of another number", [("hello", bytes(range(64))), JOIN], ["closed"]),
    ("no such key", [("hello", bytes(20)), JOIN], ["closed"]), ("no key", [JOIN], ["closed"]))


def test_double(count):
    """What the double holds, and whom it lets in."""
    for name, said, wanted in HELD:
        server = Holding(scenario([[0], [0]], 8, (0,)))
        raw = Raw(server)
        raw.say(*said)
        for text, least, most in wanted:
            start, heard = time.monotonic(), raw.hear()
            took = time.monotonic() - start
            count.same(heard, text, f"{name}: {text}")
            count.expect(least * 0.9 <= took < most + 3, f"{name}: {text} after {took:.3f}")
        server.stop()
    for name, said, wanted in KEYED:
        server = Holding(scenario([[0], [0]], 8, (0,)), keys=KEYS)
        raw = Raw(server)
        raw.say(*said)
        count.same([raw.hear() for _ in wanted], wanted, f"keys: {name}")
        server.stop()
    server = Holding(scenario([[0], [0]], 8, (0,)))
    watcher, actor = Raw(server), Raw(server)
    watcher.say(JOIN, ("observe", (0,), 5000))
    actor.say(("join", 1, 1, ()))
    count.same([watcher.hear(), actor.hear(), watcher.hear(0.1)], ["welcome 0 [0=(0)]", "welcome 0 []", "nothing"], "held")
    actor.say(("submit", 1, action(obj(0).attr(0).set(7))))
    count.same(watcher.hear(), "seen 1 at 0 [] [1:c1.1]", "and answered as soon as there is news")
    server.stop()


# The Python client.

class Player:
    """A Python client, with what it was told."""

    def __init__(self, server, number, objects=2, interest=(), saved=None, kind=Client, **more):
        self.statuses, self.calls, self.replies = [], [], []
        more = {"connect": lambda: socket.create_connection(("127.0.0.1", server.port)), "retry": (0.01, 0.05, 200),
                "on_status": lambda status, fault: self.statuses.append(status), "on_reply": self.replies.append,
                "pause": 0.05, "wait": 5, **more}
        self.client = again_of(saved, **more) if saved else kind(number, objects, 1, interest, **more)

    def watch(self, objects):
        """Watches objects; keeps each call."""
        return self.client.watch(objects, lambda values, changed: self.calls.append((values, changed)))


def again_of(saved, **more):
    """The client of another process, from what one keeps as JSON."""
    return Client.from_saved(json.loads(json.dumps(saved)), **more)


def seen_of(calls, target):
    """What a watcher was told of an object, in order."""
    return [values[target] and values[target][0] for values, changed in calls if target in changed]


def check_calls(count, name, calls):
    """Each call tells what changed, and nothing else; the first one all."""
    before = {}
    for values, changed in calls:
        wanted = [target for target in sorted(values) if target not in before or before[target] != values[target]]
        if changed != wanted or not changed:
            count.expect(False, f"{name}: told that {changed} changed, from {before} to {values}")
            return
        before = values
    count.expect(True, name)


def run_broken(count, moment, number):
    """Two players in turn, the connection of the first of which breaks at this moment."""
    name, server = f"Python, {moment} {number}", breaking(moment, number)
    first, second = Player(server, 0), Player(server, 1)
    try:
        for each in (first, second):
            each.client.join()
        first.watch((0, 1))
        for _ in range(4):
            first.client.make(ADD[0])
            first.client.run(0.005)
            second.client.make(ADD[1])
            second.client.run(0.005)
        end = time.monotonic() + 20
        while first.client.is_due() or first.client.view(1) != (4,) or first.client.life < 2:
            if first.client.life < 2 and first.client.status == "joined":
                first.client.poll()
            first.client.run(0.01)
            if time.monotonic() > end:
                raise Fault(f"no end: {first.client.view(1)}, {first.statuses}")
        for each in (second, first):
            each.client.leave()
    except (Fault, OSError) as fault:
        count.expect(False, f"{name}: {fault}")
    server.stop()
    judge_broken(count, name, server, first.calls, first.client.life)


def breaking(moment, number):
    """A server that breaks the connection of client 0 at this moment."""
    return Holding(scenario([[0], [0]], 32, (0,)), cuts=[(moment, number)], may_cut=lambda connection: connection.client == 0)


def judge_broken(count, name, server, calls, life):
    """Each action counts once; each change was told once, and in order."""
    history, _ = judge(count, name, server, [(0,), (0,)])
    if not history:
        return
    for author in range(2):
        count.same([one.number for one in history.accepted if one.author == author], [1, 2, 3, 4], f"{name}: each action once")
    check_calls(count, name, calls)
    for target in range(2):
        seen = seen_of(calls, target)
        count.expect(seen == sorted(set(seen)) and seen[-1] == 4, f"{name}: object {target}, in order and once: {seen}")
    count.same((len(server.cut), life), (1, 2), f"{name}: one more session")


BROKEN = [(moment, number) for moment in MOMENTS for number in range(1, 11)]


def test_broken(count):
    """Connections that break at each message in turn."""
    with ThreadPoolExecutor(6) as crew:
        for _ in crew.map(lambda broken: run_broken(count, *broken), BROKEN):
            pass


def test_broken_js(count):
    """The same for the JavaScript client, all at once."""
    servers = [breaking(moment, number) for moment, number in BROKEN]
    found = node(count, "broken", *(server.port for server in servers))
    for (moment, number), server, each in zip(BROKEN, servers, found or []):
        server.stop()
        name = f"JavaScript, {moment} {number}"
        count.same(each["kinds"], ["accepted"] * 8, f"{name}: outcomes")
        judge_broken(count, name, server, calls_of(each["calls"]), each["life"])


def node(count, *words):
    """What players of the JavaScript client were told."""
    done = subprocess.run([*NODE, PLAYED, *map(str, words)], capture_output=True, text=True, timeout=LONGEST, check=False)
    count.same((done.returncode, done.stderr), (0, ""), f"living.js {words[0]}")
    return json.loads(done.stdout) if done.returncode == 0 else None


def calls_of(calls):
    """The calls of a watcher of the JavaScript client, as those of the Python one."""
    return [({target: None if value is None else (value,) for target, value in values}, changed) for values, changed in calls]


# What is told, and how often is asked.

NINE, TIMES_TWO = "reads 0 writes 0 { set @0.0 9; }", "reads 0 writes 0 { set @0.0 (@0.0 * 2); }"
# Each row: what the client makes, or what its server says and the actions of its items; and what a watcher is told then.
TOLD = (
    ("make", ADD[0], [(6, [0])]), ("seen 1 at 0 [] [1:c1.1]", NINE, [(10, [0])]), ("make", TIMES_TWO, [(20, [0])]),
    ("dropped 1 chain 1 far 0", None, [(18, [0])]), ("noted 1", None, []),
    ("relay 2 at 1 [] [2:c0.2]", TIMES_TWO, []), ("noted 2", None, []), ("make", ADD[0], [(19, [0])]),
    ("denied 3 object 0", None, [(18, [0])]), ("make", "reads 0 2 writes 0 { set @0.0 @2.0; }", [(None, [0])]),
    ("make", ADD[1], [(None, [1])]), ("settled 4 at 3", None, [(18, [0])]), ("settled 5 at 3", None, [(18, [1])]))


# An Observe is sent while nothing else is asked, but results.
ASKED_BESIDE = (
    ("make", ADD[0], ["submit", "observe"]), ("relay 1 at 0 [] [1:c0.1]", ADD[0], ["observe", "done"]),
    ("seen 1 at 0 [] []", None, ["done", "observe"]), ("noted 1", None, ["observe"]), ("make", ADD[0], ["observe", "submit"]),
    ("seen 1 at 1 [] []", None, ["submit"]), ("settled 2 at 2", None, ["observe"]))


def test_told(count):
    """Guesses are told at once and put right; each change once."""
    client, calls = Lied(), []
    client.shape = (3, 1)
    client.say(reply("welcome 0 [0=(5) 1=(7)]"))
    watcher = client.watch((1, 0), lambda values, changed: calls.append((values[0] and values[0][0], changed)))
    count.same(calls, [], "told: nothing before it has its handle")
    client.run(0)
    count.same(calls, [(5, [0, 1])], "told: at first all")
    count.same([request[:3] for request in client.outstanding], [("observe", (0, 1), 25_000)], "told: one Observe with a wait")
    for what, text, wanted in TOLD:
        calls.clear()
        client.make(text) if what == "make" else client.say(reply(what, *filter(None, [text])))
        count.same(calls, wanted, f"told: {what} {text}")
    count.same([request[0] for request in client.outstanding], [], "told: all is answered")
    watcher.stop()
    client.make(NINE)
    count.same((len(calls), client.view(0)), (1, (9,)), "told: nothing to who stopped")
    client = Lied()
    client.say(reply("welcome 0 [0=(5) 1=(7)]"))
    client.pause = 60
    client.watch((0,), lambda values, changed: None)
    for what, text, wanted in ASKED_BESIDE:
        client.make(text) if what == "make" else client.say(reply(what, *filter(None, [text])))
        client.looked = -math.inf
        client.run(0)
        count.same([request[0] for request in client.outstanding], wanted, f"told: what is asked after {what}")
    chain = []

    def act(values, changed):
        chain.append(values[1][0])
        if values[1][0] < 11:
            client.make(ADD[1])
        return values[1][0] == 11

    client.watch((1,), act)
    client.run(0)
    count.same((chain, client.watchers[1:]), ([7, 8, 9, 10, 11], []), "told: what a callback does, when it is done; and its end")


# Each row: whether the server holds; how often somebody acts, in milliseconds; how often is asked at most in half a second,
# with a pause of 50 milliseconds; and how many of the actions the watcher is told of at least.
ASKED = ((True, None, 1, 0), (False, None, 11, 0), (True, 100, 12, 0.8), (False, 100, 11, 0.5), (True, 10, 60, 0.5),
         (False, 10, 11, 0.05))


def watched(count, holds, often, most):
    """What share of the actions of another client a watcher is told of, in half a second."""
    server, is_over = Holding(scenario([[0], [0]], 32, (0,)), holds=holds), threading.Event()
    watcher, actor = Player(server, 0, interest=(0,)), Player(server, 1)
    for each in (watcher, actor):
        each.client.join()

    def act():
        while not is_over.wait(often / 1000):
            actor.client.make(ADD[0])
            actor.client.finish()

    thread, start = threading.Thread(target=act if often else is_over.wait, daemon=True), time.monotonic()
    watcher.watch((0,))
    thread.start()
    watcher.client.run(0.5)
    is_over.set()
    asked, took = len(server.observed), time.monotonic() - start
    thread.join(5)
    watcher.client.leave()
    server.stop()
    seen = seen_of(watcher.calls, 0)
    count.expect(1 <= asked <= max(most * took / 0.5, most), f"asked: {asked} times in {took:.2f}, {holds}, {often}")
    count.same(seen, sorted(set(seen)), "asked: each change once, and in order")
    return (len(seen) - 1) / max(actor.client.made, 1)


def test_asked(count):
    """A watcher asks no more often than it may, and is told of what it can. (A machine that has no time is given several tries.)"""
    def run(row):
        holds, often, most, least = row
        shares = [watched(count, holds, often, most)]
        while shares[-1] < least and len(shares) < 6:
            shares.append(watched(count, holds, often, most))
        count.expect(shares[-1] >= least, f"asked: told of {shares}, {row}")

    with ThreadPoolExecutor(6) as crew:
        list(crew.map(run, ASKED))


# Places, keys, and connections that do not come back.

def fault_of(call):
    """The fault that a call raises: its text or its kind, and the code and the detail of a refusal."""
    try:
        call()
    except Fault as fault:
        return (fault.word, fault.code, fault.detail)
    except OSError as fault:
        return type(fault).__name__
    return None


def test_places(count):
    """A program is pushed out; another one takes up its place; one goes on from what was saved, and one comes too late."""
    server = Holding(scenario([[0], [0]], 32, (0,)))
    first, second = Player(server, 0), Player(server, 0)
    first.client.join()
    first.watch((0,))
    for _ in range(3):
        first.client.make(ADD[0])
        first.client.finish()
    first.client.run(0.1)
    count.refuses(lambda: second.client.make(ADD[0]), "outside", "places: nothing is made before it joins")
    second.client.join()
    count.same((second.client.life, second.client.made), (2, 3), "places: the second one takes the place up")
    second.watch((0,))
    second.client.make(ADD[0])
    second.client.finish()
    count.same(fault_of(lambda: first.client.run(9)), ("wrongkind", 4, 0), "places: the first one is pushed out")
    count.same(fault_of(lambda: first.client.run(1)), ("outside", None, None), "places: and does not join again by itself")
    second.client.make(ADD[0])
    saved = second.client.saved()
    second.client.close()
    third, old = Player(server, 0, saved=saved), Player(server, 0, saved=saved)
    third.client.join()
    third.watch((0,))
    third.client.finish()
    third.client.run(0.05)
    count.same(fault_of(old.client.join), ("wrongkind", 11, 3), "places: what was saved is too old")
    third.client.leave()
    count.same([each.kind for each in first.replies if each.kind != "seen"], ["welcome", *["relay", "noted"] * 3],
               "places: each reply is told")
    found = {"tookUp": [2, 3], "outcome": {"number": 4, "kind": "accepted", "position": 4}, "saved": len(saved["pending"]),
             "third": [third.client.life, third.client.made], "calls": [each.calls for each in (first, second, third)],
             "statuses": [each.statuses for each in (first, second, third, old)], "refused": None}
    judge_places(count, "Python", server, found)


PLACES = [["joining", "joined", "pushed out"], ["joining", "joined", "closed"], ["joining", "joined", "left"],
          ["joining", "pushed out"]]


def judge_places(count, name, server, found):
    """What the four programs were told."""
    server.stop()
    count.same(found["tookUp"], [2, 3], f"places, {name}: life, and actions made")
    count.same(found["outcome"], {"number": 4, "kind": "accepted", "position": 4}, f"places, {name}: the next action")
    count.same((found["saved"], found["third"]), (1, [3, 5]), f"places, {name}: what was saved")
    count.same(found["statuses"], PLACES, f"places, {name}: statuses")
    for calls, wanted in zip(found["calls"], ([1, 2, 3], [4, 5], [5])):
        count.same(seen_of(calls, 0)[-len(wanted):], wanted, f"places, {name}: what they were told")
        check_calls(count, f"places, {name}", calls)
    history, _ = judge(count, f"places, {name}", server, [(0,), (0,)])
    count.same([one.number for one in history.accepted], [1, 2, 3, 4, 5], f"places, {name}: each action once")
    journal = server.journal()[0]
    for line in ("join c0 1 [] -> refused 11 1", "join c0 2 [] -> welcome", "submit 0 reads 0 writes { } -> refused 5 4",
                 "-> refused 4 0", "join c0 3 [] -> welcome", "join c0 3 [] -> refused 11 3"):
        count.expect(line in journal, f"places, {name}: the journal has {line}")


TAKEN_UP = [(moment, number) for moment in MOMENTS for number in range(1, 4)]


def taken_before(moment, number):
    """A server at which client 0 made three actions and left; the next connection breaks at this moment."""
    server = Holding(scenario([[0], [0]], 32, (0,)))
    player = Player(server, 0)
    player.client.join()
    for _ in range(3):
        player.client.make(ADD[0])
    player.client.leave()
    server.cuts.append((moment, number))
    return server


def judge_taken_up(count, name, server, life, made):
    """The place was taken up, though the connection broke; the next action counts once."""
    server.stop()
    history, _ = judge(count, name, server, [(0,), (0,)])
    count.same([one.number for one in history.accepted], [1, 2, 3, 4], f"{name}: each action once")
    count.same((len(server.cut), made), (1, 4), f"{name}: the next number")
    count.expect(2 <= life <= 4, f"{name}: life {life}")


def test_taken_up(count):
    """Connections that break at each message of a program that takes up a place."""
    for moment, number in TAKEN_UP:
        server = taken_before(moment, number)
        client = Player(server, 0).client
        client.join()
        client.make(ADD[0])
        client.finish()
        client.leave()
        judge_taken_up(count, f"taken up, {moment} {number}", server, client.life, client.made)


def test_places_js(count):
    """The same with the JavaScript client, and keys, over frames and over WebSockets."""
    server, keeper = Holding(scenario([[0], [0]], 32, (0,))), Holding(scenario([[0], [0]], 8, (0,)), keys=KEYS)
    others = [taken_before(*each) for each in TAKEN_UP]
    found, entered, taken = node(count, "places", server.port, keeper.port, *(each.port for each in others)) or (None, None, [])
    keeper.stop()
    for each, other, numbers in zip(TAKEN_UP, others, taken):
        judge_taken_up(count, f"taken up, JavaScript, {each}", other, *numbers)
    if found:
        count.same((entered, keeper.came), (["left"] * 2 + ["closed"] * 6, 14), "keys, JavaScript: who may join")
        count.same(found["refused"], {"code": 11, "detail": 3, "name": "old life"}, "places, JavaScript: the refusal")
        found["calls"] = [calls_of(calls) for calls in found["calls"]]
        found["statuses"] = [[status.replace("pushed out over", "pushed out").replace("pushed out old life", "pushed out")
                              .replace("closed", "closed") for status in each] for each in found["statuses"]]
        judge_places(count, "JavaScript", server, found)


def test_refused(count):
    """Keys, refusals, a life that is too far above the last one, and nobody who answers."""
    few = {"retry": (0.01, 0.02, 3)}
    for key, number, wanted, came in ((bytes(range(16)), 0, "joined", 1), (bytes(range(64)), 1, "joined", 1),
                                      (bytes(range(64)), 0, "closed", 3), (None, 0, "closed", 3), (bytes(17), 0, "closed", 3)):
        server = Holding(scenario([[0], [0]], 8, (0,)), keys=KEYS)
        player = Player(server, number, key=key, **few)
        fault_of(player.client.join)
        count.same((player.client.status, server.came), (wanted, came), f"keys: {key} of {number}")
        server.stop()
    for length in (15, 65):
        try:
            Client(0, 1, 1, key=bytes(length))
        except ValueError:
            continue
        count.expect(False, f"a key of {length} bytes")
    for kind, code, wanted in (("poll", 4, "pushed out"), ("poll", 2, "refused"), ("join", 10, "refused"),
                               ("join", 11, "pushed out")):
        server = Holding(scenario([[0], [0]], 8, (0,)))
        server.refusals.append((lambda connection, request, kind=kind: request.kind == kind, Reply("refused", code=code, detail=9)))
        player = Player(server, 0, **few)
        player.client.knows = True
        if kind == "poll":
            player.client.join()
            player.client.poll()
        found = fault_of(player.client.finish if kind == "poll" else player.client.join)
        count.same((found, player.client.status, server.came), (("wrongkind", code, 9), wanted, 1), f"refused {code} to {kind}")
        server.stop()
    server = Holding(scenario([[0], [0]], 8, (0,)))
    player = Player(server, 0, saved={**Client(0, 2, 1).saved(), "knows": True, "life": 1500})
    player.client.join()
    count.same((player.client.life, player.statuses), (1, ["joining", "lost", "joining", "joined"]), "a life that is too far")
    server.stop()
    count.same(fault_of(Player(server, 0, **few).client.join), "ConnectionRefusedError", "nobody listens")
    with socket.create_server(("127.0.0.1", 0)) as silent:
        player = Player(SimpleNamespace(port=silent.getsockname()[1]), 0, patience=0.05, **few)
        count.same(fault_of(player.client.join), "TimeoutError", "nobody answers")
    server = Holding(scenario([[0], [0]], 8, (0,)))
    player = Player(server, 0, patience=1, wait=1.5)
    player.client.join()
    player.client.poll()
    time.sleep(1.1)
    player.watch((0,))
    player.client.run(1.8)
    count.same(player.statuses, ["joining", "joined"], "what waits to be taken is no silence, nor an Observe that is held")
    server.close(server.connections[0])
    player.client.leave()
    count.same((player.client.status, player.client.life), ("left", 1), "leaving over a connection that broke")
    server.stop()
    client, pauses = Client(0, 1, 1, connect=refuse, retry=(0.2, 2, 8)), []
    client.status = "lost"
    for most in (0.2, 0.4, 0.8, 1.6, 2, 2, 2):
        client.again, start = 0, time.monotonic()
        client.go_on(0)
        pauses.append(start + most / 2 <= client.again <= time.monotonic() + most)
    count.same(pauses, [True] * 7, "the pauses grow up to the longest one")


def test_own_links(count):
    """A player closes its own connection in a callback, and joins again; where no link is left, what broke the last one is told."""
    server, links, calls, found = Holding(scenario([[0], [0]], 8, (0,))), [], [], []

    def connect():
        links.append(socket.create_connection(("127.0.0.1", server.port), timeout=5))
        return links[-1]

    client = Client(0, 2, 1, (0,), connect=connect, retry=(0.01, 0.02, 3), on_status=lambda status, fault: found.append(status))

    def cut(values, changed):
        calls.append(values[0])
        if len(calls) > 1:
            return True
        links[0].close()
        client.make(ADD[0])
        return False

    client.join()
    client.watch((0,), cut)
    client.run()
    count.same((found, calls, client.made), (["joining", "joined", "lost", "joining", "joined"], [(0,), (1,)], 1), "an own cut")
    client.leave()
    server.stop()
    server = Holding(scenario([[0], [0]], 8, (0,)))
    player = Player(server, 0)
    player.client.join()
    player.watch((0,))
    threading.Timer(0.2, lambda: player.client.link.shutdown(socket.SHUT_RDWR)).start()
    player.client.run(1.5)
    count.same(player.statuses, ["joining", "joined", "lost", "joining", "joined"], "a cut by another thread, while the client waits")
    player.client.leave()
    server.stop()
    for ends in (1, 2):
        found.clear()
        links = [socket.socketpair() for _ in range(ends)]
        spare = [near for near, far in links if not far.close()]
        client = Client(0, 2, 1, (0,), connect=lambda: spare.pop() if spare else None, retry=(0.01, 0.02, 9),
                        on_status=lambda status, fault: found.append((status, type(fault).__name__)))
        last = fault_of(client.join)
        told = [status for status, _ in found if status != "joining"]
        count.same(told, ["lost"] * ends + ["closed"], f"no link is left of {ends}")
        count.same({last, found[-1][1]} <= {"BrokenPipeError", "ConnectionResetError", "ConnectionError"}, True, f"{last}: {found[-1]}")


def refuse():
    """A connection that nobody takes."""
    raise ConnectionRefusedError("refused")


# Many at once.

def move(player, chance, barrier, is_over):
    """Moves numbers from object to object, and goes on until all is over."""
    client = player.client
    client.join()
    player.watch(range(8))
    for _ in range(8):
        source, target = (obj(one).attr(0) for one in chance.sample(range(8), 2))
        size = chance.randrange(1, 10)
        while len(client.pending) == 8:
            client.run(0.01)
        client.make(action(source.set(source - size), target.set(target + size)))
        client.run(chance.random() * 0.01)
    client.finish()
    barrier.wait(LONGEST)
    while not is_over.is_set():
        client.run(0.02)
    client.leave()


class Summing(Client):
    """A client that keeps the sum of all objects at each cut that it is shown."""

    sums = ()

    def accept(self, reply):
        """Takes a reply."""
        super().accept(reply)
        if reply.kind == "seen" and len(reply.seen) == 8:
            self.sums = (*self.sums, sum(value[0] for value in reply.seen.values()))
        return reply


def test_many(count, with_node):
    """Eight clients of each kind at once, whose connections break: the sum is kept, and all see the same at last."""
    chance = random.Random(8)
    cuts = [(chance.choice(MOMENTS), chance.randrange(1, 13)) for _ in range(24)]
    server = Holding(scenario([[100]] * 8, 32, (0,)), cuts=cuts)
    barrier, is_over, faults = threading.Barrier(9), threading.Event(), []
    players = [Player(server, number, objects=8, kind=Summing) for number in range(8)]

    def work(place, player):
        try:
            move(player, random.Random(place), barrier, is_over)
        except (Fault, OSError, threading.BrokenBarrierError) as fault:
            faults.append(fault)
            barrier.abort()

    other = subprocess.Popen([*NODE, PLAYED, "many", str(server.port), "8"], stdin=subprocess.PIPE, stdout=subprocess.PIPE,
                             text=True) if with_node else None
    threads = [threading.Thread(target=work, args=each, daemon=True) for each in enumerate(players)]
    for thread in threads:
        thread.start()
    ready = other.stdout.readline() if other else "ready\n"
    try:
        barrier.wait(LONGEST)
    except threading.BrokenBarrierError:
        count.expect(False, f"many: {faults}")
    end = time.monotonic() + 20
    while time.monotonic() < end and len({str([each.client.view(target) for target in range(8)]) for each in players}) > 1:
        time.sleep(0.01)
    found = json.loads(other.communicate("end\n", timeout=LONGEST)[0]) if other else []
    is_over.set()
    for thread in threads:
        thread.join(LONGEST)
    server.stop()
    count.same((ready, faults, not other or other.returncode == 0), ("ready\n", [], True), "many: all come to their end")
    history, serial = judge(count, "many", server, [(100,)] * 8)
    if not history:
        return
    last = [serial.value(target, len(history.accepted)) for target in range(8)]
    count.same(sum(value[0] for value in last), 800, "many: the sum is kept")
    count.expect(len(server.cut) >= 8, f"many: {len(server.cut)} connections broke")
    for each in players:
        client = each.client
        count.same([client.view(target) for target in range(8)], last, f"many: what client {client.number} sees at last")
        count.same((set(client.sums), client.made, client.status), ({800}, 8, "left"), f"many: each cut of client {client.number}")
        check_calls(count, f"many: client {client.number}", each.calls)
    for each in found:
        number, mine = each["number"], [one for one in history.accepted if one.author == each["number"]]
        count.same([[value for _, value in each[name]] for name in ("last", "views")], [[value[0] for value in last]] * 2,
                   f"many: what client {number} sees at last")
        count.same({sum(value for _, value in cut) for cut in each["cuts"]}, {800}, f"many: each cut of client {number}")
        count.same((each["outcomes"].count("accepted"), each["made"]), (len(mine), 8), f"many: outcomes of client {number}")
        check_calls(count, f"many: client {number}", calls_of(each["calls"]))
    for number in range(8 + len(found)):
        count.same(len(history.outcomes.get(number, [])), 8, f"many: an outcome for each action of client {number}")


def main():
    """The status of all tests."""
    signal.alarm(4 * LONGEST)
    has_node = shutil.which("node") is not None
    if has_node:
        version = subprocess.run(["node", "--version"], capture_output=True, text=True, check=True).stdout
        has_node = int(version[1:].split(".")[0]) >= 20
    count = Shared()
    if not has_node:
        print("node 20 is not there: the JavaScript client is not tested")
    for test in (test_double, test_told, test_asked):
        test(count)
    with ThreadPoolExecutor(3) as crew:
        tests = (test_broken_js, test_places_js, test_broken, test_places, test_taken_up, test_refused, test_own_links)[0 if has_node else 2:]
        list(crew.map(lambda test: test(count), tests))
    test_many(count, has_node)
    return count.close()


if __name__ == "__main__":
    sys.exit(main())
