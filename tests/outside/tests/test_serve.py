#!/usr/bin/env python3
"""Tests of `serve` and `join` as processes of their own, against each other, the Python client, and bad peers.

    python3 tests/outside/tests/test_serve.py [PROGRAM]

PROGRAM is the built program; without it the repository's own is taken, and where that is not built yet nothing is
tested. Every expected line is typed from the documents, or follows from the journal that `serve` printed by the law
of journals (served.py). All connections are on 127.0.0.1. Closes with `N passed, M failed`.
"""

import json
import os
import random
import re
import shutil
import signal
import socket
import sys
import tempfile
import time

sys.path.insert(0, os.path.dirname(os.path.dirname(os.path.abspath(__file__))))

from doubles.programs import Between, Fake, Peer, Run, connect, finish, free_port, reset, stop_all
from doubles.stand_in import LAST_WORDS, WireServer
from rules import wire
from rules.actions import read_action
from rules.players import Wrong
from rules.report import Fault, Request, reply_of
from rules.scenario import read_scenario
from rules.served import Served
from tests.counting import CLIENTS, ROOT, Room, program_in
from tests.rows import random_requests

sys.path.insert(1, CLIENTS)
from dimboetu import Client, action, obj, request_bytes

WHOLE_RUN = 240
PLAY_WORDS = "words: play FILE [--brief | --watch] | replay FILE | load N\n"
SERVE_WORDS, JOIN_WORDS = "words: serve FILE PORT\n", "words: join FILE K PORT\n"
ADD_ONE = "reads 0 writes 0 { set @0.0 (@0.0 + 1); }"
SET_ONE = "reads 1 writes 1 { set @1.0 7; }"

FIRST_SERVED = f"""journal 5
1 s0 join c0 1 [0] -> welcome 0 [0=(5)]
2 s0 submit 1 {ADD_ONE} -> relay 1 at 0 [] [1:c0.1]
3 s0 done [1:(6)] -> noted 1
4 s0 leave -> bye
5 s0 end -> bye
commit 1
"""
FIRST_JOINED = """told c0 2 0 ? -> (5)
told c0 3 0 (5) -> (6)
made 1
"""


class Test(Room):
    """The program's runs, and what they leave."""

    def run(self, *words, **kinds):
        """Starts the program."""
        return Run(self.program, [word if isinstance(word, bytes) else str(word) for word in words], **kinds)

    def scenario(self, value):
        """A file with this text, or with this value as JSON."""
        text = value if isinstance(value, str) else json.dumps(value)
        return self.file(f"{len(os.listdir(self.room))}.json", text.encode())

    def served(self, path, server, name, is_honest=True):
        """What a server printed, which must have ended with 0 and told a legal journal; else None."""
        status, text, line = server.end()
        self.same((status, line), (0, ""), f"{name}: serve ends")
        self.checked(path, text, name)
        try:
            return Served(read_scenario(path), text, is_honest)
        except Fault as fault:
            self.expect(False, f"{name}: what serve printed: {fault}\n{text[-2000:]}")
        return None

    def checked(self, path, text, name):
        """What `check` says of what a server printed: yes, or the first line that does not tell what was asked."""
        untold = [number for number, line in enumerate(text.splitlines(), 1) if re.match(r"[0-9]+ s[0-9]+ (submit [0-9]+ )?bad ", line)]
        wanted = (9, "", f"wrong line {untold[0]}\n") if untold else (0, "yes\n", "")
        self.same(self.run("check", path, self.file("served", text.encode())).end(), wanted, f"{name}: check of what serve printed")

    def printed(self, journal, client, run, name):
        """A join's output is the one that the journal gives."""
        said = run.end()
        try:
            wanted = journal and journal.printed_by(client)
        except (Fault, Wrong, KeyError, IndexError) as fault:
            return self.expect(False, f"{name}: client {client} in the journal: {fault!r}")
        return self.same(said, (0, wanted, ""), f"{name}: join of client {client}")


def example(name):
    """The path of an example."""
    return os.path.join(ROOT, "examples", f"{name}.json")


def world(*plans, objects=((0,), (0,)), bound=8):
    """A scenario with these clients: an interest, and steps, where a text is an action or a step's word."""
    return {"attrs": 1, "objects": objects, "bound": bound, "clients": [{"interest": interest, "steps": [
        step if step in ("sync", "poll", "cut", "quit") or type(step) is dict else {"act": step} for step in steps]}
        for interest, *steps in plans]}


# Honest runs.

def test_first_example(test):
    """The first example, whichever of both is started first; the bytes may come one by one."""
    for name in ("serve first", "join first", "bytes one by one"):
        port, path = free_port(), example("first")
        runs = {}
        if name == "bytes one by one":
            runs["serve"] = test.run("serve", path, port)
            runs["join"] = test.run("join", path, 0, Between(port, 1, size=1).port)
        else:
            words = {"serve": ("serve", path, port), "join": ("join", path, 0, port)}
            for word in sorted(words, reverse=name == "serve first"):
                runs[word] = test.run(*words[word])
                time.sleep(0.4)
        test.same(runs["join"].end(), (0, FIRST_JOINED, ""), f"first example, {name}: join")
        test.same(runs["serve"].end(), (0, FIRST_SERVED, ""), f"first example, {name}: serve")


def play(test, path, name, wanted=None):
    """Serves a scenario to the joins of all its clients; the last one is started first."""
    plan, port = read_scenario(path), free_port()
    joins = {}
    for client in reversed(range(len(plan.plans))):
        joins[client] = test.run("join", path, client, port)
        if client == len(plan.plans) // 2:
            server = test.run("serve", path, port)
    journal = test.served(path, server, name)
    for client, run in joins.items():
        test.printed(journal, client, run, name)
        if journal:
            made = len(plan.plans[client].acts)
            test.expect(run.process.returncode != 0 or len(journal.history.outcomes.get(client, [])) <= made, name)
    if journal:
        try:
            journal.check_outcomes()
        except Fault as fault:
            test.expect(False, f"{name}: {fault}")
        if not any(one.quits for one in plan.plans):
            test.same(journal.commit, len(journal.history.accepted), f"{name}: all that was accepted is committed")
        if wanted is not None:
            test.same(journal.commit, wanted, f"{name}: commit")
    return journal


def test_examples(test):
    """Two clients in conflict, cuts, a quit, dropped actions, and eight clients with a cut each."""
    journal = play(test, example("conflict"), "conflict", 4)
    if journal:
        test.expect(journal.serial.value(0, 4) in ((56,), (58,), (61,)), "conflict: the world at last")
        test.same(sorted(journal.replies(session)[-1] for session in range(2)), ["bye", "bye"], "conflict: both left")
    play(test, example("trade"), "trade", 6)
    for name, wanted in (("retry", 2), ("orphan", None), ("bound", None), ("empty_script", 0), ("unknown_view", 1),
                         ("observe", 1), ("marketplace", None)):
        play(test, example(name), name, wanted)
    steps = (ADD_ONE, "cut", SET_ONE, "poll", "sync", "cut", "cut", ADD_ONE, "cut", "cut", SET_ONE, *["cut"] * 2, ADD_ONE)
    play(test, test.scenario(world(*[([0, 1], *steps), ([1], *steps, "quit")] * 4)), "8 clients with 7 cuts: 64 sessions")
    seen = {"observe": [0, 1]}
    steps = (seen, ADD_ONE, seen, SET_ONE, seen, "sync", seen, "cut", seen, seen, ADD_ONE, "sync", seen)
    play(test, test.scenario(world(*[([0], *steps), ([], *steps)] * 4)), "8 clients who act and observe")


def test_python_client(test):
    """The Python client makes its own actions beside a scripted join, and sees what changes."""
    path = test.scenario(world(([0, 1], SET_ONE), ([0], ADD_ONE, "sync", ADD_ONE, "sync", ADD_ONE), objects=((10,), (20,))))
    port, changes = free_port(), []
    server, join = test.run("serve", path, port), test.run("join", path, 1, port)
    client = Client(0, 2, 1, (0, 1), lambda *change: changes.append(change))
    gold, iron = obj(0).attr(0), obj(1).attr(0)
    client.join(connect(port))
    client.finish()
    for made in (action(iron.set(iron * 2)), action(gold.set(gold + iron), iron.set(0)), action(gold.set(gold - 5))):
        client.make(made)
    client.finish()
    while client.view(0)[0] < 10 + 3 + 40 - 5:
        client.make(action(reads=(0,)))
        client.finish()
        time.sleep(0.05)
    client.leave()
    journal = test.served(path, server, "Python client")
    test.printed(journal, 1, join, "Python client")
    if journal is None:
        return
    own = [request for request in journal.requests(journal.session_of(0, 1)) if request.startswith("submit")]
    test.same(own[:3], ["submit 1 reads 1 writes 1 { set @1.0 (@1.0 * 2); }",
                        "submit 2 reads 0 1 writes 0 1 { set @0.0 (@0.0 + @1.0); set @1.0 0; }",
                        "submit 3 reads 0 writes 0 { set @0.0 (@0.0 - 5); }"], "Python client: its actions")
    test.same(journal.commit, client.made + 3, "Python client: the commit is the number of actions")
    test.same([journal.serial.value(one, journal.commit) for one in (0, 1)], [(48,), (0,)], "Python client: the world")
    test.same((client.view(0), client.view(1)), ((48,), (0,)), "Python client: its views at last")
    iron_seen = [(old, new) for target, old, new in changes if target == 1]
    test.same(iron_seen, [(None, (20,)), ((20,), (40,)), ((40,), (0,))], "Python client: changes of its own object")
    seen = {0: None, 1: None}
    for target, old, new in changes:
        test.expect(seen[target] == old != new, f"Python client: a change of {target} from {old} to {new}")
        seen[target] = new
    test.same(seen, {0: (48,), 1: (0,)}, "Python client: its last changes")
    wrong = [(target, place) for target, held in client.versions.items() for place, value in held.items()
             if value != journal.serial.value(target, place)]
    test.same(wrong, [], "Python client: all that it holds is serial")


def test_python_observer(test):
    """The Python client sees what a scripted join does, and acts on nothing: all that it is shown are cuts of one world."""
    both = "reads 0 1 writes 0 1 { set @0.0 (@0.0 - 1); set @1.0 (@1.0 + 1); }"
    path, port = test.scenario(world(([],), ([], *[both, "sync"] * 40), objects=((40,), (0,)))), free_port()
    server, join = test.run("serve", path, port), test.run("join", path, 1, port)
    client, shown = Client(0, 2, 1), []
    client.join(connect(port))
    client.finish()
    while not shown or shown[-1][1][0] != (0,):
        client.observe((0, 1), 10)
        reply = client.take()
        shown.append((reply.last, reply.seen))
        client.finish()
        time.sleep(0.002)
    client.leave()
    journal = test.served(path, server, "Python observer")
    test.printed(journal, 1, join, "Python observer")
    test.same([seen for last, seen in shown if seen != {0: (40 - last,), 1: (last,)}], [], "Python observer: each is one cut")
    test.same(shown, sorted(shown, key=lambda each: each[0]), "Python observer: no cut goes back")
    if journal:
        test.same((journal.commit, client.made), (40, 0), "Python observer: nothing else has a position")


def test_python_example(test):
    """The example beside the document runs as a program of its own."""
    path, port = example("conflict"), free_port()
    server, join = test.run("serve", path, port), test.run("join", path, 0, port)
    shown = Run(sys.executable, [os.path.join(CLIENTS, "example.py"), path, "1", str(port), "3"])
    status, text, line = shown.end()
    test.same((status, line), (0, ""), "Python example: it ends")
    for part in ("client 1 sees object 0: None -> ", "client 1 expects object 0: ", "client 1 made 4 actions"):
        test.expect(part in text, f"Python example has no {part!r}: {text}")
    journal = test.served(path, server, "Python example")
    test.printed(journal, 0, join, "Python example")
    if journal:
        test.same(journal.commit, 5, "Python example: commit")


def test_order(test):
    """Sessions are numbered in the order of arrival, and nobody is answered before all are there."""
    path, port = test.scenario(world(([0],), ([0],), ([1],))), free_port()
    server = test.run("serve", path, port)
    peers = []
    for client in (2, 0, 1):
        peers.append(Peer(port))
        if client != 1:
            peers[-1].send(request_bytes("join", client, 1, ()))
            peers[-1].link.settimeout(0.3)
            try:
                test.same(peers[-1].next(), "nothing", "order: an answer before all are there")
            except OSError:
                test.expect(True, "order: no answer before all are there")
            peers[-1].link.settimeout(10)
    test.same([peers[place].next() for place in (0, 1)], [bytes.fromhex("81000000000000")] * 2, "order: welcomes")
    test.same(peers[2].ask(request_bytes("join", 1, 1, (0, 1))),
              "81000000000002" + "0000" + "01" + "00" * 8 + "0001" + "01" + "00" * 8, "order: another interest")
    for peer in reversed(peers):
        test.same(peer.ask(b"\x05"), "88", "order: bye")
        test.same(peer.next(), None, "order: the server closes")
    journal = test.served(path, server, "order")
    if journal:
        test.same([journal.requests(session) for session in range(3)],
                  [["join c2 1 []", "leave"], ["join c0 1 []", "leave"], ["join c1 1 [0 1]", "leave"]],
                  "order: sessions")
        test.same((journal.commit, len(journal.entries)), (0, 9), "order: nothing else")


# Bad peers of a server, beside an honest join.

def said(*payloads):
    """Frames with these payloads."""
    return b"".join(map(wire.frame, payloads))


def noise(seed, size=700):
    """Bytes without sense."""
    return random.Random(seed).randbytes(size)


JOIN = request_bytes("join", 0, 1, (0,))
SUBMIT = b"\x06\x00\x00\x00\x01" + wire.action_bytes(read_action(ADD_ONE))
BAD_SUBMIT = b"\x06\x00\x00\x00\x01" + wire.action_bytes(read_action("reads 4096 writes { }"))
DONE = request_bytes("done", ((1, ((6,),)),))
OBSERVE = request_bytes("observe", (0,), 5)

# What a peer sends before it says that it sends no more; the requests and the replies in the journal.
BAD_PEERS = (
    ("closes at once", b"", [], []),
    ("half a frame", said(JOIN)[:9], [], []),
    ("half a length", b"\x00\x00", [], []),
    ("a Join, and half a frame", said(JOIN, b"\x04")[:-1], ["join c0 1 [0]"], ["welcome 0 [0=(0)]"]),
    ("a too long length", b"\x00\x01\x00\x01", ["bad"], ["refused 1 0"]),
    ("a too long length and more", b"\x00\x01\x00\x01" + said(JOIN), ["bad"], ["refused 1 0"]),
    ("the longest length", b"\xff\xff\xff\xff", ["bad"], ["refused 1 0"]),
    ("an empty payload and more", said(b"", JOIN), ["bad"], ["refused 1 0"]),
    ("the longest payload", said(b"\x07" * 65_536), ["bad"], ["refused 1 0"]),
    ("a malformed payload behind a Join", said(JOIN, b"\x04\x00"), ["join c0 1 [0]", "bad"],
     ["welcome 0 [0=(0)]", "refused 1 0"]),
    ("a reply in place of a request", said(b"\x88"), ["bad"], ["refused 1 0"]),
    ("no Join", said(b"\x04", SUBMIT, DONE, b"\x05", JOIN, b"\x05"),
     ["poll", f"submit 1 {ADD_ONE}", "done [1:(6)]", "leave", "join c0 1 [0]", "leave"],
     ["refused 2 0"] * 4 + ["welcome 0 [0=(0)]", "bye"]),
    ("number 32", said(request_bytes("join", 32, 1, ()), JOIN, b"\x05"),
     ["join c32 1 []", "join c0 1 [0]", "leave"], ["refused 10 0", "welcome 0 [0=(0)]", "bye"]),
    ("a wrong interest and a second Join", said(request_bytes("join", 0, 1, (2,)), JOIN, JOIN, b"\x05"),
     ["join c0 1 [2]", "join c0 1 [0]", "join c0 1 [0]", "leave"],
     ["refused 8 0", "welcome 0 [0=(0)]", "refused 3 0", "bye"]),
    ("a life of 0", said(request_bytes("join", 0, 0, ())), ["join c0 0 []"], ["refused 11 0"]),
    ("an action that is refused, and results of nothing", said(JOIN, BAD_SUBMIT, request_bytes("done", ((9, ()),))),
     ["join c0 1 [0]", "submit 1 reads 4096 writes { }", "done [9:]"],
     ["welcome 0 [0=(0)]", "refused 6 4", "refused 7 0"]),
    ("observes", said(OBSERVE, JOIN, OBSERVE, request_bytes("observe", (0, 2), 0), b"\x07\x00\x00\x00"),
     ["observe 5 [0]", "join c0 1 [0]", "observe 5 [0]", "observe 0 [0 2]", "bad"],
     ["refused 2 0", "welcome 0 [0=(0)]", "seen 0 at 0 [] []", "refused 8 0", "refused 1 0"]),
    ("noise and more", noise(1), ["bad"], ["refused 1 0"]),
    ("other noise and more", noise(2), ["bad"], ["refused 1 0"]),
    ("a Join, and noise in frames and more", said(JOIN, *[noise(one, 5 + one) for one in range(9)]),
     ["join c0 1 [0]", "bad"], ["welcome 0 [0=(0)]", "refused 1 0"]),
    ("1,025 requests", said(*[b"\x04"] * 1025), ["poll"] * 1025, ["refused 2 0"] * 1024 + ["refused 9 0"]),
)


def reply_bytes_of(text, *acts):
    """The payload of a reply, with the actions of its items."""
    read = reply_of(text, 0)
    actions = dict(zip((item[0] for item in read.items), map(read_action, acts)))
    return wire.reply_bytes(read, actions.get)


class Beside:
    """A server with a bad peer in session 0, beside the join of client 1 on an object of its own."""

    def __init__(self, test, name):
        self.test, self.name, port = test, name, free_port()
        self.path = test.scenario(world(([0],), ([1], "reads 1 writes 1 { set @1.0 (@1.0 + 1); }", "sync")))
        self.server = test.run("serve", self.path, port)
        self.link = connect(port)
        self.join = test.run("join", self.path, 1, port)

    def judge(self):
        """The journal; the honest client came to no harm."""
        journal = self.test.served(self.path, self.server, self.name)
        self.test.printed(journal, 1, self.join, self.name)
        if journal:
            self.test.same((journal.replies(1)[0], journal.replies(1)[-1]), ("welcome 0 [1=(0)]", "bye"),
                           f"{self.name}: the honest session")
            self.test.same(journal.commit, 1, f"{self.name}: commit")
        return journal


def test_bad_peers(test):
    """Each bad peer ends its own session alone, and is answered by the table of answers until then."""
    runs = [(Beside(test, row[0]), *row[1:]) for row in BAD_PEERS]
    for run, sent, requests, replies in runs:
        run.link.sendall(sent)
        came = finish(run.link)
        if journal := run.judge():
            told = journal.replies(0)
            test.same(journal.requests(0), requests, f"{run.name}: requests")
            # The honest client's action may be accepted, or committed, by then.
            test.same([re.sub("seen [01] at [01] ", "seen 0 at 0 ", text.replace("welcome 1 ", "welcome 0 ")) for text in told], replies,
                      f"{run.name}: replies")
            wanted = said(*map(reply_bytes_of, told))
            test.same(came, wanted[:len(came)] if run.name.endswith("more") else wanted, f"{run.name}: bytes")


def test_silence(test):
    """A peer that is silent keeps nobody waiting but the server; one that vanishes is no fault of the server's."""
    silent, gone, deaf = (Beside(test, name) for name in ("silence", "a connection that is reset", "no reading"))
    gone.link.sendall(said(JOIN, *[b"\x04"] * 200))
    reset(gone.link)
    deaf.link.sendall(said(JOIN, *[b"\x04"] * 1022))
    for run in (silent, deaf):
        test.same(run.join.process.wait(20), 0, f"{run.name}: the honest client ends before")
    deaf.link.close()
    test.same(finish(silent.link), b"", "silence: nothing was said")
    for run, asked in ((silent, []), (gone, ["join c0 1 [0]"] + ["poll"] * 200),
                       (deaf, ["join c0 1 [0]"] + ["poll"] * 1022)):
        if journal := run.judge():
            requests = journal.requests(0)
            test.same(requests, asked[:len(requests)], f"{run.name}: requests")


def payload_of(request):
    """The payload of a request, whether anybody may send it or not."""
    if request.kind == "submit":
        return b"\x06" + request.number.to_bytes(4, "big") + wire.action_bytes(request.action)
    if request.kind == "join":
        return request_bytes("join", request.client, request.life, request.interest)
    if request.kind == "observe":
        return request_bytes("observe", request.objects, request.wait)
    return {"bad": b"\x02"}.get(request.kind) or request_bytes(request.kind, request.results)


def test_careless(test):
    """Random requests of careless clients, one at a time: each reply is the stand-in's, byte by byte."""
    plan = world(*[([],)] * 6, objects=((1,), (2,), (3,)), bound=3)
    for seed in range(4):
        path, port = test.scenario(plan), free_port()
        server, model = test.run("serve", path, port), WireServer(read_scenario(path))
        peers, over = [Peer(port) for _ in range(6)], set()
        for session, request in random_requests(seed, 6, 3, 1):
            if request.kind == "end" or session in over:
                continue
            payload = payload_of(request)
            try:
                read = wire.request_of(payload)
            except wire.NoRequest:
                read = Request("bad")
            reply = model.step(session, read)
            wanted = wire.reply_bytes(reply, lambda place: model.queue[place - 1].action)
            test.same(peers[session].ask(payload), wanted.hex(), f"careless {seed}: s{session} {payload.hex()}")
            if (reply.kind, reply.code) in LAST_WORDS:
                over.add(session)
                test.same(peers[session].next(), None, f"careless {seed}: s{session} is closed")
        for peer in peers:
            finish(peer.link)
        journal = test.served(path, server, f"careless {seed}", is_honest=False)
        if journal:
            test.same((len(journal.entries), journal.commit), (len(model.steps) + 6, model.commit), f"careless {seed}")


def test_reset_in_queue(test):
    """A connection that vanished before it was accepted is a session all the same."""
    path, port = test.scenario(world(([0],), ([0],), ([1], SET_ONE))), free_port()
    server = test.run("serve", path, port)
    first = connect(port)
    server.process.send_signal(signal.SIGSTOP)
    gone = connect(port)
    gone.sendall(said(JOIN))
    reset(gone)
    join = test.run("join", path, 2, port)
    time.sleep(0.2)
    server.process.send_signal(signal.SIGCONT)
    finish(first)
    journal = test.served(path, server, "reset in the queue")
    test.printed(journal, 2, join, "reset in the queue")
    if journal:
        test.same(journal.requests(0), [], "reset in the queue: a session without requests")


def test_lives(test):
    """Lives out of order, a session that a later one ends, and one client's two sessions at once."""
    path, port = test.scenario(world(([0], "cut", "cut", "cut"), ([1], SET_ONE))), free_port()
    server = test.run("serve", path, port)
    peers = [Peer(port) for _ in range(4)]
    join = test.run("join", path, 1, port)

    def ask(peer, life):
        return peers[peer].ask(request_bytes("join", 0, life, ()))
    for got, wanted in ((ask(0, 5), "81"), (ask(1, 3), "870b00000005"), (ask(1, 5), "870b00000005"),
                        (peers[1].ask(b"\x04"), "870200000000"), (peers[0].ask(b"\x04"), "86"), (ask(1, 6), "81"),
                        (peers[0].ask(b"\x04"), "870400000000"), (peers[0].next(), None),
                        (ask(2, 4294967295), "81"), (ask(3, 1), "870bffffffff"), (peers[2].ask(b"\x05"), "88"),
                        (ask(1, 4294967295), "870400000000")):
        test.same(got and (got[:2] if wanted == "81" else got), wanted, "lives: reply")
    for peer in peers:
        finish(peer.link)
    journal = test.served(path, server, "lives")
    test.printed(journal, 1, join, "lives")


def test_lying_result(test):
    """A wrong result is noted, and spreads; the journal is legal, and the honest client goes on by its rules."""
    path = test.scenario(world(([0],), ([0], ADD_ONE, "sync"), objects=((5,), (0,))))
    port = free_port()
    server = test.run("serve", path, port)
    liar, between = Peer(port), Between(port, 1, free=0)
    join = test.run("join", path, 1, between.port)
    for asked, wanted in ((request_bytes("join", 0, 1, ()), "81000000000000"),
                          (SUBMIT, reply_bytes_of("relay 1 at 0 [0=(5)] [1:c0.1]", ADD_ONE).hex()),
                          (request_bytes("done", ((1, ((1000,),)),)), "8500000001"), (b"\x05", "88")):
        test.same(liar.ask(asked), wanted, "a lying result: replies")
    between.gate.set()
    journal = test.served(path, server, "a lying result", is_honest=False)
    test.printed(journal, 1, join, "a lying result")
    if journal:
        test.same(journal.replies(1)[0], "welcome 1 [0=(1000)]", "a lying result: it is the committed value")
        test.same((journal.commit, journal.requests(1)[2]), (2, "done [2:(1001)]"), "a lying result: commit")
        try:
            journal.check_values()
            test.expect(False, "a lying result: the values are serial")
        except Fault as fault:
            test.same(fault.reason, "the result of 1 is not the serial one", "a lying result: its values")


def test_stolen_numbers(test):
    """Who joins under an honest client's number takes its place: the client refuses the refusal, with status 11."""
    steps = (ADD_ONE, "sync", ADD_ONE, "sync")
    for name, free, life, told in (("before", 0, 7, ["refused 11 7"]), ("after", len(said(JOIN)), 2,
                                   ["welcome 0 [0=(0)]", "refused 4 0"])):
        path, port = test.scenario(world(([0], *steps), ([1],))), free_port()
        server = test.run("serve", path, port)
        thief, between = Peer(port), Between(port, 1, free=free)
        join = test.run("join", path, 0, between.port)
        test.expect(not free or between.answered.wait(10), f"stolen {name}: the honest client is welcomed")
        test.same(thief.ask(request_bytes("join", 0, life, ())), "81000000000000", f"stolen {name}: welcomed")
        between.gate.set()
        test.same(join.end(), (11, "", "reply: wrongkind\n"), f"stolen {name}: join")
        test.same(thief.ask(b"\x05"), "88", f"stolen {name}: bye")
        journal = test.served(path, server, f"stolen {name}")
        if journal:
            test.same(journal.replies(1), told, f"stolen {name}: what the honest client was told")
            test.same(journal.commit, 0, f"stolen {name}: commit")


# Servers that lie to a join.

WELCOME, NOTED = said(reply_bytes_of("welcome 0 []")), said(reply_bytes_of("noted 1"))
RELAY = reply_bytes_of("relay 1 at 0 [0=(0)] [1:c0.1]", ADD_ONE)
# What is answered frame by frame; then the fault.
LIES = (
    ((said(reply_bytes_of("noted 0")),), "wrongkind"),
    ((said(reply_bytes_of("refused 11 0")),), "wrongkind"),
    ((said(reply_bytes_of("refused 9 0")),), "wrongkind"),
    ((said(reply_bytes_of("bye")),), "wrongkind"),
    ((b"\x00\x01\x00\x01",), "toolong 65537"),
    ((b"\xff\xff\xff\xff\x88",), "toolong 4294967295"),
    ((said(b""),), "malformed 0 1"),
    ((said(b"\x06"),), "malformed 0 2"),
    ((said(reply_bytes_of("welcome 0 [0=(0,0)]")),), "baditem"),
    ((said(reply_bytes_of("welcome 0 [2=(0)]")),), "baditem"),
    ((WELCOME, said(reply_bytes_of("idle"))), "wrongkind"),
    ((WELCOME, said(reply_bytes_of("relay 1 at 1 [0=(0)] [1:c0.1]", ADD_ONE))), "badorder"),
    ((WELCOME, said(reply_bytes_of("relay 1 at 0 [0=(0)] [2:c1.1 1:c0.1]", ADD_ONE, ADD_ONE))), "badorder"),
    ((WELCOME, said(reply_bytes_of("relay 2 at 0 [0=(0)] [1:c0.1]", ADD_ONE))), "baditem"),
    ((WELCOME, said(reply_bytes_of("relay 1 at 0 [0=(0)] [1:c1.1]", ADD_ONE))), "baditem"),
    ((WELCOME, said(reply_bytes_of("relay 1 at 0 [0=(0)] [1:c0.1]", SET_ONE))), "baditem"),
    ((WELCOME, said(reply_bytes_of("relay 1 at 0 [] []"))), "baditem"),
    ((WELCOME, said(reply_bytes_of("dropped 2 chain 9 far 0"))), "baditem"),
    ((WELCOME, said(reply_bytes_of("relay 1 at 0 [] [1:c0.1]", ADD_ONE))), "missing 1 0"),
    ((WELCOME, said(reply_bytes_of("relay 1 at 0 [0=(0)] [1:c1.1 2:c0.1]", SET_ONE, ADD_ONE))), "missing 1 1"),
    ((WELCOME, said(RELAY + b"\x00")), f"malformed {len(RELAY)} 9"),
    ((WELCOME, said(RELAY), said(reply_bytes_of("refused 7 0"))), "wrongkind"),
    ((WELCOME, said(RELAY), NOTED, said(reply_bytes_of("idle"))), "wrongkind"),
    ((said(reply_bytes_of("welcome 3 []")), said(reply_bytes_of("relay 1 at 2 [0=(0)] [4:c0.1]", ADD_ONE))),
     "badorder"),
)
# The same, where the server says no more after it: a reply is awaited then.
CLOSINGS = ((), (WELCOME[:2],), (WELCOME[:-1],), (WELCOME,), (WELCOME, said(RELAY)), (WELCOME, said(RELAY)[:40]),
            (WELCOME, said(RELAY), NOTED))


def documented_payloads():
    """Each payload of docs/wire-vectors.txt that is no reply, and its fault."""
    with open(os.path.join(ROOT, "docs", "wire-vectors.txt"), encoding="utf-8") as file:
        lines = re.search(r"```wire-refused\n(.*?)```", file.read(), re.S)[1].split("\n")
    for place, cause, *rest in (line.split()[1:] for line in lines if line.startswith("<")):
        yield (said(bytes.fromhex("".join(rest))),), f"malformed {place} {wire.CAUSES.index(cause) + 1}"


def test_lying_servers(test):
    """Each fault of a reply is 11 with its line; a server that goes while a reply is awaited is 12."""
    path = test.scenario(world(([], ADD_ONE, "sync")))
    rows = [(script, 11, f"reply: {fault}\n") for script, fault in (*LIES, *documented_payloads())]
    rows += [(script, 12, "closed\n") for script in CLOSINGS]
    for group in range(0, len(rows), 16):
        joins = [test.run("join", path, 0, Fake(script).port) for script, _, _ in rows[group:group + 16]]
        for (script, status, line), join in zip(rows[group:group + 16], joins):
            test.same(join.end(), (status, "", line), f"a server that says {[one.hex() for one in script]}")
    honest = (WELCOME, said(RELAY), NOTED, said(reply_bytes_of("bye"), reply_bytes_of("idle"), b"\x07"))
    test.same(test.run("join", path, 0, Fake(honest).port).end(), (0, "made 1\n", ""), "what stands behind the Bye")
    for script in (("reset",), (WELCOME, "reset")):
        ended = test.run("join", path, 0, Fake(script).port).end()
        test.same(ended, (6, "", "link\n"), "a server whose connection is reset")
    cut = test.scenario(world(([], ADD_ONE, "cut", "sync")))
    late = (WELCOME, said(RELAY), NOTED, said(reply_bytes_of("bye")))
    for first, second, wanted in (
            ((WELCOME, b"\x00\x01\x00\x01"), late, (0, "made 1\n", "")), ((WELCOME, b""), (), (12, "", "closed\n")),
            ((WELCOME,), (said(b"\x06"),), (11, "", "reply: malformed 0 2\n")), ((), late, (12, "", "closed\n")),
            ((WELCOME,), (WELCOME, said(RELAY), b"\x00\x01\x00\x01"), (11, "", "reply: toolong 65537\n"))):
        ended = test.run("join", cut, 0, Fake(first, second).port).end()
        test.same(ended, wanted, f"two sessions: {first} and {second}")


# Statuses.

def documented_files():
    """Each file of docs/ERRORS.md that is no scenario, and its line."""
    with open(os.path.join(ROOT, "docs", "ERRORS.md"), encoding="utf-8") as file:
        blocks = re.findall(r"```no-scenario\n(.*?)```", file.read(), re.S)
    for block in blocks:
        lines = block.splitlines()
        yield from ((text if text != "(empty)" else "", line + "\n") for text, line in zip(lines[::2], lines[1::2]))


def test_words(test):
    """Words that are none of the command's, and the order of the statuses before anything is connected."""
    first, port = example("first"), free_port()
    missing = os.path.join(test.room, "missing.json")
    faulty = test.scenario("[]")
    wrong_numbers = ("0", "65536", "080", "", "x", "+1", "-1", " 1", "1 ", "1.0", "99999999999999999999", "\u0661")
    rows = [(("serve", *words), 2, SERVE_WORDS) for words in (
        (), (first,), (first, port, 0), *((first, number) for number in wrong_numbers), (missing, 0))]
    rows += [(("join", *words), 2, JOIN_WORDS) for words in (
        (), (first,), (first, 0), (first, 0, port, 0), *((first, 0, number) for number in wrong_numbers),
        *((first, number, port) for number in wrong_numbers[1:]), (missing, 0, 0))]
    rows += [(words, 2, PLAY_WORDS) for words in (("serve", b"\xff", port), ("join", first, b"\xff", port))]
    for path in (missing, test.room):
        rows += [((*words, port), 4, f"file: {path}\n") for words in (
            ("serve", path), ("join", path, 0), ("join", path, 9))]
    rows += [(("join", faulty, 9, port), 3, "scenario: : kind\n"), (("serve", faulty, port), 3, "scenario: : kind\n")]
    rows += [(("join", first, client, port), 10, "range\n") for client in (1, 31, 32, 65535)]
    rows += [(("join", example("conflict"), 2, port), 10, "range\n")]
    for text, line in documented_files():
        path = test.scenario(text)
        rows += [(("serve", path, port), 3, line), (("join", path, 0, port), 3, line)]
    for group in range(0, len(rows), 16):
        runs = [test.run(*words) for words, _, _ in rows[group:group + 16]]
        for (words, status, line), run in zip(rows[group:group + 16], runs):
            test.same(run.end(), (status, "", line), f"the words {words}")
            test.expect(run.seconds < 9, f"the words {words}: refused before anything is connected")


def test_ports(test):
    """A port that is taken is refused at once; where a server was, another may be."""
    path = example("first")
    with socket.create_server(("127.0.0.1", free_port())) as taken:
        port = taken.getsockname()[1]
        run = test.run("serve", path, port)
        test.same(run.end(), (6, "", "link\n"), "a port that is taken")
        test.expect(run.seconds < 3, f"a port that is taken is told at once: {run.seconds:.1f} s")
        test.same(test.run("serve", test.scenario("{}"), port).end()[0], 3, "a port that is taken, and a faulty file")
    port = free_port()
    first = test.run("serve", example("conflict"), port)
    waiting = connect(port)
    test.same(test.run("serve", path, port).end(), (6, "", "link\n"), "two servers at one port")
    for link in (waiting, connect(port)):
        finish(link)
    test.served(example("conflict"), first, "the first of two servers")
    for _ in range(2):
        server, join = test.run("serve", path, port), test.run("join", path, 0, port)
        test.same((join.end(), server.end()), ((0, FIRST_JOINED, ""), (0, FIRST_SERVED, "")), "the same port again")


def test_outputs(test):
    """Standard output that is full, closed or read by nobody, and standard error that is full."""
    path, port = example("first"), free_port()
    gone, end = os.pipe()
    os.close(gone)
    with open("/dev/full", "wb") as full, os.fdopen(end, "wb") as broken:
        for name, kind in (("full", {"stdout": full}), ("broken pipe", {"stdout": broken}),
                           ("closed", {"stdout": None, "preexec_fn": lambda: os.close(1)})):
            for words in ("serve", "join"):
                kinds = {word: kind if word == words else {} for word in ("serve", "join")}
                server = test.run("serve", path, port, **kinds["serve"])
                join = test.run("join", path, 0, port, **kinds["join"])
                ends = {"serve": server.end(), "join": join.end()}
                test.same(ends[words], (5, "", "out\n"), f"{words} with standard output {name}")
                other = "join" if words == "serve" else "serve"
                test.same(ends[other][0], 0, f"{other} beside it")
        test.same(test.run("serve", stderr=full).end()[0], 2, "standard error that is full")
        test.same(test.run("join", path, 7, port, stderr=full).end()[0], 10, "standard error that is full")


def test_mute_server(test):
    """A server that is none and never says a word: `join` waits for ten minutes at most."""
    if shutil.which("strace") is None:
        print("a mute server: skipped, there is no strace")
        return
    with socket.create_server(("127.0.0.1", 0)) as mute:
        log = os.path.join(test.room, "calls")
        run = Run("strace", ["-f", "-e", "trace=setsockopt,recvfrom,read", "-o", log, test.program, "join", example("first"), "0", str(mute.getsockname()[1])])
        link, _ = mute.accept()
        test.expect(link.recv(4096), "a mute server: join asks")
        test.expect(run.process.poll() is None, "a mute server: join waits")
        # Here it ends, and strace with it: strace alone would leave it running.
        link.close()
        test.same(run.end()[0], 12, "a mute server that goes away")
    with open(log, encoding="utf-8", errors="replace") as file:
        limits = re.findall(r"SO_RCVTIMEO\w*, (.*), 16\)", file.read())
    packed = r'"X\2' + r"\0" * 14 + '"'      # the same, as older ones print it
    test.expect(limits and limits[0] in ("{tv_sec=600, tv_usec=0}", packed), f"a mute server: ten minutes, not {limits}")


def nobody(test):
    """Joins where nobody listens, started early; answers what looks at them at last."""
    run = test.run("join", example("first"), 0, free_port())

    def judge():
        test.same(run.end(), (6, "", "link\n"), "nobody listens")
        test.expect(9 < run.seconds, f"nobody listens: it tries for ten seconds, not {run.seconds:.1f}")
    return judge


def run_all(test):
    """Each test; one that can't go on counts as failed."""
    judge = nobody(test)
    for one in (test_words, test_first_example, test_examples, test_python_client, test_python_observer, test_python_example, test_order,
                test_bad_peers, test_silence, test_careless, test_reset_in_queue, test_lives,
                test_lying_result, test_stolen_numbers, test_lying_servers, test_mute_server, test_ports, test_outputs,
                lambda _: judge()):
        begun, failed = time.monotonic(), test.failed
        try:
            one(test)
        except Exception as fault:
            test.expect(False, f"{one.__name__} stopped: {fault!r}")
        if os.environ.get("TIMES") or test.failed > failed:
            print(f"{one.__name__}: {time.monotonic() - begun:.1f} s", flush=True)


def too_late(*_):
    """The whole run takes too long."""
    raise SystemExit(f"stopped after {WHOLE_RUN} s")


def main(words):
    """The status of all tests."""
    program, status = program_in(words)
    if program is None:
        return status
    signal.signal(signal.SIGALRM, too_late)
    signal.alarm(WHOLE_RUN)
    with tempfile.TemporaryDirectory() as room:
        test = Test(os.path.abspath(program), room)
        try:
            run_all(test)
        finally:
            stop_all()
    return test.close()


if __name__ == "__main__":
    sys.exit(main(sys.argv[1:]))
