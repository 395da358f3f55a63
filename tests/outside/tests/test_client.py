#!/usr/bin/env python3
"""Tests of the Python client and of docs/wire-vectors.txt, with no program of the product.

    python3 tests/outside/tests/test_client.py

Both ways of each vector of the wire, by the client and by the bytes of the stand-in (wire.py), which share no code;
the client's check and evaluation beside those of actions.py; sessions over TCP with the stand-in for a server, whose
journals must be legal and whose clients must hold serial values alone; and a lying server, each of whose replies is
refused and leaves the client as it was. Closes with `N passed, M failed`.
"""

import copy
import json
import os
import random
import re
import signal
import socket
import subprocess
import sys
import tempfile
import threading

sys.path.insert(0, os.path.dirname(os.path.dirname(os.path.abspath(__file__))))

from doubles.stand_in import StandIn
from rules import report, simulate, wire
from rules.actions import LEAST, GREATEST, action_text, evaluate, fault_of_action, read_action
from rules.journal import SerialWorld, check_journal, check_serial_values
from rules.players import Player
from rules.scenario import scenario_of
from tests.counting import CLIENTS, ROOT, STAND_IN, Count
from tests.random_scenario import Maker, scenario_text

sys.path.insert(1, CLIENTS)
import dimboetu
from dimboetu import Action, Client, Fault, Payload, action, action_of, first_payload, number, obj, parse_action, request_bytes, text_of, when

LONGEST = 90
CAUSE_NUMBERS = {name: number for number, name in enumerate(wire.CAUSES, 1)}
ADD_ONE = "reads 0 writes 0 { set @0.0 (@0.0 + 1); }"


class Compared(Count):
    """What passed and what failed, of calls that must fail too."""

    def refuses(self, call, text, name):
        """A call that must raise just this fault of the client."""
        try:
            call()
        except Fault as fault:
            self.same(fault.text, text, name)
        else:
            self.expect(False, f"{name}: it is not refused as {text}")


# The same actions in the shapes of both sides.

def slotted(node, reads):
    """A node of actions.py as the client has it: with slots, and in its kinds."""
    if node and isinstance(node[0], str):
        kind, *fields = node
        if kind in ("set", "ref"):
            fields[0] = reads.index(fields[0])
            kind = "get" if kind == "ref" else kind
        if kind == "compare":
            kind, *fields = fields
        return (kind, *(slotted(one, reads) if isinstance(one, tuple) else one for one in fields))
    return tuple(slotted(one, reads) for one in node)


def clients_action(act):
    """An action of actions.py as the client has it."""
    mask = sum(1 << slot for slot, target in enumerate(act.reads) if target in act.writes)
    return Action(act.reads, mask, act.origin, slotted(act.body, act.reads))


def act_of(text):
    """The client's action of a text."""
    return clients_action(read_action(text))


def clients_request(request):
    """A request of report.py as the fields that the client has."""
    return {"join": ("join", request.client, request.life, request.interest),
            "submit": ("submit", request.number, request.action and clients_action(request.action)),
            "done": ("done", request.results),
            "observe": ("observe", request.objects, request.wait)}.get(request.kind, (request.kind,))


def printed(reply):
    """A reply of the client as report.py has it."""
    fields = {name: getattr(reply, name, None) for name in report.Reply._fields}
    fields["items"] = tuple((item.position, item.client, item.number) for item in reply.items)
    return report.Reply(**fields)


# The vectors.

def block(name):
    """The lines of the fenced block of this name in wire-vectors.txt."""
    with open(os.path.join(ROOT, "docs", "wire-vectors.txt"), encoding="utf-8") as file:
        return re.search(rf"```{name}\n(.*?)```", file.read(), re.S)[1].split("\n")


def message_vectors():
    """The vectors: whether it is a request, its text, the actions of its items, and its frame."""
    vectors = []
    for line in block("wire-messages"):
        if line[:1] in (">", "<"):
            vectors.append((line[0] == ">", line[2:], [], []))
        elif line.startswith("+"):
            vectors[-1][2].append(read_action(line[2:]))
        elif line.strip():
            vectors[-1][3].append(line)
    return [(asks, text, acts, bytes.fromhex("".join(lines))) for asks, text, acts, lines in vectors]


def test_vectors(count):
    """Each vector is written and read as it stands, by the client and by the stand-in."""
    vectors = message_vectors()
    kinds = {text.split()[0] for _, text, _, _ in vectors}
    count.same(len(kinds), 16, "each kind of message has a vector")
    for asks, text, acts, data in vectors:
        payload = data[4:]
        count.same(wire.frame(payload), data, f"frame of {text}")
        count.same(first_payload(bytearray(data)), payload, f"frame of {text}")
        if asks:
            request = report.request_of(text, 0)
            count.same(request_bytes(*clients_request(request)), payload, f"client writes {text}")
            count.same(wire.request_of(payload), request, f"stand-in reads {text}")
            continue
        reply = report.reply_of(text, 0)
        places = dict(zip((item[0] for item in reply.items), acts))
        count.same(wire.reply_bytes(reply, places.get), payload, f"stand-in writes {text}")
        read = Payload(payload).reply()
        count.same(printed(read), reply, f"client reads {text}")
        count.same([item.action for item in read.items], [clients_action(act) for act in acts], f"actions of {text}")


def fault_of_payload(asks, payload):
    """The place and the cause for which a payload is refused, by the side that reads such a message."""
    try:
        if asks:
            wire.request_of(payload)
        else:
            Payload(payload).reply()
    except wire.NoRequest as fault:
        return fault.place, fault.cause
    except Fault as fault:
        word, place, cause = str(fault).split()
        return int(place), wire.CAUSES[int(cause) - 1]
    return None


def test_refused_payloads(count):
    """Payloads that are no message, of wire-vectors.txt and of the product's tests; sizes at their limits."""
    for line in filter(None, block("wire-refused")):
        side, place, cause, *rest = line.split()
        count.same(fault_of_payload(side == ">", bytes.fromhex("".join(rest))), (int(place), cause), line)
    ends = b"\x00\x00\x00\x00\x00\x00\x00\x00"
    head = b"\x89" + b"\x00" * 8 + b"\x00\x00\x01" + b"\x00\x00\x00\x01\x00\x00\x00\x00\x00\x01"
    for statements, fault in ((32, None), (33, (1 + 4 + 3 + 2 + 8 + 1 + 32 * 12, "Large"))):
        body = bytes([statements]) + (b"\x10\x00\x00\x20" + ends) * statements
        data = b"\x01\x00\x00\x00\x01" + ends + body
        count.same(fault_of_payload(True, b"\x06\x00\x00\x00\x01" + data), fault, f"{statements} statements")
        moved = fault and (fault[0] + len(head) - 5, fault[1])
        count.same(fault_of_payload(False, head + data), moved, f"{statements} statements in a relay")
    vectors = {}
    names = {"welcome 0": "welcome", "relay 1 at 0 [0": "relay", "relay 1 at 0 []": "first_relay", "noted": "noted",
             "bye": "bye", "join c0": "join", "submit 1": "submit", "done [1:(6)]": "done", "leave": "leave",
             "observe 0": "observe", "seen 3": "seen", "denied": "denied"}
    for asks, text, _, data in message_vectors():
        for beginning, name in names.items():
            if text.startswith(beginning):
                vectors.setdefault(name, (asks, data[4:]))
    with open(os.path.join(ROOT, "crates", "test_vectors", "src", "edited.rt"), encoding="utf-8") as file:
        for name, listed in re.findall(r"const (\w+): \[u8; \d+\] = \[([^\]]*)\]", file.read()):
            payload = bytes(int(one, 0) for one in re.findall(r"\w+", listed))
            count.same(vectors[name.lower()][1], payload, f"the product's vector {name}")
    for name in ("requests.rt", "replies.rt"):
        with open(os.path.join(ROOT, "crates", "test_vectors", "src", name), encoding="utf-8") as file:
            rows = re.findall(r"^(\w+) (out|add|raise) (\d+) (\w+) (\d+)", file.read(), re.M)
        count.expect(len(rows) > 100, f"{name} has rows")
        for message, how, place, cause, refused in rows:
            asks, payload = vectors[message]
            place, edited = int(place), bytearray(payload)
            if how == "raise":
                edited[place] = (edited[place] + 1) % 256
            else:
                edited[place:place + (how == "out")] = b"" if how == "out" else b"\x00"
            wanted = None if cause == "Message" else (int(refused), cause)
            count.same(fault_of_payload(asks, bytes(edited)), wanted, f"{name}: {message} {how} {place}")


def test_streams(count):
    """Streams in pieces, by both sides."""
    for line in filter(None, block("wire-streams")):
        pieces, wanted = line.split(" -> ")
        frames, came, found = wire.Frames(), bytearray(), ([], [])
        for piece in pieces.split("|"):
            frames.feed(bytes.fromhex(piece))
            came += bytes.fromhex(piece)
            for side, take in enumerate((frames.next, lambda: first_payload(came))):
                while "toolong" not in "".join(found[side]):
                    try:
                        payload = take()
                    except (wire.TooLong, Fault) as fault:
                        found[side].append(f"toolong {str(fault).split()[-1]}")
                        break
                    if payload is None:
                        break
                    found[side].append(payload.hex() or "empty")
        for each in found:
            if not each or not each[-1].startswith("toolong"):
                each.append("wait")
            count.same(", ".join(each), wanted, f"stream {pieces}")
    came = bytearray(b"\x00\x01\x00\x00" + b"\x07" * 65_536)
    count.same(len(first_payload(came)), 65_536, "the longest frame")
    count.same(len(came), 0, "nothing is left of it")


# Actions.

def test_actions(count):
    """The client's bytes, check and results beside those of actions.py, on random actions."""
    for seed in range(100):
        maker = Maker(seed)
        chance = random.Random(seed)
        for _ in range(4):
            text = maker.act()
            act = read_action(text)
            mine = clients_action(act)
            payload = request_bytes("submit", 7, mine)
            count.same(wire.request_of(payload).action, act, f"bytes of {text}")
            count.same(wire.action_bytes(act), payload[5:], f"bytes of {text}")
            count.same(Payload(payload[5:]).action(), mine, f"read again: {text}")
            shape = (chance.choice([maker.objects, 2]), chance.choice([maker.attributes, 1]))
            count.same(mine.fault(*shape), fault_of_action(act, *shape), f"check of {text} in {shape}")
            values = {target: tuple(maker.number() for _ in range(maker.attributes)) for target in act.reads}
            count.same(mine.result(list(values.values())), evaluate(act, values), f"{text} on {values}")


def wrong_of(wrong):
    """What a TypeError says, or a word that says that none came."""
    try:
        wrong()
    except TypeError as fault:
        return str(fault)
    return "nothing"


def test_builder(count):
    """Actions that are made with Python's operators, the numbers of arithmetic, and the eleven causes."""
    a, b = obj(3).attr(1), obj(300).attr(0)
    for made, text in (
            (action(a.set(a + 1)), "reads 3 writes 3 { set @3.1 (@3.1 + 1); }"),
            (action(b.set(2 - a), a.set(b.max(0).min(a))), "reads 3 300 writes 3 300 { set @300.0 (2 - @3.1); "
             "set @3.1 ((@300.0 max 0) min @3.1); }"),
            (action(when((a > 1) & ~(b != 5), [b.set(a * -3)], [b.set(b / 2 % 7)]), at=(1, -2)),
             "reads 3 300 writes 300 at 1 -2 { if ([1 < @3.1] and not not [@300.0 == 5]) "
             "{ set @300.0 (@3.1 * -3); } else { set @300.0 ((@300.0 / 2) % 7); } }"),
            (action(when((a <= 1) | (5 >= b), [])), "reads 3 300 writes { if ([@3.1 <= 1] or [@300.0 <= 5]) { } }"),
            (action(reads=(1, 2), writes=(2,)), "reads 1 2 writes 2 { }"),
            (action([a.set(1), [b.set(2)]], at=[3, 4]), "reads 3 300 writes 3 300 at 3 4 { set @3.1 1; set @300.0 2; }"),
            (action(one.set(1) for one in (a, b)), "reads 3 300 writes 3 300 { set @3.1 1; set @300.0 1; }"), (action([]), "reads writes { }"),
            (action(when(a > 1, a.set(1), b.set(2))), "reads 3 300 writes 3 300 { if [1 < @3.1] { set @3.1 1; } else { set @300.0 2; } }"),
            (action(a.set(number(5).min(b))), "reads 3 300 writes 3 { set @3.1 (5 min @300.0); }")):
        count.same(made, act_of(text) if "reads writes" not in text else Action((), 0, (0, 0), ()), text)
        count.same((str(made), f"{made}"), (text,) * 2, f"the text of {text}")
    for text, before, after in (("/ 2", -7, -3), ("% 2", -7, -1), ("/ -2", 7, -3), ("% -2", 7, 1), ("/ 0", 5, 5),
                                ("% 0", 5, 5), ("/ -1", LEAST, LEAST), ("% -1", LEAST, LEAST), ("% -1", 9, 0),
                                ("+ 1", GREATEST, GREATEST), ("* -1", LEAST, LEAST), ("- 1", LEAST, LEAST)):
        act = act_of(f"reads 0 writes 0 {{ set @0.0 77; set @0.0 ({before} {text}); }}")
        count.same(act.result([(42,)]), ((42 if after == before else after,),), f"{before} {text}")
    for wrong in (lambda: action(a.set(a > 1)), lambda: action(a.set(2 ** 63)), lambda: action(a.set(0.5)),
                  lambda: action(when(a + 1, [a.set(1)])), lambda: action(a.set((a > 1) + 1)), lambda: action(a + 1)):
        count.expect("belongs" in wrong_of(wrong), "a wrong node is no action")
    for text, wrong in (
            ("the expression `+` stands where a statement belongs, as gold.set(5) or ", lambda: action(a + 1)),
            ("the condition `<` stands where a statement belongs, as ", lambda: action([a.set(1), a > 1])),
            ("'reads 0 writes { }' stands where a statement belongs", lambda: action("reads 0 writes { }")),
            ("None stands where a statement belongs", lambda: action(None)), ("an attribute stands where a statement", lambda: action([[a]])),
            ("{} stands where a statement belongs", lambda: action({})), ("5 stands where a statement belongs", lambda: when(a > 1, [5])),
            ("the expression `*` stands where a statement belongs", lambda: when(a > 1, [], a * 2)),
            ("True stands where a condition belongs, as gold > 5", lambda: when(True, [])), ("an attribute stands where a condition", lambda: when(a, [])),
            ("an attribute stands where a condition belongs", lambda: action(when((a > 1) & b, []))),
            ("the condition `<` stands where an expression belongs", lambda: action(a.set(a > 1))),
            ("'5' stands where a term or a whole number of 64 bits belongs", lambda: a.set("5")),
            ("the statement `set` stands where a term", lambda: a.set(b.set(1))), ("None stands where a term", lambda: a + None),
            ("9223372036854775808 stands where a term", lambda: a.set(2 ** 63)), ("True stands where a term", lambda: a.set(True)),
            ("only an attribute can be set, as obj(3).attr(0): the expression `+` can't", lambda: (a + 1).set(3)),
            ("only an attribute can be set, as obj(3).attr(0): 5 can't", lambda: number(5).set(3)),
            ("'3' stands where a whole number belongs", lambda: action(obj("3").attr(0).set(1))),
            ("-1 stands where a whole number belongs", lambda: action(obj(-1).attr(0).set(1))),
            ("reads=3: a list of whole numbers belongs there", lambda: action(a.set(1), reads=3)),
            ("writes='12': a list of whole", lambda: action(a.set(1), writes="12")), ("at=5: a list of", lambda: action(a.set(1), at=5)),
            ("[('set', 3, 1, ('number', 1))] stands where an action belongs", lambda: Client(0, 4, 2).act([a.set(1)]))):
        count.same(wrong_of(wrong)[:len(text)], text, f"what is wrong: {text}")
    for name, wrong in (
            ("and", lambda: when(a > 1 and b > 1, [])), ("or", lambda: when(a > 1 or b > 1, [])),
            ("not", lambda: when(not a > 1, [])), ("a chain", lambda: when(0 < a < 5, [])),
            ("min", lambda: a.set(min(a, 5))), ("max", lambda: a.set(max(5, b))), ("in", lambda: when(a in (1, 2), [])),
            ("if", lambda: a.set(1 if a > 1 else 2)), ("if of a number", lambda: a.set(1 if a else 2)),
            ("no brackets", lambda: when(a == b & a >= 2, []))):
        try:
            wrong()
        except TypeError as fault:
            count.expect(str(fault).startswith("no truth value: write & | ~ "), f"{name}: {fault}")
        else:
            count.expect(False, f"Python's {name} is none of an action")
    one, get = ("number", 1), ("get", 0, 0)
    deep = one
    for _ in range(6):
        deep = ("+", deep, one)
    for cause, act in (
            (1, Action((), 0, (0, 0), ())), (2, Action(tuple(range(17)), 0, (0, 0), ())),
            (3, Action((1, 1), 0, (0, 0), ())), (4, Action((0, 9), 8, (0, 0), ())),
            (5, Action((0,), 2, (0, 0), ())), (6, Action((0,), 1, (0, 0), (("set", 1, 0, one),))),
            (7, Action((0,), 0, (0, 0), (("set", 0, 0, one),))),
            (8, Action((0,), 1, (0, 0), (("set", 0, 0, ("get", 0, 1)),))),
            (9, Action((0,), 1, (0, 0), (("set", 0, 0, one),) * 33)),
            (None, Action((0,), 1, (0, 0), (("set", 0, 0, one),) * 32)),
            (10, Action((0,), 1, (0, 0), (("set", 0, 0, ("+", deep, one)),))),
            (None, Action((0,), 1, (0, 0), (("set", 0, 0, deep),))),
            (11, Action((0,), 1, (0, -1_000_001), (("set", 0, 0, get),)))):
        count.same(act.fault(9, 1), cause, f"cause {cause}")


def test_texts(count):
    """Texts that are no actions, each with its place and its cause; and canonical texts. The cases are those of js_cases.py."""
    from tests import js_cases
    refused = 0
    for case in js_cases.refused_texts():
        try:
            read, fault = action_of(case["text"]), None
        except Fault as found:
            fault = [found.place, found.cause]
            count.same(str(found), "text {} {}".format(*fault), "the text of a fault")
        refused += fault is not None
        count.same(fault, case["fault"], f"fault of {case['text']!r}")
        if fault is None:
            count.same(read, act_of(case["text"]), f"action of {case['text']!r}")
    count.expect(refused > 800, f"{refused} texts are refused")
    for text, canonical in js_cases.canonical_texts():
        count.same(text_of(action_of(text)), canonical, f"canonical text of {text!r}")
    for seed in range(500):
        act = read_action(text := Maker(seed).act())
        count.same((action_of(text), text_of(clients_action(act))), (clients_action(act), action_text(act)), f"both ways: {text}")
    for text, fault in (("reads " + "9" * 9999 + " writes { }", "text 6 2"), ("", "text 0 3"), ("reads 0 writes { } \udcff", "text 19 1"),
                        ("reads 0 writes { } é", "text 19 1"), ("é", "text 0 1")):
        count.refuses(lambda: action_of(text), fault, f"text {text[:20]!r}")
    client = Client(0, 1, 1, (0,))
    client.join(Sink())
    client.make(ADD_ONE)
    count.same(client.pending[0][1], act_of(ADD_ONE), "an action that is given as a text")
    count.refuses(lambda: client.make("reads 1 writes { }"), "action 4", "a text that the world refuses")
    count.refuses(lambda: client.make("reads 1"), "text 7 3", "a text that is none")
    count.same(client.made, 1, "nothing was made then")
    client.act(ADD_ONE)
    client.make(ADD_ONE)
    count.same(client.made, 3, "an action is made by both of its words")
    count.same(parse_action(ADD_ONE), action_of(ADD_ONE), "both words for reading one")


# Beside the clients of the simulation.

class Sink:
    """Takes what a client sends."""

    def __init__(self):
        self.frames = wire.Frames()

    def sendall(self, data):
        """Bytes that are sent."""
        self.frames.feed(data)

    def close(self):
        """The client goes."""


class Beside(Player):
    """A player of the simulation that does all that it does by the Python client too, and compares."""

    wrong = []

    def __init__(self, client, plan):
        super().__init__(client, plan)
        self.changes = []
        self.mine = Client(client, len(plan.opening), plan.attributes, self.plan.interest,
                           lambda *change: self.changes.append(change))

    def compare(self, asked):
        """What was asked, seen, kept and told is the same."""
        said = []
        while self.mine.link and (payload := self.mine.link.frames.next()) is not None:
            said.append(wire.request_of(payload))
        told = ["{} {} -> {}".format(target, *(report.value_text(one) if one else "?" for one in views))
                for target, *views in self.changes]
        pairs = ((said, asked or []), (told, [line.split(" ", 3)[3] for line in self.told]),
                 ([(one[0], one[2]) for one in self.mine.pending], [(one[0], one[2]) for one in self.pending]),
                 (len(self.mine.outstanding), len(self.waiting)), (self.mine.told, self.told_commit),
                 ([self.mine.view(one) for one in range(self.mine.shape[0])],
                  [self.view(one) for one in range(self.mine.shape[0])]))
        Beside.wrong += [pair for pair in pairs if pair[0] != pair[1]]
        return asked

    def turn(self):
        return self.compare(super().turn())

    def join(self):
        self.mine.join(Sink())
        return super().join()

    def make(self, act):
        self.mine.make(clients_action(act))
        return super().make(act)

    def ask(self, request):
        if request.kind == "poll":
            self.mine.poll()
        elif request.kind == "observe":
            self.mine.observe(request.objects, request.wait)
        elif request.kind == "leave":
            self.mine.ask("leave")
        return super().ask(request)

    def take(self, number, reply, actions):
        self.mine.accept(Payload(wire.reply_bytes(reply, actions.get)).reply())
        return self.compare(super().take(number, reply, actions))


def test_beside_players(count):
    """The client does random scripts beside the clients of the simulation: the same bytes, views and changes."""
    for seed in range(1, 25):
        plan = scenario_of(scenario_text(seed).encode("ascii"))
        for run in (lambda: simulate.replay(plan, player=Beside), lambda: simulate.play(plan, seed, player=Beside)):
            Beside.wrong = []
            try:
                run()
            except Fault as fault:
                Beside.wrong.append(fault)
            count.same(Beside.wrong[:1], [], f"random scenario {seed}")


# Sessions over TCP.

def scenario(objects, bound, cuts, interest=None, reach=None):
    """A scenario with a client for each number of cuts, whose scripts do nothing else."""
    value = {"attrs": len(objects[0]), "objects": objects, "bound": bound, "clients": [
        {"interest": list(range(len(objects))) if interest is None else interest, "steps": ["cut"] * each}
        for each in cuts]}
    if reach is not None:
        value["reach"] = reach
    return scenario_of(json.dumps(value).encode("ascii"))


def link_to(server):
    """A connection to a stand-in."""
    link = socket.create_connection(("127.0.0.1", server.port), timeout=LONGEST)
    link.setsockopt(socket.IPPROTO_TCP, socket.TCP_NODELAY, 1)
    return link


class Observer(Client):
    """A client that keeps what it was shown: pairs of a cut and the values there."""

    shown = ()

    def accept(self, reply):
        """Takes a reply."""
        super().accept(reply)
        if reply.kind == "seen":
            self.shown = (*self.shown, (reply.last, reply.seen))
        return reply


def client_of(plan, number, interest=None):
    """A client of a scenario, and the list of changes that it tells."""
    told = []
    mine = plan.plans[number].interest if interest is None else interest
    client = Observer(number, len(plan.opening), plan.attributes, mine, lambda *change: told.append(change))
    return client, told


def history_of(plan, text):
    """What a printed journal says: it must be legal, and all its values serial."""
    lines = report.Lines(text)
    entries = [report.entry_of(lines, place + 1) for place in range(int(lines.match(r"journal (\d+)")[1]))]
    history = check_journal(plan, entries)
    serial = SerialWorld(plan.opening, history.accepted)
    check_serial_values(history, serial, entries)
    return history, serial


def judge(count, plan, server, clients, name):
    """The journal is legal, the world is serial, and each client holds serial values and tells its views."""
    count.expect(server.wait(LONGEST), f"{name}: all sessions are over")
    try:
        history, serial = history_of(plan, server.journal())
    except report.Fault as fault:
        count.expect(False, f"{name}: {fault}")
        return None, None
    count.same(server.server.committed, [serial.value(target, history.commit) for target in range(len(plan.opening))],
               f"{name}: the committed world")
    pairs = [(one.author, one.number) for one in history.accepted]
    count.same(len(set(pairs)), len(pairs), f"{name}: no action twice")
    for client, told in clients:
        wrong = [(target, place) for target, held in client.versions.items() for place, value in held.items()
                 if value != serial.value(target, place)]
        count.same(wrong, [], f"{name}: client {client.number} holds serial values")
        cuts = [(last, {target: serial.value(target, last) for target in values}) for last, values in client.shown]
        count.same(list(client.shown), cuts, f"{name}: client {client.number} was shown serial cuts")
        seen = dict.fromkeys(client.seen)
        for target, old, new in told:
            if seen[target] != old or old == new:
                count.expect(False, f"{name}: client {client.number} tells {target} {old} {new}")
            seen[target] = new
        count.same(seen, {target: client.view(target) for target in seen}, f"{name}: told views")
        for target, held in client.versions.items():
            old = [place for place in held if place <= client.told]
            count.expect(len(old) <= 1, f"{name}: object {target} has one old version at most")
    return history, serial


def test_two_at_once(count):
    """Two clients in threads, who add to the same objects at once."""
    plan = scenario([[10], [20], [30]], 32, (0, 0))
    server = StandIn(plan).start()
    clients = [client_of(plan, number) for number in range(2)]
    faults = []

    def work(client):
        chance = random.Random(client.number)
        try:
            client.join(link_to(server))
            for _ in range(60):
                target = chance.randrange(3)
                here, there = obj(target).attr(0), obj((target + 1) % 3).attr(0)
                client.make(chance.choice([action(here.set(here + 1)), action(here.set(here + there), there.set(1))]))
                while len(client.pending) == 8 or (client.outstanding and chance.random() < 0.4):
                    client.take()
            client.leave()
        except (Fault, OSError) as fault:
            faults.append(fault)

    threads = [threading.Thread(target=work, args=(client,), daemon=True) for client, _ in clients]
    for thread in threads:
        thread.start()
    for thread in threads:
        thread.join(LONGEST)
    count.same(faults, [], "two at once: no fault")
    history, _ = judge(count, plan, server, clients, "two at once")
    if history:
        count.same([len(history.outcomes[number]) for number in range(2)], [60, 60], "two at once: outcomes")
        count.same(history.commit, len(history.accepted), "two at once: all is committed")
        count.same([client.pending for client, _ in clients], [[], []], "two at once: nothing is pending")


def test_rejoin(count):
    """A connection that is cut with replies under way: the next session asks for all outcomes again."""
    for at_once in (False, True):
        name = f"rejoin, at once {at_once}"
        plan = scenario([[5], [7]], 8, (2, 0))
        server = StandIn(plan, at_once=at_once).start()
        links = [link_to(server) for _ in range(4)] if not at_once else []
        first, second = client_of(plan, 0), client_of(plan, 1)
        client, other = first[0], second[0]
        client.join(links[0] if links else link_to(server))
        client.make(action(obj(0).attr(0).set(obj(0).attr(0) + 1)))
        client.take()
        client.take()
        client.make(action(obj(0).attr(0).set(obj(0).attr(0) * 10)))
        client.make(action(obj(1).attr(0).set(obj(0).attr(0) + 1)))
        views = [client.view(target) for target in range(2)]
        client.give_up()
        count.same([one[0] for one in client.pending], [2, 3], f"{name}: two stay pending")
        count.same([client.view(target) for target in range(2)], views, f"{name}: views stay")
        count.refuses(lambda: client.make(act_of(ADD_ONE)), "outside", f"{name}: no session")
        count.refuses(client.take, "outside", f"{name}: no reply")
        client.join(links[1] if links else link_to(server))
        count.same([request[0] for request in client.outstanding], ["join", "submit", "submit"], f"{name}: asked")
        client.finish()
        count.same((client.life, client.made, client.pending), (2, 3, []), f"{name}: all have outcomes")
        client.make(action(obj(0).attr(0).set(obj(0).attr(0) - 1)))
        client.give_up()
        other.join(links[2] if links else link_to(server))
        other.finish()
        for _ in range(200):
            other.poll()
            other.finish()
        other.make(action(reads=(0, 1)))
        other.leave()
        client.join(links[3] if links else link_to(server))
        client.finish()
        client.leave()
        history, serial = judge(count, plan, server, [first, second], name)
        if history:
            count.same([one.number for one in history.accepted if one.author == 0], [1, 2, 3, 4], f"{name}: once each")
            count.same(history.commit, 5, f"{name}: all is committed")
            count.same([serial.value(target, 5) for target in range(2)], [(59,), (61,)], f"{name}: the world")


def test_dropped(count):
    """A small bound drops what is made too fast, and the views fall back; a reach drops what is far away."""
    plan = scenario([[0]], 1, (0,))
    server = StandIn(plan).start()
    client, told = client_of(plan, 0)
    client.join(link_to(server))
    for _ in range(8):
        client.make(action(obj(0).attr(0).set(obj(0).attr(0) + 1)))
    count.same(client.view(0), None, "dropped: nothing is known before the welcome")
    count.refuses(lambda: client.make(act_of(ADD_ONE)), "full", "a ninth pending action")
    kinds = []
    while client.outstanding:
        kinds.append(client.take().kind)
    count.expect("dropped" in kinds, f"dropped: {kinds}")
    kept = client.view(0)
    client.leave()
    history, serial = judge(count, plan, server, [(client, told)], "dropped")
    if history:
        count.same(kept, serial.value(0, history.commit), "dropped: the view is the committed value")
        count.same(kept, (8 - kinds.count("dropped"),), "dropped: what was accepted counts")
    plan = scenario([[0]], 8, (0,), reach=10)
    server = StandIn(plan).start()
    client, told = client_of(plan, 0)
    client.join(link_to(server))
    client.finish()
    for origin in ((0, 0), (11, 3), (10, -10)):
        client.make(action(obj(0).attr(0).set(obj(0).attr(0) + 1), at=origin))
    views = [client.view(0)]
    while client.outstanding:
        reply = client.take()
        if reply.kind == "dropped":
            views.append((reply.number, reply.chain, reply.far, client.view(0)))
    views.append(client.view(0))
    client.leave()
    judge(count, plan, server, [(client, told)], "reach")
    count.same(views, [(3,), (2, 1, 11, (2,)), (2,)], "reach: the far one is dropped, and the views follow")


def test_interest(count):
    """An interest in any order, with an object twice, joins as the ascending list that a server takes."""
    client, sink = Client(0, 4, 1, (3, 0, 2, 0)), Sink()
    client.join(sink)
    count.same(wire.request_of(sink.frames.next()).interest, (0, 2, 3), "an interest that is not sorted")


def test_limits(count):
    """Sixteen outstanding requests, and the requests of a session."""
    plan = scenario([[0]], 8, (1,))
    server = StandIn(plan, at_once=True).start()
    client, told = client_of(plan, 0)
    client.join(link_to(server))
    for _ in range(15):
        client.poll()
    count.refuses(client.poll, "busy", "a seventeenth request")
    count.refuses(lambda: client.make(act_of(ADD_ONE)), "busy", "a seventeenth request")
    count.refuses(lambda: client.make(act_of("reads 1 writes { }")), "action 4", "the check comes first")
    client.finish()
    made = 0
    try:
        while True:
            client.make(act_of(ADD_ONE)) if made % 2 else client.poll()
            made += 1
            if made % 5 == 0:
                client.finish()
    except Fault as fault:
        count.same(str(fault), "spent", "the requests of a session are spent")
    count.expect(client.asked > 1000, "only at the end of a session")
    client.leave()
    count.expect(client.asked <= 1024, "the leave was one of the session's requests")
    client.join(link_to(server))
    client.make(act_of(ADD_ONE))
    client.leave()
    judge(count, plan, server, [(client, told)], "limits")


def test_random_runs(count):
    """Random clients on one thread: they make, take, poll, give their sessions up and join again."""
    shown = 0
    for seed in range(16):
        chance = random.Random(seed)
        maker = Maker(seed)
        cuts = [chance.choice([0, 1, 3]) for _ in range(chance.choice([2, 3, 4]))]
        opening = [[maker.number() for _ in range(maker.attributes)] for _ in range(maker.objects)]
        plan = scenario(opening, maker.bound, cuts, [], maker.reach)
        server = StandIn(plan, at_once=True).start()
        clients = [client_of(plan, number, tuple(sorted(chance.sample(range(maker.objects),
                                                                      chance.randrange(maker.objects + 1)))))
                   for number in range(len(cuts))]
        left = dict(enumerate(cuts))
        steps = {number: 25 for number in left}
        try:
            while steps:
                number = chance.choice(list(steps))
                client = clients[number][0]
                if not client.link:
                    client.join(link_to(server))
                what = chance.choice(("make", "make", "make", "take", "take", "poll", "observe", "observe", "cut"))
                if what == "make" and len(client.pending) < 8 and len(client.outstanding) < 16:
                    client.make(act_of(maker.act()))
                elif what == "take" and client.outstanding:
                    client.take(chance.choice([None, 0]))
                elif what == "poll" and len(client.outstanding) < 16:
                    client.poll()
                elif what == "observe" and len(client.outstanding) < 16:
                    seen = chance.sample(range(maker.objects), chance.randrange(1, maker.objects + 1))
                    client.observe(sorted(seen), chance.choice([0, 50]))
                elif what == "cut" and left[number]:
                    left[number] -= 1
                    client.give_up()
                steps[number] -= 1
                if steps[number] == 0:
                    del steps[number]
                    for _ in range(left[number] + (not client.link)):
                        client.join(link_to(server))
                    client.leave()
        except (Fault, OSError) as fault:
            count.expect(False, f"random run {seed}: {fault!r}")
            continue
        history, _ = judge(count, plan, server, clients, f"random run {seed}")
        if history:
            made = [client.made for client, _ in clients]
            count.same([len(history.outcomes.get(number, [])) for number in range(len(cuts))], made,
                       f"random run {seed}: an outcome for each action")
        shown += sum(len(client.shown) for client, _ in clients)
    count.expect(shown > 100, f"{shown} times something was shown")


# Careless clients.

def said(server, *pieces):
    """The replies to bytes that are sent in pieces over a new connection, until the server closes it."""
    frames, found = wire.Frames(), []
    with link_to(server) as link:
        for piece in pieces:
            link.sendall(piece)
        link.shutdown(socket.SHUT_WR)
        while piece := link.recv(65_536):
            frames.feed(piece)
    while (payload := frames.next()) is not None:
        found.append(report.reply_text(printed(Payload(payload).reply())))
    return found


def test_malformed(count):
    """Payloads that are no request and too long frames end their session with Refused 1; half a frame is nothing."""
    plan = scenario([[0]], 8, (8,))
    server = StandIn(plan, at_once=True).start()
    poll, leave = wire.frame(b"\x04"), wire.frame(b"\x05")

    def join(life):
        return wire.frame(request_bytes("join", 0, life, ()))

    def submit(act):
        return wire.frame(request_bytes("submit", 1, act))

    one = ("number", 1)
    for sent, wanted in (
            ((join(1), wire.frame(b"\x02"), poll), ["welcome 0 []", "refused 1 0"]),
            ((join(2) + poll, b"\x00\x01\x00\x01" + poll), ["welcome 0 []", "idle", "refused 1 0"]),
            ((wire.frame(b""),), ["refused 1 0"]),
            ((join(3), poll[:3]), ["welcome 0 []"]),
            ((poll, join(3), join(4) + leave + poll), ["refused 2 0", "refused 11 3", "welcome 0 []", "bye"]),
            ((b"\xff\xff\xff\xff",), ["refused 1 0"]),
            ((join(5)[:2], join(5)[2:7], join(5)[7:] + poll[:4], poll[4:]), ["welcome 0 []", "idle"]),
            ((join(6), submit(Action((0,), 1, (0, 0), (("set", 1, 0, one),))), poll), ["welcome 0 []", "refused 6 6", "idle"]),
            ((join(7), submit(Action((0,), 1, (0, 1_000_001), ())), leave), ["welcome 0 []", "refused 6 11", "bye"])):
        count.same(said(server, *sent), wanted, f"sent {b''.join(sent).hex()}")
    count.expect(server.wait(LONGEST), "malformed: all sessions are over")
    lines = server.journal().split("\n")
    count.same(len([line for line in lines if " bad -> refused 1 0" in line]), 4, "the journal has what was malformed")
    count.same(len([line for line in lines if " end -> bye" in line]), 9, "each session has its end")
    count.same(len([line for line in lines if "submit 1 bad -> refused 6" in line]), 2, "the journal has refused actions")


# A lying server.

def kept_by(client):
    """All that a client keeps, copied."""
    return copy.deepcopy((client.versions, client.pending, list(client.outstanding), client.told, client.made,
                          client.life, client.asked, client.seen))


def reply(text, *texts):
    """The payload of a reply, with the actions of its items."""
    read = report.reply_of(text, 0)
    acts = dict(zip((item[0] for item in read.items), map(read_action, texts)))
    return wire.reply_bytes(read, acts.get)


OTHER = "reads 1 writes 1 { set @1.0 (@1.0 + 2); }"
BOTH = "reads 0 1 writes 1 { set @1.0 (@1.0 + @0.0); }"
BAD_SET = b"\x01\x00\x00\x00\x00" + b"\x00" * 8 + b"\x01\x10\x00\x00\x20" + b"\x00" * 8
ITEM = b"\x00\x00\x00\x04\x00\x01\x00\x00\x00\x01"


def lies():
    """What a lying server says to a client that is asked so: what was asked, the payload, the fault."""
    relay = reply("relay 2 at 3 [] [4:c0.2]", ADD_ONE)
    yield "nothing", reply("idle"), "unasked"
    yield "nothing", reply("refused 4 0"), "unasked"
    for asked, allowed in (("join", "welcome"), ("act", "relay dropped denied settled"), ("poll", "relay idle"),
                           ("leave", "bye"), ("done", "noted"), ("observe", "seen")):
        for text in ("welcome 3 []", "dropped 2 chain 1 far 0", "settled 2 at 3", "noted 3", "idle", "bye", "refused 4 0",
                     "refused 9 0", "relay 0 at 3 [] []", "seen 3 at 3 [] []", "denied 2 object 0"):
            if text.split()[0] not in allowed:
                yield asked, reply(text), "wrongkind"
    yield "poll", reply("welcome 1 [9=(1)]"), "wrongkind"
    yield "act", reply("relay 2 at 3 [] [5:c1.1 4:c0.2]", OTHER, ADD_ONE), "badorder"
    yield "act", reply("relay 2 at 3 [] [4:c1.1 4:c0.2]", OTHER, ADD_ONE), "badorder"
    yield "act", reply("relay 2 at 3 [] [3:c1.1 4:c0.2]", OTHER, ADD_ONE), "badorder"
    yield "act", reply("relay 2 at 4 [] [4:c0.2]", ADD_ONE), "badorder"
    yield "act", reply("relay 9 at 2 [9=(1)] [4:c0.2]", ADD_ONE), "badorder"
    yield "poll", reply("relay 0 at 2 [] [4:c1.1]", OTHER), "badorder"
    yield "join", reply("welcome 2 []"), "badorder"
    yield "done", reply("noted 2"), "badorder"
    for text in ("seen 3 at 4 [] []", "seen 9 at 2 [] []", "seen 4294967295 at 3 [] []"):
        yield "observe", reply(text), "badorder"
    yield "observe", reply("seen 4 at 3 [] [5:c1.1]", ADD_ONE), "badorder"
    yield "observe", reply("seen 5 at 3 [] [5:c1.2 4:c1.1]", ADD_ONE, ADD_ONE), "badorder"
    yield "observe", reply("seen 5 at 3 [] [3:c1.1]", ADD_ONE), "badorder"
    yield "observe", reply("seen 3 at 3 [2=(1)] []"), "baditem"
    yield "observe", reply("seen 3 at 3 [0=(1,1)] []"), "baditem"
    yield "observe", reply("seen 4 at 3 [] [4:c1.1]", "reads 2 writes { }"), "baditem"
    yield "observe", reply("seen 3 at 3 [] []"), "missing 4 1"
    yield "observe", reply("seen 4294967294 at 3 [] []"), "missing 4294967295 1"
    yield "observe", reply("seen 5 at 3 [] [4:c1.1]", ADD_ONE), "missing 6 1"
    yield "observe", reply("seen 5 at 3 [] [4:c1.1 5:c1.2]", ADD_ONE, OTHER), "missing 5 1"
    yield "join", reply("welcome 3 [2=(1)]"), "baditem"
    yield "join", reply("welcome 3 [0=(1,2)]"), "baditem"
    yield "act", reply("relay 2 at 3 [2=(1)] [4:c0.2]", ADD_ONE), "baditem"
    yield "act", reply("relay 2 at 3 [0=(1,1)] [4:c0.2]", ADD_ONE), "baditem"
    yield "act", reply("relay 2 at 3 [] []"), "baditem"
    yield "poll", reply("relay 0 at 3 [] []"), "baditem"
    yield "poll", reply("relay 1 at 3 [] [4:c1.1]", ADD_ONE), "baditem"
    for text in ("dropped 1 chain 9 far 0", "dropped 3 chain 9 far 0", "settled 1 at 3", "settled 3 at 3",
                 "denied 1 object 0", "denied 3 object 0"):
        yield "act", reply(text), "baditem"
    yield "act", reply("relay 1 at 3 [] [4:c0.2]", ADD_ONE), "baditem"
    yield "act", reply("relay 3 at 3 [] [4:c0.3]", ADD_ONE), "baditem"
    yield "act", reply("relay 2 at 3 [] [4:c1.2]", ADD_ONE), "baditem"
    yield "act", reply("relay 2 at 3 [] [4:c0.3]", ADD_ONE), "baditem"
    yield "act", reply("relay 2 at 3 [] [4:c0.2 5:c1.1]", ADD_ONE, ADD_ONE), "baditem"
    for text in (OTHER, "reads 0 writes 0 { set @0.0 (@0.0 + 2); }", "reads 0 writes 0 at 0 1 { set @0.0 (@0.0 + 1); }",
                 "reads 0 1 writes 0 { set @0.0 (@0.0 + 1); }"):
        yield "act", reply("relay 2 at 3 [] [4:c0.2]", text), "baditem"
    for text in ("reads 2 writes { }", "reads 0 writes { set @0.0 1; }", "reads 0 writes 0 { set @0.1 1; }",
                 "reads 0 writes { if [@0.1 < 1] { } }"):
        yield "poll", reply("relay 0 at 3 [] [4:c1.1]", text), "baditem"
    start = b"\x89\x00\x00\x00\x00\x00\x00\x00\x03\x00\x00\x01" + ITEM
    yield "poll", start + BAD_SET, "baditem"
    yield "poll", start + b"\x01\x00\x00\x00\x01\x00\x0f\x42\x41\x00\x00\x00\x00\x00", "baditem"
    yield "poll", reply("relay 0 at 3 [] [4:c1.1]", BOTH), "missing 4 1"
    yield "poll", reply("relay 0 at 3 [] [4:c1.1 5:c1.2]", ADD_ONE, OTHER), "missing 5 1"
    yield "act", reply("relay 2 at 3 [] [4:c1.1 5:c0.2]", OTHER, ADD_ONE), "missing 4 1"
    yield "act", relay + b"\x00", f"malformed {len(relay)} 9"
    yield "act", relay[:-1], f"malformed {len(relay) - 8} 1"
    yield "act", b"", "malformed 0 1"
    yield "act", b"\x06", "malformed 0 2"
    yield "join", b"\x81\x00\x00\x00\x03\x00\x02\x00\x01\x01" + b"\x00" * 8 + b"\x00\x01\x01" + b"\x00" * 8, "malformed 18 4"
    yield "nothing", None, "toolong 65537"


class Lied(Client):
    """A client whose server is a test: a pair of sockets, on which the test writes."""

    def __init__(self):
        super().__init__(0, 2, 1, (0, 1))
        self.begin()

    def begin(self):
        """A new session."""
        mine, self.server = socket.socketpair()
        self.join(mine)

    def say(self, payload, more=b""):
        """The server says this, and perhaps some bytes more, and the client takes it."""
        self.server.sendall((b"\x00\x01\x00\x01" if payload is None else wire.frame(payload)) + more)
        return self.take()


def asked_so(asked):
    """A client that knows object 0 alone, was told of commit 3, and awaits a reply to such a request."""
    client = Lied()
    client.say(reply("welcome 1 [0=(5)]"))
    client.make(act_of(ADD_ONE))
    client.say(reply("relay 1 at 2 [] [3:c0.1]", ADD_ONE))
    client.say(reply("noted 3"))
    if asked == "join":
        client.make(act_of(ADD_ONE))
        client.begin()
    elif asked == "act":
        client.make(act_of(ADD_ONE))
        client.make(act_of("reads 0 writes 0 { set @0.0 (@0.0 * 2); }"))
    elif asked == "done":
        client.make(act_of(ADD_ONE))
        client.say(reply("relay 2 at 3 [] [4:c0.2]", ADD_ONE))
    elif asked == "poll":
        client.poll()
    elif asked == "observe":
        client.observe((0, 1))
    elif asked == "leave":
        client.ask("leave")
    return client


def test_lies(count):
    """Each fault of a reply is told, and leaves the client as it was; an honest reply is taken then."""
    for number, (asked, payload, fault) in enumerate(lies()):
        client = asked_so(asked)
        before = kept_by(client)
        name = f"lie {number} to {asked}, {fault}"
        count.refuses(lambda: client.say(payload, wire.frame(reply("idle"))), fault, name)
        count.same(kept_by(client), before, f"{name}: the client is as it was")
        count.expect(client.link is None, f"{name}: the session is given up")
        count.refuses(client.take, "outside", f"{name}: nothing of it is taken later")
        client.begin()
        client.say(reply("welcome 3 [0=(6)]"))
        for place, (_, act, _) in enumerate(list(client.pending)):
            text = ADD_ONE if place == 0 else "reads 0 writes 0 { set @0.0 (@0.0 * 2); }"
            client.say(reply(f"relay {2 + place} at 3 [] [{4 + place}:c0.{2 + place}]", text))
        count.same(client.pending, [], f"{name}: a new session goes on")
        client.server.close()
        count.expect(client.link is not None, f"{name}: joined")
        try:
            client.finish()
        except OSError:
            count.expect(client.link is None, f"{name}: the server went away")
    client = asked_so("join")
    unsorted = Payload(reply("welcome 3 [0=(1) 1=(2)]")).reply()
    unsorted.head = unsorted.head[::-1]
    count.refuses(lambda: client.look_at(unsorted), "badorder", "a head that does not ascend")


def test_refusals(count):
    """A fault has the refusal's code, detail and name, as docs/ERRORS.md has it, where the reply was a refusal."""
    with open(os.path.join(ROOT, "docs", "ERRORS.md"), encoding="utf-8") as file:
        rows = re.findall(r"^\| ([0-9]+) \| ([a-z ]+) \|[^|]*\|[^|]*\|$", file.read(), re.M)
    count.same(len(rows), 12, "refusals")
    for code, name in rows:
        for asked in ("join", "poll"):
            client = asked_so(asked)
            try:
                client.say(reply(f"refused {code} 77"))
            except Fault as fault:
                found = (str(fault), fault.word, fault.code, fault.detail, fault.name, client.link)
                said = f"wrongkind: refused {code} 77, {name}"
                count.same(found, (said, "wrongkind", int(code), 77, name, None), f"refusal {code} to {asked}")
                count.same(vars(fault.refused), {"code": int(code), "detail": 77, "name": name}, "the refusal as a whole")
            else:
                count.expect(False, f"refusal {code} to {asked} is no fault")
    client = asked_so("poll")
    try:
        client.say(reply("bye"))
    except Fault as fault:
        count.same((str(fault), fault.code, fault.detail, fault.name, fault.refused), ("wrongkind", *(None,) * 4), "no refusal")
    denied = Payload(reply("denied 1 object 3")).reply()
    count.same((denied.kind, denied.object, denied.target), ("denied", 3, 3), "the field of denied, and its older name")
    for shape in ((-1, 1, 1), (65535, 1, 1), (70000, 1, 1), (0, 0, 1), (0, 65536, 1), (0, 1, 0), (0, 1, 5), ("0", 1, 1), (0, None, 1), (0, 1, 1.0)):
        try:
            Client(*shape)
        except ValueError as fault:
            count.expect(re.fullmatch(r"(number|objects|attributes): a whole number from \d+ to \d+ belongs there, and not .*", str(fault)), f"shape {shape}: {fault}")
        else:
            count.expect(False, f"shape {shape} is none")
    for shape in ((0, 1, 1), (65534, 65535, 4)):
        count.same(Client(*shape).status, "new", f"shape {shape}")
    for key in ("0123456789abcdef", list(range(16)), 16):
        try:
            Client(0, 1, 1, key=key)
        except TypeError as fault:
            count.expect(str(fault).startswith("key: bytes belong there"), f"key {key!r}: {fault}")
        else:
            count.expect(False, f"key {key!r} is none")


def again(client, **more):
    """The client of another process, from what this one keeps as JSON."""
    return Client.from_saved(json.loads(json.dumps(client.saved())), **more)


def test_saved(count):
    """A new process takes up a number: its life, its number of actions, what it knows and what is pending."""
    for asked in ("join", "act", "done", "poll", "observe", "leave"):
        client = asked_so(asked)
        client.give_up()
        client.outstanding.clear()
        client.asked, new = 0, again(client)
        count.same(kept_by(new)[:-1], kept_by(client)[:-1], f"saved while it waits for {asked}")
        count.same(new.saved(), client.saved(), f"saved again, {asked}")
    for at_once, forgets in ((False, False), (True, False), (True, True)):
        plan = scenario([[5], [7]], 8, (1, 0), [0])
        server, name = StandIn(plan, at_once=at_once).start(), f"taken up, at once {at_once}, versions forgotten {forgets}"
        links = [link_to(server) for _ in range(3)] if not at_once else []
        client, told = client_of(plan, 0)
        client.join(links[0] if links else link_to(server))
        client.finish()
        for _ in range(3):
            client.make(ADD_ONE)
        client.take()
        changes, data = [], json.loads(json.dumps(client.saved()))
        if forgets:
            data.update(versions=[], told=0, pending=[[number, text, None] for number, text, _ in data["pending"]])
        new = Observer.from_saved(data, on_change=lambda *change: changes.append(change))
        client.give_up()
        kept = (new.life, new.made, [one[0] for one in new.pending], new.view(0))
        count.same(kept, (1, 3, [2, 3], None if forgets else (8,)), f"{name}: what it keeps")
        count.refuses(lambda: new.make(ADD_ONE), "outside", f"{name}: it is in no session")
        new.join(links[1] if links else link_to(server))
        new.make(ADD_ONE)
        new.leave()
        other = client_of(plan, 1)
        other[0].join(links[2] if links else link_to(server))
        for _ in range(3):
            other[0].poll()
            other[0].finish()
        other[0].leave()
        history, serial = judge(count, plan, server, [(new, changes), other], name)
        count.expect(told and changes[0][1] is None, f"{name}: all that it sees is told anew")
        if history:
            count.same([one.number for one in history.accepted if one.author == 0], [1, 2, 3, 4], f"{name}: each action counts once")
            count.same(serial.value(0, history.commit), (9,), f"{name}: the world")


# Two processes of one client: the first one keeps all behind each call, and is killed.
KEEPS = """
import json, socket, sys, time
sys.path.insert(0, {clients!r})
from dimboetu import Client
client = Client(0, 2, 1, [0])
client.join(socket.create_connection(("127.0.0.1", {port})))
client.finish()
for _ in range(3):
    client.make({act!r})
    with open({kept!r}, "w") as file:
        json.dump(client.saved(), file)
print("kept", flush=True)
time.sleep({longest})
"""
GOES_ON = """
import json, socket, sys
sys.path.insert(0, {clients!r})
from dimboetu import Client
with open({kept!r}) as file:
    client = Client.from_saved(json.load(file))
print(client.life, client.made, len(client.pending), client.view(0))
client.join(socket.create_connection(("127.0.0.1", {port})))
client.make({act!r})
client.leave()
print(client.life, client.made, len(client.pending), client.view(0))
"""


def test_processes(count):
    """A process that is killed behind three actions, and another one that takes up its place."""
    plan = {"attrs": 1, "objects": [[5], [7]], "bound": 8, "clients": [{"interest": [0], "steps": ["cut"]}]}
    with tempfile.TemporaryDirectory() as room:
        path, kept = os.path.join(room, "world.json"), os.path.join(room, "kept.json")
        with open(path, "w", encoding="ascii") as file:
            json.dump(plan, file)
        server = subprocess.Popen([sys.executable, STAND_IN, path, "0", "--at-once"], stdout=subprocess.PIPE, text=True)
        names = {"clients": CLIENTS, "port": int(server.stdout.readline().split()[1]), "kept": kept, "act": ADD_ONE, "longest": LONGEST}
        first = subprocess.Popen([sys.executable, "-c", KEEPS.format(**names)], stdout=subprocess.PIPE, text=True)
        count.same(first.stdout.readline(), "kept\n", "the first process")
        first.kill()
        first.communicate()
        second = subprocess.run([sys.executable, "-c", GOES_ON.format(**names)], capture_output=True, text=True, timeout=LONGEST, check=False)
        count.same((second.returncode, second.stdout), (0, "1 3 3 (8,)\n2 4 0 (9,)\n"), f"the second process: {second.stderr}")
        journal, commit = server.communicate(timeout=LONGEST)[0].rsplit("commit ", 1)
        history, serial = history_of(scenario_of(json.dumps(plan).encode("ascii")), journal)
        count.same([one.number for one in history.accepted], [1, 2, 3, 4], "each action of both processes counts once")
        count.same((int(commit), serial.value(0, 4)), (4, (9,)), "the world of both processes")


def watching(plan, server, number=0, **more):
    """A client that joined, with connections of its own for further sessions."""
    client = Observer(number, len(plan.opening), plan.attributes, plan.plans[number].interest, connect=lambda: link_to(server), **more)
    client.join()
    return client


def test_watch(count):
    """Over a server that answers an Observe at once: a call at first and for each change, and joining again."""
    plan = scenario([[0], [9]], 8, (1, 0))
    server = StandIn(plan, at_once=True).start()
    clients, calls = [watching(plan, server, number, pause=0.02) for number in range(2)], ([], [])

    def work(number):
        def called(values, changed):
            calls[number].append((values[0][0], changed))
            if number == 0 and values[0][0] < 6:
                clients[0].make(ADD_ONE)
                if values[0][0] == 2:
                    clients[0].link.shutdown(socket.SHUT_RDWR)
            return values[0][0] >= 6
        clients[number].watch((1, 0, 0) if number == 0 else (0,), called)
        clients[number].run()

    threads = [threading.Thread(target=work, args=(number,), daemon=True) for number in range(2)]
    for thread in threads:
        thread.start()
    for thread in threads:
        thread.join(LONGEST)
    count.expect(not any(thread.is_alive() for thread in threads), "watch: both come to their end")
    for client in clients:
        client.leave()
    history, _ = judge(count, plan, server, [(client, [(target, None, client.view(target)) for target in client.seen])
                                             for client in clients], "watch")
    count.same([client.life for client in clients], [2, 1], "watch: it joined again where its connection broke")
    if history:
        count.same([one.number for one in history.accepted], [1, 2, 3, 4, 5, 6], "watch: each action counts once")
        count.same(calls[0], [(0, [0, 1]), *((place, [0]) for place in range(1, 7))], "watch: each guess is told at once, and once")
        seen = [place for place, _ in calls[1]]
        count.expect(seen == sorted(set(seen)) and seen[-1] == 6, f"watch: what another one sees: {seen}")
    plan = scenario([[place] for place in range(40)], 8, (1,), [])
    server = StandIn(plan, at_once=True).start()
    client, found = watching(plan, server, pause=0.05), []
    client.watch(range(40), lambda *call: found.append(call) or client.made == 3 or client.make(ADD_ONE))
    client.run()
    count.same([(len(values), values[0], values[39], len(changed)) for values, changed in found],
               [(40, (place,), (39,), 40 if place == 0 else 1) for place in range(4)], "watch: forty objects")
    watcher, asked = client.watch((0,), lambda values, changed: None), client.asked
    client.run(0.22)
    count.expect(1 <= client.asked - asked <= 6, f"watch: {client.asked - asked} times in four pauses")
    client.asked = 1019
    while client.life == 1 or client.status == "joining":
        client.run(0.1)
    watcher.stop()
    count.same(client.status, "joined", "watch: another session where one is spent")
    count.refuses(lambda: client.watch((), None), "objects", "watch: nothing")
    count.refuses(lambda: client.watch((40,), None), "objects", "watch: an object that is not there")

    def failing(values, changed):
        raise FileNotFoundError("mine")

    client.watch((0,), failing)
    try:
        client.run()
    except FileNotFoundError:
        count.expect(client.link is not None and client.status == "joined", "watch: what its callback raises is no broken connection")
    client.leave()
    count.refuses(lambda: client.watch((0,), None), "outside", "watch: no session")
    lied = asked_so("poll")
    lied.server.sendall(wire.frame(reply("refused 4 0")))
    lied.watch((0,), lambda values, changed: None)
    count.refuses(lied.run, "wrongkind", "watch: it is pushed out")
    count.same(lied.status, "pushed out", "watch: it is pushed out")


def test_late_items(count):
    """An older item that comes late is evaluated on versions below it; what reconciles, and what does not."""
    client = Lied()
    client.say(reply("welcome 0 [0=(100) 1=(5)]"))
    tens = "reads 1 writes 1 { set @1.0 (@1.0 + 10); }"
    take = "reads 0 1 writes 0 { set @0.0 (@0.0 + @1.0); }"
    client.make(act_of(tens))
    client.say(reply("relay 1 at 0 [1=(5)] [1:c1.1 3:c0.1]", OTHER.replace("2", "1"), tens))
    count.same((client.view(1), client.versions[1]), ((16,), {0: (5,), 1: (6,), 3: (16,)}), "values at positions")
    client.make(act_of(ADD_ONE))
    client.say(reply("noted 0"))
    client.say(reply("relay 2 at 0 [] [2:c1.2 4:c0.2]", take, ADD_ONE))
    count.same(client.versions[0], {0: (100,), 2: (106,), 4: (107,)}, "the late item reads the older version")
    client.make(act_of(ADD_ONE))
    client.make(act_of("reads 0 1 writes 1 { set @1.0 @0.0; }"))
    count.same((client.view(0), client.view(1)), ((108,), (108,)), "views over pending actions")
    client.say(reply("noted 3"))
    count.same(client.versions[1], {3: (16,)}, "older versions are forgotten")
    client.say(reply("relay 3 at 3 [] [5:c2.1 6:c0.3]", "reads 0 writes 0 { set @0.0 0; }", ADD_ONE))
    count.same((client.view(0), client.view(1)), ((1,), (1,)), "another result reconciles")
    client.say(reply("dropped 4 chain 9 far 0"))
    count.same((client.view(0), client.view(1)), ((1,), (16,)), "a drop falls back")
    client.give_up()
    client.begin()
    client.say(reply("welcome 6 [0=(1) 1=(16)]"))
    client.make(act_of("reads 0 writes 0 { set @0.0 (@0.0 + 5); }"))
    client.poll()
    client.say(reply("settled 5 at 7"))
    count.same(client.view(0), (1,), "a settled action may fall back until a later relay")
    client.say(reply("relay 0 at 8 [0=(6)] [9:c2.2]", "reads 0 writes 0 { set @0.0 (@0.0 + 1); }"))
    count.same((client.view(0), client.told), ((7,), 8), "the relay of a poll")
    count.same([request[0] for request in client.outstanding], ["done"], "its Done is asked")
    client = Lied()
    client.say(reply("welcome 0 [0=(5)]"))
    client.make(act_of(ADD_ONE))
    client.say(reply("relay 1 at 0 [] [1:c0.1]", ADD_ONE))
    client.begin()
    client.say(reply("welcome 0 [0=(5)]"))
    client.make(act_of(ADD_ONE))
    client.say(reply("relay 2 at 0 [] [1:c0.1 2:c0.2]", ADD_ONE, ADD_ONE))
    count.same(list(client.outstanding), [("done", ((1, ((6,),)), (2, ((7,),))))], "an item that comes again")
    client = Lied()
    client.say(reply("welcome 0 [0=(5) 1=(5)]"))
    client.poll()
    client.make(act_of(ADD_ONE))
    client.make(act_of(OTHER))
    client.say(reply("relay 0 at 0 [] [1:c1.1]", "reads 1 writes 1 { set @1.0 100; }"))
    count.same(client.view(1), (7,), "the relay of a poll does not reconcile")
    client.say(reply("relay 1 at 0 [] [2:c0.1]", ADD_ONE))
    count.same(client.view(1), (7,), "nor does the result that was expected")
    client.say(reply("relay 2 at 0 [] [3:c0.2]", OTHER))
    count.same((client.view(0), client.view(1), client.pending), ((6,), (102,), []), "each result in its turn")


def test_observe(count):
    """Which objects may be observed; what is shown, reported and computed again."""
    client = Client(0, 20, 1)
    count.refuses(lambda: client.observe((0,)), "outside", "no session")
    client.join(Sink())
    for objects in ((), range(17), (1, 0), (0, 0), (0, 20), (-1, 0)):
        count.refuses(lambda: client.observe(objects), "objects", f"objects {objects}")
    for _ in range(15):
        client.observe(range(4, 20), 65535)
    count.refuses(lambda: client.observe(()), "objects", "the objects come first")
    count.refuses(lambda: client.observe((0,)), "busy", "a seventeenth request")
    client = Lied()
    client.say(reply("welcome 0 [0=(5) 1=(5)]"))
    client.observe((0, 1))
    client.make(act_of(ADD_ONE))
    seen = client.say(reply("seen 1 at 0 [] [1:c1.1]", "reads 0 writes 0 { set @0.0 (@0.0 * 10); }"))
    count.same((seen.last, seen.seen, client.view(0)), (1, {0: (50,), 1: (5,)}, (51,)), "an item that is shown reconciles")
    count.same([request[0] for request in client.outstanding], ["submit", "done"], "its result is reported")
    client.poll()
    client.observe((1,))
    client.observe((1,), 9)
    client.make(act_of(OTHER))
    client.say(reply("relay 1 at 0 [] [4:c0.1]", ADD_ONE))
    client.say(reply("noted 1"))
    client.say(reply("relay 0 at 1 [] [2:c1.2]", "reads 1 writes 1 { set @1.0 100; }"))
    client.make(act_of("reads 0 writes { }"))
    seen = client.say(reply("seen 4 at 1 [] []"))
    count.same((seen.seen, client.view(1)), ({1: (100,)}, (7,)), "where nothing is new, nothing is computed again")
    count.same([request[0] for request in client.outstanding], ["observe", "submit", "done", "done", "submit"], "nothing is reported")
    seen = client.say(reply("seen 4 at 3 [1=(200)] []"))
    count.same((seen.seen, client.view(1)), ({1: (200,)}, (202,)), "a value that is shown reconciles")
    client.say(reply("denied 2 object 1"))
    count.same((client.view(1), len(client.pending)), ((200,), 1), "a denied action goes as a dropped one does")
    client = Lied()
    client.say(reply("welcome 0 [0=(5) 1=(5)]"))
    client.make(act_of(ADD_ONE))
    client.observe((0, 1))
    client.say(reply("relay 1 at 0 [] [3:c0.1]", ADD_ONE))
    seen = client.say(reply("seen 2 at 0 [] [1:c1.1]", OTHER))
    count.same((seen.seen, client.view(0)), ({0: (5,), 1: (7,)}, (6,)), "values at the cut, not the latest ones")


# The programs.

def test_programs(count):
    """The stand-in and the example as programs, from another folder."""
    plan = {"attrs": 2, "objects": [[5, 0], [7, 1], [9, 2]], "bound": 8,
            "clients": [{"interest": [0, 1], "steps": []}, {"interest": [1, 2], "steps": []}]}
    with tempfile.TemporaryDirectory() as room:
        path = os.path.join(room, "world.json")
        with open(path, "w", encoding="ascii") as file:
            json.dump(plan, file)
        server = subprocess.Popen([sys.executable, STAND_IN, path, "0"], cwd=room,
                                  stdout=subprocess.PIPE, text=True)
        port = server.stdout.readline().split()[1]
        example = os.path.join(CLIENTS, "example.py")
        players = [subprocess.Popen([sys.executable, example, path, str(number), port, "5"], cwd=room,
                                    stdout=subprocess.PIPE, stderr=subprocess.STDOUT, text=True) for number in range(2)]
        shown = [player.communicate(timeout=LONGEST)[0] for player in players]
        text = server.communicate(timeout=LONGEST)[0]
        count.same([player.returncode for player in players] + [server.returncode], [0, 0, 0], "statuses of the programs")
        for number, lines in enumerate(shown):
            count.expect(f"client {number} made 6" in lines and "expects" in lines, f"example: {lines}")
        journal, commit = text.rsplit("commit ", 1)
        history, serial = history_of(scenario_of(json.dumps(plan).encode("ascii")), journal)
        count.same((int(commit), len(history.accepted)), (12, 12), "all was accepted and committed")
        count.same([serial.value(target, 12)[0] for target in range(3)], [5 + 3, 7 + 2 + 3, 9 + 2], "the world at last")
        for words in ((), (path, "0"), (path, "0", "no")):
            done = subprocess.run([sys.executable, example, *words], capture_output=True, check=False)
            count.same((done.returncode, done.stdout), (1, b""), f"example {words}")
        none, text = os.path.join(room, "none.json"), os.path.join(room, "text.json")
        with open(text, "w", encoding="ascii") as file:
            file.write("world")
        for words, line in (((none, "0"), "stopped: [Errno 2] "), ((text, "0"), "stopped: Expecting value"),
                            ((path, "2"), "stopped: list index out of range")):
            done = subprocess.run([sys.executable, example, *words, port], capture_output=True, text=True, check=False)
            count.same((done.returncode, done.stdout), (1, ""), f"example {words}")
            count.expect(done.stderr.startswith(line) and done.stderr.count("\n") == 1, f"example {words}: {done.stderr}")
        server = subprocess.Popen([sys.executable, STAND_IN, path, "0", "--at-once"], stdout=subprocess.PIPE, text=True)
        port = int(server.stdout.readline().split()[1])
        other = Client(1, 3, 2)
        other.life = 6
        other.join(socket.create_connection(("127.0.0.1", port)))
        other.finish()
        done = subprocess.run([sys.executable, example, path, "1", str(port)], capture_output=True, text=True, check=False)
        count.same((done.returncode, done.stderr), (1, "stopped: wrongkind: refused 11 7, old life\n"), "a number that is taken")
        other.leave()
        server.communicate(timeout=LONGEST)
    size = sum(1 for _ in open(os.path.join(CLIENTS, "dimboetu.py"), encoding="utf-8"))
    count.expect(size <= 940, f"the client has {size} lines")
    count.expect(dimboetu.__doc__.count("\n") > 3, "the client says how it is used")


def test_mine(count):
    """The game of two players, against the stand-in."""
    path, mine = (os.path.join(CLIENTS, name) for name in ("mine.json", "mine.py"))
    server = subprocess.Popen([sys.executable, STAND_IN, path, "0"], stdout=subprocess.PIPE, text=True)
    port = server.stdout.readline().split()[1]
    players = [subprocess.Popen([sys.executable, mine, str(number), port], stdout=subprocess.PIPE,
                                stderr=subprocess.STDOUT, text=True) for number in range(2)]
    shown = [player.communicate(timeout=LONGEST)[0] for player in players]
    text = server.communicate(timeout=LONGEST)[0]
    count.same([player.returncode for player in players] + [server.returncode], [0, 0, 0], "statuses of the game")
    with open(path, "rb") as file:
        history, serial = history_of(scenario_of(file.read()), text.rsplit("commit ", 1)[0])
    last = [serial.value(target, len(history.accepted)) for target in range(3)]
    count.same((last[0][0], last[1][0] + last[2][0]), (0, 21), "all nuggets are in the purses")
    for number, lines in enumerate(shown):
        for target in range(3):
            seen = [line for line in lines.split("\n") if f"player {number} sees object {target}: " in line]
            count.expect(bool(seen) and seen[-1].endswith(f": {last[target]}"), f"player {number}, object {target}: {seen[-1:]}")
    for words in ((), ("0",), ("2", port), ("0", "no")):
        done = subprocess.run([sys.executable, mine, *words], capture_output=True, check=False)
        count.same((done.returncode, done.stdout), (1, b""), f"mine {words}")


def main():
    """The status of all tests."""
    signal.alarm(4 * LONGEST)
    count = Compared()
    for test in (test_vectors, test_refused_payloads, test_streams, test_actions, test_builder, test_texts, test_beside_players,
                 test_two_at_once, test_rejoin, test_dropped, test_interest, test_limits, test_random_runs, test_malformed, test_lies,
                 test_refusals, test_saved, test_processes, test_watch, test_late_items, test_observe, test_programs, test_mine):
        test(count)
    return count.close()


if __name__ == "__main__":
    sys.exit(main())
