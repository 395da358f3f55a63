#!/usr/bin/env python3
"""The parts of the product alone: refused memory in each of them.

    python3 tests/outside/campaigns/hostile_parts.py PARTS

PARTS is the program parts_alone/, which tools/unproved.sh builds. In it the sequencer, each client, each session's
loop and each player of the examples `conflict` and `bound` are alone: what comes to them stands in a file. Every single
allocation fails in turn (by failing_memory.c), and for the smaller example every pair of two. The sequencer's and the
client's calls are made again where memory ran out, and every answer must then be that of the run in which nothing failed;
a loop and a player stop, and what they sent must be a beginning of it. A program that could not begin for lack of memory
prints nothing, and says so. The run in which nothing fails is compared with the models of simulate.py, which were written
from the documents alone.

Prints what differs, and at the end the figures. The status is 1 where something was lost or wrong.
"""

import collections
import os
import struct
import sys
import tempfile
import time

OUTSIDE = os.path.dirname(os.path.dirname(os.path.abspath(__file__)))
EXAMPLES = os.path.join(OUTSIDE, "..", "..", "examples")
sys.path.insert(0, OUTSIDE)

from campaigns.failing_memory import Shim, figures, library_in
from campaigns.hostile_frames import Journal
from doubles.stand_in import LAST_WORDS, StandIn, WireServer
from rules import wire
from rules.actions import action_text
from rules.report import Request
from rules.scenario import read_scenario
from rules.simulate import ROUNDS, Run


def payload_of(request):
    """The payload of a request."""
    if request.kind == "join":
        return struct.pack(f">BHIB{len(request.interest)}H", 1, request.client, request.life, len(request.interest),
                           *request.interest)
    if request.kind == "submit":
        return b"\x06" + struct.pack(">I", request.number) + wire.action_bytes(request.action)
    if request.kind == "done":
        return b"\x03" + bytes([len(request.results)]) + b"".join(
            struct.pack(">IB", place, len(values)) + b"".join(struct.pack(f">B{len(one)}q", len(one), *one) for one in values)
            for place, values in request.results)
    if request.kind == "observe":
        return struct.pack(f">BB{len(request.objects)}HH", 7, len(request.objects), *request.objects, request.wait)
    return {"poll": b"\x04", "leave": b"\x05"}[request.kind]


class Recorded(Run):
    """A run that notes what comes to each part, and what each answers."""

    def __init__(self, scenario, patient):
        super().__init__(scenario, WireServer)
        self.patient = patient
        self.calls = [[] for _ in self.players]
        self.answers = [[] for _ in self.players]

    def reply_payload(self, reply):
        """The payload of a reply."""
        return wire.reply_bytes(reply, lambda place: self.server.queue[place - 1].action)

    def note(self, client, call, word, asked):
        """A call of a client, and what the client then is."""
        player = self.players[client]
        views = []
        for target in range(len(self.server.committed)):
            view = player.view(target)
            views += ["?"] if view is None else [struct.pack(">q", one).hex() for one in view]
        counts = bytes([len(player.pending), len(player.waiting)]) + struct.pack(">I", player.told_commit)
        self.calls[client].append(call)
        self.answers[client].append(" ".join([word, *(payload_of(one).hex() for one in asked), "|", *views, "|", counts.hex()]))

    def client_turn(self, client):
        """The client does its next step, which is noted where it is a call."""
        player = self.players[client]
        before, where = len(player.lines), player.where
        asked = player.turn()
        if asked:
            self.requests[player.session] += asked
        if asked is not None and len(player.lines) > before:
            word = player.lines[before].split(" ")[0]
            call = f"make {action_text(asked[0].action)}" if word == "make" else word
            if word in ("join", "make", "poll", "leave"):
                self.note(client, call, word, asked)
        return asked is not None or where != player.where

    def taking_turn(self, client):
        """The client takes the next reply of its session, where it has one and needs it."""
        player = self.players[client]
        if player.where in ("outside", "closed") or not self.replies[player.session] \
                or self.patient and player.can_take_turn():
            return False
        number, reply = self.replies[player.session].pop(0)
        actions = {place: queued.action for place, queued in enumerate(self.server.queue, 1)}
        asked = player.take(number, reply, actions)
        self.requests[player.session] += asked
        self.note(client, f"take {self.reply_payload(reply).hex()}", "take", asked)
        return True

    def whole(self):
        """The whole run. Where players are patient, a turn is taken as soon as it can be."""
        self.go(() if self.patient else self.scenario.schedule, ROUNDS * 20)
        if not self.is_over():
            raise AssertionError("the run does not end")
        return self


def recorded(path, patient=False):
    """The run of an example."""
    scenario = read_scenario(path)
    run = Recorded(scenario, patient)
    run.scenario = scenario
    return run.whole()


def journal_of(model):
    """The journal of a model as the program prints it."""
    return StandIn.journal(Journal(model))


class Parts:
    """The parts of an example: for each its words, its lines, and what it is to print."""

    def __init__(self, room, example):
        self.room, self.example = room, example
        self.path = os.path.join(EXAMPLES, example + ".json")
        self.parts = []
        self.sequencer()
        run, play = recorded(self.path), recorded(self.path, True)
        for client in range(len(run.players)):
            self.add(f"client {client}", ["client", self.path, str(client)], run.calls[client], "\n".join(run.answers[client]) + "\n")
            self.session(run, client)
            self.player(play, client)

    def add(self, name, words, lines, wanted):
        """A part."""
        file = os.path.join(self.room, f"{self.example}-{name.replace(' ', '-')}")
        with open(file, "w", encoding="ascii") as it:
            it.write("".join(line + "\n" for line in lines))
        self.parts.append((name, [words[0], file, *words[1:]], wanted.encode()))

    def sequencer(self):
        """All that came to the server, in order."""
        run, lines, wanted = recorded(self.path), [], []
        for session, request, reply in run.server.steps:
            lines.append(f"{session} " + ("end" if request.kind == "end" else payload_of(request).hex()))
            wanted.append(run.reply_payload(reply).hex())
        self.add("sequencer", ["steps", self.path], lines, "\n".join(wanted) + "\n" + journal_of(run.server))

    def session(self, run, client):
        """What came to a client's first session, to a server that no other asks."""
        model, coming, sent, out = WireServer(run.scenario), b"", b"", "Closed"
        for session, request, _ in run.server.steps:
            if session == client and request.kind != "end":
                coming += wire.frame(payload_of(request))
                # The loop alone has the first session.
                reply = model.step(0, request)
                sent += wire.frame(wire.reply_bytes(reply, lambda place: model.queue[place - 1].action))
                if (reply.kind, reply.code) in LAST_WORDS:
                    out = "Left" if reply.kind == "bye" else "Ended"
                    break
        model.step(0, Request("end"))
        self.add(f"session {client}", ["session", self.path], [coming.hex()], f"{out} true\n{sent.hex()}\n{journal_of(model)}")

    def player(self, run, client):
        """The replies that a client's sessions gave it."""
        player, coming, sent = run.players[client], b"", b""
        for call, answer in zip(run.calls[client], run.answers[client]):
            if call.startswith("take "):
                coming += wire.frame(bytes.fromhex(call[5:]))
            sent += b"".join(wire.frame(bytes.fromhex(word)) for word in answer.split(" |")[0].split(" ")[1:])
        self.add(f"player {client}", ["player", self.path, str(client)], [coming.hex()],
                 f"Finished {len(player.lines)}\n{sent.hex()}\n")


class Alone:
    """Refused memory in each part."""

    def __init__(self, library, program):
        self.library, self.program, self.wrong = library, program, 0

    def judge(self, name, wanted, ended):
        """What became of a run."""
        status, out, err = ended
        if status != 0:
            return "could not begin, or gave up" if out == b"" and status > 0 else None
        if out == wanted:
            return "as ever" if err == b"0\n" else "as ever, after another try"
        lines, due = out.split(b"\n"), wanted.split(b"\n")
        if name.startswith("session") and lines[0] == b"Memory true" and due[1].startswith(lines[1]) \
                and out.endswith(b" end -> bye\n"):
            return "stopped out of memory, and its End was stepped"
        if name.startswith("player") and lines[0].startswith(b"Memory ") and due[1].startswith(lines[1]):
            return "stopped out of memory"
        return None

    def go(self, part, pairs):
        """All singles, or all pairs, of a part."""
        name, words, wanted = part
        shim, begun, ends = Shim(self.library, self.program, words), time.monotonic(), collections.Counter()
        plain, least = shim.run()
        if plain[:2] != (0, wanted):
            self.tell(f"{name}: {plain}, and {wanted} is due, where nothing fails")
        for one in range(1, least + 1):
            for other in range(one + 1, 3 * least) if pairs else (0,):
                ended, calls = shim.run(one, other)
                if other > calls:
                    break
                kind = self.judge(name, wanted, ended)
                ends[kind or "WRONG"] += 1
                if kind is None:
                    self.tell(f"{name}: calls {one} and {other} of {calls} fail: {ended}")
        shim.close()
        return figures(least, ends, pairs, begun)

    def tell(self, text):
        """Something is lost or wrong."""
        self.wrong += 1
        if self.wrong <= 20:
            print(f"WRONG: {text[:1500]}", flush=True)


def main(words):
    """The status of the whole campaign."""
    if len(words) != 1:
        print("words: PARTS", file=sys.stderr)
        return 2
    with tempfile.TemporaryDirectory() as room:
        alone = Alone(library_in(room), os.path.abspath(words[0]))
        for example, pairs in (("conflict", False), ("bound", False), ("bound", True)):
            for part in Parts(room, example).parts:
                print(f"{example}, {part[0]}: {alone.go(part, pairs)}", flush=True)
    print(f"{alone.wrong} wrong")
    return 1 if alone.wrong else 0


if __name__ == "__main__":
    sys.exit(main(sys.argv[1:]))
