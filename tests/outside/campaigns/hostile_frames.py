#!/usr/bin/env python3
"""Mutated frames to a server, each reply compared with a slow program's.

    python3 tests/outside/campaigns/hostile_frames.py PROGRAM [FRAMES [SEED]]

FRAMES (1,000,000 if left out) frames of a fixed generator go to `serve` over TCP, world after world of 64 sessions. A frame
is a whole request that may stand, one that another session sent, or one that was changed: bits flipped, bytes cut, added or
repeated, in the payload or in the length before it. They come from any session in any order, several at once, cut
anywhere. The slow program is the server of stand_in.py, which was written from the documents alone. Every reply is
compared byte by byte as it comes, and at the end of each world the whole journal that `serve` prints with the slow
program's.

Prints what differs, and at the end the figures. The status is 1 where something was lost or wrong.
"""

import collections
import json
import os
import random
import socket
import struct
import sys
import tempfile
import time

sys.path.insert(0, os.path.dirname(os.path.dirname(os.path.abspath(__file__))))

from doubles.programs import Run, connect, free_port, stop_all
from doubles.stand_in import LAST_WORDS, StandIn, WireServer
from rules import wire
from rules.actions import read_action
from rules.report import Request, reply_text
from rules.scenario import read_scenario

SESSIONS, OBJECTS = 64, 6
END = Request("end")
BODIES = ("{ set @A.0 (@A.0 + 1); }", "{ }", "{ set @A.0 (@A.0 * @B.1); set @A.1 7; }", "{ set @A.2 1; }",
          "{ if [@A.0 < @B.0] { set @A.0 @B.0; set @A.1 1; } else { set @A.0 -1; set @A.1 (@B.0 / @A.1); } }")


def scenario_text(chance):
    """A world, and 32 clients with a session and a cut each."""
    plan = {"attrs": 2, "objects": [[chance.randrange(9), one] for one in range(OBJECTS)],
            "bound": chance.choice([0, 1, 3, 32]), "clients": [{"interest": [], "steps": ["cut"]}] * (SESSIONS // 2)}
    if chance.random() < 0.5:
        plan["reach"] = chance.choice([0, 5, 2_000_000])
    return json.dumps(plan)


class Requests:
    """Payloads of requests that may stand in a world, or nearly."""

    def __init__(self, chance, model):
        self.chance, self.model = chance, model
        self.bodies = [wire.action_bytes(read_action(self.text(body))) for body in BODIES for _ in range(12)]
        self.recent = collections.deque([b"\x04"], maxlen=200)

    def text(self, body):
        """The text of an action on two objects."""
        one, other = sorted(self.chance.sample(range(OBJECTS + 1), 2))
        both = [str(one), str(other)]
        if self.chance.random() < 0.5:
            both.reverse()
        words = body.replace("A", both[0]).replace("B", both[1])
        where = self.chance.choice(["", "", "at 3 -4 ", "at 1000000 0 "])
        writes = both[0] if "set" in body else ""
        return f"reads {one} {other} writes {writes} {where}{words}"

    def some(self, session):
        """A request that a session may send: the right one mostly."""
        owner = self.model.client_of[session]
        if owner is None:
            return self.join()
        kind = self.chance.random()
        if kind < 0.5:
            number = self.model.numbers[owner] + self.chance.choice([0] * 9 + [-1, -2, -9, 1])
            return b"\x06" + struct.pack(">I", max(0, number)) + self.chance.choice(self.bodies)
        if kind < 0.85:
            return self.done(session)
        if kind < 0.91:
            return b"\x04"
        if kind < 0.97:
            return self.observe()
        return self.join() if kind < 0.995 else b"\x05"

    def join(self):
        """A Join, mostly with the next life."""
        owner = self.chance.randrange(33) if self.chance.random() < 0.1 else self.chance.randrange(8, 32)
        life = (self.model.lives[owner] if owner < 32 else 0) + self.chance.choice([1, 1, 1, 1, 0, 2])
        interest = sorted(self.chance.sample(range(OBJECTS), self.chance.randrange(4)))
        return struct.pack(f">BHIB{len(interest)}H", 1, owner, life, len(interest), *interest)

    def observe(self):
        """An Observe, at times of an object that the world lacks."""
        objects = sorted(self.chance.sample(range(OBJECTS + (self.chance.random() < 0.02)), self.chance.randrange(1, 4)))
        return struct.pack(f">BB{len(objects)}HH", 7, len(objects), *objects, self.chance.choice([0, 0, 1, 65535]))

    def done(self, session):
        """Results of the first positions that have none, mostly with as many values as are due."""
        found, model = [], self.model
        for place in range(model.commit + 1, min(len(model.queue), model.commit + 40) + 1):
            queued = model.queue[place - 1]
            if session in queued.marks and queued.result is None or self.chance.random() < 0.01:
                count = len(queued.action.writes) + (self.chance.random() < 0.01)
                found.append(struct.pack(">IB", place, count) + b"".join(
                    struct.pack(">Bqq", 2, self.chance.randrange(-99, 99), 5) for _ in range(count)))
        if not found:
            return b"\x04"
        return b"\x03" + bytes([min(33, len(found))]) + b"".join(found[:33])


def changed(chance, payload):
    """A payload with bits flipped, or bytes cut, added or repeated."""
    data, kind = bytearray(payload), chance.randrange(6)
    at = chance.randrange(len(data) + 1)
    if kind < 3 and data:
        for _ in range(chance.choice([1, 1, 2, 3])):
            data[chance.randrange(len(data))] ^= 1 << chance.randrange(8)
    elif kind == 3:
        del data[at:at + chance.randrange(1, 5)]
    elif kind == 4:
        data[at:at] = chance.randbytes(chance.randrange(1, 5))
    else:
        data[at:at] = data[at:at + chance.randrange(1, 20)]
    return bytes(data)


class World:
    """A server with its sessions, and the slow program beside it."""

    def __init__(self, campaign, seed):
        self.campaign, self.chance = campaign, random.Random(seed)
        self.name = f"world {seed}"
        path = os.path.join(campaign.room, "world.json")
        with open(path, "w", encoding="ascii") as file:
            file.write(scenario_text(self.chance))
        self.model = WireServer(read_scenario(path))
        self.requests = Requests(self.chance, self.model)
        self.frames = [wire.Frames() for _ in range(SESSIONS)]
        self.open = list(range(SESSIONS))
        self.begin(path)

    def begin(self, path):
        """Starts the server, and connects all sessions."""
        port = free_port()
        self.server = Run(self.campaign.program, ["serve", path, str(port)])
        self.links = [connect(port, 30) for _ in range(SESSIONS)]

    def frame(self, session):
        """The next frame, and what kind it is of."""
        chance, kind = self.chance, self.chance.random()
        if kind < 0.66:
            payload = self.requests.some(session)
            self.requests.recent.append(payload)
            return wire.frame(payload), "as it may stand"
        if kind < 0.86:
            return wire.frame(chance.choice(self.requests.recent)), "another's"
        if kind < 0.9:
            return wire.frame(chance.randbytes(chance.randrange(40))), "noise"
        if kind < 0.995:
            return wire.frame(changed(chance, chance.choice(self.requests.recent))), "changed"
        return changed(chance, wire.frame(chance.choice(self.requests.recent))), "changed length"

    def answers(self, session):
        """The payloads of the replies that are due for what came, and whether the session goes on."""
        due = []
        while True:
            try:
                payload = self.frames[session].next()
                if payload is None:
                    return due, True
                request = wire.request_of(payload)
            except (wire.NoRequest, wire.TooLong):
                request = Request("bad")
            self.campaign.answered += 1
            self.campaign.malformed += request.kind == "bad"
            reply = self.model.step(session, request)
            due.append(wire.frame(wire.reply_bytes(reply, lambda place: self.model.queue[place - 1].action)))
            if (reply.kind, reply.code) in LAST_WORDS:
                return due, False

    def receive(self, session, due, goes_on):
        """Takes just these bytes. Where more was sent behind a session's last request, its last reply may be lost (TCP then resets the
        connection): the journal tells it."""
        came = b""
        while len(came) < len(due):
            try:
                piece = self.links[session].recv(len(due) - len(came))
            except OSError as fault:
                if goes_on or not due.startswith(came) or not isinstance(fault, ConnectionResetError):
                    self.campaign.tell(f"{self.name}: s{session}: {fault!r} after {came.hex()} of {due.hex()}")
                self.campaign.lost += 1
                return
            if not piece:
                break
            came += piece
        if came != due:
            self.campaign.tell(f"{self.name}: s{session} got {came.hex()}, and {due.hex()} is due")

    def finish(self, session):
        """The session is over: the server closes."""
        try:
            if rest := self.links[session].recv(64):
                self.campaign.tell(f"{self.name}: s{session} got {rest.hex()} behind its last reply")
        except ConnectionResetError:
            self.campaign.reset += 1
        except OSError as fault:
            self.campaign.tell(f"{self.name}: s{session} is not closed: {fault!r}")
        self.links[session].close()
        self.model.step(session, END)
        self.open.remove(session)

    def compose(self):
        """Some frames for one session: the session, the bytes, the replies that are due, and whether the session goes on."""
        session = self.chance.choice(self.open)
        sent, due, goes_on = b"", [], True
        for _ in range(self.chance.randrange(1, 9)):
            data, kind = self.frame(session)
            self.campaign.kinds[kind] += 1
            sent += data
            self.frames[session].feed(data)
            more, goes_on = self.answers(session)
            due += more
            if not goes_on:
                break
        return session, sent, b"".join(due), goes_on

    def burst(self):
        """Some frames to one session, and the replies to them."""
        session, sent, due, goes_on = self.compose()
        cut = self.chance.randrange(len(sent) + 1) if self.chance.random() < 0.1 else 0
        try:
            for piece in (sent[:cut], sent[cut:]):
                if piece:
                    self.links[session].sendall(piece)
        except OSError as fault:
            if goes_on:
                self.campaign.tell(f"{self.name}: s{session} takes nothing more: {fault!r}")
        self.receive(session, due, goes_on)
        if not goes_on:
            self.finish(session)

    def close(self):
        """Closes what is open, one after the other, and compares the journal."""
        for session in list(self.open):
            self.links[session].shutdown(socket.SHUT_WR)
            self.finish(session)
        status, text, line = self.server.end()
        given, due = parts(text), parts(f"{StandIn.journal(Journal(self.model))}commit {self.model.commit}\n")
        if (status, line) != (0, "") or given != due:
            told = next((f"{one!r}, and {other!r} is due" for one, other in zip(given[0], due[0]) if one != other), "its Ends")
            self.campaign.tell(f"{self.name}: serve ends with {status} {line!r}: {told}")
        self.campaign.entries += len(self.model.steps)


def parts(text):
    """The lines of a journal without their numbers and Ends, and the Ends in the order of sessions: a session that is over has its End at
    any time, since the server closes the connection before."""
    lines = [line.split(" ", 1)[-1] for line in text.split("\n")]
    return [line for line in lines if not line.endswith(" end -> bye")], sorted(line for line in lines if line.endswith(" end -> bye"))


class Journal(StandIn):
    """The printed journal of a slow program that nobody listens to."""

    def __init__(self, model):
        self.server, self.lock = model, open(os.devnull, "rb")


class Campaign:
    """What all worlds came to."""

    worlds_are = World

    def __init__(self, program, room):
        self.program, self.room = program, room
        self.answered = self.malformed = self.entries = self.reset = self.lost = self.wrong = self.worlds = 0
        self.kinds = collections.Counter()
        self.replies = collections.Counter()

    def tell(self, text):
        """Something is lost or wrong."""
        self.wrong += 1
        if self.wrong <= 20:
            print(f"WRONG: {text[:1000]}", flush=True)

    def world(self, seed, frames):
        """One world, until its sessions are over or so many frames were sent in all."""
        world = self.worlds_are(self, seed)
        while world.open and sum(self.kinds.values()) < frames:
            world.burst()
        world.close()
        self.count(world)

    def count(self, world):
        """What a world came to."""
        for _, _, reply in world.model.steps:
            self.replies[" ".join(reply_text(reply).split()[:2 if reply.kind == "refused" else 1])] += 1
        self.worlds += 1

    def go(self, frames, seed):
        """Worlds until so many frames were sent."""
        begun = time.monotonic()
        while sum(self.kinds.values()) < frames:
            self.world(seed + self.worlds, frames)
            if self.worlds % 50 == 0:
                print(f"{sum(self.kinds.values())} frames, {self.worlds} worlds, {self.wrong} wrong, "
                      f"{time.monotonic() - begun:.0f} s", flush=True)
        self.print_figures(time.monotonic() - begun)

    def print_figures(self, seconds):
        """The figures of all worlds."""
        print(f"{sum(self.kinds.values())} frames in {self.worlds} worlds: {dict(self.kinds)}")
        print(f"{self.answered} payloads answered, {self.malformed} of them malformed; {self.entries} entries of journals; "
              f"{self.reset} connections reset behind their last reply, {self.lost} before it was read whole")
        print(f"replies: {dict(sorted(self.replies.items()))}")
        print(f"{seconds:.0f} s, {self.wrong} wrong")


def main(words):
    """The status of the whole campaign."""
    if not 1 <= len(words) <= 3 or not all(word.isdigit() for word in words[1:]):
        print("words: PROGRAM [FRAMES [SEED]]", file=sys.stderr)
        return 2
    frames, seed = (int(word) for word in (words[1:] + ["1000000", "1"][len(words) - 1:]))
    with tempfile.TemporaryDirectory() as room:
        campaign = Campaign(os.path.abspath(words[0]), room)
        try:
            campaign.go(frames, seed)
        finally:
            stop_all()
    return 1 if campaign.wrong else 0


if __name__ == "__main__":
    sys.exit(main(sys.argv[1:]))
