#!/usr/bin/env python3
"""Connections that open and close at once or send half a frame, and the memory of the server.

    python3 tests/outside/campaigns/hostile_connections.py PROGRAM [CONNECTIONS]

CONNECTIONS (10,000 if left out) go to `serve` over TCP, world after world of 64 sessions, 62 of them beside an honest
client. Each is closed at once, reset at once, or sends a part of a frame and is closed or reset; a part of them comes
behind a Join. The honest client's output and session are compared with what is due, and so are the entries of each other
session; of a connection that was reset all that it sent may be lost.

Then as many go to one server that has its 64 already, whose memory is read before and behind. And of one server more the
memory is read once its 64 connections are there, and again while 63 of them send as many requests as a session may, and
are answered. It may grow by its rows alone: for each request the journal's entry, and the bytes that the end keeps of
both sides. At last it is read once these have closed.

Prints what differs, and at the end the figures. The status is 1 where something was lost or wrong.
"""

import collections
import json
import os
import random
import select
import socket
import struct
import sys
import tempfile
import time

sys.path.insert(0, os.path.dirname(os.path.dirname(os.path.abspath(__file__))))

from doubles.programs import Peer, Run, connect, finish, free_port, reset, stop_all
from rules import wire

SESSIONS = 64
ADD_ONE = "reads 0 writes 0 { set @0.0 (@0.0 + 1); }"
PLAN = {"attrs": 1, "objects": [[5], [0]], "bound": 4, "clients":
        [{"interest": [0], "steps": [{"act": ADD_ONE}, "sync", {"show": [0]}]}]
        + [{"interest": [], "steps": ["cut", "cut"]}] + [{"interest": [], "steps": ["cut"]}] * 30}
JOINED = "told c0 2 0 ? -> (5)\ntold c0 3 0 (5) -> (6)\nmade 1\n"
HONEST = ["join c0 1 [0] -> welcome 0 [0=(5)]", f"submit 1 {ADD_ONE} -> relay 1 at 0 [] [1:c0.1]", "done [1:(6)] -> noted 1",
          "leave -> bye", "end -> bye"]


def join(client):
    """The payload of a Join without interest."""
    return struct.pack(">BHIB", 1, client, 1, 0)


class Campaign:
    """What came of all connections."""

    def __init__(self, program, room):
        self.program, self.wrong, self.kinds = program, 0, collections.Counter()
        self.path = os.path.join(room, "world.json")
        with open(self.path, "w", encoding="ascii") as file:
            json.dump(PLAN, file)

    def tell(self, text):
        """Something is lost or wrong."""
        self.wrong += 1
        if self.wrong <= 20:
            print(f"WRONG: {text[:600]}", flush=True)

    def open(self, port, chance, client):
        """One bad connection; answers what the journal must have of its session, and what it may have."""
        behind, part = b"", b""
        kind = chance.choice(["closed at once", "reset at once", "half a frame, closed", "half a frame, reset"])
        if "half" in kind:
            whole = wire.frame(chance.choice([join(client), b"\x04", bytes(chance.randrange(1, 3000)), b"\x06" + bytes(40)]))
            part = whole[:chance.randrange(1, len(whole))]
            if chance.random() < 0.3:
                behind = wire.frame(join(client))
        self.kinds[kind + (" behind a Join" if behind else "")] += 1
        link = connect(port, 30)
        try:
            link.sendall(behind + part)
        except OSError as fault:
            self.tell(f"{kind}: {fault!r}")
        return link, kind, ([f"join c{client} 1 [] ->"] if behind else []) + ["end -> bye"]

    def world(self, seed, most):
        """One world: 62 bad connections at most, and an honest client."""
        chance, port = random.Random(seed), free_port()
        server = Run(self.program, ["serve", self.path, str(port)])
        bad = [self.open(port, chance, 1 + place % 31) for place in range(min(most, SESSIONS - 2))]
        client = Run(self.program, ["join", self.path, "0", str(port)])
        # Who closes does so while the honest client plays, or before.
        for link, kind, _ in bad:
            (reset if "reset" in kind else socket.socket.close)(link)
        rest = [connect(port, 30) for _ in range(SESSIONS - 1 - len(bad))]
        if (told := client.end(60)) != (0, JOINED, ""):
            self.tell(f"world {seed}: the honest client ends with {told}")
        for link in rest:
            finish(link)
        status, text, line = server.end(60)
        if (status, line) != (0, ""):
            self.tell(f"world {seed}: serve ends with {status} {line!r}")
            return len(bad)
        self.judge(f"world {seed}", text, [told for _, _, told in bad])
        return len(bad)

    def judge(self, name, text, due):
        """The journal has each session's entries, and the honest session among them."""
        sessions = collections.defaultdict(list)
        for entry in text.split("\n")[1:-2]:
            session, said = entry.split(" ", 2)[1:]
            sessions[int(session[1:])].append(said)
        honest = [session for session, said in sessions.items() if said == HONEST]
        if len(sessions) != SESSIONS or len(honest) != 1 or not text.endswith("\ncommit 1\n"):
            self.tell(f"{name}: {len(sessions)} sessions, of which {honest} are the honest client's: {text[-300:]}")
        for session, wanted in enumerate(due):
            given = [" ".join(said.split(" ")[:len(row.split(" "))]) for said, row in zip(sessions[session], wanted)]
            # What a connection that was reset had sent may be lost.
            if (given != wanted or len(sessions[session]) != len(wanted)) and sessions[session] != ["end -> bye"]:
                self.tell(f"{name}: session {session} has {sessions[session]}, and {wanted} is due")

    def many(self, count):
        """So many bad connections."""
        begun, seed = time.monotonic(), 0
        while sum(self.kinds.values()) < count:
            seed += 1
            self.world(seed, count - sum(self.kinds.values()))
        print(f"{sum(self.kinds.values())} bad connections in {seed} worlds, each beside an honest client: "
              f"{dict(sorted(self.kinds.items()))}; {time.monotonic() - begun:.0f} s", flush=True)

    def memory(self, server):
        """Bytes of a process that are in memory."""
        with open(f"/proc/{server.process.pid}/statm", encoding="ascii") as file:
            return int(file.read().split()[1]) * 4096

    def rows(self):
        """What a server grows by while its sessions make all of their requests."""
        port = free_port()
        server = Run(self.program, ["serve", self.path, str(port)])
        peers = [Peer(port) for _ in range(SESSIONS)]
        for place, peer in enumerate(peers[1:], 1):
            peer.ask(join(place % 32))
        steps, last = [self.memory(server)], 1
        for count in (64, 512, 1023):
            for peer in peers[1:]:
                peer.send(*[b"\x04"] * (count - last))
                for _ in range(count - last):
                    peer.next()
            last = count
            steps.append(self.memory(server))
        for peer in peers[1:]:
            finish(peer.link)
        time.sleep(1)
        steps.append(self.memory(server))
        finish(peers[0].link)
        status, text, line = server.end(60)
        entries = (SESSIONS - 1) * 1023 + SESSIONS
        if (status, line) != (0, "") or not text.startswith(f"journal {entries}\n"):
            self.tell(f"the server of many requests ends with {status} {line!r}, {text[:40]!r}; {entries} entries are due")
        print(f"memory of one server, KiB: {steps[0] // 1024} with 64 sessions, 63 of them joined; "
              f"{steps[1] // 1024}, {steps[2] // 1024} and {steps[3] // 1024} after 64, 512 and 1,023 requests of each of these, which is "
              f"{(steps[3] - steps[1]) / (63 * 959):.0f} bytes for each further request; {steps[4] // 1024} once they had closed")


    def crowd(self, count):
        """More connections than the server has sessions: it answers none, keeps none, and goes on serving."""
        port, begun, kinds = free_port(), time.monotonic(), collections.Counter()
        server = Run(self.program, ["serve", self.path, str(port)])
        peers = [Peer(port) for _ in range(SESSIONS)]
        for place, peer in enumerate(peers):
            peer.ask(join(place % 32))
        before = self.memory(server)
        for place in range(count):
            # The system keeps some connections for the server and lets the others wait, so nothing here waits for it.
            with socket.socket() as link:
                link.setblocking(False)
                link.connect_ex(("127.0.0.1", port))
                is_made = select.select([], [link], [], 0)[1] and link.getsockopt(socket.SOL_SOCKET, socket.SO_ERROR) == 0
                if is_made and place % 2:
                    link.send(wire.frame(join(1))[:1 + place % 11])
                kinds["connected" if is_made else "not connected"] += 1
            if place % 500 == 0 and peers[place // 500 % SESSIONS].ask(b"\x04") not in ("86", "870400000000"):
                self.tell("a session beside the crowd is not answered")
        after = self.memory(server)
        for peer in peers:
            finish(peer.link)
        status, text, line = server.end(60)
        if (status, line) != (0, "") or not text.endswith("\ncommit 0\n"):
            self.tell(f"the server in the crowd ends with {status} {line!r}")
        print(f"{count} connections more than one server has sessions: {dict(kinds)}; its memory, KiB: {before // 1024} before, "
              f"{after // 1024} behind; {time.monotonic() - begun:.0f} s", flush=True)


def main(words):
    """The status of the whole campaign."""
    if not 1 <= len(words) <= 2 or not all(word.isdigit() for word in words[1:]):
        print("words: PROGRAM [CONNECTIONS]", file=sys.stderr)
        return 2
    with tempfile.TemporaryDirectory() as room:
        campaign = Campaign(os.path.abspath(words[0]), room)
        try:
            count = int(words[1]) if words[1:] else 10_000
            campaign.rows()
            campaign.crowd(count)
            campaign.many(count)
        finally:
            stop_all()
    print(f"{campaign.wrong} wrong")
    return 1 if campaign.wrong else 0


if __name__ == "__main__":
    sys.exit(main(sys.argv[1:]))
