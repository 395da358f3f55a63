#!/usr/bin/env python3
"""A stand-in for a served world: the server of server.py behind TCP on 127.0.0.1.

    python3 tests/outside/doubles/stand_in.py FILE PORT [--at-once]

Serves the sessions of the scenario FILE, one for each client and one for each of its cuts, and looks at nothing of
its scripts. It takes as many connections, which are the sessions from 0 on, and answers nobody before all are
there; with --at-once it begins each session when it comes. Each session has a thread, and one lock is around the
server. When all sessions are over it prints the journal as reports have it, and the commit. PORT 0 means any free
port; the first line is `port N` then.

It stands in for the product in tests of clients, and was written from docs/WIRE.md and docs/PROTOCOL.md.
"""

import os
import socket
import sys
import threading

sys.path.insert(0, os.path.dirname(os.path.dirname(os.path.abspath(__file__))))

from rules import wire
from rules.report import Request, reply_text, request_text
from rules.scenario import NoScenario, read_scenario
from rules.server import Server

LAST_WORDS = {("bye", None), ("refused", 1), ("refused", 4), ("refused", 9)}


class WireServer(Server):
    """The server, with the two causes that refuse an action which no text can say."""

    def submit(self, session, request):
        """A slot without an object, and an origin that is too far, are found here."""
        client = self.client_of[session]
        is_kept = any(number == request.number for number, _ in self.outcomes[client])
        cause = wire.cause_of(request.action, *self.shape)
        if cause is not None and not is_kept and request.number == self.numbers[client]:
            return self.refuse(6, cause)
        return super().submit(session, request)


class StandIn:
    """A served world: a listening socket, and a thread for each session."""

    def __init__(self, scenario, port=0, at_once=False):
        self.scenario = scenario
        self.at_once = at_once
        self.server = WireServer(scenario)
        self.lock = threading.Lock()
        self.listener = socket.create_server(("127.0.0.1", port))
        self.port = self.listener.getsockname()[1]
        self.thread = threading.Thread(target=self.serve, daemon=True)

    def start(self):
        """Serves in a thread of its own."""
        self.thread.start()
        return self

    def wait(self, seconds=None):
        """Waits until all sessions are over; answers whether they are."""
        self.thread.join(seconds)
        return not self.thread.is_alive()

    def serve(self):
        """Takes the connections, and waits for their sessions."""
        waiting, threads = [], []
        for session in range(self.scenario.sessions):
            link, _ = self.listener.accept()
            link.setsockopt(socket.IPPROTO_TCP, socket.TCP_NODELAY, 1)
            waiting.append(threading.Thread(target=self.session, args=(session, link), daemon=True))
            while waiting and (self.at_once or session + 1 == self.scenario.sessions):
                threads.append(waiting.pop(0))
                threads[-1].start()
        self.listener.close()
        for thread in threads:
            thread.join()

    def session(self, session, link):
        """Answers the requests of a session in order, until its last word or the connection's end."""
        frames, is_open = wire.Frames(), True
        with link:
            try:
                while is_open and (piece := link.recv(4096)):
                    frames.feed(piece)
                    while is_open and (request := self.next_request(frames)) is not None:
                        payload, is_open = self.answer(session, request)
                        link.sendall(wire.frame(payload))
            except OSError:
                pass
            with self.lock:
                self.server.step(session, Request("end"))
            self.close(link)

    def close(self, link):
        """Closes a connection once its last reply can't be lost: what still comes is read, and passed over."""
        try:
            link.shutdown(socket.SHUT_WR)
            link.settimeout(2)
            while link.recv(4096):
                pass
        except OSError:
            pass

    def next_request(self, frames):
        """The next request that came whole, or None."""
        try:
            payload = frames.next()
            return None if payload is None else wire.request_of(payload)
        except (wire.NoRequest, wire.TooLong):
            return Request("bad")

    def answer(self, session, request):
        """The payload of the reply, and whether the session goes on."""
        with self.lock:
            reply = self.server.step(session, request)
            payload = wire.reply_bytes(reply, lambda position: self.server.queue[position - 1].action)
        return payload, (reply.kind, reply.code) not in LAST_WORDS

    def request_text(self, request):
        """The text of a request; an action that the check refuses is `bad`."""
        if request.kind == "submit" and wire.cause_of(request.action, *self.server.shape) is not None:
            return f"submit {request.number} bad"
        return request_text(request)

    def journal(self):
        """The journal's part of the report."""
        with self.lock:
            steps = list(self.server.steps)
        lines = [f"journal {len(steps)}"]
        lines += [f"{number} s{session} {self.request_text(request)} -> {reply_text(reply)}"
                  for number, (session, request, reply) in enumerate(steps, 1)]
        return "".join(line + "\n" for line in lines)


def main(words):
    """The status of these words."""
    options = words[2:]
    if len(words) not in (2, 3) or not words[1].isdigit() or set(options) - {"--at-once"}:
        print("words: FILE PORT [--at-once]", file=sys.stderr)
        return 2
    try:
        stand_in = StandIn(read_scenario(words[0]), int(words[1]), bool(options))
    except (OSError, OverflowError, NoScenario) as fault:
        print(fault, file=sys.stderr)
        return 1
    if words[1] == "0":
        print(f"port {stand_in.port}", flush=True)
    stand_in.serve()
    print(stand_in.journal() + f"commit {stand_in.server.commit}")
    return 0


if __name__ == "__main__":
    sys.exit(main(sys.argv[1:]))
