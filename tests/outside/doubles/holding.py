"""A double of a long-lived server, for tests of clients: the server of rules/server.py behind TCP on 127.0.0.1.

Its world goes on for ever: a connection is a session from its first whole request on, and another one may come at any
time. It holds an Observe with a wait while its answer would have no value and no item: until there is news, or the wait
is over, or another whole request of the session has come; an empty answer has no entry. It knows keys, and speaks over
a WebSocket to who begins so. A test has it break connections at chosen moments, and refuse a request as it likes.

One thread does it all. Requests are stepped in the order in which they came, and time is looked at between them.
"""

import selectors
import socket
import threading
import time
from collections import deque
from types import SimpleNamespace

from doubles import websocket
from doubles.stand_in import LAST_WORDS, StandIn, WireServer
from rules import wire
from rules.report import Reply, Request

MOMENTS, GREATEST = ("before", "half", "reset", "after"), 2 ** 32


class EndlessServer(WireServer):
    """The server, with sessions and requests without end."""

    def __init__(self, plan):
        super().__init__(plan)
        self.state, self.count, self.client_of = [], [], []

    def open(self):
        """The number of a new session."""
        for rows, first in ((self.state, "new"), (self.count, 0), (self.client_of, None)):
            rows.append(first)
        return len(self.state) - 1

    def reply(self, session, request):
        """The reply; requests have no end."""
        self.count[session] = 0
        return super().reply(session, request)

    def join(self, session, request):
        """Takes no life that is more than 1,000 above the last one."""
        last = self.lives[request.client] if request.client < len(self.lives) else GREATEST
        if self.state[session] != "live" and request.life > last + 1000:
            return self.refuse(11, last)
        return super().join(session, request)

    def has_news(self, session, objects):
        """Whether an Observe would be answered by more than an empty Seen. Nothing changes."""
        if self.state[session] != "live" or list(objects) != sorted(set(objects)) or objects[-1] >= self.shape[0]:
            return True
        items, left = self.walk(session, objects, self.cut(session, objects))
        return bool(items) or any(session not in self.given[target] for target in left)


class Connection:
    """A connection: its session, once it has one, what came, what is held, and what it was told."""

    def __init__(self, link, place):
        self.link, self.place, self.session = link, place, None
        self.frames, self.wrap, self.payloads, self.held, self.is_open = None, wire.frame, deque(), None, True
        self.key, self.has_said, self.requests, self.replies, self.client = None, False, 0, 0, None


class Holding:
    """The server of a world that never ends. `cuts` has moments at which a connection breaks, one after the other: (`before`,
    n), before its nth request is stepped; (`half`, n), in the middle of its nth reply; (`reset`, n), in the place of that;
    (`after`, n), behind it. Each counts for the first connection that comes to it, of those that `may_cut` takes. `refusals`
    are pairs: which requests of which connection, by a function, and the reply in the place of the one that is due. `keys`:
    the client number of each key. Without `holds` it answers each Observe at once. `before`: one that was stopped, whose world
    goes on at the same port."""

    def __init__(self, plan, cuts=(), keys=None, holds=True, may_cut=lambda connection: True, before=None):
        self.server, self.keys, self.holds, self.may_cut = before.server if before else EndlessServer(plan), keys, holds, may_cut
        self.cuts, self.cut, self.refusals, self.observed, self.came = deque(cuts), [], [], [], 0
        self.listener = socket.create_server(("127.0.0.1", before.port if before else 0), backlog=128)
        self.port, self.connections, self.is_on = self.listener.getsockname()[1], [], True
        self.selector = selectors.DefaultSelector()
        self.bell, bell = socket.socketpair()
        for each in (self.listener, bell):
            self.selector.register(each, selectors.EVENT_READ, self.come if each is self.listener else self.ring)
        self.lock, self.thread = threading.RLock(), threading.Thread(target=self.serve, daemon=True)
        self.thread.start()

    def stop(self):
        """Ends all."""
        self.bell.close()
        self.thread.join(10)

    def serve(self):
        """Takes what comes, and answers."""
        while self.is_on:
            due = min([1, *(each.held.end - time.monotonic() for each in self.connections if each.held)])
            for key, _ in self.selector.select(max(due, 0)):
                key.data()
            with self.lock:
                while any(self.answer_next(each) for each in list(self.connections)):
                    pass
        for each in list(self.connections):
            self.close(each)
        self.listener.close()

    def ring(self):
        """The end is near."""
        self.is_on = False

    def come(self):
        """A connection comes."""
        link, _ = self.listener.accept()
        link.setsockopt(socket.IPPROTO_TCP, socket.TCP_NODELAY, 1)
        self.came += 1
        connection = Connection(link, self.came - 1)
        self.connections.append(connection)
        self.selector.register(link, selectors.EVENT_READ, lambda: self.receive(connection))

    def receive(self, connection):
        """Bytes come, or the connection's end."""
        if not connection.is_open:
            return
        try:
            piece = connection.link.recv(65_536)
        except OSError:
            piece = b""
        if not piece:
            with self.lock:
                self.close(connection)
            return
        if not connection.frames and piece[:1] == b"G":
            connection.frames, connection.wrap = websocket.Messages(), websocket.message
        connection.frames = connection.frames or wire.Frames()
        connection.frames.feed(piece)
        if connection.wrap is websocket.message and connection.frames.owed:
            self.send(connection, connection.frames.owed)
            connection.frames.owed, connection.key = b"", connection.frames.key
        try:
            while (payload := connection.frames.next()) is not None:
                connection.payloads.append(payload)
        except websocket.Closed:
            with self.lock:
                self.close(connection)

    def close(self, connection, is_reset=False):
        """A connection ends, and its session with it."""
        if not connection.is_open:
            return
        connection.is_open, connection.held = False, None
        self.connections.remove(connection)
        self.selector.unregister(connection.link)
        if is_reset:
            connection.link.setsockopt(socket.SOL_SOCKET, socket.SO_LINGER, b"\1\0\0\0\0\0\0\0")
        connection.link.close()
        if connection.session is not None:
            self.server.step(connection.session, Request("end"))

    def answer_next(self, connection):
        """Answers the next request that is due; answers whether one was."""
        held = connection.held
        if held and not connection.payloads and held.end > time.monotonic() \
                and not self.server.has_news(connection.session, held.request.objects):
            return False
        if held:
            connection.held = None
            self.answer(connection, held.request)
            return True
        if not connection.payloads or not connection.is_open:
            return False
        payload = connection.payloads.popleft()
        if not connection.has_said and payload[:1] == b"\x08":
            connection.has_said, connection.key = True, payload[2:]
            if self.keys is not None and (payload[1] != len(payload) - 2 or connection.key not in self.keys):
                self.close(connection)
            return True
        connection.has_said = True
        try:
            request = wire.request_of(payload)
        except wire.NoRequest:
            request = Request("bad")
        if self.is_barred(connection, request) or self.breaks(connection, "before", connection.requests + 1):
            return True
        connection.requests += 1
        if connection.session is None:
            connection.session = self.server.open()
        if request.kind == "observe":
            self.observed.append((time.monotonic(), connection.place, request.wait))
            if self.holds and request.wait:
                connection.held = SimpleNamespace(request=request, end=time.monotonic() + request.wait / 1000)
                return True
        self.answer(connection, request)
        return True

    def is_barred(self, connection, request):
        """With keys, who has no key, or another number than that of the key, is closed."""
        if request.kind == "join":
            connection.client = request.client
        if self.keys is None or (connection.key in self.keys and (
                request.kind != "join" or self.keys[connection.key] == request.client)):
            return False
        self.close(connection)
        return True

    def answer(self, connection, request):
        """Steps a request and sends the reply. An empty answer to an Observe has no entry."""
        chosen = next((reply for picks, reply in self.refusals if picks(connection, request)), None)
        if chosen:
            reply = chosen
        elif request.kind == "observe" and not self.server.has_news(connection.session, request.objects):
            reply = Reply("seen", last=self.server.cut(connection.session, request.objects), commit=self.server.commit)
        else:
            reply = self.server.step(connection.session, request)
        payload = connection.wrap(wire.reply_bytes(reply, lambda position: self.server.queue[position - 1].action))
        connection.replies += 1
        if self.breaks(connection, "reset", connection.replies) or self.breaks(connection, "half", connection.replies, payload):
            return
        self.send(connection, payload)
        if not self.breaks(connection, "after", connection.replies) and (reply.kind, reply.code) in LAST_WORDS:
            self.close(connection)

    def breaks(self, connection, moment, number, payload=b""):
        """Whether the connection breaks now, as the next cut has it."""
        if not self.cuts or self.cuts[0] != (moment, number) or not self.may_cut(connection):
            return False
        self.cut.append((connection.place, *self.cuts.popleft()))
        self.send(connection, payload[:len(payload) // 2])
        self.close(connection, moment == "reset")
        return True

    def send(self, connection, data):
        """Sends bytes; where that can't be done its end is near."""
        try:
            connection.link.sendall(data)
        except OSError:
            pass

    def journal(self):
        """The journal's part of a report, and how many sessions it has."""
        with self.lock:
            return StandIn.journal(self), len(self.server.state)

    request_text = StandIn.request_text
