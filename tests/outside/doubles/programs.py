"""The program's `serve` and `join` as processes, and what stands at the other end of their connections.

All is on 127.0.0.1. Every process is noted when it is started, so that `stop_all` leaves none behind.
"""

import random
import socket
import struct
import subprocess
import threading
import time

from rules import wire

LONGEST = 20
RESET = struct.pack("ii", 1, 0)
running = []


class Run:
    """A process of the program, with these words."""

    def __init__(self, program, words, **kinds):
        options = {"stdin": subprocess.DEVNULL, "stdout": subprocess.PIPE, "stderr": subprocess.PIPE, **kinds}
        self.begun = time.monotonic()
        self.process = subprocess.Popen([program, *words], **options)
        running.append(self.process)

    def end(self, seconds=LONGEST):
        """Status, standard output and standard error; the status is None where it did not end in time."""
        try:
            said = self.process.communicate(timeout=seconds)
            status = self.process.returncode
        except subprocess.TimeoutExpired:
            self.process.kill()
            said, status = self.process.communicate(), None
        self.seconds = time.monotonic() - self.begun
        return (status, *((text or b"").decode("utf-8", "replace") for text in said))


def stop_all():
    """Kills each process that still runs."""
    for process in running:
        if process.poll() is None:
            process.kill()
            process.wait()


GIVEN = set()


def free_port():
    """A port that nobody has, and none that was given before. It is none of those that the system gives to connections."""
    while True:
        port = random.randrange(12_000, 32_000)
        if port in GIVEN:
            continue
        GIVEN.add(port)
        with socket.socket() as trial:
            try:
                trial.bind(("127.0.0.1", port))
            except OSError:
                continue
            return port


def connect(port, seconds=5):
    """A connection to whoever listens there, or comes to in time."""
    latest = time.monotonic() + seconds
    while True:
        try:
            link = socket.create_connection(("127.0.0.1", port), timeout=LONGEST)
        except ConnectionRefusedError:
            if time.monotonic() > latest:
                raise
            time.sleep(0.01)
            continue
        link.setsockopt(socket.IPPROTO_TCP, socket.TCP_NODELAY, 1)
        return link


def finish(link):
    """Says that nothing more is sent, and answers all that still comes."""
    came = b""
    try:
        link.shutdown(socket.SHUT_WR)
        while piece := link.recv(65_536):
            came += piece
    except OSError:
        pass
    link.close()
    return came


def reset(link):
    """Closes a connection as if its machine had gone: the other side is told of a fault."""
    link.setsockopt(socket.SOL_SOCKET, socket.SO_LINGER, RESET)
    link.close()


class Peer:
    """One connection to a server, over which requests are sent one at a time."""

    def __init__(self, port):
        self.link = connect(port)
        self.frames = wire.Frames()

    def send(self, *payloads):
        """Sends frames, and waits for nothing."""
        self.link.sendall(b"".join(map(wire.frame, payloads)))

    def next(self):
        """The next payload that comes, or None where the connection ends."""
        while (payload := self.frames.next()) is None:
            piece = self.link.recv(65_536)
            if not piece:
                return None
            self.frames.feed(piece)
        return payload

    def ask(self, payload):
        """The reply to one request, in hexadecimal."""
        self.send(payload)
        reply = self.next()
        return None if reply is None else reply.hex()


class Listener:
    """Listens at a port of its own; a thread hands each connection to `meet`."""

    def __init__(self, count):
        self.port = free_port()
        self.socket = socket.create_server(("127.0.0.1", self.port))
        self.socket.settimeout(LONGEST)
        self.thread = threading.Thread(target=self.work, args=(count,), daemon=True)
        self.thread.start()

    def work(self, count):
        """Takes so many connections."""
        for place in range(count):
            try:
                link, _ = self.socket.accept()
            except OSError:
                break
            link.settimeout(LONGEST)
            link.setsockopt(socket.IPPROTO_TCP, socket.TCP_NODELAY, 1)
            threading.Thread(target=self.meet, args=(place, link), daemon=True).start()
        self.socket.close()


class Fake(Listener):
    """A server that knows beforehand what it says: for each connection a list, with bytes for each frame that came.
    At the list's end it says no more, and reads on. A list may end with `reset`."""

    def __init__(self, *scripts):
        self.scripts = scripts
        super().__init__(len(scripts))

    def meet(self, place, link):
        """Answers each frame by the next bytes."""
        frames = wire.Frames()
        try:
            for said in self.scripts[place]:
                if said == "reset":
                    return reset(link)
                while frames.next() is None:
                    piece = link.recv(4096)
                    if not piece:
                        return link.close()
                    frames.feed(piece)
                link.sendall(said)
        except OSError:
            pass
        return finish(link)


class Between(Listener):
    """Stands between a join and its server. It passes on pieces of so many bytes; of what each client sends it passes
    on the first `free` bytes, and the rest once `gate` is set. `answered` is set once it passed an answer on."""

    def __init__(self, port, count, size=65_536, free=None):
        self.server_port, self.size, self.free = port, size, free
        self.gate, self.answered = threading.Event(), threading.Event()
        super().__init__(count)

    def meet(self, place, link):
        """Connects to the server, and passes on what both sides say."""
        try:
            server = connect(self.server_port)
        except OSError:
            return link.close()
        threading.Thread(target=self.pump, args=(server, link, None, self.answered), daemon=True).start()
        return self.pump(link, server, self.free, threading.Event())

    def pump(self, source, target, free, passed):
        """Passes on what one side says, and that it says no more."""
        try:
            while True:
                piece = source.recv(self.size if free is None else min(free, self.size) or self.size)
                if free == 0 and not self.gate.wait(LONGEST):
                    break
                if free:
                    free -= len(piece)
                if not piece:
                    target.shutdown(socket.SHUT_WR)
                    break
                target.sendall(piece)
                passed.set()
        except OSError:
            reset(target)
