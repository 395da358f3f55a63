#!/usr/bin/env python3
"""Tests of `host` as a process of its own: players that come and go, crashes, bad peers, keys, HTTP and WebSockets.

    python3 tests/outside/tests/test_host.py [PROGRAM]

PROGRAM is the built program; without it the repository's own is taken, and where that is not built yet nothing is
tested. All connections are on 127.0.0.1. Closes with `N passed, M failed`.
"""

import base64
import hashlib
import json
import os
import random
import re
import resource
import shutil
import signal
import socket
import struct
import subprocess
import sys
import tempfile
import threading
import time

sys.path.insert(0, os.path.dirname(os.path.dirname(os.path.abspath(__file__))))

from doubles.programs import Run, connect, finish, free_port, reset, stop_all
from rules import wire
from rules.living import check_log, log_text, world_in
from rules.report import Fault as Wrong
from tests.counting import ROOT, Room, program_in
from tests.test_client import Client, Fault, Payload, action, first_payload, obj, request_bytes
from tests.test_living import NODE, PLAYED, Player, Summing, calls_of, check_calls, move

WORDS = "words: host WORLD DIR [OPTION ..]\n"
MANY_FILES = 4096
LONGEST = 30
KEY, OTHER_KEY = b"0123456789abcdef", b"fedcba9876543210"


class Host:
    """A running `host`, with its standard input, and the lines that it told."""

    def __init__(self, test, world, folder, *words, port=None, **kinds):
        self.port = port or free_port()
        self.run = Run(test.program, ["host", world, folder, "--stdin", "--at", f"127.0.0.1:{self.port}", *map(str, words)],
                       stdin=subprocess.PIPE, stdout=subprocess.DEVNULL, **kinds)
        self.process, self.lines = self.run.process, []
        for line in self.process.stderr:
            self.lines.append(line.decode())
            if line.startswith(b"listening "):
                break
        self.reader = threading.Thread(target=self.read_on, daemon=True)
        self.reader.start()

    def read_on(self):
        """Keeps the lines that are told."""
        for line in self.process.stderr:
            self.lines.append(line.decode())

    def stop(self):
        """Tells it to stop, and answers its status."""
        self.process.stdin.write(b"stop\n")
        self.process.stdin.close()
        return self.wait()

    def kill(self):
        """Kills it."""
        self.process.send_signal(signal.SIGKILL)
        return self.wait()

    def wait(self):
        """Its status."""
        status = self.process.wait(20)
        self.reader.join(5)
        return status

    def status(self):
        """What `/status` tells."""
        return json.loads(http(self.port, "GET /status HTTP/1.1\r\nHost: h\r\nConnection: close\r\n\r\n")[1])


class Wire:
    """One connection, over which payloads go by hand."""

    def __init__(self, port):
        self.link, self.came = connect(port), bytearray()

    def send(self, *payloads):
        self.link.sendall(b"".join(map(wire.frame, payloads)))

    def next(self, seconds=LONGEST):
        """The next reply, or None where the connection ends or nothing comes in time."""
        self.link.settimeout(seconds)
        while (payload := first_payload(self.came)) is None:
            try:
                piece = self.link.recv(65_536)
            except (TimeoutError, ConnectionError):
                return None
            if not piece:
                return None
            self.came += piece
        return Payload(payload).reply()

    def ask(self, *request, seconds=LONGEST):
        self.send(request_bytes(*request))
        return self.next(seconds)

    def is_closed(self, seconds=LONGEST):
        """Whether the other side closes, whatever it sends before."""
        self.link.settimeout(seconds)
        try:
            while self.link.recv(65_536):
                pass
            return True
        except ConnectionError:
            return True
        except TimeoutError:
            return False


class Test(Room):
    """The program's runs, and what they leave."""

    def world(self, name, **more):
        """A world's file."""
        return self.file(f"{name}.json", json.dumps({"attrs": 1, "objects": [[0]] * 8, "bound": 32, **more}).encode())

    def folder(self, name):
        """The name of a folder that is not there yet."""
        return os.path.join(self.room, name)

    def ends(self, words, status, line, name):
        """The program ends by itself, with this status and this line."""
        given = Run(self.program, ["host", *map(str, words)]).end()
        self.same((given[0], given[2]), (status, line), name)


def http(port, text, seconds=LONGEST):
    """The status and the body of an answer."""
    link = connect(port)
    link.settimeout(seconds)
    link.sendall(text.encode())
    came = b""
    try:
        while piece := link.recv(65_536):
            came += piece
    except (TimeoutError, ConnectionError):
        pass
    link.close()
    head, _, body = came.partition(b"\r\n\r\n")
    return (int(head.split()[1]) if head else None), body


def player(number, host, **more):
    """A client that comes back by itself. `host` is a list with the present one."""
    return Client(number=number, objects=8, attributes=1, interest=(0, 1, 2, 3), retry=(0.02, 0.3, 200),
                  connect=lambda: socket.create_connection(("127.0.0.1", host[0].port), timeout=5), **more)


def add(*targets):
    """One more in each of these."""
    return action(*[obj(target).attr(0).set(obj(target).attr(0) + 1) for target in targets])


def make(client, *targets):
    """Makes an action, and takes what is due before where too much is pending."""
    if len(client.pending) >= 5:
        client.finish()
    client.make(add(*targets))


def judge(test, world, folder, name, is_honest=True, is_serial=True):
    """The log is that of one legal history, in which each session has its End; gives the history and the serial world."""
    text = log_text(folder)
    try:
        history, serial = check_log(world_in(world), text, is_honest, is_serial=is_serial)
    except Wrong as fault:
        test.expect(False, f"{name}: {fault}: {text.splitlines()[fault.line - 1] if fault.line else ''}")
        return None, None
    test.same(list(history.sessions), [], f"{name}: all sessions have their End")
    return history, serial


def test_words(test):
    """Words, a world that is none, files that are not there."""
    world = test.world("words")
    folder = test.folder("words-dir")
    for words in ((), (world,), (world, folder, "--at"), (world, folder, "--at", "nowhere"), (world, folder, "--sync", "often"),
                  (world, folder, "--idle", "0"), (world, folder, "--what"), (world, folder, "--idle", "x")):
        test.ends(words, 2, WORDS, f"words {words}")
    test.ends((test.world("authority", results="authority"), folder, "--no-steward"), 2, WORDS, "authority wants a steward")
    missing = os.path.join(test.room, "missing.json")
    test.ends((missing, folder), 4, f"file: {missing}\n", "no such world")
    bad = test.file("bad.json", b'{"attrs": 1}')
    given = Run(test.program, ["host", bad, folder]).end()
    test.expect(given[0] == 3 and given[2].startswith("scenario: "), f"a bad world: {given}")


def test_play(test):
    """Three players, of whom one comes late and one is killed and comes back; the server is killed in the middle."""
    world, folder = test.world("play"), test.folder("play-dir")
    host = [Host(test, world, folder)]
    first, second = player(1, host), player(2, host)
    first.join()
    second.join()
    counts = {target: 0 for target in range(4)}

    def act(client, *targets):
        make(client, *targets)
        for target in targets:
            counts[target] += 1

    for _ in range(12):
        act(first, 0, 1)
        act(second, 0, 2)
    late = player(3, host)
    late.join()
    act(late, 0, 3)
    # One is killed: its connection breaks, and another process goes on with what was saved.
    saved = json.loads(json.dumps(second.saved()))
    reset(second.link)
    second = Client.from_saved(saved, retry=(0.02, 0.3, 200), connect=second.connect)
    second.join()
    for _ in range(6):
        act(first, 0, 1)
        act(second, 2)
        act(late, 0, 3)
    port = host[0].port
    host[0].kill()
    host[0] = Host(test, world, folder, port=port)
    for _ in range(6):
        act(first, 0)
        act(second, 0, 2)
        act(late, 3)
    for client in (first, second, late):
        client.finish()
    looker = player(4, host)
    looker.join()
    looker.observe((0, 1, 2, 3))
    looker.finish()
    wanted = {target: (count,) for target, count in counts.items()}
    test.same({target: looker.view(target) for target in range(4)}, wanted, "play: what a new client sees")
    for name, client in (("first", first), ("second", second), ("late", late)):
        client.observe((0, 1, 2, 3))
        client.finish()
        test.same({target: client.view(target) for target in range(4)}, wanted, f"play: what {name} sees")
    looker.leave()
    test.same(host[0].stop(), 0, "play: stops")
    history, _ = judge(test, world, folder, "play")
    test.same({target: history.committed[target] for target in range(4)}, wanted, "play: the world of the log")
    host[0] = Host(test, world, folder)
    test.expect(any(line.startswith("start ") for line in host[0].lines), "play: it tells its start")
    again = player(5, host)
    again.join()
    test.same({target: again.view(target) for target in range(4)}, wanted, "play: the world after a restart")
    again.leave()
    test.same(host[0].stop(), 0, "play: stops again")


def test_only_one(test):
    """One process has a folder, and one an address."""
    world, folder = test.world("one"), test.folder("one-dir")
    host = Host(test, world, folder)
    test.ends((world, folder, "--at", f"127.0.0.1:{free_port()}"), 14, f"busy: {folder}\n", "a second host of a folder")
    other = test.folder("other-dir")
    given = Run(test.program, ["host", world, other, "--at", f"127.0.0.1:{host.port}"]).end()
    test.same((given[0], given[2].splitlines()[-1:]), (14, [f"busy: 127.0.0.1:{host.port}"]), "a second host of an address")
    test.same(host.stop(), 0, "only one: stops")


def test_refused(test):
    """A log with a changed line, another world, and bytes behind the text."""
    world, folder = test.world("refused"), test.folder("refused-dir")
    host = [Host(test, world, folder)]
    client = player(1, host)
    client.join()
    for _ in range(3):
        client.make(add(0))
    client.finish()
    client.leave()
    test.same(host[0].stop(), 0, "refused: stops")
    name = next(name for name in os.listdir(folder) if name.startswith("journal-"))
    path = os.path.join(folder, name)
    with open(path, "rb") as file:
        good = file.read()
    lines = good.split(b"\0")[0].decode().splitlines()
    place = next(place for place, line in enumerate(lines, 1) if " submit 2 " in line)

    def with_line(number, line):
        changed = [*lines]
        changed[number - 1] = line
        text = "".join(one + "\n" for one in changed).encode()
        return text + b"\0" * (len(good) - len(text))

    def shown():
        found = {}
        for one in sorted(os.listdir(folder)):
            with open(os.path.join(folder, one), "rb") as file:
                found[one] = file.read()
        return found

    relay = lines[place - 1]
    for wrong, cause, title in ((relay.replace("[", "[0=(7)", 1) if "relay 2 at" not in relay else relay.replace(" at ", " at 9", 1), "reply", "another reply"),
                                (re.sub(r"^\d+ s\d+", f"{place} s99", relay), "session", "another session"),
                                ("what", "line", "no line"), (re.sub(r"^\d+", "77", relay), "reply", "another number")):
        with open(path, "wb") as file:
            file.write(with_line(place, wrong))
        before = shown()
        given = Run(test.program, ["host", world, folder, "--at", f"127.0.0.1:{free_port()}"]).end()
        test.expect(given[0] == 13 and given[2].startswith(f"log: {name}:{place} "), f"refused: {title}: {given}")
        test.expect(given[2] == f"log: {name}:{place} {cause}\n", f"refused: {title}: cause: {given}")
        test.expect(shown() == before, f"refused: {title}: nothing is changed")
    with open(path, "wb") as file:
        file.write(good)
    other = test.world("refused-other", bound=5)
    test.ends((other, folder, "--at", f"127.0.0.1:{free_port()}"), 13, "log: world.json world\n", "another world")
    # A last line that was cut off is no fault, nor is what stands behind the text.
    with open(path, "wb") as file:
        text = good.split(b"\0")[0]
        file.write(text + b"99 s1 su" + b"\0" * 100 + b"junk" + b"\0" * 50)
    host[0] = Host(test, world, folder)
    back = player(1, host)
    back.join()
    test.same(back.view(0), (3,), "refused: what was cut off is passed over")
    back.leave()
    test.same(host[0].stop(), 0, "refused: stops at last")
    test.expect(any(one.startswith("rest-") for one in os.listdir(folder)), "refused: what stood behind is kept")


def test_bad_peers(test):
    """Garbage, half frames, heads without end, lengths over the limit, and a peer that never reads: others are served."""
    world, folder = test.world("bad"), test.folder("bad-dir")
    host = [Host(test, world, folder, "--idle", 2)]
    port = host[0].port
    honest = player(1, host)
    honest.join()
    links = []
    for data in (b"\0\0\0\5ab", b"GET / HTTP/1.1\r\nHost: h\r\nX: " + b"y" * 100, b"\0", b"\xff" * 10, os.urandom(3000),
                 b"\0\0\0\1\xff", b"\0\1\0\1" + b"x" * 100, b"GET /" + b"z" * 20_000 + b" HTTP/1.1\r\n"):
        link = connect(port)
        try:
            link.sendall(data)
        except OSError:
            pass
        links.append(link)
    over = Wire(port)
    over.send(b"\xff\xff")
    reply = over.next()
    test.expect(reply and (reply.kind, reply.code) == ("refused", 1), f"bad peers: no request: {reply}")
    test.expect(over.is_closed(), "bad peers: it is closed behind Refused 1")
    # Two ask again and again, and read nothing: one in frames, one in HTTP.
    silent, reader = Wire(port), connect(port)
    silent.ask("join", 9, 1, (0, 1, 2, 3))
    for link, asked in ((silent.link, wire.frame(request_bytes("join", 9, 1, ())) * 500),
                        (reader, b"GET /status HTTP/1.1\r\nHost: h\r\n\r\n" * 500)):
        link.settimeout(0.2)
        try:
            for _ in range(20 if link is reader else 2):
                link.sendall(asked)
        except (TimeoutError, ConnectionError):
            pass
    for _ in range(5):
        honest.make(add(0))
    honest.finish()
    test.same(honest.view(0), (5,), "bad peers: an honest client plays on")
    status = host[0].status()
    test.expect(status["open"] >= 2 and status["commit"] == 5, f"bad peers: status: {status}")
    # The idle are closed, and what waits for them with them.
    latest = time.monotonic() + 12
    while host[0].status()["open"] > 2 and time.monotonic() < latest:
        honest.observe((0,))
        honest.finish()
        time.sleep(0.2)
    test.same(host[0].status()["open"], 2, "bad peers: the idle are gone")
    honest.leave()
    test.same(host[0].stop(), 0, "bad peers: stops")
    for link in links:
        link.close()


def test_many(test):
    """1,100 connections: 1,024 are served, the others are closed and counted."""
    world, folder = test.world("many"), test.folder("many-dir")
    host = Host(test, world, folder, "--sync", "none")
    links = []
    for _ in range(1100):
        links.append(socket.create_connection(("127.0.0.1", host.port), timeout=5))
    join = [wire.frame(request_bytes("join", number, 1, (0,))) for number in range(1100)]
    served = 0
    for number, link in enumerate(links):
        try:
            link.sendall(join[number])
        except OSError:
            pass
    latest = time.monotonic() + LONGEST
    for link in links:
        link.settimeout(max(latest - time.monotonic(), 0.1))
        try:
            served += link.recv(100)[4:5] == b"\x81"
        except OSError:
            pass
    # The steward has one of the 1,024 sessions that may be open.
    test.same(served, 1023, "many: so many are served")
    for link in links:
        link.close()
    latest, status = time.monotonic() + LONGEST, {"open": 0, "refused_connections": 0}
    while time.monotonic() < latest:
        try:
            status = host.status()
            if status["open"] <= 1:
                break
        except ValueError:      # there are too many connections still
            pass
        time.sleep(0.1)
    test.same((status["open"], status["refused_connections"] >= 77), (1, True), f"many: they are gone, and counted: {status}")
    test.same(host.stop(), 0, "many: stops")
    judge(test, world, folder, "many")


def test_held(test):
    """An Observe with a wait is answered when there is news, at its time, or behind another request; and without an entry
    where it shows nothing."""
    world, folder = test.world("held"), test.folder("held-dir")
    host = [Host(test, world, folder)]
    watcher, actor = Wire(host[0].port), player(1, host)
    watcher.ask("join", 7, 1, (0, 1))
    actor.join()
    shown = watcher.ask("observe", (0, 1), 2000, seconds=1)
    entries = host[0].status()["entries"]
    test.expect(shown is None, "held: nothing is told before there is news")
    begun = time.monotonic()
    actor.make(add(0))
    shown = watcher.next()
    test.expect(shown and shown.kind == "seen" and len(shown.items) == 1, f"held: news: {shown}")
    test.expect(time.monotonic() - begun < 1, "held: it is told soon")
    item = shown.items[0]
    noted = watcher.ask("done", ((item.position, ((1,),)),))
    test.same(noted.kind, "noted", "held: the result is noted")
    actor.finish()
    begun, entries = time.monotonic(), host[0].status()["entries"]
    shown = watcher.ask("observe", (0, 1), 300)
    test.expect(0.25 < time.monotonic() - begun < 2, "held: its time passes")
    test.same((shown.kind, shown.head, shown.items, shown.last), ("seen", (), (), 1), "held: it shows nothing")
    watcher.send(request_bytes("observe", (0,), 60_000), request_bytes("poll"))
    test.same([watcher.next().kind, watcher.next().kind], ["seen", "idle"], "held: another request comes")
    test.same(host[0].status()["entries"], entries + 1, "held: what shows nothing is no entry")
    test.same(host[0].stop(), 0, "held: stops")
    judge(test, world, folder, "held")


def test_steward(test):
    """What a client leaves without a result the steward reports; with authority it reports everything."""
    world, folder = test.world("steward"), test.folder("steward-dir")
    host = Host(test, world, folder, "--report-within", 100)
    link = Wire(host.port)
    link.ask("join", 1, 1, (0,))
    for number in range(1, 6):
        reply = link.ask("submit", number, add(0))
        test.same(reply.kind, "relay", "steward: accepted")
    reset(link.link)
    latest = time.monotonic() + 5
    while (status := host.status())["commit"] < 5 and time.monotonic() < latest:
        time.sleep(0.05)
    test.same((status["commit"], status["uncommitted"], status["reported_by_steward"]), (5, 0, 5), "steward: it reports")
    wrong = Wire(host.port)
    wrong.send(request_bytes("join", 65_535, 1000, ()))
    test.expect(wrong.is_closed(), "steward: nobody joins under its number")
    test.same(host.stop(), 0, "steward: stops")
    host = Host(test, world, folder)
    looker = Wire(host.port)
    test.same(looker.ask("join", 2, 1, (0,)).head, ((0, (5,)),), "steward: the world after a restart")
    test.same(host.stop(), 0, "steward: stops again")
    world, folder = test.world("power", results="authority", rights=[{"clients": [0, 3], "objects": [0, 1]}]), test.folder("power-dir")
    host = Host(test, world, folder)
    link = Wire(host.port)
    link.ask("join", 1, 1, (0,))
    reply = link.ask("submit", 1, add(0))
    link.send(request_bytes("done", ((1, ((77,),)),)))
    test.same(link.next().kind, "noted", "authority: a lie is noted")
    test.same(link.ask("submit", 2, add(2)).kind, "denied", "authority: rights")
    looker = Wire(host.port)
    welcome = looker.ask("join", 2, 1, (0,))
    test.same((welcome.commit, welcome.head), (1, ((0, (1,)),)), "authority: the steward's result counts")
    status = host.status()
    test.same((status["denied"], status["dropped"], status["clients"]), (1, 0, 3), f"authority: status: {status}")
    test.same(host.stop(), 0, "authority: stops")
    judge(test, world, folder, "authority", False)


def test_keys(test):
    """Who shows a key joins under its number alone; the file may change."""
    def row(number, key):
        return f"{number} {hashlib.sha256(key).hexdigest()}\n"

    keys = test.file("keys", ("# who may join\n" + row(3, KEY)).encode())
    world, folder = test.world("keys"), test.folder("keys-dir")
    host = Host(test, world, folder, "--keys", keys)

    def tried(key, number):
        link = Wire(host.port)
        if key is not None:
            link.send(request_bytes("hello", key))
        link.send(request_bytes("join", number, 1, ()))
        reply = link.next(2)
        return reply and reply.kind

    test.same(tried(None, 3), None, "keys: no key")
    test.same(tried(OTHER_KEY, 3), None, "keys: a wrong key")
    test.same(tried(KEY, 4), None, "keys: another number")
    test.same(tried(KEY, 3), "welcome", "keys: the right key")
    test.file("keys", (row(3, KEY) + row(4, OTHER_KEY) + "\n").encode())
    test.same(tried(OTHER_KEY, 4), "welcome", "keys: the file has changed")
    test.file("keys", b"what\n")
    test.expect(tried(KEY, 3) == "refused", "keys: the last good file holds")
    link = Wire(host.port)
    link.send(request_bytes("hello", KEY), request_bytes("hello", KEY))
    test.same((link.next().code, link.is_closed()), (1, True), "keys: a Hello twice")
    for key, wanted in ((KEY.hex(), 101), (KEY.hex() + "0", 101)):
        status, link = upgrade(host.port, f"/play?key={key}")
        test.same(status, wanted, f"keys: a WebSocket with {key}")
        link.sendall(masked(2, request_bytes("join", 3, 2, ())))
        test.same((unframed(link, 2) or (8,))[0], 2 if key == KEY.hex() else 8, f"keys: joins by {key}")
    test.same(host.status()["refused_connections"], 4, "keys: counted")
    test.same(host.stop(), 0, "keys: stops")
    test.expect(any(line.startswith("keys: ") for line in host.lines), "keys: a wrong file is told")
    told = log_text(folder) + "".join(host.lines)
    test.expect(KEY.hex() not in told and KEY.decode() not in told and hashlib.sha256(KEY).hexdigest() not in told, "keys: told nowhere")
    bad = test.file("bad-keys", b"3 zz\n")
    given = Run(test.program, ["host", world, folder, "--keys", bad]).end()
    test.expect(given[0] == 3, f"keys: a wrong file at the start: {given}")


def upgrade(port, path="/play", **headers):
    """A WebSocket's link, or the answer's status where it is none."""
    link = connect(port)
    lines = [f"GET {path} HTTP/1.1", "Host: h:1", "Connection: Upgrade", "Upgrade: websocket", "Sec-WebSocket-Version: 13",
             "Sec-WebSocket-Key: " + base64.b64encode(bytes(16)).decode(), *[f"{name}: {value}" for name, value in headers.items()]]
    link.sendall("\r\n".join([*lines, "", ""]).encode())
    head = b""
    while b"\r\n\r\n" not in head:
        piece = link.recv(1)
        if not piece:
            break
        head += piece
    status = int(head.split()[1])
    return (status, link)


def masked(kind, data):
    """A frame of a client."""
    size = bytes([0x80 | len(data)]) if len(data) < 126 else bytes([0x80 | 126]) + struct.pack(">H", len(data)) if len(data) < 65_536 \
        else bytes([0x80 | 127]) + struct.pack(">Q", len(data))
    mask = b"\1\2\3\4"
    return bytes([0x80 | kind]) + size + mask + bytes(byte ^ mask[place % 4] for place, byte in enumerate(data))


def unframed(link, seconds=5):
    """The kind and the bytes of a server's next frame, or None."""
    link.settimeout(seconds)

    def exact(count):
        data = b""
        while len(data) < count:
            piece = link.recv(count - len(data))
            if not piece:
                raise ConnectionError
            data += piece
        return data

    try:
        kind, size = exact(2)
        if size == 126:
            size = struct.unpack(">H", exact(2))[0]
        return kind & 15, exact(size)
    except (ConnectionError, TimeoutError):
        return None


def test_web(test):
    """Pages, status, and sessions over WebSockets."""
    site = test.folder("site")
    os.makedirs(os.path.join(site, "more"))
    for name, data in (("index.html", b"<p>hello"), ("more/a.js", b"1"), (".hidden", b"no")):
        with open(os.path.join(site, name), "wb") as file:
            file.write(data)
    test.file("secret", b"no")
    world, folder = test.world("web"), test.folder("web-dir")
    host = Host(test, world, folder, "--site", site, "--origin", "https://good.example")

    def got(path, method="GET"):
        return http(host.port, f"{method} {path} HTTP/1.1\r\nHost: h:1\r\nConnection: close\r\n\r\n")

    test.same(got("/"), (200, b"<p>hello"), "web: the page")
    test.same(got("/more/a.js"), (200, b"1"), "web: a file below")
    for path in ("/none", "/../secret", "/more/../../secret", "/.hidden", "//secret", "/more", "/%2e%2e/secret"):
        test.same(got(path)[0], 404, f"web: {path}")
    test.same(got("/", "POST")[0], 405, "web: only GET")
    status = host.status()
    test.same(sorted(status), sorted("clients sessions open entries accepted dropped denied commit uncommitted reported_by_steward "
                                     "bytes_in bytes_out log_bytes syncs refused_connections seconds".split()), "web: status")
    test.same(upgrade(host.port, Origin="http://bad.example")[0], 403, "web: another origin")
    for origin in ("http://h:1", "https://good.example"):
        test.same(upgrade(host.port, Origin=origin)[0], 101, f"web: {origin}")
    status, link = upgrade(host.port)
    test.same(status, 101, "web: upgrade")
    link.sendall(masked(2, request_bytes("join", 1, 1, (0,))))
    kind, data = unframed(link)
    test.same((kind, Payload(data).reply().kind), (2, "welcome"), "web: a session")
    link.sendall(masked(9, b"ping") + masked(2, request_bytes("submit", 1, add(0))))
    test.same(unframed(link), (10, b"ping"), "web: a ping")
    kind, data = unframed(link)
    test.same((kind, Payload(data).reply().kind), (2, "relay"), "web: an action")
    link.sendall(masked(1, b"text"))
    test.same(unframed(link), (8, struct.pack(">H", 1003)), "web: text")
    for data, code, name in ((masked(2, bytes(65_537)), 1009, "too long"), (b"\x82\x01x", 1002, "not masked")):
        _, link = upgrade(host.port)
        link.sendall(data)
        test.same(unframed(link), (8, struct.pack(">H", code)), f"web: {name}")
    test.same(host.stop(), 0, "web: stops")
    judge(test, world, folder, "web")


def test_crashes(test):
    """Killed again and again while clients play: whatever was told stays."""
    world, folder = test.world("crash"), test.folder("crash-dir")
    port = free_port()
    host = [Host(test, world, folder, port=port)]
    client = player(1, host)
    client.join()
    for turn in range(4):
        for _ in range(8):
            make(client, 0)
            client.go_on(0.01)
        host[0].kill()
        host[0] = Host(test, world, folder, port=port)
    client.finish()
    test.same(client.view(0), (32,), "crashes: each action once")
    client.leave()
    test.same(host[0].stop(), 0, "crashes: stops")
    judge(test, world, folder, "crashes")


def test_backup(test):
    """A folder that is copied while clients play: the copy is the world as it was, with all that was answered before."""
    world, folder, copy = test.world("backup"), test.folder("backup-dir"), test.folder("backup-copy")
    host = [Host(test, world, folder)]
    is_over, players = threading.Event(), [player(number, host) for number in range(4)]

    def play(client):
        while not is_over.is_set():
            make(client, client.number)
            client.go_on(0.01)
        client.finish()

    for each in players:
        each.join()
    threads = [threading.Thread(target=play, args=(each,), daemon=True) for each in players]
    for thread in threads:
        thread.start()
    time.sleep(0.5)
    before = host[0].status()
    shutil.copytree(folder, copy)
    time.sleep(0.2)
    is_over.set()
    for thread in threads:
        thread.join(LONGEST)
    test.same(host[0].stop(), 0, "backup: stops")
    other = Host(test, world, copy)
    status = other.status()
    test.expect(before["entries"] <= status["entries"] and before["accepted"] <= status["accepted"], f"backup: {before}, then {status}")
    test.same(other.stop(), 0, "backup: the copy stops")
    history, _ = judge(test, world, copy, "backup")
    judge(test, world, folder, "backup: the folder itself")
    test.expect(history and len(history.accepted) >= before["accepted"] > 0, "backup: what was answered is in it")


def test_page(test):
    """The example of docs/HOSTING.md: twice, with a kill between."""
    with open(os.path.join(ROOT, "docs", "HOSTING.md"), encoding="utf-8") as file:
        page = file.read()
    world = test.file("page.json", re.search(r"^echo '(\{.*\})' >world.json$", page, re.M)[1].encode())
    folder, text = test.folder("page-dir"), re.search(r"```python\n(.*?)```", page, re.S)[1]
    for wanted in ("(95,) (5,)\n", "(90,) (10,)\n"):
        host = Host(test, world, folder)
        done = subprocess.run([sys.executable, "-c", text.replace("4000", str(host.port))], cwd=ROOT, capture_output=True, text=True,
                              timeout=LONGEST, check=False)
        test.same((done.stdout, done.stderr), (f"joining None\njoined None\n{wanted}left None\n", ""), "page: the player")
        test.expect(wanted.strip() in page, f"page: it tells {wanted}")
        told = [line.split(", entry")[1] for line in host.lines[:2]]
        test.expect(wanted[:3] != "(95" or told == [" 0, commit 0\n", " 2, commit 0\n"], f"page: its lines: {host.lines}")
        host.kill()


def any_request(chance):
    """A request of any kind, right or wrong."""
    objects = tuple(sorted(chance.sample(range(9), chance.randrange(4))))
    act = action(*[obj(target).attr(0).set(chance.choice((obj(target).attr(0) + 1, 7))) for target in objects[:2]], reads=objects)
    results = tuple((place, ((chance.randrange(9),),)) for place in sorted(chance.sample(range(40), chance.randrange(3))))
    return chance.choice((
        lambda: request_bytes("join", chance.randrange(9), chance.randrange(6), objects), lambda: request_bytes("poll"),
        lambda: request_bytes("submit", chance.randrange(9), act), lambda: request_bytes("submit", chance.randrange(4), act),
        lambda: request_bytes("done", results), lambda: request_bytes("observe", objects, chance.randrange(30)),
        lambda: request_bytes("leave") if chance.random() < 0.1 else request_bytes("poll"),
        lambda: chance.randbytes(chance.randrange(40)) if chance.random() < 0.1 else request_bytes("observe", (0, 1), 0)))()


def test_any_requests(test):
    """Requests of all kinds in any order over 100 connections at once; and 1,000 connections one after the other: the log is legal, and
    nothing is kept of who is gone."""
    world, folder, chance = test.world("any"), test.folder("any-dir"), random.Random(5)
    host = Host(test, world, folder, "--sync", "none")
    opened = len(os.listdir(f"/proc/{host.process.pid}/fd"))
    links = [Wire(host.port) for _ in range(100)]
    for _ in range(30):
        for link in links:
            try:
                link.send(any_request(chance))
            except OSError:         # its session was over
                pass
    for number, link in enumerate(links):
        (reset if number % 2 else finish)(link.link)
    for number in range(1000):
        link = Wire(host.port)
        if number % 3 == 0:
            link.send(request_bytes("poll"))
        (reset if number % 2 else socket.socket.close)(link.link)
    latest = time.monotonic() + LONGEST
    while (host.status()["open"] > 1 or len(os.listdir(f"/proc/{host.process.pid}/fd")) > opened + 1) and time.monotonic() < latest:
        time.sleep(0.05)
    test.same(host.status()["open"], 1, "any requests: nobody is there")
    test.expect(len(os.listdir(f"/proc/{host.process.pid}/fd")) <= opened + 1, "any requests: no file is left open")
    test.same(host.stop(), 0, "any requests: stops")
    judge(test, world, folder, "any requests", is_serial=False)


def test_mixed(test):
    """Eight clients in Python, and where node is eight in JavaScript over WebSockets, whose connections break, over a server that is
    killed: the sum is kept, and all see the same at last."""
    world, folder, port, chance = test.world("mixed", objects=[[100]] * 8), test.folder("mixed-dir"), free_port(), random.Random(8)
    host = Host(test, world, folder, port=port)
    barrier, is_over, faults = threading.Barrier(9), threading.Event(), []
    players = [Player(host, number, objects=8, kind=Summing) for number in range(8)]

    def work(place, player):
        try:
            move(player, random.Random(place), barrier, is_over)
        except (Fault, OSError, threading.BrokenBarrierError) as fault:
            faults.append(f"{type(fault).__name__}: {fault}")
            barrier.abort()

    other = subprocess.Popen([*NODE, PLAYED, "many", str(port), "8", "0.3"], stdin=subprocess.PIPE, stdout=subprocess.PIPE,
                             text=True) if shutil.which("node") else None
    threads = [threading.Thread(target=work, args=each, daemon=True) for each in enumerate(players)]
    for thread in threads:
        thread.start()
    for place in range(24):
        time.sleep(0.01)
        try:
            chance.choice(players).client.link.shutdown(socket.SHUT_RDWR)
        except (OSError, AttributeError):       # it was none at that moment
            pass
        if place == 12:
            host.kill()
            host = Host(test, world, folder, port=port)
    ready = other.stdout.readline() if other else "ready\n"
    try:
        barrier.wait(LONGEST)
    except threading.BrokenBarrierError:
        test.expect(False, f"mixed: {faults}")
    latest = time.monotonic() + LONGEST
    while time.monotonic() < latest and len({str([each.client.view(target) for target in range(8)]) for each in players}) > 1:
        time.sleep(0.01)
    found = json.loads(other.communicate("end\n", timeout=LONGEST)[0]) if other else []
    is_over.set()
    for thread in threads:
        thread.join(LONGEST)
    test.same((ready, faults, not other or other.returncode == 0), ("ready\n", [], True), "mixed: all come to their end")
    test.same(host.stop(), 0, "mixed: stops")
    history, serial = judge(test, world, folder, "mixed")
    if not history:
        return
    last = [serial.value(target, len(history.accepted)) for target in range(8)]
    test.same((sum(value[0] for value in last), history.commit, history.committed), (800, len(history.accepted), last), "mixed: the sum is kept")
    for each in players:
        client = each.client
        test.same([client.view(target) for target in range(8)], last, f"mixed: what client {client.number} sees at last")
        test.same((set(client.sums) | {800}, client.made, client.status), ({800}, 8, "left"), f"mixed: each cut of client {client.number}")
        check_calls(test, f"mixed: client {client.number}", each.calls)
    for each in found:
        test.same([[value for _, value in each[name]] for name in ("last", "views")], [[value[0] for value in last]] * 2,
                  f"mixed: what client {each['number']} sees at last")
        test.same({sum(value for _, value in cut) for cut in each["cuts"]}, {800}, f"mixed: each cut of client {each['number']}")
        check_calls(test, f"mixed: client {each['number']}", calls_of(each["calls"]))
    for number in range(8 + len(found)):
        test.same(len(history.outcomes.get(number, [])), 8, f"mixed: an outcome for each action of client {number}")


def test_full_disk(test):
    """A file that can't grow: no reply is sent that is not in the log, and the status is 5."""
    def limited(size):
        def limit():
            signal.signal(signal.SIGXFSZ, signal.SIG_IGN)
            resource.setrlimit(resource.RLIMIT_FSIZE, (size, size))
        return {"preexec_fn": limit}

    world, folder = test.world("full"), test.folder("full-dir")
    given = Run(test.program, ["host", world, test.folder("no-room"), "--at", f"127.0.0.1:{free_port()}"], **limited(50_000)).end()
    test.expect(given[0] == 5 and given[2].startswith("log: "), f"full disk: at the start: {given}")
    host = Host(test, world, folder, **limited((1 << 20) + 10_000))
    link = Wire(host.port)
    link.ask("join", 1, 1, (0,))
    long = action(*[obj(0).attr(0).set(obj(0).attr(0) + 1_000_000_000_000_000_000 + place) for place in range(10)])
    asked = wire.frame(request_bytes("submit", 1, long))
    replies = [0]

    def read():
        while link.next(LONGEST):
            replies[0] += 1

    reader = threading.Thread(target=read, daemon=True)
    reader.start()
    try:
        for _ in range(2400):
            link.link.sendall(asked)
    except OSError:
        pass
    status = host.process.wait(2 * LONGEST)
    reader.join(5)
    host.reader.join(5)
    name = next(one for one in os.listdir(folder) if one.startswith("journal-"))
    test.same((status, host.lines[-1:]), (5, [f"log: {name}\n"]), "full disk: it stops")
    entered = sum(" submit 1 " in line for line in log_text(folder).splitlines())
    test.expect(0 < replies[0] <= entered, f"full disk: {replies[0]} replies, {entered} lines")
    host = Host(test, world, folder)
    test.same(host.stop(), 0, "full disk: it goes on once there is room")


TESTS = (test_words, test_play, test_only_one, test_refused, test_bad_peers, test_many, test_held, test_steward, test_keys, test_web, test_crashes,
         test_backup, test_page, test_any_requests, test_mixed, test_full_disk)


def main(words):
    names = [word[5:] for word in words if word.startswith("only=")]
    program, status = program_in([word for word in words if not word.startswith("only=")])
    if program is None:
        return status
    _, hard = resource.getrlimit(resource.RLIMIT_NOFILE)
    resource.setrlimit(resource.RLIMIT_NOFILE, (MANY_FILES if hard == resource.RLIM_INFINITY else min(hard, MANY_FILES), hard))
    with tempfile.TemporaryDirectory() as room:
        test = Test(os.path.abspath(program), room)
        try:
            for one in TESTS:
                if names and one.__name__[5:] not in names:
                    continue
                begun = time.monotonic()
                try:
                    one(test)
                except Exception as fault:        # a test that breaks off is a failed one, and the others go on
                    test.expect(False, f"{one.__name__}: {type(fault).__name__}: {fault}")
                print(f"{one.__name__}: {time.monotonic() - begun:.1f} s", file=sys.stderr)
        finally:
            stop_all()
    return test.close()


if __name__ == "__main__":
    sys.exit(main(sys.argv[1:]))
