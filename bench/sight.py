"""Times from an act in one tab of the room to its sight in the other tab, beside a plain relay of messages over WebSockets.

    python3 bench/sight.py PROGRAM [STEPS]

PROGRAM has the command `host`. Chromium (Debian's package) runs both tabs. In the room a step of the one player is made, answered, told to
the other tab as news, and drawn there. The relay is a program in Python that hands each message to the other tab, where it is noted as it
comes, and no more is done.
"""

import os
import socket
import subprocess
import sys
import tempfile
import threading

HERE = os.path.dirname(os.path.abspath(__file__))
sys.path.insert(0, os.path.join(os.path.dirname(HERE), "tests", "outside"))

from doubles import chromium, websocket
from tests.counting import Count
from tests.test_site import FILL, Host, sights

OPEN = """new Promise(done => { window.link = new WebSocket('ws://127.0.0.1:%d/'); link.binaryType = 'arraybuffer'; window.times = [];
    link.onmessage = ({ data }) => times.push(performance.timeOrigin + performance.now() - new Float64Array(data)[0]); link.onopen = () => done(true); })"""
SEND = """(async () => { for (let step = 0; step < %d; step++) { link.send(new Float64Array([performance.timeOrigin + performance.now()]).buffer);
    await new Promise(done => setTimeout(done, 20)); } })()"""


class Relay:
    """Hands each message of two connections to the other one."""

    def __init__(self):
        self.listener = socket.create_server(("127.0.0.1", 0))
        self.port, self.links = self.listener.getsockname()[1], []
        threading.Thread(target=self.work, daemon=True).start()

    def work(self):
        for _ in range(2):
            link, _ = self.listener.accept()
            link.setsockopt(socket.IPPROTO_TCP, socket.TCP_NODELAY, 1)
            self.links.append(link)
            threading.Thread(target=self.hand_on, args=(link,), daemon=True).start()

    def hand_on(self, link):
        messages = websocket.Messages()
        try:
            while piece := link.recv(65_536):
                messages.feed(piece)
                if messages.owed:
                    link.sendall(messages.owed)
                    messages.owed = b""
                while (payload := messages.next()) is not None:
                    for other in self.links:
                        if other is not link:
                            other.sendall(websocket.message(payload))
        except (OSError, websocket.Closed):
            pass


def row(name, times):
    """The middle and the 99th of a hundred."""
    times = sorted(times)
    print(f"| {name} | {times[len(times) // 2]:.1f} | {times[len(times) * 99 // 100]:.1f} |")


def main(words):
    """The status of these words."""
    if not 1 <= len(words) <= 2:
        print("words: PROGRAM [STEPS]", file=sys.stderr)
        return 2
    steps, count, relay = int(words[1]) if len(words) > 1 else 100, Count(), Relay()
    with tempfile.TemporaryDirectory() as room:
        folder = os.path.join(room, "site")
        subprocess.run([FILL, folder], check=True)
        server, browser = Host(os.path.abspath(words[0]), folder, room), chromium.Chromium()
        try:
            first, second = browser.tab(f"{server.address}0"), browser.tab(f"{server.address}1")
            for tab in (first, second):
                tab.until("room.client?.status === 'joined' && room.view(0) !== null")
            seen = sights(count, first, second, steps)
            for tab in (first, second):
                tab.run(OPEN % relay.port)
            first.run(SEND % steps)
            second.until(f"times.length === {steps}")
            print("| From an act to its sight, ms | at the middle | at the 99th of a hundred |\n|---|---|---|")
            row("the room over `host`", seen)
            row("a plain relay", second.run("times"))
        finally:
            browser.close()
            server.close()
    return 1 if count.failed else 0


if __name__ == "__main__":
    sys.exit(main(sys.argv[1:]))
