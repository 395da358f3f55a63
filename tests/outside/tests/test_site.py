#!/usr/bin/env python3
"""Tests of examples/site, the game in browser tabs, with Chromium.

    python3 tests/outside/tests/test_site.py [--shots FOLDER] [PROGRAM]

Two tabs play against each other over `host` of PROGRAM, if none is named of the repository's own, and where that is not built over
the double of doubles/holding.py: what one picks up the other sees, within 100 ms; a guess that was wrong is put right, and said; a
line that is gone comes back; and where the server is killed and started again both go on by themselves. Where Chromium (Debian's
package chromium) is not there, only the files are looked at. --shots takes pictures of both tabs, as on a phone and on a desktop.
Closes with `N passed, M failed`.
"""

import functools
import http.server
import json
import os
import re
import shutil
import subprocess
import sys
import tempfile
import threading
import time

sys.path.insert(0, os.path.dirname(os.path.dirname(os.path.abspath(__file__))))

from doubles import chromium
from doubles.holding import Holding
from doubles.programs import free_port
from rules.scenario import scenario_of
from tests.counting import BUILT, ROOT, Count

WORLD = os.path.join(ROOT, "examples", "room.json")
FILL = os.path.join(ROOT, "tools", "site")
LONGEST = 120


class Quiet(http.server.SimpleHTTPRequestHandler):
    """Serves files, and says nothing of it."""

    def log_message(self, *_):
        """Says nothing."""


class Double:
    """The double of the server, and a server of files beside it."""

    def __init__(self, folder):
        with open(WORLD, encoding="utf-8") as file:
            world = json.load(file)
        world.pop("rights")
        self.plan = scenario_of(json.dumps({**world, "clients": [{"interest": [], "steps": []}] * 6}).encode())
        self.files = http.server.ThreadingHTTPServer(("127.0.0.1", 0), functools.partial(Quiet, directory=folder))
        threading.Thread(target=self.files.serve_forever, daemon=True).start()
        self.server = Holding(self.plan)
        self.address = f"http://127.0.0.1:{self.files.server_port}/?server=ws://127.0.0.1:{self.server.port}/&player="

    def stop(self):
        """The server of the world stops."""
        self.server.stop()

    def start(self):
        """It goes on where it stopped."""
        self.server = Holding(self.plan, before=self.server)

    def close(self):
        """Ends both."""
        self.server.stop()
        self.files.shutdown()
        self.files.server_close()


class Host:
    """The command `host` of a program, which serves the files too."""

    def __init__(self, program, folder, room):
        self.words = [program, "host", WORLD, os.path.join(room, "world"), "--site", folder, "--stdin", "--at", f"127.0.0.1:{free_port()}"]
        self.address, self.process = f"http://{self.words[-1]}/?player=", None
        self.start()

    def start(self):
        """Starts it, and waits until it listens."""
        self.process = subprocess.Popen(self.words, stdin=subprocess.PIPE, stderr=subprocess.PIPE, text=True)
        while (line := self.process.stderr.readline()) and not line.startswith("listening"):
            pass

    def stop(self):
        """Kills it."""
        self.process.kill()
        self.process.communicate(timeout=LONGEST)

    close = stop


def look_at_files(count, folder):
    """The page names nothing outside its folder, and the world is the one that it plays in."""
    for name in sorted(os.listdir(folder)):
        with open(os.path.join(folder, name), encoding="utf-8") as file:
            text = file.read()
        if name != "dimboetu.js":
            far = re.findall(r"https?://[^\s\"'`]*|@import|url\(", text.replace("http://www.w3.org/2000/svg", ""))
            count.same(far, [], f"{name}: what is outside")
        for named in re.findall(r"(?:from |src=|href=)\"(?:\./)?([^\"]+)\"", text):
            count.expect(os.path.exists(os.path.join(folder, named)), f"{name} names {named}")
    with open(WORLD, encoding="utf-8") as file:
        world = json.load(file)
    count.same((list(world), len(world["objects"]), {len(each) for each in world["objects"]}), (["attrs", "objects", "bound", "rights"], 16, {world["attrs"]}),
               "the world")
    may = {(client, target) for pair in world["rights"] for client in range(pair["clients"][0], pair["clients"][1] + 1)
           for target in range(pair["objects"][0], pair["objects"][1] + 1)}
    count.same(may, {(client, target) for client in range(6) for target in (client, *range(6, 15))}, "who may write what")
    done = subprocess.run([FILL], capture_output=True, text=True, check=False)
    count.same((done.returncode, done.stderr), (2, "words: tools/site FOLDER\n"), "tools/site without a folder")


LINE = """import { Line } from "./line.js";
const line = new Line(), found = [];
for (const delay of [0, 20, 100]) {
    line.set(delay);
    const put = line.queue(), seen = [], begun = performance.now();
    for (let place = 0; place < 60; place += 1) {
        if (place === 40) line.set(0);
        put(() => seen.push([place, performance.now() - begun]));
        if (place % 9 === 0) await new Promise(done => setTimeout(done, 1));
    }
    while (seen.length < 60) await new Promise(done => setTimeout(done, 5));
    found.push(seen.every(([place, time], order) => place === order && time >= delay / 2 - 1));
}
console.log(JSON.stringify(found));"""


def try_line(count, folder):
    """A slow line keeps the order of what goes over it, also where it gets fast meanwhile. Where there is no node, nothing is tried."""
    if shutil.which("node"):
        done = subprocess.run(["node", "--no-warnings", "--input-type=module", "--eval", LINE], cwd=folder, capture_output=True, text=True, check=False)
        count.same((done.stdout, done.stderr), ("[true,true,true]\n", ""), "a slow line keeps the order")


def at(tab, target):
    """What a tab sees of an object."""
    return tab.run(f"room.view({target})")


def play(count, first, second):
    """What one does the other sees, at once or put right."""
    for tab in (first, second):
        count.expect(tab.until("room.client?.status === 'joined' && room.view(0) !== null", LONGEST), "both join")
    for key in ("ArrowRight", "ArrowDown", " "):
        first.press(key)
    count.same((at(first, 0)[:2], at(first, 6)[2]), ([2, 2], 0), "a guess is shown at once")
    count.expect(second.until("room.coinsOf(0).length === 1", LONGEST), "what one picks up the other sees")
    count.expect(second.until("document.querySelector('#log').textContent.includes('coin 1 was taken by Ann')", LONGEST), "and it is said")
    count.expect(first.until("document.querySelector('#log .right')?.textContent.startsWith('you take coin 1right, ')", LONGEST), "the guess was right")

    second.run("room.walk(-1, 0), room.walk(0, 1), 0")
    for _ in range(3):
        first.press("ArrowRight")
    for tab in (first, second):
        count.expect(tab.until("String(room.view(0).slice(0, 2)) === '5,2' && String(room.view(1).slice(0, 2)) === '5,2' && !room.client.pending", LONGEST),
                     "both stand on a coin")
    second.run("room.slow(200), room.walk(1, 0), room.walk(-1, 0), 0")
    count.expect(second.until("!room.client.pending && parseFloat(document.querySelector('#latency').textContent) * "
                              "(document.querySelector('#latency').textContent.endsWith('ms') ? 1 : 1000) >= 199", LONGEST), "a slow line is slow")
    second.run("room.slow(Infinity), room.deed('take'), 0")
    count.same(second.run("[room.coinsOf(1).length, document.querySelectorAll('.coin.guess').length]"), [1, 1], "a guess is shown at once, without a line")
    first.run("room.deed('take')")
    count.expect(first.until("!room.client.pending", LONGEST) and first.run("room.coinsOf(0).length") == 2, "she takes it meanwhile")
    second.run("room.slow(0)")
    count.expect(second.until("document.querySelector('#told').textContent.startsWith('Put right: you take coin 2, but Ann was first')", LONGEST),
                 f"a wrong guess is put right, and said: {second.run('document.body.innerText')}")
    for tab in (first, second):
        count.expect(tab.until("room.coinsOf(0).length === 2 && !room.coinsOf(1).length", LONGEST), "the coin is hers who came first")
    count.same(second.run("[...document.querySelectorAll('#log .wrong')].map(one => one.textContent)"), ["you take coin 2, but Ann was firstput right"],
               "one wrong guess")


# Notes when a tab shows that Ann stands elsewhere; walks to and fro, and answers when each step was made.
NOTE = """(() => { const place = () => String(room.view(0).slice(0, 2)); let last = place(); window.sights = [];
    new MutationObserver(() => { if (place() !== last) { last = place(); sights.push(performance.timeOrigin + performance.now()); } })
        .observe(document.querySelector('#board'), { subtree: true, attributes: true }); })()"""
WALK = """(() => { const time = performance.timeOrigin + performance.now(); room.walk(%d, 0); return time; })()"""


def sights(count, first, second, steps=20):
    """How long it takes, in milliseconds, until the other tab shows a step, sorted."""
    second.run(NOTE)
    made = []
    for step in range(steps):
        made.append(first.run(WALK % (1 if step % 2 else -1)))
        count.expect(second.until(f"sights.length > {step}", LONGEST) and first.until("!room.client.pending", LONGEST), "each step is seen")
    return sorted(seen - begun for begun, seen in zip(made, second.run("sights")))


def cut(count, first, second, server):
    """A line that is gone, and a server that is."""
    second.run("room.slow(Infinity)")
    count.expect(second.until("room.client.status === 'lost'", LONGEST), "the line is gone")
    second.run("room.walk(0, 1), room.walk(0, 1), 0")
    count.same(at(second, 1)[:2], [5, 4], "the player goes on")
    second.run("room.slow(0)")
    for tab in (first, second):
        count.expect(tab.until("room.view(1)[1] === 4 && room.client.status === 'joined' && !room.client.pending", LONGEST), "what was done meanwhile counts once")
    server.stop()
    for tab in (first, second):
        count.expect(tab.until("room.client.status === 'lost'", LONGEST), "the server is gone")
    first.run("room.deed('give'), room.walk(-1, 0), 0")
    time.sleep(0.5)
    server.start()
    for tab in (first, second):
        count.expect(tab.until("room.client.status === 'joined' && room.view(0)[0] === 4 && !room.client.pending", LONGEST), "both go on by themselves")
    first.run("room.deed('drop'), 0")
    count.expect(second.until("room.coinsOf(0).length === 1 && room.coinsOf(-1).length === 7", LONGEST), "and see each other")
    count.expect(second.until("[...document.querySelectorAll('#players .lamp.on')].length === 2 && Number(document.querySelector('#commit').textContent) > 8",
                              LONGEST), "who is there, and the commit")
    shown = second.run("document.querySelector('#sum').textContent")
    count.same(shown, "7 in the room, 1 in the chest, 1 in purses: 9 coins in all.", "no coin is lost")


def main(words):
    """The status of all tests."""
    count, shots = Count(), words.pop(1) if words[:1] == ["--shots"] else None
    programs = [word for word in words if word != "--shots"] or [BUILT] * os.access(BUILT, os.X_OK)
    with tempfile.TemporaryDirectory() as room:
        folder = os.path.join(room, "site")
        subprocess.run([FILL, folder], check=True)
        look_at_files(count, folder)
        try_line(count, folder)
        if not chromium.path():
            print("Chromium is not there: nobody plays")
            return count.close()
        server = Host(os.path.abspath(programs[0]), folder, room) if programs else Double(folder)
        browser = chromium.Chromium(LONGEST)
        try:
            first, second = browser.tab(f"{server.address}0", 390, 844, True), browser.tab(f"{server.address}1", 1100, 860)
            play(count, first, second)
            if shots:
                first.shot(os.path.join(shots, "site-phone.png"))
                second.shot(os.path.join(shots, "site-desktop.png"))
            times = sights(count, first, second)
            count.expect(times[len(times) // 2] <= 100, f"within 100 ms: {times}")
            cut(count, first, second, server)
            count.same(browser.thrown, [], "nothing is thrown")
        finally:
            browser.close()
            server.close()
    return count.close()


if __name__ == "__main__":
    sys.exit(main(sys.argv[1:]))
