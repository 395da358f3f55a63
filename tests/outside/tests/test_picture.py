#!/usr/bin/env python3
"""Tests tools/picture: what its pages say of runs, against what the reports say.

    python3 tests/outside/tests/test_picture.py [--large] [--shots FOLDER]

The reports are those beside the examples, and one of a made-up market (5,000 actions with --large,
else 300). What the page's data says is counted again from each report, by the tests' own reader of
reports, and the world that the actions give is the one that the report prints. Of a journal of `serve`,
which was executed by hand, all that the page says is typed. Where node is installed, a stand-in for a
browser (page.js) runs the pages' script, and what they show is compared too; and where Chromium is
(Debian's package chromium), it loads the pages; --shots has it take pictures of two pages. Each way to
end without a page is tried, too.
Closes with `N passed, M failed`.
"""

import collections
import html
import json
import os
import random
import re
import shutil
import subprocess
import sys
import tempfile
import time

sys.path.insert(0, os.path.dirname(os.path.dirname(os.path.abspath(__file__))))

from rules import simulate
from rules.report import read_report, value_text
from rules.scenario import read_scenario, scenario_of
from rules.served import Served
from tests.counting import OUTSIDE, ROOT, Count

PICTURE = os.path.join(ROOT, "tools", "picture")
EXAMPLES = ("first", "conflict", "trade", "bound", "reach", "retry", "orphan", "looks", "observe", "marketplace")
WORDS = "words: tools/picture REPORT [SCENARIO] > PAGE\n"
BROWSER = os.path.join(OUTSIDE, "doubles", "page.js")
SHOTS = (("trade", "#action=c1.2", "1120,860"), ("marketplace", "#action=c3.9", "1120,1040"))


# A journal of `serve`. Client 0 sleeps behind its first action; meanwhile two results of client 1 wait, and its third action is
# dropped. It observes without news, and looks. The division by 0 at last changes nothing, and nobody reports it.
WORLD = """{"attrs": 1, "objects": [[10], [20], [30]], "bound": 1,
    "clients": [{"interest": [0], "steps": []}, {"interest": [1], "steps": []}]}"""
SERVED = """journal 16
1 s0 join c0 1 [0] -> welcome 0 [0=(10)]
2 s1 join c1 1 [1] -> welcome 0 [1=(20)]
3 s0 submit 1 reads 0 writes 0 { set @0.0 (@0.0 + 1); } -> relay 1 at 0 [] [1:c0.1]
4 s1 submit 1 reads 1 writes 1 { set @1.0 (@1.0 * 2); } -> relay 1 at 0 [] [2:c1.1]
5 s1 done [2:(40)] -> noted 0
6 s1 submit 2 reads 1 writes 1 { set @1.0 (@1.0 - 5); } -> relay 2 at 0 [] [3:c1.2]
7 s1 done [3:(35)] -> noted 0
8 s1 submit 3 reads 1 writes 1 { set @1.0 (@1.0 / 2); } -> dropped 3 chain 2 far 0
9 s1 observe 0 [1] -> seen 3 at 0 [] []
10 s0 done [1:(11)] -> noted 3
11 s1 submit 4 reads 0 1 writes { } -> relay 4 at 3 [0=(11)] [4:c1.4]
12 s1 done [4:] -> noted 4
13 s0 submit 2 reads 0 1 writes 0 1 { set @0.0 (@0.0 / (@1.0 - 35)); set @1.0 99; } -> relay 2 at 4 [1=(35)] [5:c0.2]
14 s1 leave -> bye
15 s1 end -> bye
16 s0 end -> bye
commit 4
"""
# The world after each position, from 0 on.
STEPS = (("(10)", "(20)"), ("(11)", "(20)"), ("(11)", "(40)"), ("(11)", "(35)"), ("(11)", "(35)"), ("(11)", "(35)"))
WAITS = [{"p": 1, "from": 3, "to": 10, "who": [[0, 3, 10, 3, 10]], "w": [2, 3], "d": [[1, 3]]},
         {"p": 5, "from": 13, "to": 17, "who": [[0, 13, 16, 13, 16]], "w": [], "d": []}]
# Changes of that journal, and what the actions give then, by position.
OTHERWISE = (
    ((), {1: ["(11)"], 2: ["(40)"], 3: ["(35)"], 4: [], 5: ["(11)", "(35)"]}),
    # A lie, and the client goes on from it: the texts give the same as before.
    ((("[2:(40)]", "[2:(41)]"), ("[3:(35)]", "[3:(36)]")), {1: ["(11)"], 2: ["(40)"], 3: ["(35)"], 4: [], 5: ["(11)", "(35)"]}),
    # Object 1 is not told before it is written: what was reported is taken.
    ((("c1 1 [1] -> welcome 0 [1=(20)]", "c1 1 [] -> welcome 0 []"),), {1: ["(11)"], 2: ["(40)"], 3: ["(35)"], 4: [], 5: ["(11)", "(35)"]}),
    # Object 0 is never told, and its action was never reported.
    ((("c0 1 [0] -> welcome 0 [0=(10)]", "c0 1 [] -> welcome 0 []"), ("10 s0 done [1:(11)] -> noted 3", "10 s0 poll -> idle"),
      ("[0=(11)] [4", "[] [4")), {1: ["?"], 2: ["(40)"], 3: ["(35)"], 4: [], 5: ["?", "?"]}))
# What stands on the page where action c1.2 is chosen, with the scenario. Marks of HTML are left out.
SAYS = {
    "counts": ("6 made", "5 accepted", "1 dropped", "1 looks", "4 finished", "1 observed"),
    "said": ("its result waited for c0.1 at 1 (client 0, silent meanwhile), from entry 7 to 10",),
    "objects": ("after c1.2 at 3: finished", "0 (11) c0.1 at 1", "1 (35) c1.2 at 3", "2 (30)"),
    "waited": ("client 0 was waited for, in all for 7 entries; it slept for 7",
               "c0.1 at 1 3 to 10 client 0, silent meanwhile; the results of c1.1 at 2, c1.2 at 3 waited, and c1.3 was dropped",
               "c0.2 at 5 13 to the end client 0, silent meanwhile, until its session was over at 16; then nobody who was sent it is there: "
               "a client that polls is sent it; nothing waited for it")}


def market(actions, clients):
    """A scenario in which clients trade with each other, and some cut once."""
    chance = random.Random(7)
    plans = []
    for client in range(clients):
        steps = []
        for number in range(1, actions // clients + 1):
            giver, taker = sorted(chance.sample(range(64), 2))
            steps.append({"act": f"reads {giver} {taker} writes {giver} {taker} {{ if [5 <= @{giver}.1] "
                                 f"{{ set @{giver}.1 (@{giver}.1 - 5); set @{taker}.1 (@{taker}.1 + 5); }} }}"})
            if number % 5 == 0:
                steps.append("sync")
                steps.append({"observe": [giver, taker]})
            if client % 3 == 0 and number == actions // clients // 2:
                steps.append("cut")
        plans.append({"interest": sorted(chance.sample(range(64), 8)), "steps": steps})
    return scenario_of(json.dumps({"attrs": 2, "objects": [[place, 50] for place in range(64)],
                                   "bound": 8, "clients": plans}).encode("utf-8"))


def counted(report, scenario):
    """What a report's lines say, counted apart from the picture."""
    accepted, dropped, writes, clients = {}, set(), [], {}
    first_results = {}
    for entry in report.entries:
        request, reply = entry.request, entry.reply
        if request.kind == "join" and reply.kind == "welcome":
            clients[entry.session] = request.client
        if request.kind == "submit" and reply.kind == "relay":
            key = (clients[entry.session], request.number)
            if key not in accepted:
                accepted[key] = len(accepted) + 1
                writes.append(request.action.writes)
        if request.kind == "submit" and reply.kind == "dropped":
            dropped.add((clients[entry.session], request.number))
        if request.kind == "done" and reply.kind == "noted":
            for position, values in request.results:
                first_results.setdefault(position, values)
    made, wrong = 0, 0
    for client, trace in enumerate(report.traces):
        for event in trace:
            if event.kind != "make":
                continue
            made += 1
            position = accepted.get((client, event.number))
            if event.text != "none" and position in first_results:
                guess = re.findall(r"\([^)]*\)", event.text)
                real = ["(" + ",".join(map(str, value)) + ")" for value in first_results[position]]
                wrong += guess != real
    return {"clients": len(report.traces), "sessions": scenario.sessions,
            "observed": sum(entry.reply.kind == "seen" for entry in report.entries),
            "entries": len(report.entries), "made": made, "accepted": len(accepted),
            "dropped": len(dropped), "commit": report.commit, "corrected": wrong}, writes


class Browser:
    """Chromium without a window, where it is installed."""

    def __init__(self, folder):
        self.path = shutil.which("chromium") or shutil.which("chromium-browser") \
            or shutil.which("google-chrome")
        self.folder = folder

    def run(self, page, mark, words):
        """Loads a page, and answers what it prints."""
        command = [self.path, "--headless=new", "--disable-gpu", "--hide-scrollbars", "--no-first-run",
                   f"--user-data-dir={os.path.join(self.folder, 'profile')}"]
        if os.getuid() == 0:
            command.append("--no-sandbox")
        command += words + ["--virtual-time-budget=5000", f"file://{page}{mark}"]
        return subprocess.run(command, capture_output=True, text=True, timeout=240, check=False).stdout


class Node:
    """The stand-in for a browser, where node is installed."""

    def __init__(self):
        self.path = shutil.which("node")

    def shown(self, page, mark):
        """What the page shows in each element, what its body says, and how often each call of the canvas is made."""
        found = json.loads(subprocess.run([self.path, BROWSER, page, mark], capture_output=True, text=True, timeout=240, check=True).stdout)
        return found["shown"], found["body"], collections.Counter(stroke[0] for stroke in found["strokes"])


def plain(text):
    """The words of a piece of HTML; what is no word by itself, as a link, parts none."""
    return " ".join(html.unescape(re.sub(r"<[^>]*>", " ", re.sub(r"</?(?:a|b|code|span)\b[^>]*>", "", text))).split())


def world_of(data, place):
    """The values of all known objects after a position, in order, by what the page's data says that the actions give."""
    held = {int(target): value for target, value in data["opening"].items()}
    for action in sorted((each for each in data["actions"] if 0 < each["p"] <= place), key=lambda each: each["p"]):
        held.update(zip(action["w"], action["u"]))
    return [held[target] for target in sorted(held)]


class Checker(Count):
    """Tries things, and counts what held."""

    def __init__(self):
        super().__init__()
        self.node = Node()

    def check_page(self, name, text, scenario, browser, folder):
        """The page of one report. Its path."""
        source, path = os.path.join(folder, f"{name}.report"), os.path.join(folder, f"{name}.html")
        with open(source, "w", encoding="utf-8") as file:
            file.write(text)
        made = subprocess.run([sys.executable, PICTURE, source], capture_output=True, text=True, check=False)
        self.expect(made.returncode == 0 and made.stderr == "", f"{name}: status {made.returncode}")
        with open(path, "w", encoding="utf-8") as file:
            file.write(made.stdout)
        self.expect(not re.search(r'(?:src|href)\s*=|https?://|@import|url\(', made.stdout),
                    f"{name}: the page names something outside")
        data = json.loads(re.search(r'<script type="application/json" id="data">(.*?)</script>',
                                    made.stdout, re.S)[1])
        report = read_report(text, len(scenario.plans), len(scenario.opening), False)
        expected, writes = counted(report, scenario)
        for key, number in expected.items():
            self.expect(data["counts"][key] == number, f"{name}: {key}: {data['counts'][key]}, not {number}")
        self.check_chains(name, data)
        self.same(world_of(data, data["counts"]["commit"]), list(map(value_text, report.world)), f"{name}: the world that the actions give")
        if self.node.path:
            shown, body, _ = self.node.shown(path, "#object=0")
            marks = "".join(f' data-{key}="{value}"' for key, value in body.items())
            self.check_shown(name, f"<body{marks}>" + "".join(shown.values()), expected, writes)
        if browser.path:
            start = time.monotonic()
            self.check_shown(name, browser.run(path, "#object=0", ["--dump-dom"]), expected, writes)
            if expected["made"] >= 1000:
                print(f"{name}: {expected['made']} actions loaded and drawn in {time.monotonic() - start:.1f} s")
        return path

    def page_of(self, folder, journal, *scenario):
        """The page of a journal, and its data."""
        source, path = os.path.join(folder, "served.report"), os.path.join(folder, "served.html")
        with open(source, "w", encoding="utf-8") as file:
            file.write(journal)
        with open(path, "wb") as page:
            made = subprocess.run([sys.executable, PICTURE, source, *scenario], stdout=page, stderr=subprocess.PIPE, check=False)
        self.expect((made.returncode, made.stderr) == (0, b""), f"served: {made}")
        with open(path, encoding="utf-8") as page:
            return path, json.loads(re.search(r'id="data">(.*?)</script>', page.read(), re.S)[1])

    def check_served(self, folder):
        """A journal of `serve`: the world after each action, what is quiet, and who was waited for."""
        Served(scenario_of(WORLD.encode()), SERVED)
        _, data = self.page_of(folder, SERVED)
        self.same((data["waits"], data["quiet"], data["world"]), (WAITS, [9, 11, 12], []), "served: waits and quiet entries")
        self.same(data["marks"], [[9, 1, "same", "3"], [16, 0, "gone", ""]], "served: an observe without news, and a connection that ended")
        self.same([world_of(data, place) for place in range(6)], list(map(list, STEPS)), "served: the world after each position")
        for changes, computed in OTHERWISE:
            journal = SERVED
            for old, new in changes:
                self.expect(old in journal, f"served: {old}")
                journal = journal.replace(old, new)
            _, data = self.page_of(folder, journal)
            found = {each["p"]: each["u"] for each in data["actions"] if each["p"]}
            self.same(found, computed, f"served, with {changes}")
        _, data = self.page_of(folder, SERVED.replace("dropped 3 chain 2 far 0", "denied 3 1"))
        self.same((data["counts"]["denied"], data["counts"]["dropped"], [each["z"] for each in data["actions"] if each["n"] == 3]),
                  (1, 0, [1]), "served: a denied action")
        world = os.path.join(folder, "world.json")
        with open(world, "w", encoding="utf-8") as file:
            file.write(WORLD)
        path, data = self.page_of(folder, SERVED, world)
        self.same([world_of(data, place) for place in range(6)], [[*step, "(30)"] for step in STEPS], "served: the same with the scenario")
        if self.node.path:
            self.check_said(path)

    def check_said(self, path):
        """What the page of that journal says, and how it draws it."""
        shown, body, strokes = self.node.shown(path, "#action=c1.2")
        for part, lines in SAYS.items():
            said = plain(shown[part])
            for line in lines:
                self.expect(line in said, f"served: {part}: no {line!r} in {said!r}")
        for part, word in (("legend", "guess was wrong"), ("kind", "guessed wrong"), ("counts", "guessed wrong")):
            self.expect(word not in shown[part] and len(plain(shown[part])) > 60, f"served: {part} offers what nothing tells: {shown[part]!r}")
        self.same((body, strokes["fillRect"]), ({"drawn": 6, "ready": "1"}, 4), "served: drawn: one field where client 0 slept, and the results of three actions")

    def check_endings(self):
        """What is no report, no file or no word, and an output that fails."""
        missing = os.path.join(OUTSIDE, "missing")
        good = os.path.join(ROOT, "examples", "first.out")
        for words, text, ending in (
                (["-"], b"", (3, "report: line 1 is missing\n")),
                (["-"], b"{}\n", (3, "report: line 1 is none of a report: {}\n")),
                (["-"], b"journal 1\nno entry\n", (3, "report: line 2 is none of a report: no entry\n")),
                (["-"], b"journal 0\nclient 0\nlaughs\nworld 0\n", (3, "report: line 3 is none of a report: laughs\n")),
                (["-"], b"journal 0\nclient 0\n", (3, "report: line 3 is missing\n")),
                (["-"], b"journal 0\nclient 0\ngot s0 #7\nworld 0\n", (3, "report: its lines are no report\n")),
                (["-"], b"\xff\xfe", (3, "report: its lines are no report\n")),
                ([], b"", (2, WORDS)),
                (["--large"], b"", (2, WORDS)),
                ([good, "-"], b"", (2, WORDS)),
                ([good, good, good], b"", (2, WORDS)),
                ([good, good], b"", (3, f"scenario: {good} is none\n")),
                ([good, "/dev/null"], b"", (3, "scenario: /dev/null is none\n")),
                (["-", missing], b"", (4, f"file: {missing}: No such file or directory\n")),
                ([missing], b"", (4, f"file: {missing}: No such file or directory\n")),
                ([OUTSIDE], b"", (4, f"file: {OUTSIDE}: Is a directory\n"))):
            found = subprocess.run([sys.executable, PICTURE, *words], input=text, capture_output=True, check=False)
            self.expect((found.returncode, found.stderr.decode()) == ending and found.stdout == b"",
                        f"{words} {text!r}: {found.returncode} {found.stderr!r}")
        for word in ("--help", "-h"):
            found = subprocess.run([sys.executable, PICTURE, word], capture_output=True, text=True, check=False)
            self.expect(found.returncode == 0 and "tools/picture trade.report > trade.html" in found.stdout, word)
        with open("/dev/full", "wb") as full:
            for word in (good, "--help"):
                found = subprocess.run([sys.executable, PICTURE, word], stdout=full, stderr=subprocess.PIPE, check=False)
                self.expect((found.returncode, found.stderr) == (5, b"out\n"), f"{word} on a full disk: {found.stderr!r}")

    def check_chains(self, name, data):
        """Of a dropped action as many unfinished actions are shown as the report counts."""
        accepted = {each["p"]: each for each in data["actions"] if each["p"]}
        for action in data["actions"]:
            if action["d"] is None:
                continue
            found, left = set(), [place for _, place in action["f"]]
            while left:
                place = left.pop()
                if place > action["b"] and place not in found:
                    found.add(place)
                    left += [each for _, each in accepted[place]["f"]]
            self.expect(len(found) == action["d"][0], f"{name}: c{action['c']}.{action['n']}: chain {len(found)}")

    def check_shown(self, name, shown, expected, writes):
        """What the page shows."""
        for key, number in expected.items():
            found = re.search(rf'id="count-{key}">([0-9]+)<', shown)
            absent = found is None and number == 0
            self.expect(absent or (found and int(found[1]) == number), f"{name}: shows {key} otherwise")
        body = re.search(r"<body[^>]*>", shown)[0] if "<body" in shown else ""
        self.expect('data-ready="1"' in body, f"{name}: the page's script did not come to its end")
        drawn = re.search(r'data-drawn="([0-9]+)"', body)
        self.expect(drawn and int(drawn[1]) == expected["made"], f"{name}: drew {drawn and drawn[1]} actions")
        offered = all(word in shown for word in ("guess was wrong", "guessed wrong"))
        self.expect(offered or expected["made"] == 0, f"{name}: wrong guesses are offered")
        count = sum(0 in each for each in writes)
        self.expect(f"Object 0 was written {count} times" in shown, f"{name}: the history of object 0")
        rows = len(re.findall(r'data-why="[0-9]+"', shown))
        self.expect(rows == min(count, 500), f"{name}: {rows} rows of object 0")


def main(words):
    """The status of all checks."""
    checker = Checker()
    large = "--large" in words
    with tempfile.TemporaryDirectory() as folder:
        browser = Browser(folder)
        if not browser.path:
            print("no Chromium here: the pages are not loaded" + ("" if checker.node.path else ", nor is their script run, for want of node"))
        pages = {}
        for name in EXAMPLES:
            with open(os.path.join(ROOT, "examples", f"{name}.out"), encoding="utf-8") as file:
                text = file.read()
            scenario = read_scenario(os.path.join(ROOT, "examples", f"{name}.json"))
            pages[name] = checker.check_page(name, text, scenario, browser, folder)
        scenario = market(5000 if large else 300, 32 if large else 6)
        pages["market"] = checker.check_page("market", simulate.replay(scenario), scenario, browser, folder)
        checker.check_served(folder)
        checker.check_endings()
        if "--shots" in words and browser.path:
            target = os.path.abspath(words[words.index("--shots") + 1])
            for name, mark, size in SHOTS:
                browser.run(pages[name], mark, [f"--window-size={size}",
                                                f"--screenshot={os.path.join(target, f'picture-{name}.png')}"])
    return checker.close()


if __name__ == "__main__":
    sys.exit(main(sys.argv[1:]))
