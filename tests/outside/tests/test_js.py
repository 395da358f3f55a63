#!/usr/bin/env python3
"""Tests of the JavaScript client, by node.

    python3 tests/outside/tests/test_js.py [PROGRAM]

The cases of js_cases.py, which are those of the Python client's tests; the tests of clients/js/test; sessions over TCP
with the stand-in for a server, through a relay that cuts connections, whose journals must be legal and whose clients
must hold and tell serial values alone; the examples. Where PROGRAM is there (the built one, if left out), 1,000 random
actions are evaluated as its `replay` evaluates them. Closes with `N passed, M failed`; where there is no node it says
so.
"""

import importlib.util
import itertools
import json
import os
import random
import re
import shutil
import signal
import socket
import subprocess
import sys
import tempfile
import types
from concurrent.futures import ThreadPoolExecutor

sys.path.insert(0, os.path.dirname(os.path.dirname(os.path.abspath(__file__))))

from doubles.holding import Holding
from doubles.programs import free_port
from doubles.stand_in import StandIn
from rules.actions import read_action
from rules.report import Reply
from rules.scenario import scenario_of
from tests import js_cases, test_client
from tests.counting import BUILT, CLIENTS, ROOT, STAND_IN as STAND_IN_FILE, Count
from tests.random_scenario import Maker
from tests.test_client import judge, scenario

LONGEST = 120
RUNS, ACTS = 10, 12
REPLAYS, REPLAYED = 20, 50
PROGRAM = sys.argv[1] if len(sys.argv) > 1 else BUILT
JS = os.path.join(ROOT, "clients", "js")
TESTS = os.path.join(JS, "test")


class Counted(Count):
    """What passed and what failed; of random runs, how much happened."""

    shown = lost = dropped = 0

    def add(self, other):
        """What another one counted."""
        for name in ("passed", "failed", "shown", "lost", "dropped"):
            setattr(self, name, getattr(self, name) + getattr(other, name))


def node(*words, **more):
    """What a program of node printed."""
    return subprocess.run(["node", *words], capture_output=True, text=True, timeout=LONGEST, check=False, **more)


def run_tests(count, name, *words):
    """Runs a program of tests, and adds what it counted."""
    done = node(os.path.join(TESTS, name), *words)
    found = re.search(r"^(\d+) passed, (\d+) failed\n\Z", done.stdout, re.M)
    if done.returncode or done.stderr or not found or int(found[2]):
        print((done.stdout[-4000:] + done.stderr[-4000:]).rstrip())
    count.expect(bool(found) and not done.stderr and done.returncode == (found[2] != "0"), f"{name} comes to its end")
    count.passed += int(found[1]) if found else 0
    count.failed += int(found[2]) if found else 0


def write_cases(path):
    """Writes the cases of the Python client's tests; answers how many of the random actions there are, and are void."""
    cases = js_cases.cases()
    with open(path, "w", encoding="utf-8") as file:
        json.dump(cases, file)
    void = [each for each in cases["actions"] if js_cases.is_void(each["text"], each["values"])]
    return len(cases["actions"]), len(void)


# Actions that the program carried out.

def replayed_run(room, seed):
    """The opening values of a random world, and what each of a client's actions made of it, by the program."""
    maker, chance = Maker(seed), random.Random(seed)
    ends = [0, test_client.GREATEST, test_client.LEAST]
    objects = [[maker.number() if chance.random() < 0.8 else chance.choice(ends) for _ in range(maker.attributes)] for _ in range(maker.objects)]
    acts = [maker.act() for _ in range(REPLAYED)]
    steps = [step for act in acts for step in ({"act": act}, "sync")]
    path = os.path.join(room, f"replayed{seed}.json")
    with open(path, "w", encoding="utf-8") as file:
        json.dump({"attrs": maker.attributes, "objects": objects, "bound": 8, "clients": [{"interest": [], "steps": steps}]}, file)
    done = subprocess.run([PROGRAM, "replay", path], capture_output=True, text=True, timeout=LONGEST, check=True)
    told = re.findall(r"^\d+ s0 done \[\d+:(.*)\] -> noted \d+$", done.stdout, re.M)
    results = [[value.split(",") for value in re.findall(r"\(([^)]*)\)", each)] for each in told]
    return {"objects": [js_cases.texts(value) for value in objects],
            "acts": [{"text": act, "result": result} for act, result in zip(acts, results)]}


def test_replayed(count, room):
    """The client evaluates random actions as the program does, void ones among them."""
    runs = [replayed_run(room, seed) for seed in range(REPLAYS)]
    void = acts = 0
    for run in runs:
        world = list(run["objects"])
        for each in run["acts"]:
            act = read_action(each["text"])
            void += js_cases.is_void(each["text"], [world[target] for target in act.reads])
            acts += 1
            for target, value in zip(act.writes, each["result"]):
                world[target] = value
    count.expect(acts == REPLAYS * REPLAYED and void > 20, f"{void} of {acts} actions of the program are void")
    path = os.path.join(room, "replayed.json")
    with open(path, "w", encoding="utf-8") as file:
        json.dump(runs, file)
    run_tests(count, "replayed.js", path)


# Sessions over TCP.

def close_rest(server):
    """Begins and ends the sessions that nobody used."""
    while server.thread.is_alive():
        try:
            socket.create_connection(("127.0.0.1", server.port), timeout=1).close()
        except OSError:
            server.wait(0.05)


def played(path, server, clients):
    """What the players of a plan kept and were told."""
    with open(path, "w", encoding="utf-8") as file:
        json.dump({"port": server.port, "clients": clients}, file)
    done = node(os.path.join(TESTS, "play.js"), path)
    if done.returncode or done.stderr:
        raise AssertionError(done.stdout[-1000:] + done.stderr[-3000:])
    return json.loads(done.stdout)


def judged(found):
    """A player as `judge` of test_client.py has a client, and the changes that it told."""
    def value(texts):
        return texts and tuple(map(int, texts))

    views = [value(each) for each in found["views"]]
    told = [(target, value(old), value(new)) for target, old, new in found["changes"]]
    return types.SimpleNamespace(
        number=found["number"], told=found["told"], view=lambda target: views[target],
        versions={target: {place: value(each) for place, each in held} for target, held in found["versions"]},
        shown=[(last, {target: value(each) for target, each in values}) for last, values in found["shown"]],
        seen=dict.fromkeys(found["plan"]["world"]["interest"])), told


def plan_of(seed):
    """A scenario, and what its players shall do."""
    chance, maker = random.Random(seed), Maker(seed)
    drops = [chance.choice([0, 2, 5]) for _ in range(chance.choice([2, 2, 3]))]
    opening = [[maker.number() for _ in range(maker.attributes)] for _ in range(maker.objects)]
    several = range(maker.objects)
    clients = [{"drops": each, "seed": 100 * seed + number, "acts": [maker.act() for _ in range(ACTS)],
                "watched": sorted(chance.sample(several, chance.choice([0, maker.objects]))),
                "world": {"number": number, "objects": maker.objects, "attributes": maker.attributes,
                          "interest": sorted(chance.sample(several, chance.randrange(maker.objects + 1)))}}
               for number, each in enumerate(drops)]
    return scenario(opening, maker.bound, drops, [], maker.reach), clients


def test_random_run(count, room, seed):
    """Random players whose connections break: the journal is legal, and at last each sees the world as it is."""
    plan, clients = plan_of(seed)
    server, name = StandIn(plan, at_once=True).start(), f"random run {seed}"
    try:
        players = played(os.path.join(room, f"plan{seed}.json"), server, clients)
    except (AssertionError, subprocess.TimeoutExpired) as fault:
        count.expect(False, f"{name}: {fault}")
        return
    close_rest(server)
    found = [{**each, "plan": one} for one, each in zip(clients, players)]
    history, serial = judge(count, plan, server, [judged(each) for each in found], name)
    if not history:
        return
    last = len(history.accepted)
    world = [serial.value(target, last) for target in range(len(plan.opening))]
    count.same(history.commit, last, f"{name}: all is committed")
    for each in found:
        number, outcomes = each["number"], each["outcomes"]
        count.same(len(history.outcomes.get(number, [])), ACTS, f"{name}: an outcome for each action of client {number}")
        count.same([one["number"] for one in outcomes], list(range(1, ACTS + 1)), f"{name}: client {number} was told of each")
        count.same([(one["number"], one["position"]) for one in outcomes if one["kind"] == "accepted"],
                   [(one.number, place) for place, one in enumerate(history.accepted, 1) if one.author == number],
                   f"{name}: which of them happened, and where")
        count.same([tuple(map(int, view)) for view in each["views"]], world, f"{name}: the views of client {number} at last")
        count.same(each["statuses"][-1], "left", f"{name}: client {number} left")
        count.shown += len(each["shown"])
        count.lost += sum("lost" in status for status in each["statuses"])
        count.dropped += sum(one["kind"] == "dropped" for one in outcomes)


def test_taking_up(count):
    """A place that is taken up without memory, a client that is pushed out, and one that goes on from what was saved."""
    plan = scenario([[10], [20]], 8, (2,))
    server = StandIn(plan, at_once=True).start()
    done = node(os.path.join(TESTS, "take_up.js"), str(server.port))
    count.same((done.returncode, done.stderr), (0, ""), "take_up.js")
    if done.returncode:
        return
    found = json.loads(done.stdout)
    close_rest(server)
    journal = server.journal()
    count.same(found["tookUp"], [2, 11], "the place is taken up: its life, and how many actions were made")
    count.same(found["outcome"], {"number": 12, "kind": "accepted", "position": 12}, "its next action")
    count.same(found["statuses"][0], ["joining", "joined", "pushed out over"], "the first one is pushed out")
    count.same(found["statuses"][1][:2], ["joining", "joined"], "the second one joined")
    count.same(found["statuses"][2], ["joining", "joined", "left"], "the third one goes on")
    count.same((found["view"], found["seen"]), (["22"], ["24"]), "what the third one sees at first, pending actions and all")
    count.same((found["last"], found["values"]), ([3, 14, 0], [[0, ["24"]], [1, ["20"]]]), "each action counts once")
    for line in ("join c0 1 [0] -> refused 11 1", "join c0 2 [0] -> welcome", "submit 0 reads 0 writes { } -> refused 5 12",
                 "-> refused 4 0", "join c0 3 [0] -> welcome"):
        count.expect(line in journal, f"the journal has {line}")
    test_client.history_of(plan, journal)


# The examples.

PAGE = """reads 0 3 writes 0 3 { if [0 < @3.1] { set @0.1 (@0.1 + @3.1); set @3.1 0; } }
happens at position 1
at 1: 1,35 and 4,0
action 4 action 4
draws 0,1,35 3,4,0, of which 0,3 changed
draws 0,1,35 3,4,9, of which 3 changed
life 2, 2 actions made, sees 4,9
"""


def test_page(count, room):
    """The lines of docs/JAVASCRIPT.md."""
    plan = scenario([[1, 5], [2, 10], [3, 20], [4, 30]], 8, (2,))
    server = StandIn(plan).start()
    done = node(os.path.join(TESTS, "page.js"), str(server.port), os.path.join(room, "kept.json"))
    count.same((done.stdout, done.stderr), (PAGE, ""), "the lines of the page")
    count.expect(server.wait(LONGEST), "the page: all sessions are over")


JS_MINE, PYTHON_MINE = ["node", os.path.join(JS, "mine.js")], [sys.executable, os.path.join(CLIENTS, "mine.py")]
MINE = os.path.join(CLIENTS, "mine.json")
STAND_IN = [sys.executable, STAND_IN_FILE, MINE]


def test_mine(count, server, programs):
    """The game of two players."""
    port = str(free_port())
    serving = subprocess.Popen([*server, port], stdout=subprocess.PIPE, text=True)
    players = [subprocess.Popen([*program, str(number), port], stdout=subprocess.PIPE, stderr=subprocess.STDOUT, text=True)
               for number, program in enumerate(programs)]
    shown = [player.communicate(timeout=LONGEST)[0] for player in players]
    text = serving.communicate(timeout=LONGEST)[0]
    count.same([player.returncode for player in players] + [serving.returncode], [0, 0, 0], f"statuses of the game: {shown}")
    with open(MINE, "rb") as file:
        history, serial = test_client.history_of(scenario_of(file.read()), text.rsplit("commit ", 1)[0])
    last = [serial.value(target, len(history.accepted)) for target in range(3)]
    count.same((last[0][0], last[1][0] + last[2][0]), (0, 21), "all nuggets are in the purses")
    for number, lines in enumerate(shown):
        if programs[number] is JS_MINE:
            seen = [re.findall(rf"^player {number} sees object {target}: (.*)$", lines, re.M) for target in range(3)]
            wanted = [",".join(map(str, value)) for value in last]
            count.same([each[-1] for each in seen], wanted, f"what player {number} sees at last")


def test_stopped(count):
    """The game of the mine ends, with a line that says why, where its client stops."""
    for code, line in ((4, "stopped: wrongkind: refused 4 0, over\n"), (0, "stopped: closed: closed\n")):
        server = Holding(scenario([[21, 0], [0, 0], [0, 0]], 8, (0,)), cuts=[] if code else [("before", 2)])
        if code:
            server.refusals.append((lambda connection, request: request.kind == "observe", Reply("refused", code=code, detail=0)))
        done = node(os.path.join(JS, "mine.js"), "1", str(server.port))
        count.same((done.returncode, done.stderr), (1, line), f"the game stops: {done.stdout}")
        server.stop()
    for words in ((), ("1",), ("2", "4000"), ("0", "x"), ("0", "65536"), ("0", "4000", "x")):
        done = node(os.path.join(JS, "mine.js"), *words)
        count.same((done.returncode, done.stdout, done.stderr), (1, "", "words: PLAYER PORT, and PLAYER is 0 or 1\n"), f"the game's words {words}")


MEMBERS = """
const all = await import("./dimboetu.js"), world = { number: 0, objects: 1, attributes: 1 };
const made = { Client: new all.Client({ ...world, connect: () => null }), Knowledge: new all.Knowledge(world),
    Term: all.obj(0).attr(0), Action: all.parseAction("reads 0 writes { }") };
const names = one => [...Object.getOwnPropertyNames(one), ...Object.getOwnPropertyNames(Object.getPrototypeOf(one))];
console.log(JSON.stringify({ exported: Object.keys(all),
    members: Object.fromEntries(Object.entries(made).map(([name, one]) => [name, names(one)])) }));
"""
WITHIN = {"Client": {"from", "fromSaved"}, "Term": {"constructor"}, "Action": {"constructor"}, "Knowledge": {"constructor"}}


def members_of(block):
    """The names that a class or an interface of the types has."""
    return set(re.findall(r"^    (?:static )?(?:readonly )?(\w+)\??(?=[:(])", block, re.M))


def test_types(count):
    """The types name what the module exports, with the members of its classes, its options and its links."""
    with open(os.path.join(JS, "dimboetu.d.ts"), encoding="utf-8") as file:
        types = file.read()
    with open(os.path.join(JS, "dimboetu.js"), encoding="utf-8") as file:
        source = file.read()
    done = node("--input-type=module", "-e", MEMBERS, cwd=JS)
    count.same(done.stderr, "", "what the module exports")
    found = json.loads(done.stdout)
    named = set(re.findall(r"^export declare (?:class|function|const) (\w+)", types, re.M))
    count.same(named, set(found["exported"]), "the types of dimboetu.d.ts")
    blocks = dict(re.findall(r"^export (?:declare class|interface) (\w+)[^{]*\{\n(.*?)^\}", types, re.M | re.S))
    for name, members in found["members"].items():
        count.same(members_of(blocks[name]) - WITHIN[name] - set(members), set(), f"{name} has what its type has")
    term = {name for name in found["members"]["Term"] if not name.startswith("Symbol")}
    count.same(members_of(blocks["Term"]), term, "the type of Term is whole")
    options = re.search(r"constructor\(\{ (connect.*?), \.\.\.world \}\)", source, re.S)[1]
    options = set(re.findall(r"(\w+)(?= = |,|$)", re.sub(r"\(.*?\) => \{\}|\{.*?\}", "x", options))) - {"x", "null", "Infinity"}
    count.same(members_of(blocks["Options"]), {name for name in options if not name[0].isdigit()}, "the options of a client")
    link = re.search(r"const link = \{(.*?)\n    \};|const link = \{(.*?)\};", source[source.index("function webSocketLink"):], re.S)
    count.same(members_of(blocks["Link"]), set(re.findall(r"(\w+)(?=: |\(\) \{)", link[1] or link[2])), "what a link is")


def test_pip(count, room):
    """pip installs the folder of the Python client, where pip is."""
    if not importlib.util.find_spec("pip"):
        print("pip is not there: nothing is installed by it")
        return
    place = os.path.join(room, "installed")
    words = ["pip", "install", "--quiet", "--no-index", "--no-deps", "--target", place, CLIENTS]
    done = subprocess.run([sys.executable, "-m", *words], capture_output=True, text=True, timeout=LONGEST, check=False)
    count.same(done.returncode, 0, f"pip install: {done.stderr}")
    done = subprocess.run([sys.executable, "-c", "import dimboetu; print(dimboetu.__file__)"], capture_output=True,
                          text=True, cwd=room, env={**os.environ, "PYTHONPATH": place}, check=False)
    count.same(done.stdout, os.path.join(place, "dimboetu.py") + "\n", "the Python package is found by its name")


def test_npm(count, room):
    """npm installs the folder of the JavaScript client, where npm is."""
    if shutil.which("npm") is None:
        print("npm is not there: nothing is installed by it")
        return
    done = subprocess.run(["npm", "install", "--offline", "--no-audit", "--no-fund", "--silent", JS], cwd=room,
                          capture_output=True, text=True, timeout=LONGEST, check=False)
    count.same((done.returncode, done.stderr), (0, ""), "npm install")
    done = node("--input-type=module", "-e", "import { parseAction } from 'dimboetu';"
                "import { nodeLink } from 'dimboetu/node-link.js';"
                "console.log(String(parseAction('reads 0   writes { }')), typeof nodeLink)", cwd=room)
    count.same((done.stdout, done.stderr), ("reads 0 writes { } function\n", ""), "the package is found by its name")


def tests_in(room):
    """All tests, as functions and what they are given."""
    cases = os.path.join(room, "cases.json")
    actions, void = write_cases(cases)
    yield lambda count: count.expect(actions >= 1000 and void > 50, f"{void} of {actions} actions are void")
    for words in (("cases.js", cases), ("client.js",), ("links.js",)):
        yield lambda count, words=words: run_tests(count, *words)
    yield from [lambda count, seed=seed: test_random_run(count, room, seed) for seed in range(RUNS)]
    yield from [test_taking_up, test_stopped, test_types]
    yield from [lambda count, test=test: test(count, room) for test in (test_page, test_pip, test_npm)]
    if os.access(PROGRAM, os.X_OK):
        yield lambda count: test_replayed(count, room)
    else:
        print(f"there is no {os.path.relpath(PROGRAM, ROOT)}: no action is evaluated beside it")
    servers = [STAND_IN, [PROGRAM, "serve", MINE]] if os.access(PROGRAM, os.X_OK) else [STAND_IN]
    for words in itertools.product(servers, ((JS_MINE, JS_MINE), (JS_MINE, PYTHON_MINE))):
        yield lambda count, words=words: test_mine(count, *words)


def counted(test):
    """What a test counts."""
    count = Counted()
    test(count)
    return count


def main():
    """The status of all tests."""
    signal.alarm(4 * LONGEST)
    try:
        version = subprocess.run(["node", "--version"], capture_output=True, text=True, check=True).stdout.strip()
    except (OSError, subprocess.CalledProcessError):
        print("node is not there: the JavaScript client is not tested")
        return 0
    if int(version.lstrip("v").split(".")[0]) < 20:
        print(f"node is {version}, and 20 is needed: the JavaScript client is not tested")
        return 0
    count = Counted()
    with tempfile.TemporaryDirectory() as room, ThreadPoolExecutor(4) as crew:
        for each in crew.map(counted, tests_in(room)):
            count.add(each)
    count.expect(count.shown > 60 and count.lost > 20 and count.dropped > 5,
                 f"shown {count.shown}, lost {count.lost}, dropped {count.dropped}")
    return count.close()


if __name__ == "__main__":
    sys.exit(main())
