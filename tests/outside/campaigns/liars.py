#!/usr/bin/env python3
"""Runs with a client that lies, by the server of witness.py.

    python3 tests/outside/campaigns/liars.py N [PROGRAM]
    python3 tests/outside/campaigns/liars.py --count FILE [N [MADE]]

The first form runs N random scenarios, where none lies and with each client as the liar. The world must be that of doing the accepted
actions one after the other, each dispute must name the liar, each client must take all replies, and the rounds must be enough. Where a
PROGRAM is named, it must print of each the same lines.

The second form counts what a file's run costs with the plain server, with this one, and with client 0 as the liar; with N, each client
polls once behind each of its actions, and N times at the end, and MADE is then written: the file of these steps.
"""

import json
import os
import subprocess
import sys
import tempfile

sys.path.insert(0, os.path.dirname(os.path.dirname(os.path.abspath(__file__))))

from rules.actions import evaluate
from rules.scenario import scenario_of
from rules.server import Server
from rules.witness import text_of, witnessed
from tests.random_scenario import scenario_text


def printed(program, text, liar):
    """What the program prints of a file with this text."""
    with tempfile.NamedTemporaryFile(suffix=".json") as file:
        file.write(text)
        file.flush()
        words = [os.path.abspath(program), "witness", file.name, *([] if liar is None else [str(liar)])]
        return subprocess.run(words, capture_output=True, timeout=60, check=True).stdout.decode()


def fault_of(run, scenario, liar):
    """What is wrong with a run, or None."""
    world = list(map(tuple, scenario.opening))
    for queued in run.server.queue[:run.server.commit]:
        for target, value in zip(queued.action.writes, evaluate(queued.action, world)):
            world[target] = value
    if not run.is_over():
        return "the rounds were not enough"
    if list(map(tuple, run.server.committed)) != world:
        return "the world is another"
    if any(liar not in (first[0], second[0]) for _, first, second in run.server.disputes()):
        return "a dispute names others"
    return None


def many(count, program=None):
    """Random scenarios, with each client as the liar and with none. A client that refuses a reply raises Wrong."""
    runs, wrong = 0, 0
    for seed in range(count):
        text = scenario_text(seed)
        text = text if isinstance(text, bytes) else text.encode()
        scenario = scenario_of(text)
        for liar in (None, *range(len(scenario.plans))):
            run, runs = witnessed(scenario, liar), runs + 1
            fault = fault_of(run, scenario, liar)
            if not fault and program and printed(program, text, liar) != text_of(run.server):
                fault = "the program prints other lines"
            if fault:
                wrong += 1
                print(f"seed {seed}, liar {liar}: {fault}")
    print(f"{runs} runs of {count} scenarios, {wrong} wrong")
    return 1 if wrong else 0


def polled(text, count):
    """A file's text with a poll behind each action, and so many at the end of each script."""
    value = json.loads(text)
    for client in value["clients"]:
        steps = [more for step in client["steps"] for more in ([step, "poll"] if "act" in step else [step])]
        client["steps"] = steps + ["poll"] * count
    return json.dumps(value)


def counted(scenario):
    """What the run costs with each server."""
    for name, run in (("plain", witnessed(scenario, kind=Server)), ("none lies", witnessed(scenario)), ("client 0 lies", witnessed(scenario, 0))):
        replies = [reply.kind for _, _, reply in run.server.steps]
        print(f"{name}: accepted {len(run.server.queue)}, dropped {replies.count('dropped')}, installed {run.server.commit}, "
              f"relays {replies.count('relay')}, requests {sum(request.kind != 'end' for _, request, _ in run.server.steps)}")


def main(words):
    if words[0] != "--count":
        return many(int(words[0]), *words[1:])
    with open(words[1], encoding="utf-8") as file:
        text = file.read()
    if len(words) > 2:
        text = polled(text, int(words[2]))
    if len(words) > 3:
        with open(words[3], "w", encoding="utf-8") as file:
            file.write(text)
    counted(scenario_of(text.encode()))
    return 0


if __name__ == "__main__":
    sys.exit(main(sys.argv[1:]))
