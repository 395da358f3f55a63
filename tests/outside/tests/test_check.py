#!/usr/bin/env python3
"""Tests of `check`, `why` and `world` of the built program, beside checkers of their own.

    python3 tests/outside/tests/test_check.py [--rounds N] [--seed S] [PROGRAM]

PROGRAM is the built program; without it the repository's own is taken, and where that is not built yet nothing is
tested. What the program prints of each example, by `replay` and by `play`, is right, and so is its journal with its commit,
as `serve` prints it. Reports and such journals of N random scenarios (300 if left out), most of them with one change at
random (a byte, a number, a line), and what the servers and players of wrong_runs.py print, have the first wrong line that
first_wrong.py finds. And `why` and `world` tell what is counted here from the report. Closes with `N passed, M failed`.
"""

import argparse
import json
import os
import random
import re
import subprocess
import sys
import tempfile

sys.path.insert(0, os.path.dirname(os.path.dirname(os.path.abspath(__file__))))

from doubles import wrong_runs
from rules import simulate
from rules.first_wrong import Lines, answer, first_wrong, take_journal
from rules.players import Player, Wrong
from rules.reasons import why_lines, world_lines
from rules.scenario import read_scenario, scenario_of
from rules.server import Server
from tests.counting import BUILT, ROOT, Room
from tests.random_scenario import Maker

EXAMPLES = os.path.join(ROOT, "examples")
LETTERS = b"0123456789 \n()[]:.#@->?,=abcdeijklmnoprstw\r\xff"
OTHERS = ("0", "1", "2", "01", "-1", "65535", "65536", "4294967295", "4294967296", "9223372036854775807", "9223372036854775808")


class Test(Room):
    """What the program answers to its words."""

    def run(self, *words):
        """Status, standard output and standard error."""
        run = subprocess.run([self.program, *words], check=False, stdin=subprocess.DEVNULL, capture_output=True, timeout=60)
        return run.returncode, run.stdout, run.stderr

    def check(self, scenario, data, line, name):
        """What `check` answers of a report that has this first wrong line, 0 for none."""
        said = f"{answer(line)}\n".encode()
        wanted = (0, said, b"") if line == 0 else (9, b"", said)
        path = self.file("report", data)
        given = self.run("check", scenario, path)
        if given != wanted:
            path = self.file(f"failed-{self.failed}", data)
            name = f"{name}: {scenario} {path}"
        self.same(given, wanted, name)

    def scenario_file(self, chance):
        """A file of a random scenario, and the scenario."""
        data = json.dumps(Maker(chance.randrange(2 ** 32)).scenario()).encode()
        return self.file("scenario", data), scenario_of(data)


def test_examples(test):
    """What the program prints of the examples."""
    for name in sorted(os.listdir(EXAMPLES)):
        if not name.endswith(".out"):
            continue
        path = os.path.join(EXAMPLES, name.replace(".out", ".json"))
        scenario = read_scenario(path)
        for word in ("replay", "play"):
            _, report, _ = test.run(word, path)
            test.same(first_wrong(scenario, report), 0, f"first_wrong.py: {word} {path}")
            for text in (report, served_text(scenario, report)):
                test.check(path, text, 0, word)
                test_places(test, random.Random(name), path, scenario, text)


def served_text(scenario, report):
    """What `serve` prints of the journal of a report."""
    entries, history = take_journal(scenario, Lines(report))
    return b"".join(report.splitlines(keepends=True)[:len(entries) + 1]) + f"commit {history.commit}\n".encode()


def test_places(test, chance, path, scenario, report):
    """The world at the end of a right report; and `why` at two places of it, and at one that it has not."""
    _, history = take_journal(scenario, Lines(report))
    accepted, objects = history.accepted, len(scenario.opening)
    file = test.file("report", report)
    ended = "".join(f"{line}\n" for line in world_lines(scenario, accepted))
    test.same(test.run("world", path, file), (0, ended.encode(), b""), f"world {path}")
    for position in {len(accepted), chance.randrange(len(accepted) + 1)}:
        target = chance.randrange(objects)
        given = test.run("why", path, file, str(target), str(position))
        wanted = "".join(f"{line}\n" for line in why_lines(scenario, accepted, target, position))
        test.same(given, (0, wanted.encode(), b""), f"why {path} {target} {position}")
    target, position = chance.choice([(objects, 0), (0, len(accepted) + 1), (65535, 0), (0, 2 ** 32 - 1)])
    test.same(test.run("why", path, file, str(target), str(position)), (10, b"", b"range\n"), f"why {path} {target} {position}")


def with_byte(chance, data):
    """A byte changed, left out or put in."""
    place = chance.randrange(len(data))
    byte = bytes([chance.choice(LETTERS)])
    return data[:place] + chance.choice([byte, byte, byte, b"", byte + data[place:place + 1]]) + data[place + 1:]


def with_number(chance, data):
    """A number changed."""
    text = data.decode()
    found = chance.choice(list(re.finditer(r"-?[0-9]+", text)))
    number = int(found[0])
    other = chance.choice([str(number + 1), str(number - 1), str(-number), chance.choice(OTHERS), chance.choice(OTHERS)])
    return (text[:found.start()] + other + text[found.end():]).encode()


def with_line(chance, data):
    """A line left out, doubled, swapped with another, moved, replaced by another, or the rest cut off."""
    lines = data.decode().splitlines(keepends=True)
    first, second = chance.randrange(len(lines)), chance.randrange(len(lines))
    kind = chance.choice(["drop", "double", "swap", "next", "move", "copy", "cut"])
    if kind == "next":
        second = (first + 1) % len(lines)
    if kind == "drop":
        del lines[first]
    elif kind == "double":
        lines.insert(first, lines[first])
    elif kind in ("swap", "next"):
        lines[first], lines[second] = lines[second], lines[first]
    elif kind == "move":
        lines.insert(second, lines.pop(first))
    elif kind == "copy":
        lines[first] = lines[second]
    else:
        del lines[first:]
    return "".join(lines).encode()


def without_end(chance, data):
    """The last line end left out, or something put behind it."""
    return chance.choice([data[:-1], data + b"\n", data + b" ", data + b"told c0 1 0 ? -> (0)\n", b"\n" + data, b""])


def report_of(test, chance, path, scenario):
    """The report of a run."""
    kind = chance.randrange(4)
    if kind < 2:
        return test.run(("replay", "play")[kind], path)[1]
    return simulate.play(scenario, chance.randrange(2 ** 32), False, kind == 2).encode()


def test_random(test, rounds, seed):
    """Reports of random scenarios, with a change or without one."""
    changes = [with_byte, with_byte, with_number, with_number, with_line, with_line, with_line, without_end]
    for place in range(rounds):
        chance = random.Random(f"{seed} {place}")
        path, scenario = test.scenario_file(chance)
        report = report_of(test, chance, path, scenario)
        if chance.randrange(4) == 0:
            report = served_text(scenario, report)
        if place % 10 == 0:
            test.same(first_wrong(scenario, report), 0, f"first_wrong.py: --seed {seed}, round {place}")
            test.check(path, report, 0, f"--seed {seed}, round {place}")
            test_places(test, chance, path, scenario, report)
        else:
            changed = chance.choice(changes)(chance, report)
            test.check(path, changed, first_wrong(scenario, changed), f"--seed {seed}, round {place}")


def test_wrong_runs(test, rounds, seed):
    """What servers and players print that break one rule."""
    kinds = [one for one in vars(wrong_runs).values() if isinstance(one, type) and one.__module__ == wrong_runs.__name__]
    for place in range(rounds):
        chance = random.Random(f"{seed} wrong {place}")
        path, scenario = test.scenario_file(chance)
        kind = kinds[place % len(kinds)]
        side = "server" if issubclass(kind, Server) else "player" if issubclass(kind, Player) else None
        if side is None:
            continue
        try:
            report = simulate.play(scenario, place, False, True, **{side: kind}).encode()
        except (Wrong, IndexError, KeyError):
            continue
        test.check(path, report, first_wrong(scenario, report), f"--seed {seed}, {kind.__name__} {place}")


def test_world_of_wrong(test):
    """The world of a text that is not right is refused as by `check`."""
    path, report = os.path.join(EXAMPLES, "first.json"), os.path.join(EXAMPLES, "conflict.out")
    test.same(test.run("world", path, report), (9, b"", b"wrong line 3\n"), "world of another scenario's report")


def main():
    """The status of all tests."""
    parser = argparse.ArgumentParser()
    parser.add_argument("--rounds", type=int, default=300)
    parser.add_argument("--seed", type=int, default=1)
    parser.add_argument("program", nargs="?", default=BUILT)
    words = parser.parse_args()
    if not os.access(words.program, os.X_OK):
        print(f"{os.path.relpath(words.program, ROOT)} is not built: nothing is tested")
        return 0 if words.program == BUILT else 2
    with tempfile.TemporaryDirectory() as room:
        test = Test(os.path.abspath(words.program), room)
        test_examples(test)
        test_random(test, words.rounds, words.seed)
        test_wrong_runs(test, words.rounds // 6, words.seed)
        test_world_of_wrong(test)
    return test.close()


if __name__ == "__main__":
    sys.exit(main())
