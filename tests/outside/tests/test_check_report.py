#!/usr/bin/env python3
"""Tests of the checker of reports, with no program of the product.

    python3 tests/outside/tests/test_check_report.py [--long]

The checker must accept the reports of the folder examples/ and what simulate.py prints for random
scenarios. It must refuse each report with anything changed in it, and what the servers and players
of wrong_runs.py print, each of which breaks one rule. Its table of replies is compared with worked
examples, and with that of the simulation on requests of careless clients. The driver play_many.sh
is run with programs that stand in for the product. With --long it tries more changes of each
report. Closes with `N passed, M failed`.
"""

import os
import random
import re
import subprocess
import sys
import tempfile

sys.path.insert(0, os.path.dirname(os.path.dirname(os.path.abspath(__file__))))

from doubles import wrong_runs
from rules import simulate
from rules.actions import TextFault, action_text, evaluate, read_action
from rules.check_report import check
from rules.journal import History
from rules.players import Player, Wrong
from rules.report import Fault, reply_text, request_of
from rules.scenario import NoScenario, Plan, Scenario, read_scenario, scenario_of
from rules.server import Server
from tests.counting import EXAMPLES, OUTSIDE, Count
from tests.random_scenario import scenario_text
from tests.rows import ROWS, lines_of_row, random_requests

PRINTED = ("first", "empty_script", "conflict", "trade", "unknown_view", "sixteen_reads", "bound",
           "reach", "retry", "orphan", "marketplace", "looks", "great_totals", "two_views", "observe")
REFUSED = ("written_object_not_read", "no_such_object", "seventeen_reads", "number_after_object",
           "origin_too_far")
SEEDS = 40
MOST_SEEDS = 200
CHANGES = 60 if "--long" in sys.argv else 15


def refusal(scenario, text, watched, played=False):
    """The first fault of a report, or None where it is accepted."""
    try:
        check(scenario, text.encode("utf-8"), watched, played)
    except Fault as fault:
        return fault
    return None


def example(name):
    """A scenario of the examples, and what its replay prints."""
    with open(os.path.join(EXAMPLES, f"{name}.out"), encoding="ascii", newline="") as file:
        return read_scenario(os.path.join(EXAMPLES, f"{name}.json")), file.read()


def test_language(count):
    """Faults of texts with place and cause, canonical texts, and evaluation at its ends."""
    for text, fault in (
            ("reads 0 writes 1 { }", "text 15 4"), ("reads 0 writes { } ", None),
            ("reads 0 1 2 3 4 5 6 7 8 9 10 11 12 13 14 15 16 writes { }", "text 44 6"),
            ("reads 0 writes 0 { set @0.0 (@0.0 -1); }", "text 34 3"),
            ("reads 0 writes 0 at 1000001 0 { }", "text 20 2"), ("reads0 writes { }", "text 5 3"),
            ("reads 00 writes { }", "text 6 2"), ("reads 1 0 writes { }", "text 8 5"),
            ("reads 0 writes { } x", "text 19 3"), ("reads 0 writes { ", "text 17 3"),
            ("reads 0 writes 0 { set @0.0 -0; }", "text 28 2"), ("reads 0 writes { & }", "text 17 1"),
            ("reads 0 writes 0 { if not not not not not not not not [0 == 0] { } }", "text 50 8"),
            ("reads 0 writes 0 {" + " set @0.0 0;" * 33 + " }", "text 403 7")):
        try:
            read_action(text)
            found = None
        except TextFault as refused:
            found = str(refused)
        count.expect(found == fault, f"{text}: {found}")
    for text in ("reads 0 writes { }", "reads 2 7 writes 2 7 { if [5 <= @2.2] { set @2.2 (@2.2 - 5); } }",
                 "reads 3 writes 3 at -1 5 { if not [@3.1 == 0] { set @3.0 -1; } else "
                 "{ set @3.0 (@3.0 max 0); } }"):
        count.expect(action_text(read_action(text)) == text, text)
    loose = "reads 0\twrites 0{if[@0.0<1]{set @0.0(1-@0.0);}else{}}"
    plain = "reads 0 writes 0 { if [@0.0 < 1] { set @0.0 (1 - @0.0); } }"
    count.expect(action_text(read_action(loose)) == plain, loose)
    least, greatest = -2 ** 63, 2 ** 63 - 1
    for body, before, after in (
            ("set @0.0 (@0.0 + 1);", greatest, greatest), ("set @0.0 7; set @0.0 (1 / 0);", 5, 5),
            ("set @0.0 (@0.0 / 2);", -7, -3), ("set @0.0 (@0.0 % 2);", -7, -1),
            ("set @0.0 (7 % -2);", 0, 1), ("set @0.0 (@0.0 / -1);", least, least),
            ("set @0.0 (@0.0 % -1);", least, least), ("set @0.0 (@0.0 - 1);", least, least),
            ("if ([1 == 1] or [(1 / 0) == 0]) { set @0.0 9; }", 3, 3),
            ("if [1 == 2] { set @0.0 (1 / 0); } else { set @0.0 (2 min 1); }", 3, 1)):
        action = read_action(f"reads 0 writes 0 {{ {body} }}")
        count.expect(evaluate(action, {0: (before,)}) == ((after,),), body)


def test_rows(count):
    """The checker's table of replies and the simulation's, on worked examples."""
    for name, opening, bound, reach, text in ROWS:
        world = tuple((number,) for number in opening)
        history = History(1, world, bound, reach)
        server = Server(Scenario(1, world, bound, reach, (Plan((), ()),) * 8, ()))
        for session, request, due in lines_of_row(text):
            for kind, reply in (("checker", history.answer(session, request)),
                                ("simulation", server.step(session, request))):
                found = reply_text(reply)
                count.expect(found == due, f"{name}, {kind}: s{session} {request.kind}: {found}, not {due}")


def test_careless_clients(count):
    """Both tables give the same replies to requests that no honest client makes."""
    for seed in range(400):
        chance = random.Random(f"world {seed}")
        attributes, objects = chance.randrange(1, 3), chance.randrange(1, 5)
        world = tuple((chance.randrange(9),) * attributes for _ in range(objects))
        bound, reach = chance.randrange(5), chance.choice([None, 0, 5])
        history = History(attributes, world, bound, reach)
        server = Server(Scenario(attributes, world, bound, reach, (Plan((), ()),) * 6, ()))
        same = True
        for session, request in random_requests(seed, 6, objects, attributes):
            first = reply_text(history.answer(session, request))
            second = reply_text(server.step(session, request))
            if first != second:
                print(f"careless {seed}: s{session} {request.kind}: {first}, and not {second}")
                same = False
                break
        count.expect(same, f"careless clients {seed}")


def test_examples(count):
    """The examples are accepted, the simulation prints them, and each one's report is refused for
    the others. Refused scenarios are refused with their lines."""
    known = {name: example(name) for name in PRINTED}
    for name, (scenario, text) in known.items():
        count.expect(refusal(scenario, text, False) is None, f"{name} is refused")
        count.expect(simulate.replay(scenario) == text, f"{name} is not what is simulated")
        watched = simulate.replay(scenario, True)
        count.expect(refusal(scenario, watched, True) is None, f"{name} with told lines")
        if os.path.exists(os.path.join(EXAMPLES, f"{name}.looks")):
            with open(os.path.join(EXAMPLES, f"{name}.looks"), encoding="ascii") as file:
                count.same(simulate.replayed(scenario).looks(), file.read(), f"{name}: its looks")
        if watched != text:
            count.expect(refusal(scenario, watched, False), f"{name}: told lines that nobody asked for")
            count.expect(refusal(scenario, text, True), f"{name}: told lines are missing")
        for other, (_, printed) in known.items():
            if printed != text:
                count.expect(refusal(scenario, printed, False), f"{name}: the report of {other}")
    for name in REFUSED:
        with open(os.path.join(EXAMPLES, f"{name}.err"), encoding="ascii") as file:
            due = file.read()
        try:
            read_scenario(os.path.join(EXAMPLES, f"{name}.json"))
            found = "nothing"
        except NoScenario as fault:
            found = f"scenario: {fault}\n"
        count.expect(found == due, f"{name}: {found}")


def runs_of(seed, number):
    """A random scenario, and what some of its runs print with told lines."""
    scenario = scenario_of(scenario_text(seed).encode("ascii"))
    yield scenario, simulate.replay(scenario, True)
    for place in range(number):
        yield scenario, simulate.play(scenario, f"{seed} {place}", True, place % 2 == 0)


def test_random_runs(count):
    """Right runs are accepted, with told lines and without."""
    impatient = 0
    for seed in range(SEEDS):
        for place, (scenario, text) in enumerate(runs_of(seed, 3)):
            fault = refusal(scenario, text, True, place in (1, 3))
            impatient += place == 2 and refusal(scenario, text, True, True) is not None
            count.expect(fault is None, f"run of {seed}: {fault}")
            lines = text.split("\n")
            short = "".join(line + "\n" for line in lines[:-1] if not line.startswith("told "))
            fault = refusal(scenario, short, False)
            count.expect(fault is None, f"run of {seed} without told lines: {fault}")
    count.expect(impatient > SEEDS // 2, "clients that take replies early are not refused")


def is_left_out_freely(lines, place):
    """Whether a line is a `got` that the client might as well not have taken: the last of a
    session that it cut or quit, with nothing but shows and joins' quiet between."""
    if not lines[place].startswith("got "):
        return False
    for line in lines[place + 1:]:
        if line.startswith("got "):
            return False
        if line in ("cut", "quit"):
            return True
    return False


def changes_of(text, chance):
    """Reports with one thing changed, each with a name: none of them is right."""
    lines = text.split("\n")[:-1]
    places = range(len(lines))

    def joined(changed):
        return "".join(line + "\n" for line in changed)

    numbers = [found for found in re.finditer(r"[0-9]+", text)]
    for found in chance.sample(numbers, min(len(numbers), CHANGES)):
        number = int(found[0])
        for other in (number + 1, number - 1 if number else 2, int(f"{number}0") or 7):
            changed = text[:found.start()] + str(other) + text[found.end():]
            yield f"number {found[0]} at {found.start()} becomes {other}", changed
        yield f"a zero at {found.start()}", text[:found.start()] + "0" + text[found.start():]
    for place in chance.sample(places, min(len(lines), CHANGES)):
        yield f"line {place + 1} is doubled", joined(lines[:place + 1] + lines[place:])
        if not is_left_out_freely(lines, place):
            yield f"line {place + 1} is left out", joined(lines[:place] + lines[place + 1:])
        yield f"line {place + 1} is empty", joined(lines[:place] + [""] + lines[place + 1:])
        yield f"a space ends line {place + 1}", joined(lines[:place] + [lines[place] + " "] + lines[place + 1:])
        other = chance.choice(places)
        if lines[place].split(" ")[0].isdigit() and lines[other] != lines[place]:
            swapped = list(lines)
            swapped[place], swapped[other] = lines[other], lines[place]
            yield f"lines {place + 1} and {other + 1} change places", joined(swapped)
    for place in [chance.randrange(len(text)) for _ in range(CHANGES)]:
        for sign in ("", "7", " ", "-", "?", "\n", "\r", "\u00e9"):
            changed = text[:place] + sign + text[place + 1:]
            if changed != text:
                yield f"the byte at {place} becomes {sign!r}", changed
    yield "the last line feed is left out", text[:-1]
    yield "a line feed is added", text + "\n"
    yield "a line is added", text + lines[-1] + "\n"
    yield "nothing is left", ""


def test_changes(count):
    """Reports with anything changed are refused."""
    chance = random.Random("changes")
    texts = []
    for name in PRINTED:
        scenario = example(name)[0]
        texts.append((name, scenario, simulate.replay(scenario, True)))
    for seed in range(12):
        for scenario, text in list(runs_of(seed, 1))[1:]:
            texts.append((f"run of {seed}", scenario, text))
    for name, scenario, text in texts:
        for what, changed in changes_of(text, chance):
            count.expect(refusal(scenario, changed, True), f"{name}: {what}: accepted")
        others = [other for _, _, other in texts if other != text]
        count.expect(refusal(scenario, chance.choice(others), True), f"{name}: another report")


def renumbered(entries, rest, order):
    """The report whose entries stand in this order, numbered anew, with the gots after them."""
    numbers = {str(old + 1): str(new + 1) for new, old in enumerate(order)}
    lines = [f"journal {len(order)}"]
    lines += [f"{new + 1} {entries[old]}" for new, old in enumerate(order)]
    for line in rest:
        found = re.fullmatch(r"(got s[0-9]+ #)([0-9]+)", line)
        lines.append(found[1] + numbers.get(found[2], "0") if found else line)
    return "".join(line + "\n" for line in lines)


def replies_are_due(scenario, entries, order):
    """Whether the simulation's server gives these replies in this order."""
    server = Server(scenario)
    for old in order:
        session, rest = entries[old].split(" ", 1)
        request, reply = rest.split(" -> ")
        given = server.step(int(session[1:]), request_of(request, 0))
        if reply_text(given) != reply:
            return False
    return True


def test_other_orders(count):
    """Entries of two sessions that change places, with all numbers made right again, are accepted
    just where the other server gives the same replies. An entry that is left out so is refused
    where the other server then gives other replies, or where a client got it."""
    chance = random.Random("orders")
    swapped = 0
    for seed in range(SEEDS):
        for scenario, text in runs_of(seed, 1):
            lines = text.split("\n")[:-1]
            size = int(lines[0].split(" ")[1])
            entries = [line.split(" ", 1)[1] for line in lines[1:size + 1]]
            rest = lines[size + 1:]
            for place in chance.sample(range(size - 1), min(size - 1, CHANGES // 2)):
                order = list(range(size))
                if entries[place] == entries[place + 1]:
                    continue
                order[place], order[place + 1] = place + 1, place
                sessions = {entries[place].split(" ")[0], entries[place + 1].split(" ")[0]}
                due = len(sessions) == 2 and replies_are_due(scenario, entries, order)
                swapped += due
                fault = refusal(scenario, renumbered(entries, rest, order), True)
                count.expect((fault is None) == due, f"run of {seed}: entries {place + 1} and the next: {fault}")
            for place in chance.sample(range(size), min(size, CHANGES // 2)):
                order = [one for one in range(size) if one != place]
                session = entries[place].split(" ")[0]
                is_got = f"got {session} #{place + 1}" in rest
                if is_got or " end -> " in entries[place] or not replies_are_due(scenario, entries, order):
                    fault = refusal(scenario, renumbered(entries, rest, order), True)
                    count.expect(fault, f"run of {seed}: entry {place + 1} is left out")
    count.expect(swapped > 50, "too few entries could change places")


def test_wrong_runs(count):
    """Each wrong server and each wrong player is found out by some scenario."""
    scenarios = {}
    for base, word in ((Server, "server"), (Player, "player")):
        for kind in wrong_runs.subclasses(base):
            found = False
            for seed in range(1, MOST_SEEDS):
                if seed not in scenarios:
                    scenarios[seed] = scenario_of(scenario_text(seed).encode("ascii"))
                try:
                    if seed % 4 == 1:
                        text = simulate.replay(scenarios[seed], True, **{word: kind})
                    else:
                        text = simulate.play(scenarios[seed], seed, True, seed % 3 > 0, **{word: kind})
                except Wrong:
                    continue
                if refusal(scenarios[seed], text, True):
                    found = True
                    break
            count.expect(found, f"{kind.__name__} is never refused")


STAND_IN = """#!{python}
import sys
sys.path.insert(0, {here!r})
import random
from rules import simulate
from rules.scenario import read_scenario
scenario = read_scenario(sys.argv[2])
if sys.argv[1] == "replay":
    text = simulate.replay(scenario)
else:
    text = simulate.play(scenario, random.random(), sys.argv[3:] == ["--watch"], True)
{change}
sys.stdout.write(text)
"""


def test_programs(count):
    """The checker's words and statuses, and the driver with a right program and with wrong ones,
    from another folder."""
    with tempfile.TemporaryDirectory() as room:
        def run(*words):
            return subprocess.run(words, cwd=room, capture_output=True, text=True, check=False)

        checker = os.path.join(OUTSIDE, "rules", "check_report.py")
        scenario = os.path.abspath(os.path.join(EXAMPLES, "conflict.json"))
        printed = os.path.abspath(os.path.join(EXAMPLES, "conflict.out"))
        for words, status in (((scenario, printed), 0), ((scenario, printed, "--watch"), 1),
                              ((scenario, scenario), 1), ((printed, printed), 1), ((scenario,), 2),
                              ((scenario, printed, "--fast"), 2), ((scenario, "none"), 2)):
            done = run(sys.executable, checker, *words)
            count.expect(done.returncode == status, f"check {words}: {done}")
            count.expect(done.stderr.count("\n") == (status != 0) and not done.stdout,
                         f"check {words}: {done}")
        for change, passed, failed in (
                ("", 9, 0), ("text = text.replace('client 0', 'client 00')", 0, 9),
                ("if sys.argv[1] == 'replay': text = simulate.play(scenario, 1)", 6, 1),
                ("if sys.argv[1] == 'play': sys.exit(6)", 3, 6)):
            program = os.path.join(room, "program")
            with open(program, "w", encoding="utf-8") as file:
                file.write(STAND_IN.format(python=sys.executable, here=OUTSIDE, change=change))
            os.chmod(program, 0o755)
            driver = os.path.join(OUTSIDE, "campaigns", "play_many.sh")
            done = run(driver, "--first", "7", "--keep", "kept", "./program", "3", "2")
            last = done.stdout.strip().split("\n")[-1]
            found = re.fullmatch(r"([0-9]+) passed, ([0-9]+) failed", last)
            least = found is not None and int(found[1]) >= passed and int(found[2]) >= failed
            count.expect(least and done.returncode == (failed != 0), f"driver {change}: {done}")
        count.expect(run(driver).returncode == 2, "driver without words")
        count.expect(run(driver, "./nothing").returncode == 2, "driver without a program")


def main():
    """The status of all tests."""
    count = Count()
    for test in (test_language, test_rows, test_careless_clients, test_examples, test_random_runs,
                 test_changes, test_other_orders, test_wrong_runs, test_programs):
        test(count)
    return count.close()


if __name__ == "__main__":
    sys.exit(main())
