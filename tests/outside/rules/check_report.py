#!/usr/bin/env python3
"""A slow checker of printed reports, apart from the product.

    python3 tests/outside/rules/check_report.py SCENARIO.json REPORT [--watch] [--play]

Reads a scenario file and what `play FILE`, `play FILE --watch` or `replay FILE` printed. Ends with
status 0 only where the report is the record of a run of that scenario: its journal gives each
request the reply that is due, its clients did their scripts on what they got and kept, every value
is that of executing the accepted actions one after the other, and, with --watch, the told lines are
the changes that the clients' views made. With --play, for what `play` printed, each client also took
a reply only where its next step could not be done yet. Otherwise it prints the first fault that it finds in one
line on standard error and ends with status 1; with status 2 where its own words are wrong or a file
can't be read.

It was written from the documents of the formats alone, and from no code of the product: the action
language in actions.py, scenario files in scenario.py, the printed text in report.py, the server's
law in journal.py, the clients' law in traces.py.
"""

import os
import sys

sys.path.insert(0, os.path.dirname(os.path.dirname(os.path.abspath(__file__))))

from rules.journal import SerialWorld, check_journal, check_outcomes, check_serial_values
from rules.report import Fault, read_report
from rules.scenario import NoScenario, read_scenario, status_of
from rules.traces import check_traces


def check_world(scenario, history, serial, report):
    """The world that is printed last is the serial one at the commit."""
    if report.commit != history.commit:
        raise Fault(report.world_line, f"the commit is {history.commit}")
    for target, value in enumerate(report.world):
        line = report.world_line + 1 + target
        if value != serial.value(target, history.commit) or value != history.committed[target]:
            raise Fault(line, f"object {target} is not the serial one at the commit")


def check_told(told, report):
    """The told lines are those of the clients' changes, in order, and no more."""
    line = report.world_line + len(report.world)
    for due in told:
        line += 1
        if not report.told:
            raise Fault(line, f"the told line due is: {due}")
        line, given = report.told.pop(0)
        if given != due:
            raise Fault(line, f"the told line due is: {due}")
    if report.told:
        raise Fault(report.told[0][0], "no told line is due here")


def check(scenario, data, watched, played=False):
    """Raises the first fault of a report's bytes."""
    try:
        text = data.decode("ascii")
    except UnicodeDecodeError as fault:
        line = data[:fault.start].count(b"\n") + 1
        raise Fault(line, "a byte that no report has") from fault
    report = read_report(text, len(scenario.plans), len(scenario.opening), watched)
    history = check_journal(scenario, report.entries)
    serial = SerialWorld(scenario.opening, history.accepted)
    check_serial_values(history, serial, report.entries)
    told = check_traces(scenario, history, serial, report, played)
    check_outcomes(scenario, history, report.world_line)
    check_world(scenario, history, serial, report)
    if watched:
        check_told(told, report)


def main(words):
    """The status of these words."""
    options = words[2:]
    if len(words) < 2 or len(set(options)) < len(options) or set(options) - {"--watch", "--play"}:
        print("words: SCENARIO.json REPORT [--watch] [--play]", file=sys.stderr)
        return 2
    try:
        with open(words[1], "rb") as file:
            data = file.read()
        scenario = read_scenario(words[0])
        check(scenario, data, "--watch" in options, "--play" in options)
    except (OSError, NoScenario) as fault:
        return status_of(fault)
    except Fault as fault:
        print(fault, file=sys.stderr)
        return 1
    return 0


if __name__ == "__main__":
    sys.exit(main(sys.argv[1:]))
