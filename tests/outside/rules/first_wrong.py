#!/usr/bin/env python3
"""The first wrong line of a printed report, or of what `serve` printed, found apart from the product.

    python3 tests/outside/rules/first_wrong.py SCENARIO.json REPORT

Prints `yes` where the report is that of a consistent run of the scenario, or a journal with its commit, and else `wrong line N`: the first line, from 1,
at which a rule of docs/CHECK.md fails, where the place behind the last line counts as a line. Ends with status 0 or 1; with 2
where its words are wrong, a file can't be read, or the first is no scenario.

check_report.py says more of a report (values that are not serial, outcomes) and names a fault where it finds it first. Here the
lines are taken in order, and a line is wrong where no report goes on with it. The journal's law is that of journal.py, and the
clients' law that of traces.py without what is no rule of a single line.
"""

import functools
import os
import re
import sys

sys.path.insert(0, os.path.dirname(os.path.dirname(os.path.abspath(__file__))))

from rules import report
from rules.actions import GREATEST, LEAST, TextFault, action_text, fault_of_action, read_action
from rules.journal import History
from rules.report import EVENTS, LARGE, NATURAL, SMALL, WHOLE, Entry, Event, Fault, Request, list_of, reply_text, request_text, value_text
from rules.scenario import NoScenario, read_scenario
from rules.traces import Walk, replies_by_session

VALUE = rf"\((?:{WHOLE}(?:,{WHOLE})*)?\)"
RESULT = rf"{NATURAL}:(?:{VALUE})*"
NO_SERIAL_WORLD = None


class Wrong(Exception):
    """The number of the first wrong line."""


class Lines(report.Lines):
    """The lines of some bytes; what stands behind the last line feed is no line."""

    def __init__(self, data):
        super().__init__(data.decode("latin-1"))

    def peek(self):
        """The line at hand, or None behind the last one."""
        return super().peek() if self.has_more() else None

    def take(self, line):
        """The line at hand is this one."""
        self.need(self.peek() == line)
        self.at += 1

    def need(self, condition):
        """The line at hand is wrong unless the condition holds."""
        if not condition:
            raise Wrong(self.number)


def number_in(text, greatest):
    """A number of this type, or None."""
    return int(text) if int(text) <= greatest else None


def interest_of(text):
    """The objects of a list, or None where one is outside its type."""
    objects = tuple(number_in(one, SMALL) for one in text[1:-1].split())
    return None if None in objects else objects


def results_of(text):
    """The results of a list, or None where a number is outside its type."""
    results = []
    for one in text[1:-1].split():
        position, values = one.split(":")
        each = tuple(tuple(int(number) for number in value.split(",") if number) for value in re.findall(r"\(([^)]*)\)", values))
        if number_in(position, LARGE) is None or any(not LEAST <= number <= GREATEST for value in each for number in value):
            return None
        results.append((int(position), each))
    return tuple(results)


def join_of(found):
    """A Join, or None where a number is outside its type."""
    client, life, interest = number_in(found[1], SMALL), number_in(found[2], LARGE), interest_of(found[3])
    return None if None in (client, life, interest) else Request("join", client=client, life=life, interest=interest)


def observe_of(found):
    """An Observe, or None where a number is outside its type."""
    wait, objects = number_in(found[1], SMALL), interest_of(found[2])
    return None if None in (wait, objects) else Request("observe", wait=wait, objects=objects)


@functools.lru_cache(maxsize=10_000)
def action_in(text):
    """The action that this is the canonical text of, or None."""
    try:
        action = read_action(text)
    except TextFault:
        return None
    return action if action_text(action) == text else None


def submit_of(found, scenario):
    """A Submit, or None where its number is outside its type or its action is none of this world."""
    action = action_in(found[2])
    if number_in(found[1], LARGE) is None or action is None:
        return None
    if fault_of_action(action, len(scenario.opening), scenario.attributes) is not None:
        return None
    return Request("submit", number=int(found[1]), action=action)


def request_in(text, scenario):
    """The request of an entry's line, or None where there is none that such a line may have."""
    if text in ("poll", "leave", "end"):
        return Request(text)
    if found := re.fullmatch(rf"join c({NATURAL}) ({NATURAL}) ({list_of(NATURAL)})", text):
        return join_of(found)
    if found := re.fullmatch(rf"observe ({NATURAL}) ({list_of(NATURAL)})", text):
        return observe_of(found)
    if found := re.fullmatch(rf"submit ({NATURAL}) (.*)", text):
        return submit_of(found, scenario)
    if found := re.fullmatch(rf"done ({list_of(RESULT)})", text):
        results = results_of(found[1])
        return None if results is None else Request("done", results=results)
    return None


def take_entry(scenario, history, lines):
    """The entry of the line at hand, whose reply is the one that the entries before it give."""
    number = lines.number - 1
    found = re.fullmatch(rf"{number} s({NATURAL}) (.*?) -> (.*)", lines.peek() or "")
    lines.need(found and int(found[1]) < scenario.sessions)
    session, request = int(found[1]), request_in(found[2], scenario)
    lines.need(request is not None and not (request.kind == "end" and history.session(session).ends))
    reply = history.answer(session, request)
    lines.need(reply_text(reply) == found[3])
    entry = Entry(lines.number, session, request, reply, found[3])
    lines.at += 1
    return entry


def take_journal(scenario, lines):
    """The entries of the journal, and its history."""
    found = re.fullmatch(rf"journal ({NATURAL})", lines.peek() or "")
    lines.need(found and int(found[1]) <= LARGE)
    lines.at += 1
    history = History(scenario.attributes, scenario.opening, scenario.bound, scenario.reach)
    entries = [take_entry(scenario, history, lines) for _ in range(int(found[1]))]
    lines.need(all(history.session(number).ends == 1 for number in range(scenario.sessions)))
    return entries, history


class Follower(Walk):
    """A client by its lines alone: it holds what it is given, serial or not, and takes each reply that a client takes."""

    def __init__(self, client, scenario, history, replies, ends):
        super().__init__(client, scenario, history, NO_SERIAL_WORLD, replies, False)
        self.ends = ends

    def take(self, event):
        """The next reply of the session is taken. Whether the entry has the request that was asked is seen at the end."""
        line = event.line
        self.need(self.in_session and event.session == self.session, line, "it is not in this session")
        entries = self.replies.get(self.session, [])
        place = self.got[-1]
        self.need(place < len(entries) and event.number == entries[place].number, line, "the session has another reply next")
        self.need(self.outstanding, line, "no request is outstanding")
        self.accept(self.outstanding[0], entries[place].reply, line)

    def need_serial(self, target, position, value, line):
        """A value may be any."""

    def read_below(self, target, position, line):
        """The value of an object that the action of a position reads: the last one before it that it was given."""
        found = self.below(target, position)
        self.need(found is not None, line, "an object is unknown")
        return found[1]

    def is_whole(self):
        """Whether it is finished, and the journal's requests of each of its sessions are the first that it asked, before the End."""
        if not self.is_done or len(self.asked) != self.plan.sessions:
            return False
        for session, asked in enumerate(self.asked, self.first):
            entries = self.replies.get(session, [])
            requests = [request_text(entry.request) for entry in entries]
            if requests != [request_text(one) for one in asked][:len(requests)]:
                return False
            if any(entry.line > self.ends[session] for entry in entries):
                return False
        return True


def event_in(lines):
    """The event of the line at hand, or None where it has none."""
    for kind, form in EVENTS:
        found = re.fullmatch(form, lines.peek() or "")
        if found:
            parts = {"number": None, "session": None, **found.groupdict()}
            return Event(lines.number, kind, text=parts.get("text") or "",
                         number=None if parts["number"] is None else int(parts["number"]),
                         session=None if parts["session"] is None else int(parts["session"]))
    return None


def take_client(follower, lines):
    """The lines of a client's part. The line behind them is wrong where the client is not at its end there."""
    while event := event_in(lines):
        try:
            follower.follow(event)
        except Fault as fault:
            raise Wrong(lines.number) from fault
        lines.at += 1
    lines.need(follower.is_whole())


def first_wrong(scenario, data):
    """The first wrong line of a report's bytes, or of what `serve` printed, 0 where there is none."""
    lines = Lines(data)
    try:
        entries, history = take_journal(scenario, lines)
        if lines.peek() == f"commit {history.commit}":
            lines.at += 1
            lines.need(lines.peek() is None and not lines.rest)
            return 0
        replies = replies_by_session(entries)
        ends = {entry.session: entry.line for entry in entries if entry.request.kind == "end"}
        for client in range(len(scenario.plans)):
            lines.take(f"client {client}")
            take_client(Follower(client, scenario, history, replies, ends), lines)
        lines.take(f"world {history.commit}")
        for target, value in enumerate(history.committed):
            lines.take(f"{target}={value_text(value)}")
        lines.need(lines.peek() is None and not lines.rest)
    except Wrong as wrong:
        return wrong.args[0]
    return 0


def answer(line):
    """What is printed of a first wrong line."""
    return "yes" if line == 0 else f"wrong line {line}"


def main(words):
    """The status of these words."""
    if len(words) != 2:
        print("words: SCENARIO.json REPORT", file=sys.stderr)
        return 2
    try:
        scenario = read_scenario(words[0])
        with open(words[1], "rb") as file:
            line = first_wrong(scenario, file.read())
    except (OSError, NoScenario) as fault:
        print(fault, file=sys.stderr)
        return 2
    print(answer(line))
    return 0 if line == 0 else 1


if __name__ == "__main__":
    sys.exit(main(sys.argv[1:]))
