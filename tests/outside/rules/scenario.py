"""Scenario files: what a file means, where it keeps all rules of such files.

Written from the documents of the formats alone. A file that breaks a rule is refused with a short
reason, which is not the product's own line.
"""

import json
import re
import sys
from typing import NamedTuple, Optional

from rules.actions import GREATEST, LEAST, Action, TextFault, fault_of_action, read_action


class NoScenario(Exception):
    """The file breaks a rule of scenario files."""


class Step(NamedTuple):
    """A step of a script: its kind, and an action or a list of objects where it has one."""

    kind: str
    action: Optional[Action] = None
    objects: tuple = ()


class Plan(NamedTuple):
    """A client: what it is interested in, and its script."""

    interest: tuple
    steps: tuple

    @property
    def acts(self):
        """The actions of the script, in order."""
        return [step.action for step in self.steps if step.kind == "act"]

    @property
    def sessions(self):
        """One session, and one more for each cut."""
        return 1 + sum(1 for step in self.steps if step.kind == "cut")

    @property
    def quits(self):
        """Whether the script ends with a quit."""
        return bool(self.steps) and self.steps[-1].kind == "quit"


class Scenario(NamedTuple):
    """An opening world, the limits of influence, the clients, and the turns of a replay."""

    attributes: int
    opening: tuple
    bound: int
    reach: Optional[int]
    plans: tuple
    schedule: tuple

    @property
    def sessions(self):
        """The number of sessions of all clients."""
        return sum(plan.sessions for plan in self.plans)

    def first_session(self, client):
        """Sessions are numbered client by client."""
        return sum(plan.sessions for plan in self.plans[:client])


def whole(value, least, greatest, where):
    """A whole number of this range."""
    if type(value) is not int or not least <= value <= greatest:
        raise NoScenario(f"{where}: no whole number from {least} to {greatest}")
    return value


def listed(value, least, greatest, where):
    """A list of such a length."""
    if type(value) is not list or not least <= len(value) <= greatest:
        raise NoScenario(f"{where}: no list of {least} to {greatest}")
    return value


def keyed(value, needed, others, where):
    """An object that has just these keys, the others where wanted."""
    if type(value) is not dict or not set(needed) <= set(value) <= set(needed) | set(others):
        raise NoScenario(f"{where}: no object with the keys {' '.join(needed)}")
    return value


def ascending(value, objects, where):
    """A list of objects, each above the one before."""
    found = tuple(whole(one, 0, objects - 1, where) for one in value)
    if any(first >= second for first, second in zip(found, found[1:])):
        raise NoScenario(f"{where}: not ascending")
    return found


def step_of(value, objects, attributes, where):
    """The step that stands here."""
    if value in ("poll", "sync", "cut", "quit") and type(value) is str:
        return Step(value)
    if type(value) is not dict or len(value) != 1:
        raise NoScenario(f"{where}: no step")
    if "show" in value:
        shown = listed(value["show"], 1, 16, where)
        return Step("show", objects=tuple(whole(one, 0, objects - 1, where) for one in shown))
    if "observe" in value:
        listed(value["observe"], 1, 16, f"{where}/observe")
        return Step("observe", objects=ascending(value["observe"], objects, f"{where}/observe"))
    if type(value.get("act")) is not str:
        raise NoScenario(f"{where}: no step")
    try:
        action = read_action(value["act"])
    except TextFault as fault:
        raise NoScenario(f"{where}/act: {fault}") from fault
    cause = fault_of_action(action, objects, attributes)
    if cause is not None:
        raise NoScenario(f"{where}/act: action {cause}")
    return Step("act", action=action)


def plan_of(value, objects, attributes, where):
    """The client that stands here; a quit is its last step."""
    keyed(value, ("interest", "steps"), (), where)
    listed(value["interest"], 0, 64, f"{where}/interest")
    interest = ascending(value["interest"], objects, f"{where}/interest")
    listed(value["steps"], 0, 256, f"{where}/steps")
    steps = tuple(step_of(one, objects, attributes, f"{where}/steps/{place}")
                  for place, one in enumerate(value["steps"]))
    if any(step.kind == "quit" for step in steps[:-1]):
        raise NoScenario(f"{where}/steps: a quit that is not the last step")
    return Plan(interest, steps)


def turn_of(value, clients, sessions, where):
    """The turn that stands here: its letter and its number."""
    if type(value) is not str or re.fullmatch(r"[cst](0|[1-9][0-9]{0,4})", value) is None:
        raise NoScenario(f"{where}: no turn")
    number = int(value[1:])
    if number >= (sessions if value[0] == "s" else clients):
        raise NoScenario(f"{where}: no such client or session")
    return value[0], number


def scenario_of(data):
    """The scenario of a file's bytes."""
    if len(data) > 4_194_304:
        raise NoScenario("the file is too long")
    try:
        value = json.loads(data.decode("utf-8"))
    except (ValueError, RecursionError) as fault:
        raise NoScenario("no JSON text") from fault
    keyed(value, ("attrs", "objects", "bound", "clients"), ("reach", "schedule"), "the file")
    attributes = whole(value["attrs"], 1, 4, "/attrs")
    listed(value["objects"], 1, 4096, "/objects")
    opening = tuple(tuple(whole(one, LEAST, GREATEST, "/objects")
                          for one in listed(each, attributes, attributes, "/objects"))
                    for each in value["objects"])
    bound = whole(value["bound"], 0, 32, "/bound")
    reach = whole(value["reach"], 0, 2_000_000, "/reach") if "reach" in value else None
    listed(value["clients"], 1, 32, "/clients")
    plans = tuple(plan_of(one, len(opening), attributes, f"/clients/{place}")
                  for place, one in enumerate(value["clients"]))
    sessions = sum(plan.sessions for plan in plans)
    if sessions > 64:
        raise NoScenario("/clients: too many sessions")
    turns = listed(value.get("schedule", []), 0, 16384, "/schedule")
    schedule = tuple(turn_of(one, len(plans), sessions, f"/schedule/{place}")
                     for place, one in enumerate(turns))
    return Scenario(attributes, opening, bound, reach, plans, schedule)


def read_scenario(path):
    """The scenario of the file at this path."""
    with open(path, "rb") as file:
        return scenario_of(file.read())


def status_of(fault):
    """The status of a call that a file stops, which can't be read or is no scenario; it is told."""
    if isinstance(fault, OSError):
        print(f"file: {fault.filename}", file=sys.stderr)
        return 2
    print(f"scenario: {fault}", file=sys.stderr)
    return 1
