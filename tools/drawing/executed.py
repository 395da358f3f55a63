"""The world after each accepted action, by doing the actions one after the other.

The journal has each accepted action's text. The values of objects before any action wrote them stand in a scenario, or else in the
replies that told them; who reads an object was told it. The evaluation is that of the client in clients/python.
"""

import functools
import json
import os
import re
import sys

HERE = os.path.dirname(os.path.abspath(__file__))
sys.path.insert(1, os.path.join(HERE, "..", "..", "clients", "python"))

from dimboetu import Fault, action_of  # noqa: E402


@functools.lru_cache(maxsize=None)
def parsed(text):
    """The action of a text."""
    try:
        return action_of(text)
    except Fault as fault:
        raise ValueError(text) from fault


def numbers_of(value):
    """The numbers of a value as it is printed, `(3,10)`."""
    return tuple(map(int, re.findall(r"-?[0-9]+", value)))


def printed(value):
    """A value as it is printed; `?` where it is not known."""
    return "?" if value is None else "(" + ",".join(map(str, value)) + ")"


def opening_of(text):
    """The opening values of a scenario's text, by object, as they are printed."""
    objects = json.loads(text)["objects"]
    return {place: printed(value) for place, value in enumerate(objects)}


def is_look(action):
    """Whether an action writes nothing and does nothing: it only reads."""
    return not action.writes and action.text.endswith("{ }")


def execute(accepted, opening, told):
    """Gives each accepted action the values of what it writes, `computed`, as texts. Of an object whose value is not known an
    action's result is what was reported of it. `told` has, for each position, values that were told as those behind it."""
    held = {target: numbers_of(value) for target, value in opening.items()}
    for place, action in enumerate(accepted):
        for target, value in told.get(place, ()):
            if held.get(target) is None:
                held[target] = numbers_of(value)
        values = [held.get(target) for target in action.reads]
        if None not in values:
            after = parsed(action.text).result(values)
        elif action.result:
            after = tuple(map(numbers_of, action.result))
        else:
            after = (None,) * len(action.writes)
        held.update(zip(action.writes, after))
        action.computed = [printed(value) for value in after]
