"""Why an object has its value at a position, and the world at the end: what `why` and `world` print, counted from the accepted actions."""

from rules.actions import action_text, evaluate
from rules.report import value_text


def least_set(accepted, target, position):
    """The last writer of an object at or below a position, if any, and with each action the last writers of what it reads; ascending."""
    found, waiting = set(), [(target, position)]
    while waiting:
        one, last = waiting.pop()
        writer = next((place for place in range(last, 0, -1) if one in accepted[place - 1].action.writes), 0)
        if writer and writer not in found:
            found.add(writer)
            waiting += [(read, writer - 1) for read in accepted[writer - 1].action.reads]
    return sorted(found)


def do(world, action):
    """Executes an action on a world."""
    for written, value in zip(action.writes, evaluate(action, {read: world[read] for read in action.reads})):
        world[written] = value


def world_lines(scenario, accepted):
    """The lines of the world that all accepted actions give, one after the other from the opening world."""
    world = list(scenario.opening)
    for one in accepted:
        do(world, one.action)
    return [f"world {len(accepted)}"] + [f"{target}={value_text(value)}" for target, value in enumerate(world)]


def why_lines(scenario, accepted, target, position):
    """The lines: each action of the least set, and the value that these alone give, one after the other from the opening world."""
    world, lines = list(scenario.opening), []
    for place in least_set(accepted, target, position):
        one = accepted[place - 1]
        do(world, one.action)
        lines.append(f"{place} c{one.author}.{one.number} {action_text(one.action)}")
    return lines + [f"value {target}={value_text(world[target])}"]
