"""Who was waited for, and what waited: no action is finished before all before it are."""

from bisect import bisect_left, bisect_right


class Wait:
    """A position whose result was due next, and was not there: from an entry on, up to another."""

    def __init__(self, position, start, end):
        self.position, self.start, self.end = position, start, end
        self.clients = []       # who had been sent it and was there: see clients_of
        self.results = []       # positions whose results waited for it
        self.dropped = []       # actions that were dropped since these waited

    def as_data(self):
        """For the page."""
        return {"p": self.position, "from": self.start, "to": self.end, "who": self.clients, "w": self.results,
                "d": [[each.client, each.number] for each in self.dropped]}


def due_times(model):
    """Each position, with the entries from which and up to which its result was due next."""
    finished = 0
    for position, action in enumerate(model.accepted, 1):
        yield position, max(action.answered, finished), model.entries + 1 if action.done is None else action.done
        if action.done is None:
            return
        finished = action.committed or action.done


def results_behind(model, position, end):
    """The positions behind this one that have a result before this entry."""
    found = []
    for action in model.accepted[position:]:
        if action.answered >= end:
            break
        if action.done is not None and action.done < end:
            found.append(action.position)
    return found


def silence(asked, start, end):
    """The longest time between two of these entries, from start to end."""
    times = [start, *asked[bisect_right(asked, start):bisect_left(asked, end)], end]
    return max(([before, after] for before, after in zip(times, times[1:])), key=lambda pair: pair[1] - pair[0])


def clients_of(model, wait):
    """Who had been sent the position and was there: each client, from when and until when, and its longest silence meanwhile."""
    found = []
    for entry, session in model.sent.get(wait.position, ()):
        start, end = max(entry, wait.start), min(model.over.get(session, model.entries + 1), wait.end)
        if start < end and session in model.owner:
            found.append([model.owner[session], start, end, *silence(model.asked_by[session], start, end)])
    return found


def waits_of(model):
    """Each wait in which something waited: a result behind it, or what was dropped since results behind it were not finished. And
    that of the first position that never got a result."""
    dropped = sorted((each for each in model.actions.values() if each.chain is not None), key=lambda each: each.answered)
    times, found = [each.answered for each in dropped], []
    for position, start, end in due_times(model):
        if start >= end:
            continue
        wait = Wait(position, start, end)
        wait.results = results_behind(model, position, end)
        stuck = {position, *wait.results}
        wait.dropped = [each for each in dropped[bisect_right(times, start):bisect_left(times, end)] if stuck & set(model.chain_of(each))]
        if wait.results or wait.dropped or model.accepted[position - 1].done is None:
            wait.clients = clients_of(model, wait)
            found.append(wait)
    return found
