#!/usr/bin/env python3
"""What `witness FILE` and `witness FILE K` print, by a server in Python that was written from the rules alone.

    python3 tests/outside/rules/witness.py FILE [K]

The server installs a result once two different clients reported it. It differs from the plain one in its Dones and Polls alone.
"""

import os
import sys

sys.path.insert(0, os.path.dirname(os.path.dirname(os.path.abspath(__file__))))

from rules.actions import GREATEST
from rules.report import Reply, value_text
from rules.scenario import read_scenario
from rules.server import Server
from rules.simulate import Run


def lied(value):
    """A value with 1 added to its first number, where that can be raised."""
    return (value[0] + (value[0] < GREATEST), *value[1:])


class Witness(Server):
    """A server that trusts no client alone. `reports` has, for each position, each client's first report in order."""

    liar = None

    def __init__(self, scenario):
        super().__init__(scenario)
        self.reports = {}

    def reply(self, session, request):
        """What the liar reports is another value."""
        if request.kind == "done" and self.liar is not None and self.client_of[session] == self.liar:
            request = request._replace(results=tuple((place, tuple(map(lied, values))) for place, values in request.results))
        return super().reply(session, request)

    def done(self, session, results):
        """Keeps reports above the commit, and hands on the results that two clients agree on, or that are none."""
        agreed, commit, client = [], self.commit, self.client_of[session]
        answer = self.judged(session, results)
        if answer.kind == "refused":
            return answer
        for place, values in results:
            told = self.reports.setdefault(place, [])
            if place <= commit or any(client == other for other, _ in told):
                continue
            if self.queue[place - 1].result is None and (not values or any(tuple(values) == given for _, given in told)):
                agreed.append((place, values))
            told.append((client, tuple(values)))
        return super().done(session, agreed) if agreed else answer

    def judged(self, session, results):
        """Whether the whole Done is refused: what the plain server says of it, which is then put back as it was."""
        kept = [queued.result for queued in self.queue], list(self.committed), [set(sessions) for sessions in self.given], self.commit
        answer = super().done(session, results)
        for queued, result in zip(self.queue, kept[0]):
            queued.result = result
        _, self.committed, self.given, self.commit = kept
        return answer if answer.kind == "refused" else Reply("noted", commit=self.commit)

    def poll(self, session):
        """Relays the lowest position without a result that the session was not sent and its client did not report."""
        for place, queued in enumerate(self.queue, 1):
            if place > self.commit and queued.result is None and session not in queued.marks \
                    and all(client != self.client_of[session] for client, _ in self.reports.get(place, ())):
                return self.relay(session, 0, place)
        return Reply("idle")

    def disputes(self):
        """For each position the first report and the first one that differs."""
        for place in sorted(self.reports):
            told = self.reports[place]
            other = next((report for report in told if report[1] != told[0][1]), None)
            if other:
                yield place, told[0], other


def witnessed(scenario, liar=None, kind=Witness):
    """The run, at its end."""
    run = Run(scenario, type("Lied", (kind,), {"liar": liar}))
    run.go(scenario.schedule)
    return run


def text_of(server):
    """The printed lines."""
    lines = [f"accepted {len(server.queue)}"]
    for place, *both in server.disputes():
        lines.append(f"dispute {place} " + " ".join(f"c{client} {''.join(map(value_text, values))}" for client, values in both))
    lines.append(f"world {server.commit}")
    lines += [f"{target}={value_text(value)}" for target, value in enumerate(server.committed)]
    return "".join(line + "\n" for line in lines)


def main(words):
    print(text_of(witnessed(read_scenario(words[0]), int(words[1]) if len(words) > 1 else None).server), end="")
    return 0


if __name__ == "__main__":
    sys.exit(main(sys.argv[1:]))
