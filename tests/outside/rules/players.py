"""Clients for the simulation of replays, made as a client would be: few values, kept in order.

A player keeps, for each object, one value at or below the greatest commit that it was told, and
those above. The checker (traces.py) walks a client by its whole history instead. The two share the
printed form of requests and replies (report.py) and the action language (actions.py) alone.
"""

from collections import deque

from rules.actions import evaluate
from rules.report import Request, held_text, objects_text, value_text


class Wrong(Exception):
    """A reply that no client takes: the simulated server is wrong."""


class Player:
    """A scripted client. `lines` is its part of the report, `told` its told lines, `looked` has the
    lines of its looks."""

    def __init__(self, client, scenario):
        self.client = client
        self.plan = scenario.plans[client]
        self.first = scenario.first_session(client)
        self.steps = deque(self.plan.steps)
        self.kept = {}
        self.pending = []
        self.waiting = deque()
        self.joined = 0
        self.made = 0
        self.told_commit = 0
        self.where = "outside"
        self.lines = []
        self.told = []
        self.looked = []
        self.seen = {target: None for target in self.plan.interest}

    @property
    def session(self):
        """The number of the latest session."""
        return self.first + self.joined - 1

    def note(self, line):
        """One line of the trace, and the told lines that go with it."""
        self.lines.append(line)
        for target, old in self.seen.items():
            new = self.view(target)
            if new != old:
                self.told.append(f"told c{self.client} {len(self.lines)} {target} "
                                 f"{value_text(old) if old else '?'} -> "
                                 f"{value_text(new) if new else '?'}")
                self.seen[target] = new

    def overlaid(self, pending):
        """The latest values, and then what these pending actions keep, one over the other."""
        views = {target: held[-1][1] for target, held in self.kept.items()}
        for _, action, kept in pending:
            for place, target in enumerate(action.writes):
                views[target] = kept[place] if kept is not None else None
        return views

    def view(self, target):
        """The view of an object, or None."""
        return self.overlaid(self.pending).get(target)

    def guess(self, action, pending):
        """What an action gives over these pending ones, or None."""
        views = self.overlaid(pending)
        if any(views.get(target) is None for target in action.reads):
            return None
        return evaluate(action, views)

    def redo(self):
        """Computes all pending results again."""
        fresh = []
        for number, action, _ in self.pending:
            fresh.append((number, action, self.guess(action, fresh)))
        self.pending = fresh

    def ask(self, request):
        """A request goes out."""
        self.waiting.append(request)
        return request

    def can_take_turn(self):
        """Whether the next step can be done now."""
        if self.where in ("closed", "done"):
            return False
        if self.where in ("outside", "byed"):
            return True
        if self.where in ("joining", "leaving"):
            return False
        step = self.steps[0] if self.steps else None
        if step is None or step.kind == "sync":
            return not self.waiting
        if step.kind == "act":
            return len(self.pending) < 8 and len(self.waiting) < 16
        return step.kind not in ("poll", "observe") or len(self.waiting) < 16

    def turn(self):
        """Does the next step if it can. Answers the requests that it asks, or None where it did
        nothing."""
        if not self.can_take_turn():
            return None
        if self.where == "outside":
            return self.join()
        if self.where == "byed":
            self.where = "closed"
            return []
        if not self.steps:
            self.where = "leaving"
            self.note("leave")
            return [self.ask(Request("leave"))]
        step = self.steps.popleft()
        if step.kind == "act":
            return self.make(step.action)
        if step.kind == "poll":
            self.note("poll")
            return [self.ask(Request("poll"))]
        if step.kind == "observe":
            self.note(f"observe {objects_text(step.objects)}")
            return [self.ask(Request("observe", wait=0, objects=step.objects))]
        if step.kind == "show":
            views = [(target, self.view(target)) for target in step.objects]
            self.note("show [" + " ".join(f"{target}={value_text(view) if view else '?'}"
                                          for target, view in views) + "]")
        elif step.kind == "cut":
            self.where = "outside"
            self.note("cut")
        elif step.kind == "quit":
            self.where = "closed"
            self.note("quit")
        return []

    def join(self):
        """Joins the next session, and submits what is pending."""
        self.joined += 1
        self.where = "joining"
        self.waiting = deque()
        self.note(f"join s{self.session}")
        asked = [Request("join", client=self.client, life=self.joined, interest=self.plan.interest)]
        asked += [Request("submit", number=number, action=action)
                  for number, action, _ in self.pending]
        return [self.ask(request) for request in asked]

    def make(self, action):
        """Makes an action."""
        self.made += 1
        kept = self.guess(action, self.pending)
        self.pending.append((self.made, action, kept))
        text = "none" if kept is None else held_text(zip(action.writes, kept))
        self.note(f"make {self.made} kept {text}")
        return [self.ask(Request("submit", number=self.made, action=action))]

    def put(self, target, position, value):
        """Keeps a value at a position."""
        held = [pair for pair in self.kept.get(target, []) if pair[0] != position]
        self.kept[target] = sorted(held + [(position, value)])

    def prune(self):
        """Of the values at or below the told commit only the last stays."""
        for target, held in self.kept.items():
            old = [pair for pair in held if pair[0] <= self.told_commit]
            self.kept[target] = old[-1:] + [pair for pair in held if pair[0] > self.told_commit]

    def take(self, number, reply, actions):
        """Takes the reply of entry `number`; `actions` has the action of each position. Answers
        the requests that it asks."""
        request = self.waiting.popleft()
        asked = []
        if reply.commit is not None:
            if reply.commit < self.told_commit:
                raise Wrong("the commit fell")
            self.told_commit = reply.commit
        for target, value in reply.head:
            self.put(target, reply.commit, value)
        if reply.kind == "welcome" and request.kind == "join":
            self.where = "inside"
        elif reply.kind == "bye" and request.kind == "leave":
            self.where = "byed"
        elif reply.kind in ("dropped", "denied", "settled") and request.kind == "submit":
            if self.pending.pop(0)[0] != reply.number:
                raise Wrong("another number than the front one")
            self.redo()
        elif reply.kind == "relay" and request.kind in ("submit", "poll"):
            asked = self.relay(request, reply, actions)
        elif reply.kind == "seen" and request.kind == "observe":
            asked = self.see(request, reply, actions)
        elif (request.kind, reply.kind) not in (("done", "noted"), ("poll", "idle")):
            raise Wrong(f"{request.kind} was answered {reply.kind}")
        self.prune()
        self.note(f"got s{self.session} #{number}")
        return asked

    def values_below(self, objects, position):
        """The values that objects have below a position."""
        values = {}
        for target in objects:
            below = [value for place, value in self.kept.get(target, []) if place < position]
            if not below:
                raise Wrong(f"object {target} is unknown below {position}")
            values[target] = below[-1]
        return values

    def evaluated(self, items, actions):
        """The results of the items, which are kept."""
        results = []
        for position, _, _ in items:
            action = actions[position]
            result = evaluate(action, self.values_below(action.reads, position))
            results.append((position, result))
            for target, value in zip(action.writes, result):
                self.put(target, position, value)
        return tuple(results)

    def relay(self, request, reply, actions):
        """Evaluates the items, and settles the own action."""
        results = self.evaluated(reply.items, actions)
        if not results:
            raise Wrong("a relay without items")
        if request.kind == "submit":
            number, action, kept = self.pending.pop(0)
            if reply.items[-1][1:] != (self.client, number) or reply.number != number:
                raise Wrong("the last item is not the own one")
            if kept != results[-1][1]:
                self.redo()
            if not action.writes and not action.body:
                self.look(f"look c{self.client} {number}", action.reads, results[-1][0])
        return [self.ask(Request("done", results=results))]

    def see(self, request, reply, actions):
        """Evaluates the items; where there is anything new, all that is pending is computed again."""
        results = self.evaluated(reply.items, actions)
        if reply.last < max([reply.commit, *(position for position, _ in results)]):
            raise Wrong("a cut below what it shows")
        self.look(f"seen c{self.client}", request.objects, reply.last + 1, reply.last)
        if reply.head or results:
            self.redo()
        return [self.ask(Request("done", results=results))] if results else []

    def look(self, begin, objects, position, named=None):
        """The line of a look: the values of objects below a position."""
        values = held_text(self.values_below(objects, position).items())
        self.looked.append(f"{begin} at {position if named is None else named} {values}")
