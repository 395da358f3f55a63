"""The clients' law: what each client did, read again event by event from its part of the report.

Written from the documents alone. A client is walked here by its definitions: every value that it
was ever given is kept with its position, and nothing is pruned. The simulation of replays has
clients of its own (players.py), which keep few values.
"""

from rules.actions import evaluate
from rules.report import LARGE, Fault, Request, held_text, objects_text, request_text, value_text

MOST_PENDING = 8
MOST_OUTSTANDING = 16

ANSWERS = {
    "join": ("welcome",),
    "submit": ("relay", "dropped", "denied", "settled"),
    "done": ("noted",),
    "poll": ("relay", "idle"),
    "observe": ("seen",),
    "leave": ("bye",),
}


class Pending:
    """An action that the client made and that has no outcome yet, with what it expects of it."""

    def __init__(self, number, action, kept):
        self.number = number
        self.action = action
        self.kept = kept

    def kept_of(self, target):
        """The value that it keeps for an object that it writes, or None."""
        return None if self.kept is None else self.kept[self.action.writes.index(target)]


class Walk:
    """A client as its trace so far gives it."""

    def __init__(self, client, scenario, history, serial, replies, played):
        self.client = client
        self.played = played
        self.scenario = scenario
        self.plan = scenario.plans[client]
        self.first = scenario.first_session(client)
        self.history = history
        self.serial = serial
        self.replies = replies
        self.asked = []
        self.got = []
        self.in_session = False
        self.is_done = False
        self.has_left = False
        self.step = 0
        self.made = 0
        self.told_commit = 0
        self.held = {}
        self.pending = []

    # What the client sees.

    def below(self, target, position):
        """The place and the value of the greatest position below this one, or None."""
        held = self.held.get(target, {})
        places = [place for place in held if place < position]
        return (max(places), held[max(places)]) if places else None

    def view(self, target):
        """The object's value with the client's own pending actions over it, or None."""
        for one in reversed(self.pending):
            if target in one.action.writes:
                return one.kept_of(target)
        held = self.held.get(target)
        return held[max(held)] if held else None

    def expected(self, action):
        """What an action gives on the present views, or None where a read is unknown."""
        views = {target: self.view(target) for target in action.reads}
        return None if None in views.values() else evaluate(action, views)

    def reconcile(self):
        """All kept results are thrown away and computed again, in order."""
        remaining, self.pending = self.pending, []
        for one in remaining:
            self.pending.append(Pending(one.number, one.action, self.expected(one.action)))

    # What the client asks.

    @property
    def session(self):
        """The session of the last join."""
        return self.first + len(self.asked) - 1

    @property
    def outstanding(self):
        """The requests of the latest session that have no reply yet."""
        return self.asked[-1][self.got[-1]:]

    def ask(self, request):
        """One more request of the latest session."""
        self.asked[-1].append(request)

    # The script.

    def next_step(self):
        """The next step that shows in the trace, and whether it must wait for all replies; both
        are passed by."""
        waits = False
        while self.step < len(self.plan.steps) and self.plan.steps[self.step].kind == "sync":
            waits = True
            self.step += 1
        if self.step == len(self.plan.steps):
            return None, waits
        self.step += 1
        return self.plan.steps[self.step - 1], waits

    def could_go_on(self):
        """Whether the next step could be done before any further reply is taken."""
        if self.got[-1] == 0 or self.has_left or self.step == len(self.plan.steps):
            return False
        kind = self.plan.steps[self.step].kind
        if kind == "sync":
            return not self.outstanding
        if kind == "act" and len(self.pending) == MOST_PENDING:
            return False
        return kind not in ("act", "poll", "observe") or len(self.outstanding) < MOST_OUTSTANDING

    def need(self, condition, line, reason):
        """A fault at this line unless the condition holds."""
        if not condition:
            raise Fault(line, f"client {self.client}: {reason}")

    def start(self, event):
        """The step that an event does: the script's next one, where it may be done."""
        line = event.line
        self.need(self.in_session, line, "it is in no session")
        self.need(self.got[-1] > 0, line, "its join has no reply yet")
        step, waits = self.next_step()
        kind = "act" if event.kind == "make" else event.kind
        self.need(step is not None and step.kind == kind, line, "the script has another step here")
        self.need(not (waits and self.outstanding), line, "a sync before it still waits")
        return step

    # Events.

    def join(self, event):
        """A client joins at its beginning and directly after each cut, with the next life."""
        self.need(not self.in_session, event.line, "it is in a session already")
        self.need(len(self.asked) < self.plan.sessions, event.line, "it has no session left")
        self.asked.append([])
        self.got.append(0)
        self.in_session = True
        self.need(event.session == self.session, event.line, f"it joins session {self.session}")
        self.ask(Request("join", client=self.client, life=len(self.asked),
                         interest=self.plan.interest))
        for one in self.pending:
            self.ask(Request("submit", number=one.number, action=one.action))

    def make(self, event):
        """An action is made: its number is the next, and it keeps what it gives on the views."""
        step = self.start(event)
        line = event.line
        self.need(len(self.pending) < MOST_PENDING, line, "too many actions are pending")
        self.need(len(self.outstanding) < MOST_OUTSTANDING, line, "too many requests are out")
        self.made += 1
        self.need(event.number == self.made, line, f"the action's number is {self.made}")
        kept = self.expected(step.action)
        text = "none" if kept is None else held_text(zip(step.action.writes, kept))
        self.need(event.text == text, line, f"it keeps {text}")
        self.pending.append(Pending(self.made, step.action, kept))
        self.ask(Request("submit", number=self.made, action=step.action))

    def poll(self, event):
        """A poll is asked."""
        self.start(event)
        self.need(len(self.outstanding) < MOST_OUTSTANDING, event.line, "too many requests are out")
        self.ask(Request("poll"))

    def observe(self, event):
        """The step's objects are asked for, without waiting for news."""
        step = self.start(event)
        line = event.line
        self.need(len(self.outstanding) < MOST_OUTSTANDING, line, "too many requests are out")
        text = objects_text(step.objects)
        self.need(event.text == text, line, f"it observes {text}")
        self.ask(Request("observe", wait=0, objects=step.objects))

    def show(self, event):
        """The views of the step's objects, in its order."""
        step = self.start(event)
        shown = []
        for target in step.objects:
            view = self.view(target)
            shown.append(f"{target}=" + ("?" if view is None else value_text(view)))
        text = "[" + " ".join(shown) + "]"
        self.need(event.text == text, event.line, f"it shows {text}")

    def cut(self, event):
        """The session is given up."""
        self.start(event)
        self.in_session = False

    def quit(self, event):
        """The client gives up for good."""
        self.start(event)
        self.in_session = False
        self.is_done = True

    def leave(self, event):
        """After the last step, once nothing is outstanding."""
        line = event.line
        self.need(self.in_session, line, "it is in no session")
        self.need(self.got[-1] > 0, line, "its join has no reply yet")
        step, _ = self.next_step()
        self.need(step is None and not self.plan.quits, line, "the script has steps left")
        self.need(not self.has_left, line, "it left before")
        self.need(not self.outstanding, line, "replies are still due")
        self.has_left = True
        self.ask(Request("leave"))

    def take(self, event):
        """The next reply of the session is taken, which answers the oldest outstanding request."""
        line = event.line
        self.need(self.in_session and event.session == self.session, line,
                  "it is not in this session")
        entries = self.replies.get(self.session, [])
        place = self.got[-1]
        self.need(place < len(entries), line, "the journal has no such reply")
        entry = entries[place]
        self.need(event.number == entry.number, line,
                  f"the session's next reply is of entry {entry.number}")
        self.need(self.outstanding, line, "no request is outstanding")
        self.need(not (self.played and self.could_go_on()), line,
                  "it takes a reply where its next step could be done")
        request = self.outstanding[0]
        self.need(request_text(request) == request_text(entry.request), line,
                  "the entry has another request than the client asked")
        self.accept(request, entry.reply, line)

    # Replies.

    def accept(self, request, reply, line):
        """A reply that an honest client takes, and what it changes."""
        self.need(reply.kind in ANSWERS[request.kind], line, "the reply doesn't fit the request")
        self.look_at_order(reply, line)
        if reply.kind == "relay":
            self.look_at_items(request, reply, line)
        self.got[-1] += 1
        if reply.commit is not None:
            self.told_commit = reply.commit
        for target, value in reply.head:
            self.hold(target, reply.commit, value, line)
        if reply.kind == "relay":
            self.relay(request, reply, line)
        elif reply.kind == "seen":
            self.see(request, reply, line)
        elif reply.kind in ("dropped", "denied", "settled"):
            front = self.pending.pop(0)
            self.need(front.number == reply.number, line, "it is not of the front pending action")
            self.reconcile()
        elif reply.kind == "bye":
            self.is_done = True

    def look_at_order(self, reply, line):
        """Head and items ascend, items are above the commit, and no commit falls."""
        targets = [target for target, _ in reply.head]
        positions = [position for position, _, _ in reply.items]
        self.need(targets == sorted(set(targets)), line, "the base values don't ascend")
        self.need(positions == sorted(set(positions)), line, "the items don't ascend")
        if positions:
            self.need(positions[0] > reply.commit, line, "an item is not above the commit")
        if reply.last is not None:
            self.need(max([reply.commit, *positions]) <= reply.last < LARGE, line, "it is badly cut")
        if reply.commit is not None:
            self.need(reply.commit >= self.told_commit, line, "the commit fell")

    def look_at_items(self, request, reply, line):
        """A relay has items, and that of a submit ends with the client's own front action."""
        self.need(reply.items, line, "the relay has no items")
        if request.kind == "poll":
            self.need(reply.number == 0, line, "the relay of a poll has a number")
            return
        front = self.pending[0]
        self.need(reply.number == front.number, line, "it is not of the front pending action")
        position, author, number = reply.items[-1]
        self.need((author, number) == (self.client, front.number), line,
                  "the last item is not the client's own")
        self.need(self.history.action(position) == front.action, line,
                  "the last item is another action")

    def need_serial(self, target, position, value, line):
        """A value at a position must be the serial one."""
        self.need(value == self.serial.value(target, position), line,
                  f"object {target} at {position} is not serial")

    def hold(self, target, position, value, line):
        """A value at a position is held."""
        self.need_serial(target, position, value, line)
        self.held.setdefault(target, {})[position] = value

    def read_below(self, target, position, line):
        """The value of an object that the action of a position reads: what the last writer before it left."""
        found = self.below(target, position)
        self.need(found is not None, line, f"object {target} is unknown below {position}")
        self.need(found[0] >= self.history.last_writer(target, position), line,
                  f"object {target} below {position} is an old one")
        return found[1]

    def evaluated(self, items, line):
        """The items are evaluated in order, each below its position; one Done tells the results."""
        results = []
        for position, _, _ in items:
            action = self.history.action(position)
            result = evaluate(action, {target: self.read_below(target, position, line) for target in action.reads})
            for target, value in zip(action.writes, result):
                self.hold(target, position, value, line)
            results.append((position, result))
        if results:
            self.ask(Request("done", results=tuple(results)))
        return results

    def see(self, request, reply, line):
        """All objects that were asked for are held as the cut has them. News reconciles."""
        results = self.evaluated(reply.items, line)
        for target in request.objects:
            self.need_serial(target, reply.last, self.read_below(target, reply.last + 1, line), line)
        if reply.head or results:
            self.reconcile()

    def relay(self, request, reply, line):
        """The items are evaluated, and the own action is settled."""
        results = self.evaluated(reply.items, line)
        if request.kind == "submit":
            front = self.pending.pop(0)
            if front.kept is None or front.kept != results[-1][1]:
                self.reconcile()

    def follow(self, event):
        """One event more."""
        self.need(not self.is_done, event.line, "it is finished already")
        {"join": self.join, "make": self.make, "poll": self.poll, "observe": self.observe, "show": self.show,
         "cut": self.cut, "quit": self.quit, "leave": self.leave, "got": self.take}[event.kind](event)


def check_requests(walk, replies, line):
    """The requests of each session in the journal are a beginning of those that were asked."""
    for place, asked in enumerate(walk.asked):
        entries = replies.get(walk.first + place, [])
        texts = [request_text(request) for request in asked]
        for number, entry in enumerate(entries):
            if number >= len(texts) or request_text(entry.request) != texts[number]:
                raise Fault(entry.line, f"client {walk.client} asked something else here")
    if len(walk.asked) != walk.plan.sessions:
        raise Fault(line, f"client {walk.client} has sessions that it never joined")


def replies_by_session(entries):
    """The entries of each session, its End left out."""
    replies = {}
    for entry in entries:
        if entry.request.kind != "end":
            replies.setdefault(entry.session, []).append(entry)
    return replies


def change_lines(client, number, interest, before, after):
    """The told lines of one event: the changed views of the interest, ascending."""
    def text(view):
        return "?" if view is None else value_text(view)
    return [f"told c{client} {number} {target} {text(old)} -> {text(new)}"
            for target, old, new in zip(interest, before, after) if old != new]


def check_traces(scenario, history, serial, report, played):
    """Each client's trace is one of the journal and of its script, to the end. Answers the told
    lines of all clients. Where the run was played, a client takes a reply only where its next step
    can't be done yet."""
    replies = replies_by_session(report.entries)
    told = []
    for client, events in enumerate(report.traces):
        walk = Walk(client, scenario, history, serial, replies, played)
        end = report.trace_ends[client]
        for number, event in enumerate(events, 1):
            before = [walk.view(target) for target in walk.plan.interest]
            walk.follow(event)
            after = [walk.view(target) for target in walk.plan.interest]
            told += change_lines(client, number, walk.plan.interest, before, after)
        walk.need(walk.is_done, end, "it is not finished")
        check_requests(walk, replies, end)
    return told
