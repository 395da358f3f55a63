"""A server for the simulation of replays, made as a server would be: a queue with marks.

It keeps marks on queued positions, one set of sessions for each object that they were given, a row
for each session and each client, and it finds what a session lacks by one walk down the queue with
a set of objects. The checker (journal.py) decides the same replies by definitions over all entries.
The two share the printed form of requests and replies (report.py) and the action language
(actions.py), and nothing else, so that a mistake in one table of replies shows against the other.
"""

from collections import deque

from rules.actions import fault_of_action
from rules.report import Reply


class Position:
    """A queued action: who made it, where it was sent, and its result once it is known."""

    def __init__(self, author, number, action):
        self.author = author
        self.number = number
        self.action = action
        self.marks = set()
        self.result = None


class Server:
    """The server of one run. `steps` has (session, request, reply) for each request answered."""

    def __init__(self, scenario):
        self.shape = (len(scenario.opening), scenario.attributes)
        self.bound = scenario.bound
        self.reach = scenario.reach
        self.committed = list(scenario.opening)
        self.given = [set() for _ in scenario.opening]
        self.queue = []
        self.commit = 0
        self.state = ["new"] * scenario.sessions
        self.count = [0] * scenario.sessions
        self.client_of = [None] * scenario.sessions
        self.lives = [0] * 32
        self.outcomes = [deque(maxlen=8) for _ in range(32)]
        self.numbers = [1] * 32
        self.steps = []

    def step(self, session, request):
        """Answers a request, and notes it."""
        reply = self.reply(session, request)
        self.steps.append((session, request, reply))
        return reply

    def refuse(self, code, detail=0):
        """A refusal."""
        return Reply("refused", code=code, detail=detail)

    def reply(self, session, request):
        """The reply by the session's state, and then by the request's kind."""
        kind = request.kind
        if kind == "end":
            self.state[session] = "over"
            return Reply("bye")
        if self.state[session] == "over":
            return self.refuse(4)
        if self.count[session] == 1024:
            self.state[session] = "over"
            return self.refuse(9)
        self.count[session] += 1
        if kind == "bad":
            self.state[session] = "over"
            return self.refuse(1)
        if kind == "join":
            return self.join(session, request)
        if self.state[session] == "new":
            return self.refuse(2)
        if kind == "leave":
            self.state[session] = "over"
            return Reply("bye")
        if kind == "done":
            return self.done(session, request.results)
        if kind == "submit":
            return self.submit(session, request)
        if kind == "observe":
            return self.observe(session, request.objects)
        return self.poll(session)

    def join(self, session, request):
        """Welcomes a client, and ends its older session."""
        client, interest = request.client, list(request.interest)
        if self.state[session] == "live":
            return self.refuse(3)
        if client > 31:
            return self.refuse(10)
        if request.life <= self.lives[client]:
            return self.refuse(11, self.lives[client])
        if len(interest) > 64 or interest != sorted(set(interest)) \
                or (interest and interest[-1] >= self.shape[0]):
            return self.refuse(8)
        for other, owner in enumerate(self.client_of):
            if owner == client:
                self.state[other] = "over"
        self.client_of[session] = client
        self.state[session] = "live"
        self.lives[client] = request.life
        for target in interest:
            self.given[target].add(session)
        head = tuple((target, self.committed[target]) for target in interest)
        return Reply("welcome", commit=self.commit, head=head)

    def submit(self, session, request):
        """Repeats a kept outcome, or decides that of the next number."""
        client = self.client_of[session]
        for number, outcome in self.outcomes[client]:
            if number == request.number:
                return self.repeat(session, number, outcome)
        if request.number != self.numbers[client]:
            return self.refuse(5, self.numbers[client])
        cause = fault_of_action(request.action, *self.shape)
        if cause:
            return self.refuse(6, cause)
        self.numbers[client] += 1
        chain, far = self.chain(request.action)
        if chain > self.bound or (self.reach is not None and far > self.reach):
            reply = Reply("dropped", number=request.number, chain=chain, far=far)
            self.outcomes[client].append((request.number, reply))
            return reply
        self.queue.append(Position(client, request.number, request.action))
        self.outcomes[client].append((request.number, len(self.queue)))
        return self.relay(session, request.number, len(self.queue))

    def repeat(self, session, number, outcome):
        """A kept outcome, as it stands by now."""
        if isinstance(outcome, Reply):
            return outcome
        if outcome <= self.commit:
            return Reply("settled", number=number, position=outcome)
        return self.relay(session, number, outcome)

    def chain(self, action):
        """How many queued positions influence an action, and how far the farthest is: one walk
        down the queue with all objects read so far."""
        objects, count, far = set(action.reads), 0, 0
        for queued in reversed(self.queue[self.commit:]):
            if objects & set(queued.action.writes):
                objects |= set(queued.action.reads)
                count += 1
                for mine, other in zip(action.origin, queued.action.origin):
                    far = max(far, mine - other, other - mine)
        return count, far

    def walk(self, session, objects, last):
        """What a session lacks of objects after a position, and the objects that are left: one walk
        down the queue, in which a marked writer takes its objects out of the set."""
        items, objects = [], set(objects)
        for place in range(last, self.commit, -1):
            queued = self.queue[place - 1]
            if not objects & set(queued.action.writes):
                continue
            if session in queued.marks:
                objects -= set(queued.action.writes)
            else:
                objects |= set(queued.action.reads)
                items.append(place)
        return items, objects

    def send(self, session, reply, items, objects):
        """The same reply with these items, and with the values of those objects that the session
        was not given. Both are noted."""
        head = sorted(target for target in objects if session not in self.given[target])
        for place in items:
            self.queue[place - 1].marks.add(session)
        for target in head:
            self.given[target].add(session)
        return reply._replace(
            commit=self.commit, head=tuple((target, self.committed[target]) for target in head),
            items=tuple((place, self.queue[place - 1].author, self.queue[place - 1].number)
                        for place in sorted(items)))

    def relay(self, session, number, position):
        """What a session lacks of a position."""
        items, objects = [], set()
        if session not in self.queue[position - 1].marks:
            items, objects = self.walk(session, self.queue[position - 1].action.reads, position - 1)
            items.append(position)
        return self.send(session, Reply("relay", number=number), items, objects)

    def cut(self, session, objects):
        """The greatest position at which a session lacks at most 33 of these objects' writers, and
        of what they read. What it lacks grows with the position, so that it is found by halves."""
        least, greatest = self.commit, len(self.queue)
        while least < greatest:
            middle = (least + greatest + 1) // 2
            if len(self.walk(session, objects, middle)[0]) > 33:
                greatest = middle - 1
            else:
                least = middle
        return least

    def observe(self, session, objects):
        """Shows objects at the greatest cut."""
        if not 0 < len(objects) < 17 or list(objects) != sorted(set(objects)) \
                or objects[-1] >= self.shape[0]:
            return self.refuse(8)
        last = self.cut(session, objects)
        return self.send(session, Reply("seen", last=last), *self.walk(session, objects, last))

    def done(self, session, results):
        """Notes results, and installs them in order."""
        fine = 0 < len(results) < 34
        before = 0
        for place, values in results:
            fine = fine and before < place <= len(self.queue)
            before = place
            if fine and place > self.commit:
                queued = self.queue[place - 1]
                fine = session in queued.marks and len(values) == len(queued.action.writes) \
                    and all(len(value) == self.shape[1] for value in values)
        if not fine:
            return self.refuse(7)
        for place, values in results:
            if place > self.commit and self.queue[place - 1].result is None:
                self.queue[place - 1].result = values
        while self.commit < len(self.queue) and self.queue[self.commit].result is not None:
            queued = self.queue[self.commit]
            for target, value in zip(queued.action.writes, queued.result):
                self.committed[target] = value
                self.given[target] = set(queued.marks)
            self.commit += 1
        return Reply("noted", commit=self.commit)

    def poll(self, session):
        """Relays the lowest abandoned position."""
        for place, queued in enumerate(self.queue, 1):
            if place > self.commit and queued.result is None \
                    and not any(self.state[mark] == "live" for mark in queued.marks):
                return self.relay(session, 0, place)
        return Reply("idle")
