"""The journal's law: the reply of each entry is the one that the entries before it decide.

Written from the documents of the protocol alone, over whole lists and sets, and not by the marks
and bits that a server keeps. The simulation of replays has a server of its own (server.py), made
the other way; it shares nothing with this module but the printed form of requests and replies and
the action language.
"""

from bisect import bisect_left, insort
from math import inf
from typing import NamedTuple

from rules.actions import evaluate, fault_of_action
from rules.report import Fault, Reply, reply_text

KEPT_OUTCOMES = 8
REQUESTS = 1024
CLIENTS = 32
MOST_RESULTS = 33
MOST_INTEREST = 64
MOST_OBSERVED = 16

MALFORMED, NOT_JOINED, ALREADY_JOINED, ENDED, BAD_NUMBER, BAD_ACTION = 1, 2, 3, 4, 5, 6
BAD_DONE, BAD_INTEREST, SPENT, BAD_CLIENT, STALE = 7, 8, 9, 10, 11


class Accepted(NamedTuple):
    """An accepted action, which stands at a position."""

    author: int
    number: int
    action: object


def refused(code, detail=0):
    """A refusal; the detail is 0 where none is named."""
    return Reply("refused", code=code, detail=detail)


def distance(first, second):
    """The greater of the distances on the two axes."""
    return max(abs(first[0] - second[0]), abs(first[1] - second[1]))


class Session:
    """What the entries of one session say of it."""

    def __init__(self):
        self.client = None
        self.is_over = False
        self.requests = 0
        self.ends = 0
        self.sent = set()
        self.given = {}

    @property
    def is_live(self):
        """From its Welcome until it is over."""
        return self.client is not None and not self.is_over

    def is_given(self, target, first, last):
        """Whether the session was given the object at a position or commit of this stretch."""
        return any(first <= place <= last for place in self.given.get(target, ()))

    def give(self, target, place):
        """The session is given the object at this position or commit."""
        self.given.setdefault(target, set()).add(place)


class History:
    """A beginning of a journal, as the lists and sets that the definitions speak of."""

    most_requests, most_clients, farthest_life = REQUESTS, CLIENTS, inf

    def __init__(self, attributes, opening, bound, reach):
        self.attributes = attributes
        self.objects = len(opening)
        self.bound = bound
        self.reach = reach
        self.accepted = []
        self.writers = {}
        self.results = {}
        self.commit = 0
        self.committed = list(opening)
        self.sessions = {}
        self.lives = {}
        self.outcomes = {}

    def session(self, number):
        """What is known of this session."""
        return self.sessions.setdefault(number, Session())

    def action(self, position):
        """The action that was accepted at this position."""
        return self.accepted[position - 1].action

    def last_writer(self, target, below):
        """The greatest position below this one whose action writes the object, else 0."""
        writers = self.writers.get(target, [])
        place = bisect_left(writers, below)
        return writers[place - 1] if place else 0

    def missing_writers(self, session, targets, below):
        """The last writers of these objects below a position that are above the commit and were
        not sent."""
        writers = (self.last_writer(target, below) for target in targets)
        return [one for one in writers if one > self.commit and one not in session.sent]

    def closed(self, session, positions):
        """The least set that has these positions and the missing writers of what its members read."""
        needed, waiting = set(), list(positions)
        while waiting:
            one = waiting.pop()
            if one not in needed:
                needed.add(one)
                waiting += self.missing_writers(session, self.action(one).reads, one)
        return sorted(needed)

    def lacking(self, session, position):
        """What the session lacks of a position: nothing where it was sent."""
        return [] if position in session.sent else self.closed(session, [position])

    def lacking_of(self, session, objects, last):
        """What the session lacks of objects as they are after the first actions: what it would lack
        of an action that reads them right behind these, but for this action."""
        return self.closed(session, self.missing_writers(session, objects, last + 1))

    def base_values(self, session, positions, *more):
        """The committed values of what these positions read as committed, other than those that
        the session was given since their last write; `more` has other readers' positions and reads."""
        wanted = set()
        for position, reads in [*((one, self.action(one).reads) for one in positions), *more]:
            for target in reads:
                writer = self.last_writer(target, position)
                if writer <= self.commit and not session.is_given(target, writer, self.commit):
                    wanted.add(target)
        return tuple((target, self.committed[target]) for target in sorted(wanted))

    def influence(self, action):
        """The positions above the commit that influence a new action."""
        below = len(self.accepted) + 1
        found = set()
        waiting = [self.last_writer(target, below) for target in action.reads]
        while waiting:
            one = waiting.pop()
            if one <= self.commit or one in found:
                continue
            found.add(one)
            waiting += [self.last_writer(target, one) for target in self.action(one).reads]
        return found

    def orphans(self):
        """The positions above the commit without a result whose sessions are all over."""
        for position in range(self.commit + 1, len(self.accepted) + 1):
            if position in self.results:
                continue
            if all(one.is_over for one in self.sessions.values() if position in one.sent):
                yield position

    def next_number(self, client):
        """One more than the outcomes that the client has."""
        return 1 + len(self.outcomes.get(client, []))

    def items(self, positions):
        """The items of these positions."""
        return tuple((one, self.accepted[one - 1].author, self.accepted[one - 1].number)
                     for one in positions)

    def relay(self, session, number, position):
        """The relay of a position to a session, by the commit and the marks before it."""
        positions = self.lacking(session, position)
        return Reply("relay", number=number, commit=self.commit,
                     head=self.base_values(session, positions), items=self.items(positions))

    def is_bad_done(self, session, results):
        """Whether a list of results is refused; those at or below the commit are not looked at."""
        positions = [position for position, _ in results]
        if not 1 <= len(results) <= MOST_RESULTS:
            return True
        if any(first >= second for first, second in zip(positions, positions[1:])):
            return True
        if positions[0] == 0 or positions[-1] > len(self.accepted):
            return True
        for position, values in results:
            if position <= self.commit:
                continue
            if position not in session.sent:
                return True
            if len(values) != len(self.action(position).writes):
                return True
            if any(len(value) != self.attributes for value in values):
                return True
        return False

    def answer(self, number, request):
        """The reply to a request of this session; the first case that applies decides. What it
        changes is done at once."""
        session = self.session(number)
        if request.kind == "end":
            session.is_over = True
            session.ends += 1
            return Reply("bye")
        session.requests += 1
        if session.is_over:
            return refused(ENDED)
        if session.requests > self.most_requests:
            session.is_over = True
            return refused(SPENT)
        if request.kind == "bad":
            session.is_over = True
            return refused(MALFORMED)
        if request.kind == "join":
            return self.answer_join(session, request)
        if not session.is_live:
            return refused(NOT_JOINED)
        if request.kind == "leave":
            session.is_over = True
            return Reply("bye")
        if request.kind == "submit":
            return self.answer_submit(session, request)
        if request.kind == "done":
            return self.answer_done(session, request)
        if request.kind == "observe":
            return self.answer_observe(session, request.objects)
        return self.answer_poll(session)

    def answer_poll(self, session):
        """The lowest orphan, if there is one."""
        for position in self.orphans():
            return self.send(session, self.relay(session, 0, position))
        return Reply("idle")

    def answer_join(self, session, request):
        """A welcome with the whole interest, where life and interest may stand."""
        interest = request.interest
        if session.is_live:
            return refused(ALREADY_JOINED)
        if request.client >= self.most_clients:
            return refused(BAD_CLIENT)
        last = self.lives.get(request.client, 0)
        if not last < request.life <= last + self.farthest_life:
            return refused(STALE, last)
        if len(interest) > MOST_INTEREST or any(one >= self.objects for one in interest):
            return refused(BAD_INTEREST)
        if any(first >= second for first, second in zip(interest, interest[1:])):
            return refused(BAD_INTEREST)
        for other in self.sessions.values():
            if other.is_live and other.client == request.client:
                other.is_over = True
        session.client = request.client
        self.lives[request.client] = request.life
        head = tuple((target, self.committed[target]) for target in interest)
        return self.send(session, Reply("welcome", commit=self.commit, head=head))

    def answer_submit(self, session, request):
        """The kept outcome again, or that of the client's next action."""
        outcomes = self.outcomes.setdefault(session.client, [])
        upcoming = len(outcomes) + 1
        if upcoming - KEPT_OUTCOMES <= request.number < upcoming and request.number >= 1:
            kept = outcomes[request.number - 1]
            if kept[0] == "dropped":
                return Reply("dropped", number=request.number, chain=kept[1], far=kept[2])
            if kept[0] == "denied":
                return Reply("denied", number=request.number, target=kept[1])
            if kept[1] <= self.commit:
                return Reply("settled", number=request.number, position=kept[1])
            return self.send(session, self.relay(session, request.number, kept[1]))
        if request.number != upcoming:
            return refused(BAD_NUMBER, upcoming)
        cause = fault_of_action(request.action, self.objects, self.attributes)
        if cause is not None:
            return refused(BAD_ACTION, cause)
        target = self.denied(session.client, request.action)
        if target is not None:
            outcomes.append(("denied", target))
            return Reply("denied", number=request.number, target=target)
        influence = self.influence(request.action)
        chain = len(influence)
        far = max((distance(request.action.origin, self.action(one).origin) for one in influence),
                  default=0)
        if chain > self.bound or (self.reach is not None and far > self.reach):
            outcomes.append(("dropped", chain, far))
            return Reply("dropped", number=request.number, chain=chain, far=far)
        self.accepted.append(Accepted(session.client, request.number, request.action))
        position = len(self.accepted)
        for target in request.action.writes:
            insort(self.writers.setdefault(target, []), position)
        outcomes.append(("accepted", position))
        return self.send(session, self.relay(session, request.number, position))

    def denied(self, client, action):
        """The lowest object that the client may not write, of those that the action writes. A scenario has none."""
        return None

    def counts(self, session):
        """Whether results that the session reports count."""
        return True

    def answer_observe(self, session, objects):
        """The objects at the greatest position, from the commit on, at which the session lacks no
        more than a Done may report."""
        if not 1 <= len(objects) <= MOST_OBSERVED or any(one >= self.objects for one in objects):
            return refused(BAD_INTEREST)
        if any(first >= second for first, second in zip(objects, objects[1:])):
            return refused(BAD_INTEREST)
        last = max(place for place in range(self.commit, len(self.accepted) + 1)
                   if len(self.lacking_of(session, objects, place)) <= MOST_RESULTS)
        positions = self.lacking_of(session, objects, last)
        head = self.base_values(session, positions, (last + 1, objects))
        return self.send(session, Reply("seen", last=last, commit=self.commit, head=head,
                                        items=self.items(positions)))

    def answer_done(self, session, request):
        """The commit after the first results of positions were noted and put in order."""
        if self.is_bad_done(session, request.results):
            return refused(BAD_DONE)
        for position, values in request.results:
            if position > self.commit and self.counts(session):
                self.results.setdefault(position, values)
        while self.commit + 1 in self.results:
            self.commit += 1
            for target, value in zip(self.action(self.commit).writes, self.results[self.commit]):
                self.committed[target] = value
        return Reply("noted", commit=self.commit)

    def send(self, session, reply):
        """The same reply, whose positions are sent and whose base values are given from now on."""
        for target, _ in reply.head:
            session.give(target, reply.commit)
        for position, _, _ in reply.items:
            session.sent.add(position)
            for target in self.action(position).writes:
                session.give(target, position)
        return reply


class SerialWorld:
    """The one world that executes the accepted actions in order of position."""

    def __init__(self, opening, accepted):
        self.values = {target: [(0, value)] for target, value in enumerate(opening)}
        for place, one in enumerate(accepted):
            present = {target: self.values[target][-1][1] for target in one.action.reads}
            for target, value in zip(one.action.writes, evaluate(one.action, present)):
                self.values[target].append((place + 1, value))

    def value(self, target, position):
        """The object's value after the actions up to this position."""
        kept = self.values[target]
        place = bisect_left(kept, (position + 1,))
        return kept[place - 1][1]


def check_journal(scenario, entries, by_anybody=False):
    """The history of a journal in which each reply is the one due. The entries are of the
    scenario's sessions, and each session has exactly one End, which is its last entry. Malformed
    payloads stand only where anybody may connect."""
    history = History(scenario.attributes, scenario.opening, scenario.bound, scenario.reach)
    last = 0
    for entry in entries:
        last = entry.line
        if entry.session >= scenario.sessions:
            raise Fault(entry.line, f"the scenario has no session {entry.session}")
        if history.session(entry.session).ends:
            raise Fault(entry.line, f"session {entry.session} had its end before")
        if entry.request.kind == "bad" and not by_anybody:
            raise Fault(entry.line, "no client of a scenario sends a malformed payload")
        due = reply_text(history.answer(entry.session, entry.request))
        if due != entry.reply_text:
            raise Fault(entry.line, f"the reply due is: {due}")
    for number in range(scenario.sessions):
        if history.session(number).ends != 1:
            raise Fault(last + 1, f"session {number} has no end")
    return history


def check_serial_values(history, serial, entries):
    """Each value that the journal prints at a position is the serial one: base values at their
    commit, and reported results at their position."""
    for entry in entries:
        for target, value in entry.reply.head:
            if value != serial.value(target, entry.reply.commit):
                raise Fault(entry.line, f"object {target} is not serial at {entry.reply.commit}")
        for position, values in entry.request.results:
            if not 1 <= position <= len(history.accepted):
                raise Fault(entry.line, f"a result of position {position}, which has no action")
            writes = history.action(position).writes
            serially = tuple(serial.value(target, position) for target in writes)
            if values != serially:
                raise Fault(entry.line, f"the result of {position} is not the serial one")


def check_outcomes(scenario, history, line):
    """No action was accepted twice, and each action of a client that doesn't quit has an outcome."""
    pairs = [(one.author, one.number) for one in history.accepted]
    if len(set(pairs)) != len(pairs):
        raise Fault(line, "an action was accepted twice")
    for client, plan in enumerate(scenario.plans):
        outcomes, acts = len(history.outcomes.get(client, [])), len(plan.acts)
        if outcomes > acts or (outcomes < acts and not plan.quits):
            raise Fault(line, f"client {client} has {outcomes} outcomes of {acts} actions")
