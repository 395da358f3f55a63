"""Servers and players that each get one rule wrong, for the simulation.

A checker of reports is worth something only where it refuses what these print. Each class breaks
one rule and keeps all others; a run in which the rule doesn't matter may print a right report.
"""

from rules.actions import Action, evaluate
from rules.players import Player
from rules.report import Reply, Request
from rules.server import Position, Server


class RelaysTheWholeQueue(Server):
    """Relays all that is above the commit, also what influences nothing."""

    def relay(self, session, number, position):
        reply = super().relay(session, number, position)
        more = [place for place in range(self.commit + 1, position)
                if session not in self.queue[place - 1].marks]
        if not reply.items or not more:
            return reply
        for place in more:
            self.queue[place - 1].marks.add(session)
        places = sorted({item[0] for item in reply.items} | set(more))
        return reply._replace(items=tuple(
            (place, self.queue[place - 1].author, self.queue[place - 1].number) for place in places))


class RelaysAgain(Server):
    """Forgets what it sent."""

    def relay(self, session, number, position):
        for queued in self.queue:
            queued.marks.discard(session)
        return super().relay(session, number, position)


class FullHeads(Server):
    """Sends base values also where the session has them."""

    def relay(self, session, number, position):
        for given in self.given:
            given.discard(session)
        return super().relay(session, number, position)


class StaleHeads(Server):
    """Takes a session to know an object also after somebody else wrote it."""

    def done(self, session, results):
        before = [set(given) for given in self.given]
        reply = super().done(session, results)
        for given, old in zip(self.given, before):
            given |= old
        return reply


def take_over(server, session, client, sets):
    """Adds a client's new session to each set that has an older one of its."""
    older = {other for other, owner in enumerate(server.client_of) if owner == client}
    for sessions in sets:
        if sessions & older:
            sessions.add(session)


class MarksByClient(Server):
    """Takes what it sent to a client's older session as sent."""

    def join(self, session, request):
        reply = super().join(session, request)
        if reply.kind == "welcome":
            take_over(self, session, request.client, [queued.marks for queued in self.queue])
        return reply


class GivesByClient(Server):
    """Takes what it gave to a client's older session as given."""

    def join(self, session, request):
        reply = super().join(session, request)
        if reply.kind == "welcome":
            take_over(self, session, request.client, self.given)
        return reply


class InstallsAsTheyCome(Server):
    """Puts a result among the committed values before those of the positions below it."""

    def done(self, session, results):
        reply = super().done(session, results)
        for place, values in results:
            if reply.kind == "noted" and place > self.commit:
                for target, value in zip(self.queue[place - 1].action.writes, values):
                    self.committed[target] = value
        return reply


class NotesTheCommitBefore(Server):
    """Answers the commit from before the results."""

    def done(self, session, results):
        commit = self.commit
        reply = super().done(session, results)
        return reply._replace(commit=commit) if reply.kind == "noted" else reply


class DropsAnyChain(Server):
    """Drops whatever is influenced at all."""

    def chain(self, action):
        chain, far = super().chain(action)
        return (chain + self.bound if chain else 0), far


class NeverDrops(Server):
    """Looks at neither bound nor reach."""

    def __init__(self, scenario):
        super().__init__(scenario)
        self.bound, self.reach = 10 ** 9, None


class LooksAtNoReach(Server):
    """Looks at the bound alone."""

    def __init__(self, scenario):
        super().__init__(scenario)
        self.reach = None


class CountsTheActionItself(Server):
    """Counts the new action as a part of its own chain."""

    def chain(self, action):
        chain, far = super().chain(action)
        return chain + 1, far


class AddsTheAxes(Server):
    """Measures distances by the sum of the axes."""

    def chain(self, action):
        chain, far = super().chain(action)
        return chain, far + (1 if far else 0)


class AcceptsAgain(Server):
    """Accepts a repeated action once more."""

    def repeat(self, session, number, outcome):
        if isinstance(outcome, Reply):
            return outcome
        old = self.queue[outcome - 1]
        self.queue.append(Position(old.author, number, old.action))
        return self.relay(session, number, len(self.queue))


class SettlesEarly(Server):
    """Answers settled also for what is above the commit."""

    def repeat(self, session, number, outcome):
        if isinstance(outcome, Reply):
            return outcome
        return Reply("settled", number=number, position=outcome)


class NeverSettles(Server):
    """Has no kept outcomes for what is committed: the drop is told in its place."""

    def repeat(self, session, number, outcome):
        reply = super().repeat(session, number, outcome)
        if reply.kind == "settled":
            return Reply("dropped", number=number, chain=self.bound + 1, far=0)
        return reply


class ForgetsTheAbandoned(Server):
    """Has nothing for a poll."""

    def poll(self, session):
        return Reply("idle")


class RelaysTheLastAbandoned(Server):
    """Relays the highest abandoned position to a poll."""

    def poll(self, session):
        for place in range(len(self.queue), self.commit, -1):
            queued = self.queue[place - 1]
            if queued.result is None and all(self.state[one] == "over" for one in queued.marks):
                return self.relay(session, 0, place)
        return Reply("idle")


class LetsOlderSessionsLive(Server):
    """Answers a client's older session after it joined in another."""

    def join(self, session, request):
        states = list(self.state)
        reply = super().join(session, request)
        if reply.kind == "welcome":
            self.state = states
            self.state[session] = "live"
        return reply


class WelcomesWithTheOpening(Server):
    """Gives a session that joins late the opening values."""

    def __init__(self, scenario):
        super().__init__(scenario)
        self.opening = scenario.opening

    def join(self, session, request):
        reply = super().join(session, request)
        return reply._replace(head=tuple((one, self.opening[one]) for one, _ in reply.head))


class AcceptsObserves(Server):
    """Gives what is observed a position."""

    def observe(self, session, objects):
        action = Action(tuple(objects), (), (0, 0), ())
        self.queue.append(Position(self.client_of[session], 0, action))
        self.queue[-1].marks.add(session)
        reply = super().observe(session, objects)
        return reply._replace(last=reply.last - 1) if reply.last == len(self.queue) else reply


class ForgetsWhatWasSeen(Server):
    """Marks nothing that it shows."""

    def observe(self, session, objects):
        marks = [set(queued.marks) for queued in self.queue]
        reply = super().observe(session, objects)
        for queued, old in zip(self.queue, marks):
            queued.marks = old
        return reply


class GivesNothingToObservers(Server):
    """Forgets which values it shows."""

    def observe(self, session, objects):
        given = [set(sessions) for sessions in self.given]
        reply = super().observe(session, objects)
        self.given = given
        return reply


class ShowsTheCommittedAlone(Server):
    """Shows no action that is not committed."""

    def cut(self, session, objects):
        return self.commit


class ShowsAnOlderCut(Server):
    """Shows a cut that is one position too old."""

    def cut(self, session, objects):
        return max(self.commit, super().cut(session, objects) - 1)


class ShowsAllAtOnce(Server):
    """Shows the last position, however many items that takes, and notes all their results."""

    def cut(self, session, objects):
        return len(self.queue)

    def done(self, session, results):
        for first in range(33, len(results), 33):
            super().done(session, results[first - 33:first])
        return super().done(session, results[(len(results) - 1) // 33 * 33:])


class ShowsWritersAlone(Server):
    """Leaves out what the writers of observed objects read."""

    def observe(self, session, objects):
        reply = super().observe(session, objects)
        items = tuple(item for item in reply.items
                      if set(objects) & set(self.queue[item[0] - 1].action.writes))
        return reply._replace(items=items)


class RelaysToObservers(Server):
    """Takes an observe for a poll where an action is abandoned."""

    def observe(self, session, objects):
        reply = self.poll(session)
        return super().observe(session, objects) if reply.kind == "idle" else reply


class ReadsTheLatest(Player):
    """Evaluates a late older action on the latest values."""

    def evaluated(self, items, actions):
        kept = self.kept
        self.kept = {target: [(0, held[-1][1])] + held for target, held in kept.items()}
        last = {target: held[-1][0] for target, held in kept.items()}
        for target, held in self.kept.items():
            self.kept[target] = [(place, held[-1][1]) for place, _ in held if place <= last[target]]
        return super().evaluated(items, actions)


class RedoesTheFirst(Player):
    """Computes only the first remaining action again."""

    def redo(self):
        if self.pending:
            number, action, _ = self.pending[0]
            self.pending[0] = (number, action, self.guess(action, []))


class NeverRedoes(Player):
    """Keeps what it first expected."""

    def redo(self):
        pass


class RedoesAlways(Player):
    """Computes all again at each reply, also where nothing differed."""

    def note(self, line):
        if line.startswith("got "):
            self.redo()
        super().note(line)


class ForgetsAtJoin(Player):
    """Begins each session without values."""

    def join(self):
        self.kept = {}
        return super().join()


class SeesThroughUnknown(Player):
    """Takes an earlier view where a later pending action keeps none."""

    def overlaid(self, pending):
        return super().overlaid([one for one in pending if one[2] is not None])


class TellsItsOwnResultAlone(Player):
    """Sends no results of other clients' actions."""

    def relay(self, request, reply, actions):
        asked = super().relay(request, reply, actions)
        if len(asked[0].results) < 2:
            return asked
        self.waiting.pop()
        return [self.ask(Request("done", results=asked[0].results[-1:]))]


class TellsWrongResults(Player):
    """Sends results in which one number is greater by one."""

    def relay(self, request, reply, actions):
        asked = super().relay(request, reply, actions)
        results = list(asked[0].results)
        position, values = results[-1]
        if not values:
            return asked
        values = ((values[0][0] ^ 1,) + values[0][1:],) + values[1:]
        results[-1] = (position, values)
        self.waiting.pop()
        return [self.ask(Request("done", results=tuple(results)))]


class WaitsForNothing(Player):
    """Passes by a sync with replies due."""

    def can_take_turn(self):
        if self.where == "inside" and self.steps and self.steps[0].kind == "sync":
            return True
        return super().can_take_turn()


class HasNinePending(Player):
    """Makes a ninth action while eight are pending."""

    def can_take_turn(self):
        if self.where == "inside" and self.steps and self.steps[0].kind == "act":
            return len(self.pending) < 9 and len(self.waiting) < 16
        return super().can_take_turn()


class HasSeventeenOut(Player):
    """Polls while sixteen requests are outstanding."""

    def can_take_turn(self):
        if self.where == "inside" and self.steps and self.steps[0].kind == "poll":
            return len(self.waiting) < 17
        return super().can_take_turn()


class SubmitsBackwards(Player):
    """Submits what is pending in the wrong order when it joins again."""

    def join(self):
        asked = super().join()
        turned = asked[:1] + asked[:0:-1]
        self.waiting.clear()
        self.waiting.extend(turned)
        return turned


class SubmitsNothingAgain(Player):
    """Forgets what is pending when it joins again."""

    def join(self):
        self.pending = []
        return super().join()


class LeavesEarly(Player):
    """Leaves while replies are due."""

    def can_take_turn(self):
        if self.where == "inside" and not self.steps:
            return True
        return super().can_take_turn()


class StartsBeforeItsWelcome(Player):
    """Does its steps before its join was answered."""

    def join(self):
        asked = super().join()
        self.where = "inside"
        return asked


class SkipsAPoll(Player):
    """Doesn't poll."""

    def __init__(self, client, scenario):
        super().__init__(client, scenario)
        self.steps = type(self.steps)(step for step in self.steps if step.kind != "poll")


class SkipsAnObserve(Player):
    """Doesn't observe."""

    def __init__(self, client, scenario):
        super().__init__(client, scenario)
        self.steps = type(self.steps)(step for step in self.steps if step.kind != "observe")


class ObservesWithSeventeenOut(Player):
    """Observes while sixteen requests are outstanding."""

    def can_take_turn(self):
        if self.where == "inside" and self.steps and self.steps[0].kind == "observe":
            return len(self.waiting) < 17
        return super().can_take_turn()


class AlwaysWaits(Player):
    """Asks to be told of news where its step doesn't."""

    def ask(self, request):
        return super().ask(request._replace(wait=100) if request.kind == "observe" else request)


class ReportsNothingSeen(Player):
    """Sends no results of what it saw."""

    def see(self, request, reply, actions):
        if super().see(request, reply, actions):
            self.waiting.pop()
        return []


class ReportsWhereNothingWasSeen(Player):
    """Sends a Done also for what was seen without items: of a position that nobody looks at any more."""

    def see(self, request, reply, actions):
        asked = super().see(request, reply, actions)
        if asked or not 0 < reply.last <= reply.commit:
            return asked
        return [self.ask(Request("done", results=((reply.last, ()),)))]


class KeepsItsGuess(Player):
    """Computes nothing again by what it saw."""

    def see(self, request, reply, actions):
        pending = list(self.pending)
        asked = super().see(request, reply, actions)
        self.pending = pending
        return asked


class RedoesByItemsAlone(Player):
    """Computes nothing again where it saw a value and no item."""

    def see(self, request, reply, actions):
        pending = list(self.pending)
        asked = super().see(request, reply, actions)
        self.pending = self.pending if reply.items else pending
        return asked


class RedoesWithoutNews(Player):
    """Computes all again where it saw nothing new."""

    def see(self, request, reply, actions):
        asked = super().see(request, reply, actions)
        self.redo()
        return asked


class ShowsAscending(Player):
    """Shows objects in order of their numbers."""

    def __init__(self, client, scenario):
        super().__init__(client, scenario)
        self.steps = type(self.steps)(step._replace(objects=tuple(sorted(step.objects)))
                                      for step in self.steps)


class KeepsTheInput(Player):
    """Keeps the values that an action reads in place of those that it gives."""

    def guess(self, action, pending):
        views = self.overlaid(pending)
        if any(views.get(target) is None for target in action.reads):
            return None
        evaluate(action, views)
        return tuple(views[target] for target in action.writes)


class TellsTwice(Player):
    """Tells each change again."""

    def note(self, line):
        before = len(self.told)
        super().note(line)
        self.told += self.told[before:]


class TellsShowsAlone(Player):
    """Tells changes only where the client looks."""

    def note(self, line):
        if line.startswith("show"):
            super().note(line)
        else:
            self.lines.append(line)


def subclasses(kind):
    """The wrong kinds, in the order of this file."""
    return kind.__subclasses__()
