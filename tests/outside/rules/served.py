"""Judges what `serve` and `join` printed: the journal by its law, and each client by the journal.

A scripted client takes a reply only where its next step can't be done yet. So the replies that the journal has for
its sessions decide all that it did, and with that its told lines.
"""

import re

from rules.actions import Action
from rules.journal import SerialWorld, check_journal, check_outcomes, check_serial_values
from rules.players import Player
from rules.report import NATURAL, SMALL, Entry, Fault, Lines, Request, entry_of, reply_of, request_text

# A refused action is printed as `bad`. In its place stands one that is refused for the same cause in every world.
SET = ("set", 0, 0, ("number", 1))
REFUSED = {4: Action((4096,), (), (0, 0), ()), 7: Action((0,), (), (0, 0), (SET,)),
           8: Action((0,), (0,), (0, 0), (("set", 0, 4, ("number", 1)),))}


def served_entry(lines, number, most=SMALL):
    """The entry that the line at hand prints; its action may be one that was refused. `most` is the greatest session."""
    found = re.fullmatch(rf"{number} s({NATURAL}) submit ({NATURAL}) bad -> (.*)", lines.peek())
    if found is None:
        return entry_of(lines, number, most)
    lines.take()
    reply = reply_of(found[3], number + 1)
    action = REFUSED.get(reply.detail if reply.code == 6 else 4, REFUSED[4])
    request = Request("submit", number=int(found[2]), action=action)
    return Entry(number + 1, int(found[1]), request, reply, found[3])


class Served:
    """What `serve` printed of a scenario: a legal journal, and its commit. Raises Fault where it is none."""

    def __init__(self, plan, text, is_honest=True):
        lines = Lines(text)
        count = int(lines.match(rf"journal ({NATURAL})")[1])
        self.plan = plan
        self.entries = [served_entry(lines, place + 1) for place in range(count)]
        self.commit = int(lines.match(rf"commit ({NATURAL})")[1])
        if lines.has_more() or lines.rest:
            raise Fault(lines.number, "something stands behind the commit")
        self.history = check_journal(plan, self.entries, by_anybody=True)
        if self.commit != self.history.commit:
            raise Fault(count + 2, f"the commit is {self.history.commit}")
        self.serial = SerialWorld(plan.opening, self.history.accepted)
        if is_honest:
            self.check_values()
        pairs = [(one.author, one.number) for one in self.history.accepted]
        if len(set(pairs)) != len(pairs):
            raise Fault(count + 2, "an action was accepted twice")

    def requests(self, session):
        """The texts of a session's requests, its End left out."""
        return [request_text(entry.request) for entry in self.entries
                if entry.session == session and entry.request.kind != "end"]

    def replies(self, session):
        """The texts of the replies to them."""
        return [entry.reply_text for entry in self.entries if entry.session == session and entry.request.kind != "end"]

    def session_of(self, client, life):
        """The session in which this client was welcomed with this life."""
        for entry in self.entries:
            if (entry.request.client, entry.request.life, entry.reply.kind) == (client, life, "welcome"):
                return entry.session
        raise Fault(1, f"client {client} was not welcomed with life {life}")

    def check_values(self):
        """Each value that was told at a position is the serial one, but for results that were refused."""
        taken = [entry for entry in self.entries if entry.reply.kind != "refused"]
        check_serial_values(self.history, self.serial, taken)

    def check_outcomes(self):
        """Each action of each scripted client has an outcome."""
        check_outcomes(self.plan, self.history, len(self.entries) + 2)

    def printed_by(self, client):
        """What the scripted client prints that took the replies of this journal."""
        player, asked, waiting = Player(client, self.plan), {}, {}
        actions = {place: one.action for place, one in enumerate(self.history.accepted, 1)}
        while player.where != "closed":
            more = player.turn()
            if more is None:
                entry = waiting[player.joined].pop(0)
                more = player.take(entry.number, entry.reply, actions)
            if player.joined not in asked:
                session = self.session_of(client, player.joined)
                asked[player.joined] = []
                waiting[player.joined] = [entry for entry in self.entries if entry.session == session]
            asked[player.joined] += map(request_text, more)
        for life, texts in asked.items():
            heard = self.requests(self.session_of(client, life))
            if heard != texts[:len(heard)]:
                raise Fault(1, f"client {client} asked something else in its session {life}")
        return "".join(line + "\n" for line in player.told) + f"made {player.made}\n"
