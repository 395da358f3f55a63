"""The law of a living world's log: its lines are the entries of one legal history, by the world's file.

Over the lists and sets of journal.py. What is known of a session is let go with its End, so that long logs can be judged.

    python3 tests/outside/rules/living.py WORLD FOLDER

prints the first line of a log that is wrong, or what the log comes to; the log may be of a `host` that still runs. The status is 1
where a line is wrong.
"""

import json
import os
import re
import sys
from math import inf

sys.path.insert(0, os.path.dirname(os.path.dirname(os.path.abspath(__file__))))

from rules.journal import History, SerialWorld, check_serial_values
from rules.report import Fault, Lines, Reply, reply_text
from rules.served import served_entry

STEWARD, MOST_OPEN = 65_535, 1024


class World:
    """A world's file."""

    def __init__(self, value):
        self.attributes, self.bound, self.reach = value["attrs"], value["bound"], value.get("reach")
        self.opening = [tuple(each) for each in value["objects"]]
        self.authority = value.get("results") == "authority"
        self.rights = value.get("rights")

    def may_write(self, client, target):
        """Whether one of the rights has both."""
        return self.rights is None or any(each["clients"][0] <= client <= each["clients"][1]
                                          and each["objects"][0] <= target <= each["objects"][1] for each in self.rights)


def world_in(path):
    """The world of a file."""
    with open(path, encoding="utf-8") as file:
        return World(json.load(file))


class LivingHistory(History):
    """The history of a living world, of which the sessions are open ones."""

    most_requests, most_clients, farthest_life = inf, 65_536, 1000

    def __init__(self, world):
        super().__init__(world.attributes, world.opening, world.bound, world.reach)
        self.world, self.next_session = world, 0

    def enter(self, number, request):
        """The reply that is due to a request of this session."""
        if number not in self.sessions:
            if number != self.next_session or len(self.sessions) >= MOST_OPEN:
                raise ValueError(f"session {number} is not open, and not the next one")
            self.next_session += 1
        reply = self.answer(number, request)
        if request.kind == "end":
            del self.sessions[number]
        return reply

    def denied(self, client, action):
        return next((target for target in action.writes if not self.world.may_write(client, target)), None)

    def counts(self, session):
        return not self.world.authority or session.client == STEWARD

    def answer_poll(self, session):
        """To the steward the lowest position without a result that was not sent to it."""
        if session.client != STEWARD:
            return super().answer_poll(session)
        for position in range(self.commit + 1, len(self.accepted) + 1):
            if position not in self.results and position not in session.sent:
                return self.send(session, self.relay(session, 0, position))
        return Reply("idle")


def log_text(folder):
    """The text of all segments of a log: of each what stands before its first zero byte, without a line that was cut off."""
    names = sorted(name for name in os.listdir(folder) if re.fullmatch(r"journal-[0-9]{20}\.txt", name))
    text = b""
    for name in names:
        with open(os.path.join(folder, name), "rb") as file:
            text += file.read().split(b"\0")[0]
    return text[:text.rfind(b"\n") + 1].decode()


def entries_of(text):
    """The entries of a log, one by one."""
    lines = Lines(text)
    while lines.has_more():
        yield served_entry(lines, lines.number, inf)


def check_log(world, text, is_honest=True, each=lambda entry: None, is_serial=True):
    """The history of a log in which each reply is the one due, and the serial world. All values that were told are serial; where not all
    clients are honest, of those that were reported only the results that count. Where liars' results count nothing is asked of values, and
    `is_serial` is False. `each` is called with each entry."""
    history, entries = LivingHistory(world), []
    for entry in entries_of(text):
        try:
            due = reply_text(history.enter(entry.session, entry.request))
        except ValueError as fault:
            raise Fault(entry.line, str(fault)) from fault
        if due != entry.reply_text:
            raise Fault(entry.line, f"the reply due is: {due}")
        each(entry)
        if not is_honest and entry.request.results and not history.counts(history.sessions[entry.session]):
            entry = entry._replace(request=entry.request._replace(results=()))
        if entry.reply.kind != "refused":
            entries.append(entry)
    serial = SerialWorld(world.opening, history.accepted)
    if is_serial:
        check_serial_values(history, serial, entries)
    pairs = {(one.author, one.number) for one in history.accepted}
    if len(pairs) != len(history.accepted):
        raise Fault(0, "an action was accepted twice")
    return history, serial


def main(words):
    """The status of these words."""
    if len(words) != 2:
        print("words: WORLD FOLDER", file=sys.stderr)
        return 2
    world, text = world_in(words[0]), log_text(words[1])
    try:
        history, _ = check_log(world, text, not world.authority)
    except Fault as fault:
        print(f"{fault}: {text.splitlines()[fault.line - 1] if fault.line else ''}")
        return 1
    print(f"{text.count(chr(10))} entries, {history.next_session} sessions, {len(history.accepted)} actions, commit {history.commit}")
    return 0


if __name__ == "__main__":
    sys.exit(main(sys.argv[1:]))
