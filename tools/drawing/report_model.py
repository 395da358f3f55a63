"""What a printed report says, as the numbers that its picture needs.

The report is that of `replay` and `play`, with told lines or without them, or what `serve` prints:
the journal and its commit. `docs/REPORT.md` has the lines. Nothing is judged here: whether a report
is right is for a checker. executed.py does the actions anew, waits.py finds who was waited for.

Time is counted in entries of the journal. An entry stands at its number. What a client does has no
time in the report, so it stands as early as it may: right behind the reply that it took last.
"""

import re

from executed import execute, is_look
from waits import waits_of

ENTRY = re.compile(r"([0-9]+) s([0-9]+) (.*) -> (.*)")
JOIN = re.compile(r"join c([0-9]+) ([0-9]+) \[(.*)\]")
SUBMIT = re.compile(r"submit ([0-9]+) (.*)")
DONE = re.compile(r"done \[(.*)\]")
WELCOME = re.compile(r"welcome ([0-9]+) \[(.*)\]")
RELAY = re.compile(r"relay ([0-9]+) at ([0-9]+) \[(.*)\] \[(.*)\]")
SEEN = re.compile(r"seen ([0-9]+) at ([0-9]+) \[(.*)\] \[(.*)\]")
DROPPED = re.compile(r"dropped ([0-9]+) chain ([0-9]+) far ([0-9]+)")
DENIED = re.compile(r"denied ([0-9]+) ([0-9]+)")
SETTLED = re.compile(r"settled ([0-9]+) at ([0-9]+)")
NOTED = re.compile(r"noted ([0-9]+)")
ACTION = re.compile(r"reads ([0-9 ]+?) writes ([0-9 ]*?)(?: at (-?[0-9]+) (-?[0-9]+))? ?\{.*\}")
EVENT = re.compile(r"join s([0-9]+)|make ([0-9]+) kept (none|\[.*\])|got s([0-9]+) #([0-9]+)"
                   r"|show \[(.*)\]|observe \[.*\]|poll|leave|cut|quit")
HELD = re.compile(r"([0-9]+)=(\([^)]*\)|\?)")
RESULT = re.compile(r"([0-9]+):((?:\([^)]*\))*)")


class NoReport(Exception):
    """A line that stands in no report, counted from 1; of None the report ends before it."""

    def __init__(self, line, text):
        super().__init__(f"line {line} is missing" if text is None
                         else f"line {line} is none of a report: {text[:60]}")


def numbers_in(text):
    """The numbers of a list with spaces between."""
    return [int(word) for word in text.split()]


def held_in(text):
    """The objects and values of a printed list; a value is a text such as `(3,10)`."""
    return [[int(each), value] for each, value in HELD.findall(text)]


class Action:
    """One action of a client, under the client's own number for it."""

    def __init__(self, client, number):
        self.client = client
        self.number = number
        self.text = ""
        self.reads, self.writes, self.origin = [], [], None
        self.made = None        # when it was made
        self.kept = None        # what its client expected: a list, or "none"; None where no trace is
        self.answered = None    # the entry that accepted or dropped it
        self.session = None     # the session of that entry
        self.position = 0       # 0 where it is not accepted
        self.chain = self.far = None    # of one that was dropped for its chain or its distance
        self.denied = None      # the object that its client may not write
        self.commit = 0         # the commit before that entry
        self.sources = []       # what it reads: the object, and the position of its last writer or 0
        self.sent = []          # the positions that its relay brought
        self.took = None        # when its client took the answer
        self.repeats = []       # further entries that ask for it again
        self.done = None        # the entry of the first result
        self.done_by = None     # the client that reported it
        self.committed = None   # the entry from which on it is in the world
        self.result = None      # the values of what it writes, as texts
        self.computed = None    # the same, by doing the action anew

    def is_corrected(self):
        """Whether its client expected something else than what came out."""
        if self.result is None or self.kept is None or self.kept == "none":
            return False
        return [value for _, value in self.kept] != self.result


class Model:
    """A whole report."""

    def __init__(self):
        self.entries = 0
        self.clients = []       # the numbers of the clients
        self.owner = {}         # the client of each session
        self.actions = {}       # by client and number
        self.accepted = []      # by position, from 1
        self.writers = {}       # for each object the positions that write it
        self.commits = []       # pairs of an entry and the commit from it on
        self.sessions = []      # stays of clients
        self.marks = []         # other things that are drawn: time, lane, kind, text
        self.world = []
        self.commit = 0
        self.told = 0
        self.opening = {}       # values of objects before any action wrote them
        self.heard = {}         # for each commit, values that replies told of it
        self.sent = {}          # for each position, the entries and sessions that were sent it
        self.asked_by = {}      # for each session, its entries
        self.over = {}          # for each session, the entry that ended it
        self.quiet = []         # entries that brought nothing: observes without news, polls of nothing, and looks
        self.waits = []
        self.commit_at = 0

    def action(self, client, number):
        """The action of this client and number."""
        key = (client, number)
        if key not in self.actions:
            self.actions[key] = Action(client, number)
        return self.actions[key]

    # ---- The journal

    def take_entry(self, entry, session, request, reply):
        """An entry, in its order."""
        joined = JOIN.fullmatch(request)
        if joined and reply.startswith("welcome"):
            self.owner[session] = int(joined[1])
            self.sessions.append({"session": session, "client": int(joined[1]), "from": entry,
                                  "to": None, "life": int(joined[2]), "how": ""})
        self.asked_by.setdefault(session, []).append(entry)
        submitted, done = SUBMIT.fullmatch(request), DONE.fullmatch(request)
        relayed, seen = RELAY.fullmatch(reply), SEEN.fullmatch(reply)
        for item in (relayed or seen)[4].split() if relayed or seen else ():
            self.sent.setdefault(int(item.split(":")[0]), []).append((entry, session))
        if submitted and session in self.owner:
            self.take_submit(entry, session, int(submitted[1]), submitted[2], reply)
        elif request == "poll" and session in self.owner and relayed:
            self.marks.append([entry, self.owner[session], "adopt", relayed[4]])
        elif seen and session in self.owner:
            self.marks.append([entry, self.owner[session], "news" if seen[3] or seen[4] else "same", seen[1]])
        if reply == "idle" or seen and not (seen[3] or seen[4]):
            self.quiet.append(entry)
        if done and NOTED.fullmatch(reply):
            self.take_done(entry, session, done[1])
        if reply.startswith("refused"):
            self.marks.append([entry, self.owner.get(session, -1), "refused", f"{request} -> {reply}"])
        if request in ("leave", "end"):
            self.over.setdefault(session, entry)
            self.close_session(entry, session, request)
        self.take_values(reply)
        noted = NOTED.fullmatch(reply)
        if noted and int(noted[1]) > self.commit_at:
            self.rise(entry, int(noted[1]))

    def take_submit(self, entry, session, number, text, reply):
        """A request for an action, and what it was answered."""
        action = self.action(self.owner[session], number)
        relayed, dropped, denied = RELAY.fullmatch(reply), DROPPED.fullmatch(reply), DENIED.fullmatch(reply)
        if not (relayed or dropped or denied or SETTLED.fullmatch(reply)):
            action.repeats.append(entry)
            return
        if action.answered is not None:
            action.repeats.append(entry)
            return
        self.read_text(action, text)
        action.answered, action.session, action.commit = entry, session, self.commit_at
        action.sources = [[each, self.writers.get(each, [0])[-1]] for each in action.reads]
        if relayed:
            action.sent = [int(item.split(":")[0]) for item in relayed[4].split()]
            self.accepted.append(action)
            action.position = len(self.accepted)
            for each in action.writes:
                self.writers.setdefault(each, []).append(action.position)
        elif dropped:
            action.chain, action.far = int(dropped[2]), int(dropped[3])
        elif denied:
            action.denied = int(denied[2])
        if is_look(action):
            self.quiet.append(entry)

    @staticmethod
    def read_text(action, text):
        """The lists of an action's text."""
        action.text = text
        found = ACTION.fullmatch(text)
        if found:
            action.reads, action.writes = numbers_in(found[1]), numbers_in(found[2])
            if found[3] is not None:
                action.origin = [int(found[3]), int(found[4])]

    def take_done(self, entry, session, results):
        """Results that were taken: the first one of each position counts."""
        found = RESULT.findall(results)
        if found and all(self.looks_at(int(position)) for position, _ in found):
            self.quiet.append(entry)
        for position, values in found:
            if 0 < int(position) <= len(self.accepted):
                action = self.accepted[int(position) - 1]
                if action.done is None:
                    action.done, action.done_by = entry, self.owner.get(session)
                    action.result = re.findall(r"\([^)]*\)", values)

    def looks_at(self, position):
        """Whether the action at this position is a look."""
        return 0 < position <= len(self.accepted) and is_look(self.accepted[position - 1])

    def take_values(self, reply):
        """Opening values, which stand in replies before any action wrote their objects."""
        found = WELCOME.fullmatch(reply) or RELAY.fullmatch(reply) or SEEN.fullmatch(reply)
        if found:
            commit, head = (found[1], found[2]) if len(found.groups()) == 2 else (found[2], found[3])
            for each, value in held_in(head):
                self.heard.setdefault(int(commit), []).append((each, value))
                if not any(place <= int(commit) for place in self.writers.get(each, [])[:1]):
                    self.opening.setdefault(each, value)

    def rise(self, entry, commit):
        """The commit rises to this position."""
        for action in self.accepted[self.commit_at:commit]:
            action.committed = entry
        self.commit_at = commit
        self.commits.append([entry, commit])

    def close_session(self, entry, session, how):
        """The end of a stay, as the server sees it."""
        for stay in self.sessions:
            if stay["session"] == session and stay["to"] is None:
                stay["to"], stay["how"] = entry, how

    # ---- The traces

    def take_trace(self, client, events):
        """All that a client did. Each event stands behind the reply that was taken last."""
        self.clients.append(client)
        bursts, times = {}, []
        at = 0
        for text in events:
            found = EVENT.fullmatch(text)
            at = int(found[5]) if found[5] else at
            bursts.setdefault(at, []).append(text)
            times.append((at, len(bursts[at])))
        for text, (at, place) in zip(events, times):
            self.take_event(client, text, at + place / (len(bursts[at]) + 1))

    def take_event(self, client, text, time):
        """One line of a trace."""
        found = EVENT.fullmatch(text)
        word = text.split()[0]
        if word == "make":
            action = self.action(client, int(found[2]))
            action.made = time
            action.kept = found[3] if found[3] == "none" else held_in(found[3])
        elif word == "got":
            self.take_got(client, int(found[5]), time)
        elif word == "join":
            for stay in self.sessions:
                if stay["session"] == int(found[1]):
                    stay["from"] = time
            self.marks.append([time, client, "join", f"s{found[1]}"])
        elif word == "show":
            self.marks.append([time, client, "show", found[6]])
        else:
            self.marks.append([time, client, word, ""])
            if word in ("cut", "quit", "leave"):
                self.leave(client, word, time)

    def take_got(self, client, entry, time):
        """A reply was taken. Where it answers a Submit, the action is pending no more."""
        kind, session, number = self.asked[entry]
        if kind == "submit" and self.owner.get(session) == client:
            action = self.action(client, number)
            if action.took is None:
                action.took = time

    def leave(self, client, how, time):
        """A client ended its stay."""
        own = [stay for stay in self.sessions if stay["client"] == client and stay["from"] <= time]
        if own:
            own[-1]["to"], own[-1]["how"] = time, how

    # ---- The whole

    def take_lines(self, lines):
        """All lines of a report."""
        head = re.fullmatch(r"journal ([0-9]+)", lines[0]) if lines else None
        if head is None:
            raise NoReport(1, lines[0] if lines else None)
        self.entries = int(head[1])
        self.asked = {}
        for place in range(1, self.entries + 1):
            found = ENTRY.fullmatch(lines[place]) if place < len(lines) else None
            if found is None or int(found[1]) != place:
                raise NoReport(place + 1, lines[place] if place < len(lines) else None)
            session, request = int(found[2]), found[3]
            submitted = SUBMIT.fullmatch(request)
            self.asked[place] = (request.split()[0], session, int(submitted[1]) if submitted else 0)
            self.take_entry(place, session, request, found[4])
        self.take_rest(lines, self.entries + 1)
        self.finish()

    def take_rest(self, lines, at):
        """The traces and the world, or the commit alone."""
        while at < len(lines) and re.fullmatch(r"client [0-9]+", lines[at]):
            start = at + 1
            at = start
            while at < len(lines) and EVENT.fullmatch(lines[at]):
                at += 1
            self.take_trace(int(lines[start - 1].split()[1]), lines[start:at])
        found = re.fullmatch(r"(?:world|commit) ([0-9]+)", lines[at]) if at < len(lines) else None
        if found is None:
            raise NoReport(at + 1, lines[at] if at < len(lines) else None)
        self.commit = int(found[1])
        at += 1
        while at < len(lines) and HELD.fullmatch(lines[at]):
            self.world += [HELD.fullmatch(lines[at])[2]]
            at += 1
        while at < len(lines) and lines[at].startswith("told "):
            self.told += 1
            at += 1
        if at < len(lines):
            raise NoReport(at + 1, lines[at])

    def finish(self):
        """Fills what only the whole tells."""
        if not self.clients:
            self.mark_stays()
        self.clients = sorted(set(self.clients) | set(self.owner.values()))
        for action in self.actions.values():
            if action.made is None:
                action.made = (action.answered or 1) - 0.5
        for stay in self.sessions:
            if stay["to"] is None:
                stay["to"] = self.entries + 1
        for each, value in enumerate(self.world):
            if each not in self.writers:
                self.opening.setdefault(each, value)
        execute(self.accepted, self.opening, self.heard)
        self.waits = waits_of(self)

    def mark_stays(self):
        """Where the report has no traces: where clients joined again, and where a connection ended with no leave."""
        for stay in self.sessions:
            if stay["life"] > 1:
                self.marks.append([stay["from"], stay["client"], "join", f"s{stay['session']}"])
            if stay["how"] == "end":
                self.marks.append([stay["to"], stay["client"], "gone", ""])

    def counts(self):
        """The numbers at the head of the page."""
        actions = list(self.actions.values())
        lives = {}
        for stay in self.sessions:
            lives[stay["client"]] = lives.get(stay["client"], 0) + 1
        return {
            "clients": len(self.clients), "sessions": len(self.owner), "entries": self.entries,
            "made": len(actions), "accepted": len(self.accepted),
            "dropped": sum(1 for each in actions if each.chain is not None),
            "denied": sum(1 for each in actions if each.denied is not None),
            "looks": sum(1 for each in actions if is_look(each)),
            "commit": self.commit,
            "corrected": sum(1 for each in actions if each.is_corrected()),
            "unguessed": sum(1 for each in actions if each.kept == "none"),
            "rejoined": sum(count - 1 for count in lives.values()),
            "refused": sum(1 for each in self.marks if each[2] == "refused"),
            "observed": sum(1 for each in self.marks if each[2] in ("news", "same")),
        }

    def chain_of(self, action):
        """The unfinished positions that influence an action, through last writers."""
        found, left = set(), [place for _, place in action.sources]
        while left:
            place = left.pop()
            if place > action.commit and place not in found:
                found.add(place)
                left += [each for _, each in self.accepted[place - 1].sources]
        return sorted(found)

    def as_data(self):
        """The numbers for the page's script. Texts that repeat stand once."""
        texts = {}
        rows = []
        for action in sorted(self.actions.values(), key=lambda each: (each.made, each.client)):
            rows.append({
                "c": action.client, "n": action.number, "t": texts.setdefault(action.text, len(texts)),
                "w": action.writes, "f": action.sources, "m": round(action.made, 4), "k": action.kept,
                "a": action.answered, "p": action.position, "s": action.session,
                "d": None if action.chain is None else [action.chain, action.far], "z": action.denied,
                "l": is_look(action), "u": action.computed,
                "b": action.commit, "x": action.sent,
                "g": None if action.took is None else round(action.took, 4),
                "o": action.done, "y": action.done_by, "e": action.committed, "v": action.result,
                "q": action.repeats, "r": action.is_corrected(),
            })
        return {
            "counts": self.counts(), "clients": self.clients, "texts": list(texts), "actions": rows,
            "commits": self.commits, "sessions": self.sessions,
            "marks": [[round(mark[0], 4)] + mark[1:] for mark in self.marks],
            "world": self.world, "opening": self.opening, "quiet": self.quiet,
            "waits": [each.as_data() for each in self.waits],
        }


def model_of(text, opening=None):
    """The model of a report's text, with the opening values of its scenario where they are given."""
    model = Model()
    model.opening = dict(opening or {})
    lines = text.split("\n")
    model.take_lines(lines[:-1] if lines[-1] == "" else lines)
    return model
