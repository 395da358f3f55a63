"""The printed report as data: each line is read, and what was read must print as that line again.

Written from the document of the report alone. A line that is not canonical is refused: a number
with a leading zero or outside its type, a missing or a doubled space, an action in another text.
"""

import re
from typing import NamedTuple, Optional

from rules.actions import GREATEST, LEAST, TextFault, action_text, read_action

SMALL = 2 ** 16 - 1
LARGE = 2 ** 32 - 1

NATURAL = r"(?:0|[1-9][0-9]{0,19})"
WHOLE = r"(?:0|-?[1-9][0-9]{0,19})"
VALUE = rf"\({WHOLE}(?:,{WHOLE})*\)"
HELD = rf"{NATURAL}={VALUE}"
SHOWN = rf"{NATURAL}=(?:\?|{VALUE})"
RESULT = rf"{NATURAL}:(?:{VALUE})*"
ITEM = rf"{NATURAL}:c{NATURAL}\.{NATURAL}"


def list_of(element):
    """A list in square brackets, with one space between elements."""
    return rf"\[(?:{element}(?: {element})*)?\]"


class Fault(Exception):
    """The first thing that is wrong in a report, and its line, counted from 1."""

    def __init__(self, line, reason):
        super().__init__(f"line {line}: {reason}")
        self.line = line
        self.reason = reason


class Request(NamedTuple):
    """A request as it is printed, with what it says."""

    kind: str
    client: Optional[int] = None
    life: Optional[int] = None
    interest: tuple = ()
    number: Optional[int] = None
    action: object = None
    results: tuple = ()
    objects: tuple = ()
    wait: Optional[int] = None


class Reply(NamedTuple):
    """A reply as it is printed, with what it says; items are (position, author, number)."""

    kind: str
    number: Optional[int] = None
    commit: Optional[int] = None
    head: tuple = ()
    items: tuple = ()
    position: Optional[int] = None
    chain: Optional[int] = None
    far: Optional[int] = None
    code: Optional[int] = None
    detail: Optional[int] = None
    last: Optional[int] = None
    target: Optional[int] = None


class Entry(NamedTuple):
    """An entry of the journal, and the line that it stands on."""

    line: int
    session: int
    request: Request
    reply: Reply
    reply_text: str

    @property
    def number(self):
        """The entry's number, which its line begins with."""
        return self.line - 1


class Event(NamedTuple):
    """A line of a client's part: its words behind the kind are kept as they stand."""

    line: int
    kind: str
    number: Optional[int] = None
    session: Optional[int] = None
    text: str = ""


class Report(NamedTuple):
    """What a report says, part by part."""

    entries: list
    traces: list
    trace_ends: list
    commit: int
    world_line: int
    world: list
    told: list


def value_text(value):
    """A value: its numbers in brackets."""
    return "(" + ",".join(str(number) for number in value) + ")"


def held_text(pairs):
    """A list of objects, each with its value."""
    return "[" + " ".join(f"{target}={value_text(value)}" for target, value in pairs) + "]"


def objects_text(objects):
    """A list of objects."""
    return "[" + " ".join(str(target) for target in objects) + "]"


def items_text(items):
    """A list of items, each with its position, its author and the author's number."""
    return "[" + " ".join(f"{position}:c{author}.{number}" for position, author, number in items) + "]"


def results_text(results):
    """A list of positions, each with its values one after the other."""
    return "[" + " ".join(f"{position}:" + "".join(value_text(value) for value in values)
                          for position, values in results) + "]"


def request_text(request):
    """The text of a request."""
    if request.kind == "join":
        return f"join c{request.client} {request.life} {objects_text(request.interest)}"
    if request.kind == "submit":
        return f"submit {request.number} {action_text(request.action)}"
    if request.kind == "done":
        return f"done {results_text(request.results)}"
    if request.kind == "observe":
        return f"observe {request.wait} {objects_text(request.objects)}"
    return request.kind


def reply_text(reply):
    """The text of a reply."""
    kind = reply.kind
    if kind == "welcome":
        return f"welcome {reply.commit} {held_text(reply.head)}"
    if kind == "relay":
        return f"relay {reply.number} at {reply.commit} {held_text(reply.head)} {items_text(reply.items)}"
    if kind == "seen":
        return f"seen {reply.last} at {reply.commit} {held_text(reply.head)} {items_text(reply.items)}"
    if kind == "dropped":
        return f"dropped {reply.number} chain {reply.chain} far {reply.far}"
    if kind == "denied":
        return f"denied {reply.number} object {reply.target}"
    if kind == "settled":
        return f"settled {reply.number} at {reply.position}"
    if kind == "noted":
        return f"noted {reply.commit}"
    if kind == "refused":
        return f"refused {reply.code} {reply.detail}"
    return kind


def number_of(text, greatest, line):
    """A number of this type."""
    number = int(text)
    if number > greatest:
        raise Fault(line, f"{text} is outside its type")
    return number


def value_of_text(text, line):
    """The numbers of a printed value."""
    numbers = tuple(int(one) for one in text[1:-1].split(","))
    if any(not LEAST <= number <= GREATEST for number in numbers):
        raise Fault(line, f"{text} has a number outside 64 bits")
    return numbers


def held_of(text, line):
    """The pairs of a printed list of held values."""
    pairs = []
    for one in text[1:-1].split():
        target, value = one.split("=")
        pairs.append((number_of(target, SMALL, line), value_of_text(value, line)))
    return tuple(pairs)


def results_of(text, line):
    """The results of a printed Done."""
    results = []
    for one in text[1:-1].split():
        position, values = one.split(":")
        each = tuple(value_of_text(value, line) for value in re.findall(r"\([^)]*\)", values))
        results.append((number_of(position, LARGE, line), each))
    return tuple(results)


def objects_of(text, line):
    """The objects of a printed list."""
    return tuple(number_of(one, SMALL, line) for one in text[1:-1].split())


def items_of(text, line):
    """The items of a printed reply."""
    items = []
    for one in text[1:-1].split():
        position, author, number = re.fullmatch(r"([0-9]+):c([0-9]+)\.([0-9]+)", one).groups()
        items.append((number_of(position, LARGE, line), number_of(author, SMALL, line),
                      number_of(number, LARGE, line)))
    return tuple(items)


def request_of(text, line):
    """The request that a line prints. A `bad` one is read, and no honest run has it."""
    if text in ("poll", "leave", "bad", "end"):
        return Request(text)
    found = re.fullmatch(rf"join c({NATURAL}) ({NATURAL}) ({list_of(NATURAL)})", text)
    if found:
        return Request("join", client=number_of(found[1], SMALL, line),
                       life=number_of(found[2], LARGE, line), interest=objects_of(found[3], line))
    found = re.fullmatch(rf"observe ({NATURAL}) ({list_of(NATURAL)})", text)
    if found:
        return Request("observe", wait=number_of(found[1], SMALL, line), objects=objects_of(found[2], line))
    found = re.fullmatch(rf"done ({list_of(RESULT)})", text)
    if found:
        return Request("done", results=results_of(found[1], line))
    found = re.fullmatch(rf"submit ({NATURAL}) (.*)", text)
    if found is None:
        raise Fault(line, "no request")
    try:
        action = read_action(found[2])
    except TextFault as fault:
        raise Fault(line, f"the action's text is refused: {fault}") from fault
    return Request("submit", number=number_of(found[1], LARGE, line), action=action)


def reply_of(text, line):
    """The reply that a line prints."""
    if text in ("idle", "bye"):
        return Reply(text)
    found = re.fullmatch(rf"welcome ({NATURAL}) ({list_of(HELD)})", text)
    if found:
        return Reply("welcome", commit=number_of(found[1], LARGE, line), head=held_of(found[2], line))
    found = re.fullmatch(
        rf"(relay|seen) ({NATURAL}) at ({NATURAL}) ({list_of(HELD)}) ({list_of(ITEM)})", text)
    if found:
        first = {"relay": "number", "seen": "last"}[found[1]]
        return Reply(found[1], **{first: number_of(found[2], LARGE, line)},
                     commit=number_of(found[3], LARGE, line),
                     head=held_of(found[4], line), items=items_of(found[5], line))
    found = re.fullmatch(rf"dropped ({NATURAL}) chain ({NATURAL}) far ({NATURAL})", text)
    if found:
        number, chain, far = (number_of(one, LARGE, line) for one in found.groups())
        return Reply("dropped", number=number, chain=chain, far=far)
    found = re.fullmatch(rf"denied ({NATURAL}) object ({NATURAL})", text)
    if found:
        return Reply("denied", number=number_of(found[1], LARGE, line),
                     target=number_of(found[2], SMALL, line))
    found = re.fullmatch(rf"settled ({NATURAL}) at ({NATURAL})", text)
    if found:
        number, position = (number_of(one, LARGE, line) for one in found.groups())
        return Reply("settled", number=number, position=position)
    found = re.fullmatch(rf"noted ({NATURAL})", text)
    if found:
        return Reply("noted", commit=number_of(found[1], LARGE, line))
    found = re.fullmatch(rf"refused ({NATURAL}) ({NATURAL})", text)
    if found is None:
        raise Fault(line, "no reply")
    return Reply("refused", code=number_of(found[1], 255, line),
                 detail=number_of(found[2], LARGE, line))


class Lines:
    """The lines of a text, each ended by a line feed."""

    def __init__(self, text):
        self.lines = text.split("\n")
        self.rest = self.lines.pop()
        self.at = 0

    @property
    def number(self):
        """The number of the line at hand, counted from 1."""
        return self.at + 1

    def has_more(self):
        """Whether a whole line is left."""
        return self.at < len(self.lines)

    def peek(self):
        """The line at hand, or an empty text behind the last one."""
        return self.lines[self.at] if self.has_more() else ""

    def take(self):
        """The line at hand, which must be there."""
        if not self.has_more():
            raise Fault(self.number, "the report ends here, or its last line has no line feed")
        self.at += 1
        return self.lines[self.at - 1]

    def match(self, form):
        """The parts of the line at hand, which must have this form."""
        number, line = self.number, self.take()
        found = re.fullmatch(form, line)
        if found is None:
            raise Fault(number, f"not of the form that stands here: {line[:60]!r}")
        return found


def entry_of(lines, expected, most=SMALL):
    """The entry that the line at hand prints, which has this number; `most` is the greatest session."""
    number = lines.number
    found = lines.match(rf"({NATURAL}) s({NATURAL}) (.*)")
    if found[1] != str(expected):
        raise Fault(number, f"the entry is not numbered {expected}")
    parts = found[3].split(" -> ")
    if len(parts) != 2:
        raise Fault(number, "no request and reply")
    request, reply = request_of(parts[0], number), reply_of(parts[1], number)
    if request_text(request) != parts[0] or reply_text(reply) != parts[1]:
        raise Fault(number, "not in the canonical text")
    return Entry(number, number_of(found[2], most, number), request, reply, parts[1])


EVENTS = (
    ("join", rf"join s(?P<session>{NATURAL})"),
    ("make", rf"make (?P<number>{NATURAL}) kept (?P<text>none|{list_of(HELD)})"),
    ("got", rf"got s(?P<session>{NATURAL}) #(?P<number>{NATURAL})"),
    ("show", rf"show (?P<text>{list_of(SHOWN)})"),
    ("observe", rf"observe (?P<text>{list_of(NATURAL)})"),
    ("poll", "poll"), ("leave", "leave"), ("cut", "cut"), ("quit", "quit"),
)


def event_of(lines):
    """The event that the line at hand prints, or None where it prints none."""
    for kind, form in EVENTS:
        found = re.fullmatch(form, lines.peek())
        if found:
            parts = found.groupdict()
            event = Event(lines.number, kind, text=parts.get("text") or "",
                          number=int(parts["number"]) if parts.get("number") else None,
                          session=int(parts["session"]) if parts.get("session") else None)
            lines.take()
            return event
    return None


def read_report(text, clients, objects, watched):
    """The report of a run with so many clients and objects, with told lines where it was watched.
    The whole text must be used up."""
    lines = Lines(text)
    count = int(lines.match(rf"journal ({NATURAL})")[1])
    entries = [entry_of(lines, place + 1) for place in range(count)]
    traces, trace_ends = [], []
    for client in range(clients):
        lines.match(f"client {client}")
        events = []
        while (event := event_of(lines)) is not None:
            events.append(event)
        traces.append(events)
        trace_ends.append(lines.number)
    world_line = lines.number
    commit = int(lines.match(rf"world ({NATURAL})")[1])
    world = []
    for target in range(objects):
        number = lines.number
        found = lines.match(rf"{target}=({VALUE})")
        world.append(value_of_text(found[1], number))
    told = []
    while lines.has_more() and watched:
        told.append((lines.number, lines.take()))
    if lines.has_more() or lines.rest:
        raise Fault(lines.number, "something stands behind the report")
    return Report(entries, traces, trace_ends, commit, world_line, world, told)
