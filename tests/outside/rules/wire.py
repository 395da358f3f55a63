"""Frames and messages as a server has them: requests are read, replies are written.

Written from docs/WIRE.md alone, and apart from the Python client, so that a mistake of one in the bytes shows
against the other. Messages are those of report.py, and actions those of actions.py, where nodes name objects. A
slot that stands behind the reads has no object: it is read as the negative number `-1 - slot`.
"""

import struct

from rules.actions import FARTHEST, NOT_WRITABLE, Action, fault_of_action, nodes_of
from rules.report import Request

MOST = 65_536
CAUSES = ("Short", "Kind", "Count", "Order", "Mask", "Code", "Large", "Deep", "Rest")
BAD_SLOT, BAD_ORIGIN = 6, 11

OPERATORS = {0x22: "+", 0x23: "-", 0x24: "*", 0x25: "/", 0x26: "%", 0x27: "min", 0x28: "max"}
SIGNS = {0x30: "==", 0x31: "<", 0x32: "<="}
WORDS = {0x33: "and", 0x34: "or"}
EXPRESSIONS = {0x20, 0x21, *OPERATORS}
CONDITIONS = {0x35, *SIGNS, *WORDS}


class NoRequest(Exception):
    """The payload is no request: the place of the first refused field, and the cause."""

    def __init__(self, place, cause):
        super().__init__(f"{place} {cause}")
        self.place = place
        self.cause = cause


class TooLong(Exception):
    """A frame's length is above the limit; nothing behind it can be read."""


class Frames:
    """Cuts a stream into payloads, however it comes."""

    def __init__(self):
        self.rest = b""

    def feed(self, piece):
        """More bytes came."""
        self.rest += piece

    def next(self):
        """The next payload, or None where more must come."""
        if len(self.rest) < 4:
            return None
        length = struct.unpack(">I", self.rest[:4])[0]
        if length > MOST:
            raise TooLong(length)
        if len(self.rest) < 4 + length:
            return None
        payload, self.rest = self.rest[4:4 + length], self.rest[4 + length:]
        return payload


def frame(payload):
    """A payload with its length before it."""
    return struct.pack(">I", len(payload)) + payload


class Reading:
    """A payload that is read from left to right."""

    def __init__(self, payload):
        self.payload = payload
        self.place = 0
        self.started = 0
        self.reads = ()
        self.nodes = 0

    def refuse(self, cause):
        """The field that was begun last is refused."""
        raise NoRequest(self.started, cause)

    def number(self, size, signed=False):
        """A number of so many bytes."""
        self.started = self.place
        if len(self.payload) - self.place < size:
            self.refuse("Short")
        self.place += size
        return int.from_bytes(self.payload[self.started:self.place], "big", signed=signed)

    def count(self, least, most):
        """A count of one byte, in this range."""
        count = self.number(1)
        if not least <= count <= most:
            self.refuse("Count")
        return count

    def objects(self, least, most):
        """A count, and so many objects, ascending."""
        found = []
        for _ in range(self.count(least, most)):
            found.append(self.number(2))
            if found[1:] and found[-2] >= found[-1]:
                self.refuse("Order")
        return tuple(found)

    def action(self):
        """An action, with objects in place of slots."""
        self.reads = self.objects(1, 16)
        mask = self.number(2)
        if mask >= 1 << len(self.reads):
            self.refuse("Mask")
        origin = (self.number(4, signed=True), self.number(4, signed=True))
        body = self.block(0)
        writes = tuple(target for slot, target in enumerate(self.reads) if mask & 1 << slot)
        return Action(self.reads, writes, origin, body)

    def block(self, above):
        """A list of statements."""
        return tuple(self.statement(above) for _ in range(self.number(1)))

    def begin(self, allowed, above):
        """The byte of a node."""
        code = self.number(1)
        if code not in allowed:
            self.refuse("Kind")
        if self.nodes == 64:
            self.refuse("Large")
        if above >= 8:
            self.refuse("Deep")
        self.nodes += 1
        return code

    def name(self):
        """A slot's object, and an attribute."""
        slot = self.number(1)
        target = self.reads[slot] if slot < len(self.reads) else -1 - slot
        return target, self.number(1)

    def statement(self, above):
        """A `set` or an `if`."""
        if self.begin({0x10, 0x11}, above) == 0x10:
            return ("set", *self.name(), self.expression(above + 1))
        return ("if", self.condition(above + 1), self.block(above + 1), self.block(above + 1))

    def expression(self, above):
        """A number, an attribute, or two expressions joined."""
        code = self.begin(EXPRESSIONS, above)
        if code == 0x20:
            return ("number", self.number(8, signed=True))
        if code == 0x21:
            return ("ref", *self.name())
        return (OPERATORS[code], self.expression(above + 1), self.expression(above + 1))

    def condition(self, above):
        """A comparison, two conditions joined, or `not`."""
        code = self.begin(CONDITIONS, above)
        if code in SIGNS:
            return ("compare", SIGNS[code], self.expression(above + 1), self.expression(above + 1))
        if code in WORDS:
            return (WORDS[code], self.condition(above + 1), self.condition(above + 1))
        return ("not", self.condition(above + 1))

    def value(self):
        """The attributes of an object."""
        return tuple(self.number(8, signed=True) for _ in range(self.count(1, 4)))

    def result(self):
        """A position, and its values."""
        return self.number(4), tuple(self.value() for _ in range(self.count(0, 16)))

    def request(self):
        """The request that the whole payload is."""
        kind = self.number(1)
        if kind == 1:
            request = Request("join", client=self.number(2), life=self.number(4),
                              interest=self.objects(0, 64))
        elif kind == 3:
            request = Request("done", results=tuple(self.result() for _ in range(self.count(1, 33))))
        elif kind == 6:
            request = Request("submit", number=self.number(4), action=self.action())
        elif kind == 7:
            request = Request("observe", objects=self.objects(1, 16), wait=self.number(2))
        elif kind in (4, 5):
            request = Request("poll" if kind == 4 else "leave")
        else:
            self.refuse("Kind")
        if self.place < len(self.payload):
            raise NoRequest(self.place, "Rest")
        return request


def request_of(payload):
    """The request that a payload is."""
    return Reading(payload).request()


def cause_of(action, objects, attributes):
    """The number of the first cause for which a world refuses an action that came over the wire, or None."""
    cause = fault_of_action(action, objects, attributes)
    if cause is not None and cause < BAD_SLOT:
        return cause
    if any(node[0] in ("set", "ref") and node[1] < 0 for node in nodes_of(action.body)):
        return BAD_SLOT
    if cause is None and any(abs(number) > FARTHEST for number in action.origin):
        return BAD_ORIGIN
    assert cause is None or cause >= NOT_WRITABLE
    return cause


def expression_bytes(node, slots):
    """The bytes of an expression."""
    if node[0] == "number":
        return b"\x20" + struct.pack(">q", node[1])
    if node[0] == "ref":
        return bytes([0x21, slots[node[1]], node[2]])
    code = {operator: code for code, operator in OPERATORS.items()}[node[0]]
    return bytes([code]) + expression_bytes(node[1], slots) + expression_bytes(node[2], slots)


def condition_bytes(node, slots):
    """The bytes of a condition."""
    if node[0] == "compare":
        code = {sign: code for code, sign in SIGNS.items()}[node[1]]
        return bytes([code]) + expression_bytes(node[2], slots) + expression_bytes(node[3], slots)
    if node[0] == "not":
        return b"\x35" + condition_bytes(node[1], slots)
    code = 0x33 if node[0] == "and" else 0x34
    return bytes([code]) + condition_bytes(node[1], slots) + condition_bytes(node[2], slots)


def block_bytes(statements, slots):
    """The bytes of a list of statements."""
    parts = [bytes([len(statements)])]
    for node in statements:
        if node[0] == "set":
            parts.append(bytes([0x10, slots[node[1]], node[2]]) + expression_bytes(node[3], slots))
        else:
            parts.append(b"\x11" + condition_bytes(node[1], slots) + block_bytes(node[2], slots)
                         + block_bytes(node[3], slots))
    return b"".join(parts)


def action_bytes(action):
    """The bytes of an action."""
    slots = {target: slot for slot, target in enumerate(action.reads)}
    mask = sum(2 ** slots[target] for target in action.writes)
    return (bytes([len(action.reads)]) + b"".join(struct.pack(">H", target) for target in action.reads)
            + struct.pack(">Hii", mask, *action.origin) + block_bytes(action.body, slots))


def head_bytes(head):
    """The bytes of a head."""
    return struct.pack(">H", len(head)) + b"".join(
        struct.pack(">HB", target, len(value)) + struct.pack(f">{len(value)}q", *value) for target, value in head)


def item_bytes(items, action_at):
    """The bytes of a list of items."""
    return bytes([len(items)]) + b"".join(
        struct.pack(">IHI", *item) + action_bytes(action_at(item[0])) for item in items)


def reply_bytes(reply, action_at):
    """The payload of a reply; `action_at` gives the action at a position."""
    if reply.kind == "welcome":
        return b"\x81" + struct.pack(">I", reply.commit) + head_bytes(reply.head)
    if reply.kind in ("relay", "seen"):
        kind, first = (b"\x89", reply.number) if reply.kind == "relay" else (b"\x8b", reply.last)
        return (kind + struct.pack(">II", first, reply.commit) + head_bytes(reply.head)
                + item_bytes(reply.items, action_at))
    if reply.kind == "denied":
        return b"\x8c" + struct.pack(">IH", reply.number, reply.target)
    if reply.kind == "dropped":
        return b"\x8a" + struct.pack(">III", reply.number, reply.chain, reply.far)
    if reply.kind == "settled":
        return b"\x84" + struct.pack(">II", reply.number, reply.position)
    if reply.kind == "noted":
        return b"\x85" + struct.pack(">I", reply.commit)
    if reply.kind == "refused":
        return b"\x87" + struct.pack(">BI", reply.code, reply.detail)
    return {"idle": b"\x86", "bye": b"\x88"}[reply.kind]
