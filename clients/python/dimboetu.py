"""A client of a Dimboetu server: one file, the standard library, each rule from docs/WIRE.md. One thread uses it:

    client = Client(number=0, objects=4, attributes=2, interest=(0, 3), on_change=print,
                    connect=lambda: socket.create_connection(("127.0.0.1", 4000)))
    client.join()
    gold = obj(3).attr(0)
    client.act(action(gold.set(gold + 1), when(gold > 9, [obj(0).attr(1).set(gold * 2)])))
    client.leave()
"""

import math
import random
import re
import select
import struct
import time
from collections import deque, namedtuple
from operator import add, and_, eq, le, lt, mul, not_, or_, sub
from types import SimpleNamespace

LEAST, GREATEST, FARTHEST, MOST_PAYLOAD = -2 ** 63, 2 ** 63 - 1, 1_000_000, 65_536
MOST_PENDING, MOST_OUTSTANDING, MOST_REQUESTS, MOST_OBSERVED = 8, 16, 1024, 16
SHORT, KIND, COUNT, ORDER, MASK, CODE, LARGE, DEEP, REST = range(1, 10)
OPERATIONS = {
    "+": add, "-": sub, "*": mul,
    "/": lambda left, right: abs(left) // abs(right) * (1 if (left < 0) == (right < 0) else -1),
    "%": lambda left, right: GREATEST + 1 if (left, right) == (LEAST, -1) else
    abs(left) % abs(right) * (-1 if left < 0 else 1),
    "min": min, "max": max, "==": eq, "<": lt, "<=": le, "and": and_, "or": or_, "not": not_}
KINDS = {"statement": ("set", "if"), "condition": ("==", "<", "<=", "and", "or", "not"),
         "expression": ("number", "get", "+", "-", "*", "/", "%", "min", "max")}
# A node is a tuple: its kind, and its fields. Here stand each kind's byte and the forms of its fields.
NODES = {
    "set": (0x10, ("byte", "byte", "expression")), "if": (0x11, ("condition", "list", "list")),
    "number": (0x20, ("wide",)), "get": (0x21, ("byte", "byte")), "not": (0x35, ("condition",)),
    "and": (0x33, ("condition",) * 2), "or": (0x34, ("condition",) * 2), **{
        kind: (byte, ("expression",) * 2)
        for kind, byte in zip(OPERATIONS, (*range(0x22, 0x29), *range(0x30, 0x33)))}}
NODE_OF_BYTE = {byte: kind for kind, (byte, _) in NODES.items()}
REPLIES = {
    0x81: ("welcome", ("commit", "head")), 0x89: ("relay", ("number", "commit", "head", "items")),
    0x8a: ("dropped", ("number", "chain", "far")), 0x8b: ("seen", ("last", "commit", "head", "items")),
    0x8c: ("denied", ("number", "object")), 0x84: ("settled", ("number", "position")),
    0x85: ("noted", ("commit",)), 0x86: ("idle", ()), 0x87: ("refused", ("code", "detail")), 0x88: ("bye", ())}
REFUSALS = ("malformed", "not joined", "already joined", "over", "wrong sequence", "bad action", "bad results", "bad interest",
            "too many requests", "no such client", "old life", "full")
FITS = {"join": "welcome", "submit": "relay dropped denied settled", "number": "", "done": "noted", "poll": "relay idle",
        "observe": "seen", "leave": "bye"}
ACTIVE = ("joining", "joined", "lost")


class Fault(Exception):
    """Nothing was done (`outside` a session, `text PLACE CAUSE`, `action N`, `objects`, `full`, `busy`, `spent`), or a reply
    is refused: `malformed PLACE CAUSE`, `toolong N`, `unasked`, `wrongkind`, `badorder`, `baditem`, `missing POSITION
    OBJECT`. `word` is the first of these. Where the reply was a refusal it has its `code`, `detail` and `name`, and all three
    as `refused`; that of a text its `place` and `cause`."""
    code = detail = name = place = cause = refused = None

    def __init__(self, text, **more):
        super().__init__(text)
        self.word, self.text = text.split(" ")[0], text
        self.__dict__.update(more)

    def __str__(self):
        return self.text + (f": refused {self.code} {self.detail}, {self.name}" if self.code else "")


class Term:
    """An expression (+ - * / % .min() .max()) or a condition (== != < <= > >= & | ~). `/` cuts towards zero."""
    def __init__(self, kind, *fields):
        self.node = (kind, *fields)

    def set(self, value):
        """The statement that sets this attribute."""
        if self.node[0] != "get":
            raise TypeError(f"only an attribute can be set, as obj(3).attr(0): {said_of(self)} can't")
        return ("set", *self.node[1:], node_of(value))

    def __bool__(self):
        raise TypeError("no truth value: write & | ~ for and, or, not; .min .max; and two comparisons for a < b < c")


def obj(number):
    """The object of this number, as in `obj(3).attr(0) + 1`."""
    return SimpleNamespace(attr=lambda attribute: Term("get", number, attribute))


def node_of(value):
    """The node of a term, or of a whole number."""
    if isinstance(value, Term):
        return value.node
    if type(value) is not int or not LEAST <= value <= GREATEST:
        raise TypeError(f"{said_of(value)} stands where a term or a whole number of 64 bits belongs")
    return ("number", value)


def number(value):
    """A number as a term, as in `number(5).min(gold)`."""
    return Term(*node_of(value))


def said_of(part):
    """What stands there, in words."""
    node = part.node if isinstance(part, Term) else part
    if not isinstance(node, tuple) or not node or not isinstance(node[0], str) or node[0] not in NODES:
        return repr(part)
    kind = next(name for name, kinds in KINDS.items() if node[0] in kinds)
    return {"get": "an attribute", "number": repr(node[-1])}.get(node[0], f"the {kind} `{node[0]}`")


def statements_of(parts):
    """Statements, and those of lists among them, in order."""
    for part in parts:
        if isinstance(part, tuple) and part and isinstance(part[0], str):
            yield part
        elif hasattr(part, "__iter__") and not isinstance(part, (str, dict)):
            yield from statements_of(part)
        else:
            raise TypeError(f"{said_of(part)} stands where a statement belongs, as gold.set(5) or when(gold > 5, [..])")


for _name, _kind in zip("add sub mul truediv mod min max eq lt le and or".split(), OPERATIONS):
    setattr(Term, _name if _name in ("min", "max") else f"__{_name}__",
            lambda left, right, kind=_kind: Term(kind, left.node, node_of(right)))
for _name, _kind in zip("radd rsub rmul rtruediv rmod gt ge".split(), "+ - * / % < <=".split()):
    setattr(Term, f"__{_name}__", lambda right, left, kind=_kind: Term(kind, node_of(left), right.node))
Term.__invert__, Term.__ne__ = lambda term: Term("not", term.node), lambda left, right: ~(left == right)


def when(condition, then, other=()):
    """The statement that does those of `then` where the condition holds, else those of `other`."""
    if not isinstance(condition, Term) or condition.node[0] not in KINDS["condition"]:
        raise TypeError(f"{said_of(condition)} stands where a condition belongs, as gold > 5")
    return ("if", condition.node, *(tuple(statements_of((part,))) for part in (then, other)))


def action(*statements, reads=(), writes=(), at=(0, 0)):
    """The action that reads all objects which these statements name and writes those that they set, or more. They may stand
    in a list."""
    statements = tuple(statements_of(statements))
    for name, part in (("reads", reads), ("writes", writes), ("at", at)):
        if not hasattr(part, "__len__") or any(type(one) is not int for one in part):
            raise TypeError(f"{name}={part!r}: a list of whole numbers belongs there")
    named = [node for _, node in nodes_of(statements) if node[0] in ("set", "get")]
    written = {node[1] for node in named if node[0] == "set"} | set(writes)
    slots = tuple(sorted({node[1] for node in named} | written | set(reads)))

    def slotted(part):
        if part and part[0] in ("set", "get"):
            part = (part[0], slots.index(part[1]), *part[2:])
        return tuple(slotted(one) if isinstance(one, tuple) else one for one in part)

    return Action(slots, sum(1 << slots.index(one) for one in written), tuple(at), slotted(statements))


def nodes_of(nodes, above=0, allowed="statement"):
    """These nodes and all under them, each with the number of nodes above it. Raises where one may not stand so."""
    for node in nodes:
        if node[0] not in KINDS[allowed]:
            raise TypeError(f"{said_of(node)} stands where a{'n' * (allowed[0] == 'e')} {allowed} belongs")
        yield above, node
        for field, part in zip(NODES[node[0]][1], node[1:]):
            if field == "list":
                yield from nodes_of(part, above + 1)
            elif field in KINDS:
                yield from nodes_of((part,), above + 1, field)
            elif type(part) is not int or not (LEAST if field == "wide" else 0) <= part <= GREATEST:
                raise TypeError(f"{part!r} stands where a whole number{' of 64 bits' * (field == 'wide')} belongs")


def run(node, values):
    """Runs a statement on one list of attributes for each slot, or answers what an expression or condition gives."""
    kind, *fields = node
    if kind in ("number", "get"):
        return fields[0] if kind == "number" else values[fields[0]][fields[1]]
    if kind == "set":
        values[fields[0]][fields[1]] = run(fields[2], values)
    elif kind == "if":
        for statement in fields[1] if run(fields[0], values) else fields[2]:
            run(statement, values)
    else:
        number = OPERATIONS[kind](*[run(part, values) for part in fields])
        if LEAST <= number <= GREATEST:
            return number
        raise OverflowError


class Action(namedtuple("Action", "reads mask origin body")):
    """Code over the objects that it reads, ascending; the mask and the body name them by slot. `str` gives its text."""
    def __str__(self):
        return text_of(self)

    @property
    def writes(self):
        """The objects at the slots of the mask, ascending."""
        return tuple(target for slot, target in enumerate(self.reads) if self.mask >> slot & 1)

    def fault(self, objects, attributes):
        """The first of the eleven causes for which a world of this shape refuses it, or None."""
        inner, count = list(nodes_of(self.body)), len(self.reads)
        named = [node for _, node in inner if node[0] in ("set", "get")]
        causes = (
            count == 0, count > 16, sorted(set(self.reads)) != list(self.reads),
            any(not 0 <= one < objects for one in self.reads), self.mask >> count,
            any(node[1] >= count for node in named),
            any(node[0] == "set" and not self.mask >> node[1] & 1 for node in named),
            any(node[2] >= attributes for node in named), len(inner) > 64,
            any(above >= 8 for above, _ in inner), any(abs(one) > FARTHEST for one in self.origin))
        return next((number for number, applies in enumerate(causes, 1) if applies), None)

    def result(self, values):
        """One value for each written object, from one for each read. Void where 64 bits are left: nothing changes."""
        after = [list(value) for value in values]
        try:
            for statement in self.body:
                run(statement, after)
        except ArithmeticError:
            after = values
        return tuple(tuple(after[slot]) for slot in range(len(after)) if self.mask >> slot & 1)


PIECE = re.compile(r"[ \t\r\n]*(?:(?P<number>-?[0-9]+)|(?P<ref>@[0-9]+\.[0-9]+)|(?P<word>[a-z]+)|(?P<sign>==|<=|[][(){};+*/%<-])"
                   r"|(?P<none>.)|(?P<end>\Z))", re.S)


class Text:
    """Reads the text of an action. A fault names the byte of the first piece that may not stand there, and why."""
    def __init__(self, text):
        self.text, self.start, self.end, self.kind, self.piece, self.is_bad = text, 0, 0, "", "", False
        self.nodes, self.reads = 0, ()
        self.take()

    def take(self, *tests):
        """Takes the present piece and looks at the next one. Raises the least cause for which it may not stand here: of
        pairs of a cause and what is fine."""
        wrong = [cause for cause, is_fine in ((1, self.kind != "none"), (2, not self.is_bad), *tests) if not is_fine]
        if wrong:
            place = len(self.text[:self.start].encode("utf-8", "surrogatepass"))
            raise Fault(f"text {place} {min(wrong)}", place=place, cause=min(wrong))
        found, before, taken = PIECE.match(self.text, self.end), self.kind, self.piece
        self.kind, self.piece = found.lastgroup, found[found.lastgroup]
        self.is_glued = {self.kind, before} <= {"word", "number"} and found.start(self.kind) == self.end
        self.start, self.end = found.span(self.kind)
        self.numbers = [int(one[:30]) for one in re.findall("-?[0-9]+", self.piece)]
        self.is_bad = self.kind == "number" and self.piece[:30] != str(self.numbers[0]) or self.kind == "ref" and (
            self.piece != "@{}.{}".format(*self.numbers) or self.numbers[0] > 65535 or self.numbers[1] > 255)
        return taken

    def word(self, *wanted):
        """Takes one of these words and signs."""
        return self.take((3, self.piece in wanted and not self.is_glued))

    def number(self, least, greatest, *tests):
        """Takes a number of this range."""
        number = max(self.numbers, default=least)
        self.take((2, least <= number <= greatest), (3, self.kind == "number" and not self.is_glued), *tests)
        return number

    def objects(self):
        """Takes the reads, or the writes where there are reads."""
        found, is_first = [], not self.reads
        while self.kind == "number" or (is_first and not found):
            one = max(self.numbers, default=0)
            found.append(self.number(0, 65535, (4, is_first or one in self.reads), (5, one > max(found, default=-1)),
                                     (6, len(found) < 16)))
        return tuple(found)

    def ref(self, *tests):
        """Takes an attribute of an object that is read, as its slot and its number."""
        target, attribute = self.numbers if self.kind == "ref" else (0, 0)
        self.take((3, self.kind == "ref"), (4, target in self.reads), *tests)
        return self.reads.index(target), attribute

    def node(self, above):
        """Counts a node that begins here, with so many above it; answers what it must pass."""
        self.nodes += 1
        return (3, not self.is_glued), (7, self.nodes <= 64), (8, above < 8)

    def action(self):
        """The whole text as an action."""
        self.word("reads")
        self.reads = self.objects()
        self.word("writes")
        writes, far = self.objects(), (-FARTHEST, FARTHEST)
        origin = (self.number(*far), self.number(*far)) if self.piece == "at" and self.word("at") else (0, 0)
        body = self.block(0)
        self.take((3, self.kind == "end"))
        return Action(self.reads, sum(1 << self.reads.index(one) for one in writes), origin, body)

    def block(self, above):
        """Statements in braces."""
        self.word("{")
        statements = []
        while self.piece != "}":
            if self.take((3, self.piece in ("set", "if")), *self.node(above)) == "set":
                statements.append(("set", *self.ref(), self.part("expression", above + 1)))
                self.word(";")
            else:
                condition, then = self.part("condition", above + 1), self.block(above + 1)
                other = self.block(above + 1) if self.piece == "else" and self.word("else") else ()
                statements.append(("if", condition, then, other))
        self.word("}")
        return tuple(statements)

    def part(self, kind, above):
        """An expression or a condition."""
        node = self.node(above)
        if kind == "expression" and self.kind in ("number", "ref"):
            return ("number", self.number(LEAST, GREATEST, *node)) if self.kind == "number" else ("get", *self.ref(*node))
        start = self.take((3, self.piece in (("(",) if kind == "expression" else ("(", "[", "not"))), *node)
        if start == "not":
            return ("not", self.part(kind, above + 1))
        inner = "expression" if start == "[" else kind
        joints = KINDS["condition"][:3] if start == "[" else KINDS[kind][2:] if kind == "expression" else ("and", "or")
        left, joint, right = self.part(inner, above + 1), self.word(*joints), self.part(inner, above + 1)
        self.word(")" if start == "(" else "]")
        return (joint, left, right)


def parse_action(text):
    """The action of a text in the language of docs/ACTIONS.md. Raises `text PLACE CAUSE`."""
    return Text(text).action()


action_of = parse_action                # its older name


def text_of(act):
    """The canonical text of an action."""
    def said(kind, *fields):
        parts = [block(part) if form == "list" else said(*part) if form in KINDS else part
                 for form, part in zip(NODES[kind][1], fields)]
        if kind in ("set", "get"):
            parts[0] = act.reads[parts[0]]
        if kind == "if":
            return f"if {parts[0]} {parts[1]}" + (f" else {parts[2]}" if fields[2] else "")
        forms = {"number": "{}", "get": "@{}.{}", "set": "set @{}.{} {};", "not": "not {}"}
        return forms.get(kind, f"[{{}} {kind} {{}}]" if kind in KINDS["condition"][:3] else f"({{}} {kind} {{}})").format(*parts)

    def block(nodes):
        return " ".join(["{", *(said(*node) for node in nodes), "}"])

    where = f"at {act.origin[0]} {act.origin[1]} " if any(act.origin) else ""
    return " ".join(map(str, ("reads", *act.reads, "writes", *act.writes, where + block(act.body))))


def field_bytes(field, part):
    """The bytes of a list, of a node, or of a field of a node."""
    if field == "list":
        return bytes([len(part)]) + b"".join(field_bytes("statement", node) for node in part)
    if field in ("byte", "wide"):
        return struct.pack(">B" if field == "byte" else ">q", part)
    return bytes([NODES[part[0]][0]]) + b"".join(map(field_bytes, NODES[part[0]][1], part[1:]))


def request_bytes(kind, *fields):
    """The payload of a request. A Done has pairs of a position and a list of values."""
    if kind == "join":
        return struct.pack(f">BHIB{len(fields[2])}H", 1, *fields[:2], len(fields[2]), *fields[2])
    if kind == "submit":
        reads, mask, origin, body = fields[1]
        return struct.pack(f">BIB{len(reads)}HHii", 6, fields[0], len(reads), *reads, mask,
                           *origin) + field_bytes("list", body)
    if kind == "done":
        values = [struct.pack(">IB", position, len(each)) + b"".join(
            struct.pack(f">B{len(value)}q", len(value), *value) for value in each) for position, each in fields[0]]
        return struct.pack(">BB", 3, len(values)) + b"".join(values)
    if kind == "observe":
        return struct.pack(f">BB{len(fields[0])}HH", 7, len(fields[0]), *fields[0], fields[1])
    if kind == "number":                    # by an action of number 0 a client asks for its next number
        return request_bytes("submit", 0, Action((0,), 0, (0, 0), ()))
    if kind == "hello":
        return bytes([8, len(fields[0]), *fields[0]])
    return b"\x04" if kind == "poll" else b"\x05"


class Payload:
    """Reads a payload from left to right, up to the first field that may not be so."""
    def __init__(self, data):
        self.data, self.at, self.nodes = data, 0, 0

    def take(self, form, *tests):
        """A number of this form, which must pass the tests: pairs of a cause and what is fine."""
        start, self.at = self.at, self.at + struct.calcsize(">" + form)
        if self.at > len(self.data):
            raise Fault(f"malformed {start} {SHORT}")
        number = struct.unpack_from(">" + form, self.data, start)[0]
        for cause, is_fine in tests:
            if not is_fine(number):
                raise Fault(f"malformed {start} {cause}")
        return number

    def field(self, field, above=0):
        """A field of a reply, of an action, or of a node below so many others."""
        if field == "head":
            targets, values, most = [-1], [], 544 if self.data[0] == 0x8b else 528
            for _ in range(self.take("H", (COUNT, lambda count: count <= most))):
                targets.append(self.take("H", (ORDER, lambda target: target > targets[-1])))
                sizes = (COUNT, lambda count: 1 <= count <= 4)
                values.append(tuple(self.take("q") for _ in range(self.take("B", sizes))))
            return tuple(zip(targets[1:], values))
        if field == "items":
            return tuple(SimpleNamespace(position=self.take("I"), client=self.take("H"), number=self.take("I"),
                         action=self.action()) for _ in range(self.take("B", (COUNT, lambda count: count <= 33))))
        if field == "list":
            return tuple(self.field("statement", above) for _ in range(self.take("B")))
        if field in KINDS:
            kind = NODE_OF_BYTE[self.take(
                "B", (KIND, lambda byte: NODE_OF_BYTE.get(byte) in KINDS[field]),
                (LARGE, lambda _: self.nodes < 64), (DEEP, lambda _: above < 8))]
            self.nodes += 1
            return (kind, *[self.field(inner, above + 1) for inner in NODES[kind][1]])
        return self.take(*{"byte": "B", "wide": "q", "object": "H",
                           "code": ("B", (CODE, lambda code: 1 <= code <= 12))}.get(field, "I"))

    def action(self):
        """An action."""
        reads, self.nodes = [-1], 0
        for _ in range(self.take("B", (COUNT, lambda count: 1 <= count <= 16))):
            reads.append(self.take("H", (ORDER, lambda target: target > reads[-1])))
        mask = self.take("H", (MASK, lambda mask: mask >> len(reads) - 1 == 0))
        return Action(tuple(reads[1:]), mask, (self.take("i"), self.take("i")), self.field("list"))

    def reply(self):
        """The reply that the payload is, with its kind and its fields."""
        kind, fields = REPLIES[self.take("B", (KIND, lambda byte: byte in REPLIES))]
        reply = {"kind": kind, "number": None, "commit": None, "last": None, "head": (), "items": ()}
        reply.update((field, self.field(field)) for field in fields)
        if self.at < len(self.data):
            raise Fault(f"malformed {self.at} {REST}")
        if kind == "denied":
            reply["target"] = reply["object"]   # its older name
        return SimpleNamespace(**reply)


def first_payload(came):
    """Takes the first whole payload off the bytes that came, or answers None."""
    length = int.from_bytes(came[:4], "big") if len(came) >= 4 else 0
    if length > MOST_PAYLOAD:
        raise Fault(f"toolong {length}")
    if len(came) < 4 + length:
        return None
    payload, came[:4 + length] = bytes(came[4:4 + length]), b""
    return payload


class Client:
    """A client of a world of this shape. `on_change` gets each changed view of its interest: object, old, new; `on_reply` each
    reply that is taken; `on_status` each new `status`, and the fault behind it or None. With `connect`, which gives a connected socket for each session or
    None where there is none, the client joins again by itself. `retry`: the first pause before that, the longest one, and
    how many tries in a row. `key`: 16 to 64 bytes, for a server that asks for them. `pause`: the time between two Observes
    of what is watched (a tenth of it over a server that waits for news); `wait`: for how long a server may hold one;
    `patience`: after how long without a due reply the connection counts as broken. All times are seconds."""
    def __init__(self, number, objects, attributes, interest=(), on_change=lambda target, old, new: None, connect=None, *,
                 on_reply=lambda reply: None, on_status=lambda status, fault: None, retry=(0.2, 10, math.inf), key=None,
                 pause=0.1, wait=25, patience=math.inf):
        for name, value, least, most in (("number", number, 0, 65534), ("objects", objects, 1, 65535), ("attributes", attributes, 1, 4)):
            if not (isinstance(value, int) and least <= value <= most):
                raise ValueError(f"{name}: a whole number from {least} to {most} belongs there, and not {value!r}")
        if key is not None and not isinstance(key, (bytes, bytearray)):
            raise TypeError(f"key: bytes belong there, as b\"..\", and no {type(key).__name__}")
        if key is not None and not 16 <= len(key) <= 64:
            raise ValueError("key: 16 to 64 bytes belong there")
        self.number, self.shape, self.on_change, self.connect = number, (objects, attributes), on_change, connect
        self.on_reply, self.on_status, self.retry, self.key = on_reply, on_status, retry, key
        self.pause, self.wait, self.patience = pause, wait, patience
        self.life = self.made = self.told = self.asked = self.submitted = self.tries = self.again = self.heard = 0
        self.versions, self.pending, self.outstanding = {}, [], deque()
        self.link, self.came, self.seen = None, bytearray(), dict.fromkeys(sorted(interest))
        self.status, self.fault, self.knows, self.is_telling = "new", None, False, False
        self.watchers, self.round = [], 0
        self.look_anew()

    def saved(self):
        """What another process needs to go on in this one's place, as plain data, for JSON. Keep it anew after each call."""
        return {"number": self.number, "shape": [*self.shape], "interest": [*self.seen], "life": self.life, "made": self.made,
                "knows": self.knows, "told": self.told,
                "versions": [[target, [*held.items()]] for target, held in self.versions.items()],
                "pending": [[number, text_of(act), kept] for number, act, kept in self.pending]}

    @classmethod
    def from_saved(cls, data, **more):
        """The client that was saved, with `on_change` and the like. It is in no session; its join asks for what is pending."""
        client = cls(data["number"], *data["shape"], data["interest"], **more)
        client.life, client.made, client.told, client.knows = data["life"], data["made"], data["told"], data["knows"]
        client.versions = {target: {place: tuple(value) for place, value in held} for target, held in data["versions"]}
        client.pending = [(own, parse_action(text), kept and tuple(map(tuple, kept))) for own, text, kept in data["pending"]]
        return client

    def view(self, target):
        """What the last pending action that writes it keeps, else the version at the greatest position; or None."""
        for _, act, kept in reversed(self.pending):
            if target in act.writes:
                return kept and kept[act.writes.index(target)]
        held = self.versions.get(target)
        return held and held[max(held)]

    def add(self, number, act):
        """One more pending action; it keeps its result on the views of its reads, or None."""
        views = [self.view(target) for target in act.reads]
        self.pending.append((number, act, None if None in views else act.result(views)))

    def tell(self):
        """Tells each change of a view: of the interest, and of what is watched."""
        for target, old in self.seen.items():
            self.seen[target] = self.view(target)
            if self.seen[target] != old:
                self.on_change(target, old, self.seen[target])
        if not self.is_telling:
            self.is_telling = True
            try:
                while any(self.tell_watcher(watcher) for watcher in self.watchers):
                    pass
            finally:
                self.is_telling = False

    def tell_watcher(self, watcher):
        """Calls a watcher back where it has to be told of something; answers whether it had. What it does there is told
        afterwards."""
        told, is_known = watcher.told, all(target in self.versions for target in watcher.objects)
        if not any(each is watcher for each in self.watchers) or not (told or is_known):
            return False
        views = {target: self.view(target) for target in watcher.objects}
        changed = [target for target in watcher.objects if not told or told[target] != views[target]]
        if changed:
            watcher.told = dict(views)
            if watcher.callback(views, changed):
                watcher.stop()
        return bool(changed)

    def become(self, status, fault=None):
        """A new status."""
        self.status = status
        self.on_status(status, fault)

    def join(self, link=None):
        """Begins the next session; an older one is over. Without a socket it connects by itself and comes back when the client
        is in the world; one that has no memory of its number takes up its place. With a socket it only sends: its Join, and
        what is pending; an earlier client of this number is none then."""
        if link is not None:
            self.knows = True
            self.start(link)
            return self.pump()
        if not self.connect:
            raise Fault("outside")
        self.give_up()
        self.status, self.tries, self.again = "joining", 0, 0
        while self.status != "joined":
            self.go_on(math.inf)

    def start(self, link):
        """Begins the next session over a connected socket."""
        self.give_up()
        self.look_anew()
        self.link, self.asked, self.submitted, self.outstanding = link, 0, 0, deque()
        if self.key is not None:
            self.send(request_bytes("hello", self.key))
        self.ask_to_join(self.life + 1)
        self.become("joining")

    def ask_to_join(self, life):
        """Asks to join with this life."""
        self.life = life
        self.ask("join", self.number, life, tuple(self.seen))

    def act(self, act):
        """Makes an action, given as one or as a text; its number is `made` then. Views show at once what is expected of it."""
        act = parse_action(act) if isinstance(act, str) else act
        if not isinstance(act, Action):
            raise TypeError(f"{said_of(act)} stands where an action belongs: action(..), or its text")
        cause = act.fault(*self.shape)
        if cause or len(self.pending) == MOST_PENDING:
            raise Fault(f"action {cause}" if cause else "full", cause=cause)
        if not self.connect:
            self.need_room()
        elif self.status not in ACTIVE or not self.knows:
            raise Fault("outside")
        self.made += 1
        self.add(self.made, act)
        try:
            self.pump()
        except OSError as fault:
            self.mend(fault)
        self.tell()

    make = act                          # its older name

    def pump(self):
        """Submits what is pending and was not yet, as far as there is room."""
        while self.knows and self.submitted < len(self.pending) and not self.lack():
            number, act, _ = self.pending[self.submitted]
            self.submitted += 1
            self.ask("submit", number, act)

    def poll(self):
        """Asks for an abandoned action."""
        self.request("poll")

    def request(self, *request):
        """Sends a request where there is room."""
        self.need_room()
        try:
            self.ask(*request)
        except OSError as fault:
            self.mend(fault)

    def observe(self, objects, wait=0):
        """Asks what 1 to 16 objects, ascending, are at one position; the reply's `seen` has the value of each then. A
        server may wait so many milliseconds for news."""
        is_short = 1 <= len(objects) <= MOST_OBSERVED
        if not is_short or sorted(set(objects)) != [*objects] or not 0 <= objects[0] <= objects[-1] < self.shape[0]:
            raise Fault("objects")
        self.request("observe", tuple(objects), wait)

    def watch(self, objects, callback):
        """Calls back with a dict of the views of all these objects and the list of those that changed: as soon as all are known,
        and at each change, while `run` goes on; until the callback answers what is true, or `stop()` of what it gives back
        is called. One Observe is kept open for all that is watched (of more than 16 objects several, of one moment each)."""
        watcher = SimpleNamespace(objects=sorted(set(objects)), callback=callback, told=None)
        if not watcher.objects or not 0 <= watcher.objects[0] <= watcher.objects[-1] < self.shape[0]:
            raise Fault("objects")
        if self.status not in ACTIVE:
            raise Fault("outside")

        def stop():
            self.watchers = [each for each in self.watchers if each is not watcher]

        watcher.stop, self.watchers = stop, [*self.watchers, watcher]
        self.look_anew()
        return watcher

    def run(self, seconds=math.inf):
        """Goes on for so many seconds: takes what comes, calls back, and joins again where the connection broke. Without a time
        it goes on until nothing is watched any more, and nothing is due."""
        end = time.monotonic() + seconds
        self.tell()
        while self.watchers or self.is_due() or seconds < math.inf:
            left = max(end - time.monotonic(), 0)
            if not self.go_on(left) and not left:
                break

    def go_on(self, seconds):
        """Sends what is due, and takes one reply, or waits for so many seconds at most; answers whether one came."""
        if self.status not in ACTIVE:
            raise Fault("outside")
        try:
            if not self.link and self.connect:
                return self.join_again(seconds)
            self.pump()
            left = max(min(seconds, self.look_out()), 0)
            if not self.outstanding and (self.parts or self.submitted < len(self.pending)):
                return self.next_session("spent")
            held = self.outstanding[0][2] / 1000 if self.outstanding and self.outstanding[0][0] == "observe" else 0
            silent = self.heard + self.patience + held - time.monotonic() if self.outstanding else math.inf
            reply = self.take(min(left, max(silent, 0)))
            if not reply and silent <= left:
                self.drop(TimeoutError("silence"))
                raise self.fault
            return reply is not None
        except OSError as fault:
            self.mend(fault)
        return False

    def join_again(self, seconds):
        """Begins the next session when its time has come, or waits for so many seconds."""
        pause = max(self.again - time.monotonic(), 0)
        time.sleep(min(pause, seconds))
        return pause <= seconds and self.next_session("closed")

    def next_session(self, word):
        """Begins the next session, over a connection of its own; else raises what broke the last one, or a fault of this word."""
        if not self.connect:
            raise Fault(word)
        self.give_up()
        try:
            link = self.connect()
        except OSError as fault:
            self.drop(fault)
            raise
        if not link:
            self.become("closed", self.fault)
            raise self.fault or Fault(word)
        self.start(link)
        self.pump()
        return True

    def mend(self, fault):
        """The next session follows after a pause, which grows from try to try. Raises the fault where it is no connection's, or
        no try is left."""
        if fault is not self.fault or not self.connect or self.status not in ACTIVE:
            raise fault
        first, longest, most = self.retry
        self.tries += 1
        if self.tries >= most:
            self.become("closed", fault)
            raise fault
        self.again = time.monotonic() + min(first * 2 ** min(self.tries - 1, 30), longest) * random.uniform(0.5, 1)

    def look_anew(self):
        """What is watched is asked for at once. An Observe for it that is under way counts as one of the others."""
        self.round += 1
        self.parts, self.looked, self.seen_at, self.asked_then, self.holds = [], -math.inf, -math.inf, 0, True

    def look_out(self):
        """Keeps one Observe open for all that is watched, as long as nothing else is asked; answers for how long it can wait."""
        if not self.parts:
            if not self.watchers or not self.knows or any(request[3:] == (self.round,) for request in self.outstanding):
                return math.inf
            is_busy = any(request[0] != "done" for request in self.outstanding)
            due = max(self.looked + self.pause / (10 if self.holds else 1), self.seen_at + self.pause * is_busy)
            if due > time.monotonic():
                return due - time.monotonic()
            objects = sorted({target for watcher in self.watchers for target in watcher.objects})
            self.parts = [objects[place:place + MOST_OBSERVED] for place in range(0, len(objects), MOST_OBSERVED)]
            self.last_wait = min(round(1000 * (self.wait if len(self.parts) == 1 else self.pause)), 65_535)
        while self.parts and not self.lack(5):
            part = self.parts.pop(0)
            self.looked, self.asked_then = time.monotonic(), self.asked + 1
            self.ask("observe", tuple(part), 0 if self.parts else self.last_wait, self.round)
        return math.inf

    def learn(self, reply, wait):
        """Whether the server holds an Observe until there is news: as long as it seems so, the next one may follow soon."""
        self.seen_at = time.monotonic()
        if wait and wait >= 1000 * self.pause and self.seen_at - self.looked >= self.pause:
            self.holds = True
        elif wait and self.asked == self.asked_then and not reply.head and not reply.items:
            self.holds = False

    def lack(self, more=3):
        """Why one more request can't be sent, or None; there has to be room for the Dones that may be due then, and a Leave."""
        owed = sum(request[0] in ("submit", "poll", "observe") for request in self.outstanding)
        if not self.link or len(self.outstanding) == MOST_OUTSTANDING:
            return "busy" if self.link else "outside"
        return "spent" if self.asked + owed + more > MOST_REQUESTS else None

    def need_room(self):
        """Raises where one more request can't be sent."""
        if lack := self.lack():
            raise Fault(lack)

    def is_due(self):
        """Whether an outcome or a reply is due, other than that of an Observe for what is watched."""
        is_asked = any(request[0] != "observe" or not request[3:] for request in self.outstanding)
        return is_asked or bool(self.connect and self.pending)

    def finish(self):
        """Takes replies until none is due."""
        while self.is_due():
            self.go_on(math.inf) if self.connect else self.take()

    def leave(self):
        """Takes what is due, leaves, and takes the Bye. Nothing is watched any more."""
        if self.connect and self.status not in ACTIVE:
            raise Fault("outside")
        self.watchers = []
        self.look_anew()
        self.finish()
        try:
            if self.link and self.outstanding:      # an Observe that the server holds is answered when another request comes
                self.ask("observe", self.outstanding[-1][1], 0)
            while self.link and self.outstanding:
                self.take()
            if self.link or not self.connect:
                self.ask("leave")
                self.take()
        except OSError:
            if not self.connect:
                raise
        self.give_up()
        self.become("left")

    def close(self):
        """Gives all up at once. What is pending stays so: `join` goes on with it."""
        self.watchers = []
        self.give_up()
        self.become("closed")

    def give_up(self):
        """Closes the connection. What is pending stays so."""
        if self.link:
            self.link.close()
        self.link, self.came = None, bytearray()

    def drop(self, fault):
        """The connection broke."""
        self.give_up()
        self.fault = fault
        self.become("lost", fault)

    def ask(self, *request):
        """Sends a request. After an OSError, here or in `take`, the session is over, and the client may join anew."""
        if not self.link:
            raise Fault("outside")
        if not self.outstanding:
            self.heard = time.monotonic()
        self.outstanding.append(request)
        self.asked += 1
        self.send(request_bytes(*request))

    def send(self, payload):
        """Sends a payload."""
        try:
            self.link.sendall(struct.pack(">I", len(payload)) + payload)
        except OSError as fault:
            self.drop(fault)
            raise

    def take(self, seconds=None):
        """Takes the next reply and answers it, or None where none came in time. A fault of the reply or of the connection ends
        the session."""
        if not self.link:
            raise Fault("outside")
        try:
            while (payload := first_payload(self.came)) is None:
                if self.link.fileno() < 0:      # its owner closed it
                    raise ConnectionError("closed")
                if not select.select([self.link], [], [], None if seconds == math.inf else seconds)[0]:
                    return None
                if not (piece := self.link.recv(65_536)):
                    raise ConnectionError("closed")
                self.came += piece
            reply = Payload(payload).reply()
        except OSError as fault:
            self.drop(fault)
            raise
        except Fault as fault:
            self.refuse(fault)
        self.heard = time.monotonic()
        return self.accept(reply)

    def refuse(self, fault):
        """A reply is refused: the session is over, and none follows by itself, but where its life is too far above the last one."""
        self.give_up()
        is_old = fault.code == 11 and bool(self.outstanding) and self.outstanding[0][0] == "join"
        if is_old and self.connect and fault.detail + 1 < self.life:
            self.life = fault.detail
            self.drop(ConnectionError(fault.name))
            raise self.fault
        is_pushed = fault.code == 4 or (is_old and self.knows and fault.detail >= self.life)
        self.become("pushed out" if is_pushed else "refused", fault)
        raise fault

    def look_at(self, reply):
        """Raises the first fault of a reply, but for missing values."""
        kind = self.outstanding[0][0] if self.outstanding else None
        if not kind or reply.kind not in FITS[kind].split():
            more = {"code": reply.code, "detail": reply.detail, "name": REFUSALS[reply.code - 1]} if reply.kind == "refused" else {}
            raise Fault("wrongkind" if kind else "unasked", **more, refused=SimpleNamespace(**more) if more else None)
        places = [item.position for item in reply.items]
        if any(sorted(set(each)) != each for each in (places, [target for target, _ in reply.head])) or (
                reply.commit is not None and not self.told <= reply.commit < min(places[:1] + [2 ** 32])) or (
                reply.last is not None and not max(places[-1:] + [reply.commit]) <= reply.last < 2 ** 32 - 1):
            raise Fault("badorder")
        number, act = self.pending[0][:2] if kind == "submit" else (0, None)
        own = [(item.client, item.number, item.action) for item in reply.items[-1:]]
        if any(target >= self.shape[0] or len(value) != self.shape[1] for target, value in reply.head) or any(
                item.action.fault(*self.shape) for item in reply.items) or (
                reply.kind == "relay" and not own) or reply.number not in (None, number) or (
                act and own and own != [(self.number, number, act)]):
            raise Fault("baditem")

    def accept(self, reply):
        """Takes a reply to the oldest outstanding request; where it is refused nothing changes."""
        if self.take_up(reply):
            return reply
        try:
            request, results = self.install(reply)
        except Fault as fault:
            self.refuse(fault)
        if results:
            self.ask("done", tuple(results))
        if request[0] == "join" and not self.knows and self.life > 1:
            self.ask("number")
        elif request[0] == "join":
            self.enter()
        if request[3:] == (self.round,):
            self.learn(reply, request[2])
        self.tell()
        self.on_reply(reply)
        return reply

    def take_up(self, reply):
        """Without memory of its number a client learns its life, and then its next number, from two refusals."""
        asked = self.outstanding[0][0] if self.outstanding else None
        if self.knows or reply.kind != "refused":
            return False
        if asked == "join" and reply.code == 11 and self.life <= reply.detail < 2 ** 32 - 1:
            self.outstanding.popleft()
            self.ask_to_join(reply.detail + 1)
        elif asked == "number" and reply.code == 5 and reply.detail > 0:
            self.outstanding.popleft()
            self.made = reply.detail - 1
            self.enter()
        else:
            return False
        return True

    def enter(self):
        """The client is in the world, and knows its numbers."""
        self.knows, self.tries, self.fault = True, 0, None
        self.become("joined")

    def install(self, reply):
        """Takes a reply into what the client keeps; answers its request, and the results of its items."""
        self.look_at(reply)
        versions, results = {target: dict(held) for target, held in self.versions.items()}, []

        def below(position, target):
            places = [place for place in versions.get(target, ()) if place < position]
            if not places:
                raise Fault(f"missing {position} {target}")
            return versions[target][max(places)]

        for target, value in reply.head:
            versions.setdefault(target, {})[reply.commit] = value
        for item in reply.items:
            values = [below(item.position, target) for target in item.action.reads]
            results.append((item.position, item.action.result(values)))
            for target, value in zip(item.action.writes, results[-1][1]):
                versions.setdefault(target, {})[item.position] = value
        kind, *fields = request = self.outstanding[0]
        if kind == "observe":
            reply.seen = reply.values = {target: below(reply.last + 1, target) for target in fields[0]}
        self.told = self.told if reply.commit is None else reply.commit
        for target, held in versions.items():
            last = max((place for place in held if place <= self.told), default=0)
            self.versions[target] = {place: value for place, value in held.items() if place >= last}
        self.outstanding.popleft()
        is_news = kind == "observe" and bool(reply.head or results)
        if kind == "submit":
            (_, _, kept), *self.pending = self.pending
            self.submitted -= 1
            is_news = not results or kept != results[-1][1]
        if is_news:
            remaining, self.pending = self.pending, []
            for number, act, _ in remaining:
                self.add(number, act)
        return request, results
