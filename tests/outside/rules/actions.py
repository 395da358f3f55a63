"""The action language: reading a text, its canonical text, the check in a world, evaluation.

Written from the documents of the formats alone, and from no code of the product. The checker of
reports, the generator of scenarios and the simulation of replays all use this module.

An action is plain data: the objects that it reads, ascending; those that it writes, ascending and
each among the reads; its origin; and its body, a tuple of statements. Nodes are tuples:

    ("set", object, attribute, expression)
    ("if", condition, then, other)
    ("number", n)    ("ref", object, attribute)    (operator, left, right)
    ("compare", sign, left, right)    ("and" | "or", left, right)    ("not", condition)
"""

import re
from typing import NamedTuple

LEAST = -(2 ** 63)
GREATEST = 2 ** 63 - 1
FARTHEST = 1_000_000

CHARACTER, NUMBER, EXPECTED, NOT_READ, ORDER, TOO_MANY, TOO_LARGE, TOO_DEEP = range(1, 9)

NO_SUCH_OBJECT, NOT_WRITABLE, BAD_ATTRIBUTE = 4, 7, 8

TOKEN = re.compile(
    r"(?P<number>-?[0-9]+)|(?P<ref>@[0-9]+\.[0-9]+)|(?P<word>[a-z]+)|(?P<sign>==|<=|[()\[\]{};+\-*/%<])")
OPERATORS = ("+", "-", "*", "/", "%", "min", "max")
SIGNS = ("==", "<", "<=")


class Action(NamedTuple):
    """What a client wants done to the objects that it reads."""

    reads: tuple
    writes: tuple
    origin: tuple
    body: tuple


class TextFault(Exception):
    """The text is refused at this byte, for this cause."""

    def __init__(self, place, cause):
        super().__init__(f"text {place} {cause}")
        self.place = place
        self.cause = cause


class Token(NamedTuple):
    """A token: its kind, its text, its first byte, and whether it touches the token before it."""

    kind: str
    text: str
    place: int
    touches: bool


def is_over(digits, greatest):
    """Whether these plain digits say a number above this one."""
    return len(digits) > 30 or int(digits) > greatest


def has_plain_digits(digits):
    """Digits have no leading zero, other than in `0` itself."""
    return digits == "0" or not digits.startswith("0")


class Reader:
    """Reads an action text from left to right; the next token alone decides how it goes on."""

    def __init__(self, text):
        self.text = text
        self.at = 0
        self.nodes = 0
        self.reads = ()
        self.token = None
        self.advance()

    def advance(self):
        """Cuts the next token, which is the longest that fits."""
        before = self.token
        start = self.at
        while start < len(self.text) and self.text[start] in " \t\r\n":
            start += 1
        touches = before is not None and start == self.at
        if start == len(self.text):
            self.at = start
            self.token = Token("end", "", start, touches)
            return
        found = TOKEN.match(self.text, start)
        if found is None:
            self.token = Token("none", "", start, touches)
            return
        self.at = found.end()
        token = Token(found.lastgroup, found.group(), start, touches)
        both = ("word", "number")
        self.joined = before is not None and touches and before.kind in both and token.kind in both
        self.token = token

    def fault(self, cause):
        """The fault at the present token, unless the token itself has an earlier cause."""
        self.look()
        raise TextFault(self.place(), cause)

    def place(self):
        """The byte at which the present token begins."""
        return len(self.text[:self.token.place].encode("utf-8"))

    def look(self):
        """The causes that stand in the token itself, wherever it stands."""
        kind, text = self.token.kind, self.token.text
        if kind == "none":
            raise TextFault(self.place(), CHARACTER)
        if kind == "number":
            if not has_plain_digits(text.lstrip("-")) or text == "-0":
                raise TextFault(self.place(), NUMBER)
        if kind == "ref":
            target, attribute = text[1:].split(".")
            if not (has_plain_digits(target) and has_plain_digits(attribute)):
                raise TextFault(self.place(), NUMBER)
            if is_over(target, 65535) or is_over(attribute, 255):
                raise TextFault(self.place(), NUMBER)

    def judge(self):
        """A word or a number may not directly follow a word or a number."""
        self.look()
        if self.token.kind in ("word", "number") and self.joined:
            raise TextFault(self.place(), EXPECTED)

    def take(self, text):
        """Takes this word or sign, and nothing else."""
        if self.token.kind not in ("word", "sign") or self.token.text != text:
            self.fault(EXPECTED)
        self.judge()
        self.advance()

    def stands(self, *texts):
        """Whether the next token is one of these words or signs."""
        return self.token.kind in ("word", "sign") and self.token.text in texts

    def whole(self, least, greatest):
        """A number token of this range, which is left where it is."""
        if self.token.kind != "number":
            self.fault(EXPECTED)
        self.look()
        if is_over(self.token.text.lstrip("-"), -LEAST):
            raise TextFault(self.place(), NUMBER)
        number = int(self.token.text)
        if not least <= number <= greatest:
            raise TextFault(self.place(), NUMBER)
        self.judge()
        return number

    def action(self):
        """The whole text as one action."""
        self.take("reads")
        reads = []
        while True:
            number = self.whole(0, 65535)
            if reads and number <= reads[-1]:
                self.fault(ORDER)
            if len(reads) == 16:
                self.fault(TOO_MANY)
            reads.append(number)
            self.advance()
            if self.token.kind != "number":
                break
        self.reads = tuple(reads)
        self.take("writes")
        writes = []
        while self.token.kind == "number":
            number = self.whole(0, 65535)
            if number not in self.reads:
                self.fault(NOT_READ)
            if writes and number <= writes[-1]:
                self.fault(ORDER)
            writes.append(number)
            self.advance()
        origin = (0, 0)
        if self.stands("at"):
            self.take("at")
            east = self.whole(-FARTHEST, FARTHEST)
            self.advance()
            north = self.whole(-FARTHEST, FARTHEST)
            self.advance()
            origin = (east, north)
        body = self.block(0)
        if self.token.kind != "end":
            self.fault(EXPECTED)
        return Action(self.reads, tuple(writes), origin, body)

    def block(self, above):
        """`{`, statements, `}`."""
        self.take("{")
        statements = []
        while not self.stands("}"):
            statements.append(self.statement(above))
        self.take("}")
        return tuple(statements)

    def begin(self, above):
        """Counts the node that the present token starts."""
        self.judge()
        if self.nodes == 64:
            self.fault(TOO_LARGE)
        if above == 8:
            self.fault(TOO_DEEP)
        self.nodes += 1

    def statement(self, above):
        """A `set` or an `if`."""
        if self.stands("set"):
            self.begin(above)
            self.advance()
            target, attribute = self.ref()
            value = self.expression(above + 1)
            self.take(";")
            return ("set", target, attribute, value)
        if self.stands("if"):
            self.begin(above)
            self.advance()
            condition = self.condition(above + 1)
            then = self.block(above + 1)
            other = ()
            if self.stands("else"):
                self.take("else")
                other = self.block(above + 1)
            return ("if", condition, then, other)
        return self.fault(EXPECTED)

    def known_ref(self):
        """The object and the attribute of the ref at hand, whose object must be among the reads."""
        if self.token.kind != "ref":
            self.fault(EXPECTED)
        self.look()
        target, attribute = self.token.text[1:].split(".")
        if int(target) not in self.reads:
            self.fault(NOT_READ)
        return int(target), int(attribute)

    def ref(self):
        """The ref after `set`, which is no node."""
        pair = self.known_ref()
        self.advance()
        return pair

    def expression(self, above):
        """A number, a ref, or two expressions and an operator in brackets."""
        if self.token.kind == "number":
            number = self.whole(LEAST, GREATEST)
            self.begin(above)
            self.advance()
            return ("number", number)
        if self.token.kind == "ref":
            target, attribute = self.known_ref()
            self.begin(above)
            self.advance()
            return ("ref", target, attribute)
        if not self.stands("("):
            self.fault(EXPECTED)
        return self.pair(above, self.expression, OPERATORS, ")")

    def pair(self, above, part, joints, end):
        """What joins two parts, and these; their opening bracket is at hand."""
        self.begin(above)
        self.advance()
        left = part(above + 1)
        if not self.stands(*joints):
            self.fault(EXPECTED)
        joint = self.token.text
        self.take(joint)
        right = part(above + 1)
        self.take(end)
        return (joint, left, right)

    def condition(self, above):
        """A comparison, two conditions joined, or `not`."""
        if self.stands("["):
            return ("compare", *self.pair(above, self.expression, SIGNS, "]"))
        if self.stands("("):
            return self.pair(above, self.condition, ("and", "or"), ")")
        if self.stands("not"):
            self.begin(above)
            self.advance()
            return ("not", self.condition(above + 1))
        return self.fault(EXPECTED)


def read_action(text):
    """The action of this text; raises its first fault."""
    return Reader(text).action()


def expression_text(node):
    """The canonical text of an expression."""
    if node[0] == "number":
        return str(node[1])
    if node[0] == "ref":
        return f"@{node[1]}.{node[2]}"
    return f"({expression_text(node[1])} {node[0]} {expression_text(node[2])})"


def condition_text(node):
    """The canonical text of a condition."""
    if node[0] == "compare":
        return f"[{expression_text(node[2])} {node[1]} {expression_text(node[3])}]"
    if node[0] == "not":
        return f"not {condition_text(node[1])}"
    return f"({condition_text(node[1])} {node[0]} {condition_text(node[2])})"


def block_text(statements):
    """The canonical text of a block; an empty one is `{ }`."""
    return " ".join(["{"] + [statement_text(node) for node in statements] + ["}"])


def statement_text(node):
    """The canonical text of a statement; an empty `other` has no `else`."""
    if node[0] == "set":
        return f"set @{node[1]}.{node[2]} {expression_text(node[3])};"
    text = f"if {condition_text(node[1])} {block_text(node[2])}"
    if node[3]:
        text += f" else {block_text(node[3])}"
    return text


def action_text(action):
    """The canonical text: one space between tokens, `at` only where the origin is not (0, 0)."""
    words = ["reads"] + [str(number) for number in action.reads]
    words += ["writes"] + [str(number) for number in action.writes]
    if action.origin != (0, 0):
        words += ["at", str(action.origin[0]), str(action.origin[1])]
    return " ".join(words + [block_text(action.body)])


def nodes_of(node):
    """All nodes under a statement, a block, an expression or a condition, itself included."""
    if isinstance(node, tuple) and node and isinstance(node[0], str):
        yield node
    if isinstance(node, tuple):
        for part in node:
            if isinstance(part, tuple):
                yield from nodes_of(part)


def fault_of_action(action, objects, attributes):
    """The number of the first cause for which this world refuses an action that was read from a
    text, or None: an object that the world lacks, a `set` of an object that the action does not
    write, an attribute that objects lack. The text itself rules out every other cause."""
    if any(number >= objects for number in action.reads):
        return NO_SUCH_OBJECT
    inner = list(nodes_of(action.body))
    if any(node[0] == "set" and node[1] not in action.writes for node in inner):
        return NOT_WRITABLE
    if any(node[0] in ("set", "ref") and node[2] >= attributes for node in inner):
        return BAD_ATTRIBUTE
    return None


class Void(Exception):
    """The action leaves the numbers of 64 bits, or divides by zero."""


def in_range(number):
    """The number itself, where it is one of 64 bits."""
    if not LEAST <= number <= GREATEST:
        raise Void
    return number


def divide(left, right):
    """The quotient, cut towards zero."""
    quotient = abs(left) // abs(right)
    return quotient if (left < 0) == (right < 0) else -quotient


def value_of(node, values):
    """The value of an expression over the present values; the left operand goes first."""
    kind = node[0]
    if kind == "number":
        return node[1]
    if kind == "ref":
        return values[node[1]][node[2]]
    left = value_of(node[1], values)
    right = value_of(node[2], values)
    if kind == "+":
        return in_range(left + right)
    if kind == "-":
        return in_range(left - right)
    if kind == "*":
        return in_range(left * right)
    if kind == "min":
        return min(left, right)
    if kind == "max":
        return max(left, right)
    if right == 0 or (left == LEAST and right == -1):
        raise Void
    quotient = divide(left, right)
    return quotient if kind == "/" else left - quotient * right


def holds(node, values):
    """Whether a condition holds; both sides of `and` and `or` are always evaluated."""
    if node[0] == "compare":
        left = value_of(node[2], values)
        right = value_of(node[3], values)
        return {"==": left == right, "<": left < right, "<=": left <= right}[node[1]]
    if node[0] == "not":
        return not holds(node[1], values)
    left = holds(node[1], values)
    right = holds(node[2], values)
    return (left and right) if node[0] == "and" else (left or right)


def carry_out(statements, values):
    """Runs the statements in order; each sees what the earlier ones set."""
    for node in statements:
        if node[0] == "set":
            values[node[1]][node[2]] = value_of(node[3], values)
        else:
            carry_out(node[2] if holds(node[1], values) else node[3], values)


def evaluate(action, values):
    """The result of an action on the values of its reads, a dict from object to value: one value
    for each written object, ascending. A void action gives the values before it."""
    present = {number: list(values[number]) for number in action.reads}
    try:
        carry_out(action.body, present)
    except Void:
        return tuple(tuple(values[number]) for number in action.writes)
    return tuple(tuple(present[number]) for number in action.writes)
