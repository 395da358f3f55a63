#!/usr/bin/env python3
"""Writes the tables of edited payloads, src/requests.rt and src/replies.rt, from the grammar of the messages.

It was written from the format's description alone, shares nothing with the decoder that the tables test, and is no part
of the build. Run it in the crate's folder: python3 tools/edited.py

A row is: message, edit, place, answer, offset. The edits are `out` (the byte at the place is left out), `add` (a byte 0
is added before the place, or at the end) and `raise` (the byte at the place is one more, and 0 for 255). The answer is the
cause of the first refused field with the field's offset, or `Message 0` where the edited payload is a message.
"""

VECTORS = {
    "requests": [
        ("join", "01 0000 00000001 01 0000"),
        ("submit", "06 00000001 01 0000 0001 00000000 00000000 01 100000 22 210000 20 0000000000000001"),
        ("done", "03 01 00000001 01 01 0000000000000006"),
        ("leave", "05"),
        ("observe", "07 02 0000 0002 0000"),
    ],
    "replies": [
        ("welcome", "81 00000000 0001 0000 01 0000000000000005"),
        ("relay", "89 00000001 00000000 0001 0000 01 0000000000000005 01 00000001 0000 00000001"
                  " 01 0000 0001 00000000 00000000 01 100000 22 210000 20 0000000000000001"),
        ("first_relay", "89 00000001 00000000 0000 01 00000001 0000 00000001"
                        " 01 0000 0001 00000000 00000000 01 100000 22 210000 20 0000000000000001"),
        ("noted", "85 00000001"),
        ("bye", "88"),
        ("seen", "8b 00000003 00000002 0001 0000 01 0000000000000005 01 00000003 0001 00000001"
                 " 01 0000 0001 00000000 00000000 01 100000 22 210000 20 0000000000000001"),
        ("denied", "8c 00000003 0002"),
    ],
}

# What stands after each kind byte.
MESSAGES = {
    "requests": {0x01: "join", 0x06: "submit", 0x03: "done", 0x04: "nothing", 0x05: "nothing", 0x07: "observe"},
    "replies": {0x81: "welcome", 0x84: "two_numbers", 0x85: "number", 0x86: "nothing", 0x87: "refused", 0x88: "nothing",
                0x89: "relay", 0x8A: "three_numbers", 0x8B: "seen", 0x8C: "denied"},
}

# The node bytes that may stand at a place of each sort, and what the node has after its byte.
NODES = {
    "statement": {0x10: "set", 0x11: "if"},
    "expression": {0x20: "literal", 0x21: "attribute", **{byte: "two_expressions" for byte in range(0x22, 0x29)}},
    "condition": {0x30: "two_expressions", 0x31: "two_expressions", 0x32: "two_expressions",
                  0x33: "two_conditions", 0x34: "two_conditions", 0x35: "condition"},
}


class Refused(Exception):
    """The first refused field: its cause and its offset."""


class Payload:
    def __init__(self, text):
        self.text = text
        self.at = 0
        self.nodes = 0

    def field(self, width):
        """A field's offset and its number."""
        start = self.at
        if len(self.text) - start < width:
            raise Refused("Short", start)
        self.at = start + width
        return start, int.from_bytes(self.text[start:self.at], "big")

    def count(self, width, least, most):
        start, number = self.field(width)
        if not least <= number <= most:
            raise Refused("Count", start)
        return number

    def ascending(self, number, after=lambda: None):
        """So many objects, each above the one before it, and what stands after each of them."""
        last = -1
        for _ in range(number):
            start, thing = self.field(2)
            if thing <= last:
                raise Refused("Order", start)
            last = thing
            after()

    def value(self):
        for _ in range(self.count(1, 1, 4)):
            self.field(8)

    def head(self, most):
        self.ascending(self.count(2, 0, most), self.value)

    def items(self):
        for _ in range(self.count(1, 0, 33)):
            self.field(4)
            self.field(2)
            self.field(4)
            self.action()

    def action(self):
        self.nodes = 0
        reads = self.count(1, 1, 16)
        self.ascending(reads)
        start, mask = self.field(2)
        if mask >= 1 << reads:
            raise Refused("Mask", start)
        self.field(4)
        self.field(4)
        self.statements(0)

    def statements(self, above):
        _, number = self.field(1)
        for _ in range(number):
            self.node("statement", above)

    def node(self, sort, above):
        """A node with so many nodes above it."""
        start, byte = self.field(1)
        if byte not in NODES[sort]:
            raise Refused("Kind", start)
        self.nodes += 1
        if self.nodes == 65:
            raise Refused("Large", start)
        if above == 8:
            raise Refused("Deep", start)
        form = NODES[sort][byte]
        below = above + 1
        if form == "set":
            self.field(1)
            self.field(1)
            self.node("expression", below)
        elif form == "if":
            self.node("condition", below)
            self.statements(below)
            self.statements(below)
        elif form == "literal":
            self.field(8)
        elif form == "attribute":
            self.field(1)
            self.field(1)
        elif form == "two_expressions":
            self.node("expression", below)
            self.node("expression", below)
        elif form == "two_conditions":
            self.node("condition", below)
            self.node("condition", below)
        else:
            self.node("condition", below)

    def message(self, family):
        start, kind = self.field(1)
        if kind not in MESSAGES[family]:
            raise Refused("Kind", start)
        form = MESSAGES[family][kind]
        if form == "join":
            self.field(2)
            self.field(4)
            self.ascending(self.count(1, 0, 64))
        elif form == "submit":
            self.field(4)
            self.action()
        elif form == "done":
            for _ in range(self.count(1, 1, 33)):
                self.field(4)
                for _ in range(self.count(1, 0, 16)):
                    self.value()
        elif form == "welcome":
            self.field(4)
            self.head(528)
        elif form in ("relay", "seen"):
            self.field(4)
            self.field(4)
            self.head(528 if form == "relay" else 544)
            self.items()
        elif form == "observe":
            self.ascending(self.count(1, 1, 16))
            self.field(2)
        elif form == "denied":
            self.field(4)
            self.field(2)
        elif form == "refused":
            start, code = self.field(1)
            if not 1 <= code <= 12:
                raise Refused("Code", start)
            self.field(4)
        else:
            for _ in range({"nothing": 0, "number": 1, "two_numbers": 2, "three_numbers": 3}[form]):
                self.field(4)
        if self.at < len(self.text):
            raise Refused("Rest", self.at)


def answer(family, text):
    try:
        Payload(text).message(family)
    except Refused as refused:
        return refused.args
    return "Message", 0


def edits(text):
    for place in range(len(text)):
        yield "out", place, text[:place] + text[place + 1:]
    for place in range(len(text) + 1):
        yield "add", place, text[:place] + b"\0" + text[place:]
    for place in range(len(text)):
        yield "raise", place, text[:place] + bytes([(text[place] + 1) % 256]) + text[place + 1:]


def rows(family):
    for name, spelled in VECTORS[family]:
        text = bytes.fromhex(spelled)
        assert answer(family, text) == ("Message", 0)
        for edit, place, edited in edits(text):
            cause, at = answer(family, edited)
            yield f"{name} {edit} {place} {cause} {at}"


def main():
    for family in VECTORS:
        table = list(rows(family))
        with open(f"src/{family}.rt", "w", encoding="utf-8") as out:
            out.write(f"//! The edited {family}, written by tools/edited.py from the grammar of the messages.\n\n")
            out.write("/// On each line the message, the edit, its place, the answer, and the refused field's offset.\n")
            out.write('pub const EDITED: &str = "\\\n' + "\n".join(table) + '";\n')
        print(family, len(table))


if __name__ == "__main__":
    main()
