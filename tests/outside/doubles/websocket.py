"""The server's side of a WebSocket, as far as tests of clients need it: the upgrade, binary messages, and the end."""

import base64
import hashlib
import re
import struct

MAGIC = b"258EAFA5-E914-47DA-95CA-C5AB0DC85B11"
BINARY, CLOSE = 2, 8


class Closed(Exception):
    """The client closes, or sends what no client of the tests sends."""


class Messages:
    """Cuts what a client sends into messages, however it comes; before these stands the head of its request. `owed` is what
    has to be sent then, and `key` the one in the address, or None."""

    def __init__(self):
        self.rest, self.owed, self.key, self.is_open = b"", b"", None, False

    def feed(self, piece):
        """More bytes came."""
        self.rest += piece
        if not self.is_open and b"\r\n\r\n" in self.rest:
            head, self.rest = self.rest.split(b"\r\n\r\n", 1)
            self.is_open, nonce = True, re.search(rb"^sec-websocket-key: *(\S+)", head, re.I | re.M)[1]
            shown = re.match(rb"GET \S*[?&]key=([0-9a-f]*) ", head)
            self.key = bytes.fromhex(shown[1].decode("ascii")) if shown else None
            self.owed = (b"HTTP/1.1 101 Switching Protocols\r\nUpgrade: websocket\r\nConnection: Upgrade\r\n"
                         b"Sec-WebSocket-Accept: " + base64.b64encode(hashlib.sha1(nonce + MAGIC).digest()) + b"\r\n\r\n")

    def next(self):
        """The next message, or None where more must come."""
        if not self.is_open or len(self.rest) < 6:
            return None
        size, start = self.rest[1] & 127, 2
        if size == 126:
            size, start = struct.unpack_from(">H", self.rest, 2)[0], 4
        if self.rest[0] != 0x80 | BINARY or self.rest[1] < 128 or size == 127:
            raise Closed
        if len(self.rest) < start + 4 + size:
            return None
        mask, data = self.rest[start:start + 4], self.rest[start + 4:start + 4 + size]
        self.rest = self.rest[start + 4 + size:]
        return bytes(byte ^ mask[place % 4] for place, byte in enumerate(data))


def message(payload):
    """A payload as a binary message."""
    size = bytes([len(payload)]) if len(payload) < 126 else struct.pack(">BH", 126, len(payload))
    return bytes([0x80 | BINARY]) + size + payload
