"""A WebSocket client of a room (RFC 6455), over Python's standard library alone."""
import base64
import hashlib
import os
import socket

GUID = b"258EAFA5-E914-47DA-95CA-C5AB0DC85B11"
CONTINUED, TEXT, BINARY, CLOSE, PING, PONG = 0, 1, 2, 8, 9, 10


class Refused(Exception):
    """The handshake was answered with another status than 101, which is told, or with nothing: then it is None."""

    def __init__(self, status):
        super().__init__(status)
        self.status = status


def head_of(port, *more, key=b"dGhlIHNhbXBsZSBub25jZQ=="):
    """The head of a handshake, with more headers."""
    lines = [b"GET / HTTP/1.1", b"Host: 127.0.0.1:%d" % port, b"Connection: Upgrade", b"Upgrade: websocket"]
    lines += [b"Sec-WebSocket-Version: 13", b"Sec-WebSocket-Key: " + key, *(line.encode() for line in more)]
    return b"\r\n".join(lines) + b"\r\n\r\n"


def framed(part, first=0x80 | TEXT, mask=b"\x12\x34\x56\x78", size=None, count=None):
    """A frame whose first byte this is, its length in the shortest form, in `size` bytes, or said to be `count`."""
    part = part.encode() if isinstance(part, str) else part
    count = len(part) if count is None else count
    size = (0 if count < 126 else 2 if count < 65536 else 8) if size is None else size
    second = (128 if mask else 0) | {0: count, 2: 126, 8: 127}[size]
    masked = bytes(byte ^ mask[at % 4] for at, byte in enumerate(part)) if mask else part
    return bytes([first, second]) + (count.to_bytes(size, "big") if size else b"") + (mask or b"") + masked


class Client:
    def __init__(self, port, origin=None, seconds=20, more=b""):
        """Joins the room at this port of the loopback, as a page of an origin or as a program, and sends more at once."""
        self.socket = socket.create_connection(("127.0.0.1", port), seconds)
        self.came = b""
        key = base64.b64encode(os.urandom(16))
        self.socket.sendall(head_of(port, *([f"Origin: {origin}"] if origin else []), key=key) + more)
        answer = self.head()
        words = answer.split(None, 2)
        status = int(words[1]) if len(words) > 1 else None
        accept = base64.b64encode(hashlib.sha1(key + GUID).digest())
        if status != 101 or b"\r\nsec-websocket-accept: " + accept.lower() not in answer.lower():
            self.socket.close()
            raise Refused(status)

    def more(self):
        """Reads what has come, and tells whether anything did before the end."""
        try:
            piece = self.socket.recv(65536)
        except ConnectionResetError:
            piece = b""
        self.came += piece
        return bool(piece)

    def head(self):
        """The answer to a handshake up to its empty line, or up to the end."""
        while b"\r\n\r\n" not in self.came and self.more():
            pass
        head, _, self.came = self.came.partition(b"\r\n\r\n")
        return head

    def take(self, count):
        while len(self.came) < count:
            if not self.more():
                raise EOFError
        taken, self.came = self.came[:count], self.came[count:]
        return taken

    def frame(self):
        """The next frame: whether it is the last of its message, what it is, and its bytes."""
        first, second = self.take(2)
        count = second & 127
        if count > 125:
            count = int.from_bytes(self.take(2 if count == 126 else 8), "big")
        return first >> 7, first & 15, self.take(count)

    def receive(self):
        """The next message, which may come in several frames; None where the link has ended."""
        message = b""
        try:
            while True:
                is_last, kind, part = self.frame()
                if kind == PING:
                    self.send(part, PONG)
                elif kind == CLOSE:
                    return None
                elif kind in (CONTINUED, TEXT, BINARY):
                    message += part
                    if is_last:
                        return message.decode()
        except EOFError:
            return None

    def send(self, text, kind=TEXT):
        """Sends a message in one frame."""
        self.socket.sendall(framed(text, 128 | kind, os.urandom(4)))

    def leave(self):
        """Says goodbye, and waits until the link has ended."""
        self.send(b"", CLOSE)
        while self.receive() is not None:
            pass
        self.socket.close()
