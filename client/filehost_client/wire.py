"""Requests and replies of HTTP/1.1 as bytes (RFC 9112)."""

import json
import re
from collections import namedtuple

from .errors import BadReply

LARGEST_HEAD = 65_536
# More than any reply of the interface has: a list of 10,000 digests is 430 KB.
LARGEST_BODY = 4_194_304
PIECE = 65_536
MOST_FIELDS = 100

STATUS_LINE = re.compile(rb"HTTP/1\.([01]) ([1-9][0-9]{2})(?: [^\r\n]*)?\r?\n", re.ASCII)


class Ended(Exception):
    """The stream ended, or was cut, before the reply was whole. `began` says whether any of the reply had come."""

    def __init__(self, began):
        super().__init__("the connection ended")
        self.began = began


class Reply(namedtuple("Reply", "status fields body", defaults=(b"",))):
    """A reply: its status, its fields by their names in lower case, and its body, if that was read."""

    __slots__ = ()

    def members(self):
        """The members of a body that is a JSON object, or None if it isn't one."""
        try:
            told = json.loads(self.body)
        except (ValueError, RecursionError):
            return None
        return told if isinstance(told, dict) else None

    @property
    def tag(self):
        """The entity tag, without its quotes and without the mark that a proxy adds to a weak one; or None."""
        found = re.fullmatch(r'(?:W/)?"([^"]*)"', self.fields.get("etag", ""))
        return found and found[1]


class Head(namedtuple("Head", "status fields closes")):
    """The head of a reply: its status, its fields, and whether the connection ends after it."""

    __slots__ = ()

    def has_body(self, method):
        return method != "HEAD" and self.status not in (204, 304)


def request_head(method, target, fields):
    """The head of a request, as bytes."""
    lines = [f"{method} {target} HTTP/1.1", *(f"{name}: {value}" for name, value in fields)]
    return ("\r\n".join(lines) + "\r\n\r\n").encode("ascii")


def parse_head(text):
    """Reads a whole head. Raises BadReply if it isn't one of HTTP/1.0 or HTTP/1.1."""
    first = STATUS_LINE.match(text)
    if not first:
        raise BadReply(f"what answers doesn't speak HTTP/1.1: {text[:40]!r}")
    fields = {}
    for line in text[first.end():].decode("latin-1").splitlines():
        name, colon, value = line.partition(":")
        if colon:
            name, value = name.strip().lower(), value.strip()
            fields[name] = f"{fields[name]}, {value}" if name in fields else value
        elif line:
            raise BadReply(f"a reply has a field without a colon: {line[:40]!r}")
    words = {word.strip().lower() for word in fields.get("connection", "").split(",")}
    return Head(int(first[2]), fields, "close" in words or first[1] == b"0" and "keep-alive" not in words)


class Incoming:
    """What comes over a connection, read through a buffer. `receive` is a socket's recv."""

    def __init__(self, receive):
        self.receive = receive
        self.buffer = bytearray()

    def more(self, began=True):
        """Waits for more bytes. Raises Ended if there are none."""
        piece = self.receive(PIECE)
        if not piece:
            raise Ended(began or bool(self.buffer))
        self.buffer += piece

    def until(self, *ends, most=LARGEST_HEAD, began=True):
        """The bytes up to the first of these ends, which they include."""
        while True:
            places = [place + len(end) for end in ends if (place := self.buffer.find(end)) >= 0]
            if places and min(places) <= most:
                return self.take(min(places))
            if places or len(self.buffer) > most:
                raise BadReply("a head or a line of a reply is too long: is this a filehost?")
            self.more(began)

    def take(self, count):
        taken = bytes(memoryview(self.buffer)[:count])
        del self.buffer[:count]
        return taken

    def pieces(self, count):
        """The next `count` bytes, piece by piece."""
        while count:
            if not self.buffer:
                self.more()
            piece = self.take(min(count, len(self.buffer)))
            count -= len(piece)
            yield piece

    def head(self):
        """The head of the next reply. Interim replies before it are passed over."""
        while True:
            text = self.until(b"\r\n\r\n", b"\n\n", began=False)
            head = parse_head(text)
            if head.status >= 200:
                return head

    def body(self, head, method):
        """The body that belongs to this head, piece by piece. Raises Ended if it is cut."""
        if not head.has_body(method):
            return
        if "chunked" in head.fields.get("transfer-encoding", "").lower():
            yield from self.chunks()
        elif (length := head.fields.get("content-length")) is not None:
            if not re.fullmatch(r"[0-9]{1,19}", length, re.ASCII):
                raise BadReply(f"a reply says that its length is {length[:40]!r}")
            yield from self.pieces(int(length))
        else:
            yield from self.rest()

    def chunks(self):
        """A chunked body, as a proxy may send it (RFC 9112, section 7.1)."""
        while True:
            line = self.until(b"\n", most=1_024)
            size = re.match(rb"[0-9a-fA-F]{1,12}", line)
            if not size:
                raise BadReply("a chunked reply has a chunk without a size")
            if int(size[0], 16) == 0:
                return self.end_chunks()
            yield from self.pieces(int(size[0], 16))
            self.until(b"\n", most=2)

    def end_chunks(self):
        """Passes over the fields after the last chunk, up to an empty line."""
        for _ in range(MOST_FIELDS):
            if not self.until(b"\n").strip():
                return
        raise BadReply("a chunked reply has too many fields at its end")

    def rest(self):
        """All that comes until the connection ends."""
        while True:
            if self.buffer:
                yield self.take(len(self.buffer))
            try:
                self.more()
            except Ended:
                return

    def whole_body(self, head, method):
        """The body as bytes. Raises BadReply if it is longer than any of the interface."""
        body = bytearray()
        for piece in self.body(head, method):
            body += piece
            if len(body) > LARGEST_BODY:
                raise BadReply("a reply is longer than any of a filehost")
        return bytes(body)
