"""What the wire itself answers, before any route: the interim reply, and the refusals of heads and lengths.

They follow from docs/WIRE.md; the interim reply from RFC 9110, section 10.1.1.
"""

from lib.client import closing, refused, request, told

FILE = "/s/one/a.txt"
LINE = f"GET {FILE} HTTP/1.1".encode()
END = b"\r\n\r\n"
HEAD_LIMIT = 16_384
NEXT = LINE + END
NO_FILE = refused("NoSuchFile")
INTERIM = b"HTTP/1.1 100 Continue\r\n\r\n"


def fault(status, name):
    """The reply to a head, or to the length that it tells, which ends the connection."""
    return closing(told(status, {"error": name}))


BAD_HEAD = fault("400 Bad Request", "BadHead")
LENGTH_BAD = fault("400 Bad Request", "LengthBad")
BODY_TOO_LARGE = fault("413 Payload Too Large", "BodyTooLarge")
HEAD_TOO_LARGE = fault("431 Request Header Fields Too Large", "HeadTooLarge")
CODING_REFUSED = fault("501 Not Implemented", "CodingRefused")


def expecting(asked, value="100-continue"):
    """The request with an Expect after its other fields."""
    return asked.replace(END, f"\r\nExpect: {value}".encode() + END, 1)


def in_old_version(asked):
    """The request in HTTP/1.0."""
    return asked.replace(b" HTTP/1.1\r\n", b" HTTP/1.0\r\n", 1)


def with_fields(count, last="a: b", method="GET"):
    """A request of `count` fields."""
    return request(method, FILE, *["a: b"] * (count - 1), last)


def long_head(length, method="GET"):
    """The first bytes of a head that has no end yet."""
    return f"{method} {FILE} HTTP/1.1\r\nLong: ".encode().ljust(length, b"a")


# A request with each fault, and the reply to it, letter by letter.
FAULTS = [
    (request("PUT", "/api/v1/deploys/1/files/a.txt", "Content-Length: 16777217"),
     b'HTTP/1.1 413 Payload Too Large\r\nContent-Type: application/json\r\nContent-Length: 24\r\n'
     b'Connection: close\r\n\r\n{"error":"BodyTooLarge"}'),
    (request("PUT", "/api/v1/deploys/1/files/a.txt", "Transfer-Encoding: chunked"),
     b'HTTP/1.1 501 Not Implemented\r\nContent-Type: application/json\r\nContent-Length: 25\r\n'
     b'Connection: close\r\n\r\n{"error":"CodingRefused"}'),
    (with_fields(65),
     b'HTTP/1.1 431 Request Header Fields Too Large\r\nContent-Type: application/json\r\nContent-Length: 24\r\n'
     b'Connection: close\r\n\r\n{"error":"HeadTooLarge"}'),
    (request("PUT", "/api/v1/deploys/1/files/a.txt", "Content-Length: 5", "Content-Length: 5"),
     b'HTTP/1.1 400 Bad Request\r\nContent-Type: application/json\r\nContent-Length: 21\r\n'
     b'Connection: close\r\n\r\n{"error":"LengthBad"}'),
    (b"hello\r\n\r\n",
     b'HTTP/1.1 400 Bad Request\r\nContent-Type: application/json\r\nContent-Length: 19\r\n'
     b'Connection: close\r\n\r\n{"error":"BadHead"}'),
]
