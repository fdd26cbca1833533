"""Replies that send parts of a file: one, several, or none."""

from lib.client import digest_of, refused, reply, sent
from lib.plain_model import multipart
from lib.rows import OTHER

# The reply with the positions 0 to 4 and 6 to 10 of `hello world`, in parts.
TWO_PARTS = (
    b"HTTP/1.1 206 Partial Content\r\n"
    b"Content-Type: multipart/byteranges; boundary=fh0-2aae6c35c94fcfb415dbe95f408b9ce91ee846ed\r\n"
    b"Content-Length: 305\r\n"
    b'ETag: "2aae6c35c94fcfb415dbe95f408b9ce91ee846ed"\r\n'
    b"Accept-Ranges: bytes\r\n"
    b"\r\n"
    b"--fh0-2aae6c35c94fcfb415dbe95f408b9ce91ee846ed\r\n"
    b"Content-Type: text/plain; charset=utf-8\r\n"
    b"Content-Range: bytes 0-4/11\r\n"
    b"\r\n"
    b"hello\r\n"
    b"--fh0-2aae6c35c94fcfb415dbe95f408b9ce91ee846ed\r\n"
    b"Content-Type: text/plain; charset=utf-8\r\n"
    b"Content-Range: bytes 6-10/11\r\n"
    b"\r\n"
    b"world\r\n"
    b"--fh0-2aae6c35c94fcfb415dbe95f408b9ce91ee846ed--\r\n"
)


def part(content, first, last, kind=OTHER):
    """The reply that sends the bytes from the first position to the last, both included."""
    positions = f"Content-Range: bytes {first}-{last}/{len(content)}"
    return sent(content[first:last + 1], positions, kind=kind, whole=content)


def parts(content, *intervals, kind=OTHER):
    """The reply that sends several such parts, in this order."""
    tag = f'ETag: "{digest_of(content)}"'
    return reply("206 Partial Content", *multipart(kind, content, intervals), tag, "Accept-Ranges: bytes")


def none_of(content):
    """The reply if no byte of the range is there."""
    return refused("NotSatisfiable", f"Content-Range: bytes */{len(content)}")
