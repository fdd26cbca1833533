"""One connection, whose stream tests cut at each byte, and let be read and written in pieces."""

from lib.client import PUBLISHED, closing, refused, sent, to_head
from lib.wire import NEXT, NO_FILE

BAD_METHOD = refused("BadMethod", "Allow: GET, HEAD")

# Several requests, with bodies, both ends of lines, and empty lines before heads.
TALK = [
    (b"\r\n\nPUT /s/one/a HTTP/1.1\nHost: x\ncontent-LENGTH: 3\n\nabc", BAD_METHOD),
    (b"GET /s/one/b?q HTTP/1.1\r\nAccept: */*\n\r\n", NO_FILE),
    *PUBLISHED,
    (b"\nHEAD /s/one/a.txt HTTP/1.1\n\r\n", to_head(sent(b"hello"))),
    (closing(NEXT), closing(sent(b"hello"))),
]
ASKED = b"".join(asked for asked, _ in TALK)
WANTED = b"".join(wanted for _, wanted in TALK)
