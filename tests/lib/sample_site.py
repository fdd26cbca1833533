"""A site with three texts; tests read one or several ranges of them."""

from lib.client import HELLO, digest_of, opened, opening, request, upload, uploaded

EMPTY = digest_of(b"")
WORLD = digest_of(b"hello world")

# The site `one` serves three texts after these.
TEXTS = [
    (opening({"a.txt": HELLO, "w.txt": WORLD, "e.txt": EMPTY}), opened(1, WORLD, HELLO, EMPTY)),
    (upload(1, "a.txt", b"hello"), uploaded(b"hello")), (upload(1, "w.txt", b"hello world"), uploaded(b"hello world")),
    (request("PUT", "/api/v1/deploys/1/files/e.txt"), uploaded(b"", 2)),
]
