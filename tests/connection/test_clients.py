"""Clients that are not this project's own, and a socket over which requests come in pieces, all over TCP.

What is expected follows from docs/HTTP.md.
"""

import email
import http.client
import pathlib
import socket
import tempfile

from lib.client import (
    HELLO, LARGEST_FILE, PATIENCE, PUBLISHED, closing, digest_of, opened, opening, refused, request, sent, to_head, upload,
    uploaded,
)
from lib.over_tcp import (
    CURL, WAITING, WGET, Connection, OverTcp, Server, assert_exchanges, assert_reads, downloaded, needs_curl, needs_wget,
)
from lib.range_replies import TWO_PARTS
from lib.sample_connection import TALK
from lib.sample_site import WORLD
from lib.wire import BODY_TOO_LARGE, CODING_REFUSED, END, FILE, INTERIM, NEXT, NO_FILE, expecting, in_old_version

DEPLOYS = "/api/v1/sites/one/deploys"
UPLOAD = "/api/v1/deploys/1/files/a.txt"
LISTING = opening({"/a.txt": HELLO}).partition(END)[2]
BAD_METHOD = refused("BadMethod", "Allow: GET, HEAD")
EXPECT = {"Expect": "100-continue"}


@needs_curl
class Curl(OverTcp):
    publishing = [
        (DEPLOYS, "--data-binary", LISTING.decode()), (UPLOAD, "--request", "PUT", "--data-binary", "hello"),
    ]

    def file(self, content):
        file = tempfile.NamedTemporaryFile()
        self.addCleanup(file.close)
        file.write(content)
        file.flush()
        return file.name

    def assert_sees(self, wanted, sent_bytes, target, *options, after=()):
        """The last of these requests is answered so, byte for byte, and curl sends `sent_bytes` bytes of its body."""
        status = wanted.removeprefix(INTERIM)[9:12].decode()
        said = self.converse(*after, (target, *WAITING, "--write-out", "|%{http_code} %{size_upload}", *options))
        shown = "".join(said.splitlines(keepends=True)[len(after):])
        self.assertEqual(shown, f"{wanted.decode()}|{status} {sent_bytes}", options)

    def test_is_served_in_the_old_version(self):
        self.assert_sees(closing(sent(b"hello")), 0, FILE, "--http1.0", after=self.publishing)
        for wanted, count, target, *options in [
            (NO_FILE, 0, FILE), (to_head(NO_FILE), 0, FILE, "--head"), (refused("NoRoute"), 0, "/nowhere"),
            (opened(1, HELLO), len(LISTING), DEPLOYS, "--data-binary", LISTING.decode()),
            (BAD_METHOD, 5, FILE, "--upload-file", self.file(b"hello")),
        ]:
            self.assert_sees(closing(wanted), count, target, "--http1.0", *options)

    def test_is_told_to_send_a_large_upload(self):
        content = bytes(2 ** 20 + 1)
        listing = opening({"/a.txt": digest_of(content)}).partition(END)[2].decode()
        self.assert_sees(INTERIM + uploaded(content, 2), len(content), UPLOAD, "--upload-file", self.file(content),
                         after=[(DEPLOYS, "--data-binary", listing)])

    def test_is_told_to_send_what_it_asks_for(self):
        small = ("--upload-file", self.file(b"hello"), "--header")
        self.assert_sees(INTERIM + uploaded(b"hello", 2), 5, UPLOAD, *small, "Expect: 100-Continue",
                         after=self.publishing[:1])
        self.assert_sees(INTERIM + BAD_METHOD, 5, FILE, *small, "expect: 100-CONTINUE")
        self.assert_sees(INTERIM + opened(1, HELLO), len(LISTING), DEPLOYS, "--header", "Expect: 100-continue",
                         "--data-binary", LISTING.decode())

    def test_is_told_nothing_where_it_asks_otherwise(self):
        small = ("--upload-file", self.file(b"hello"), "--header")
        self.assert_sees(BAD_METHOD, 5, FILE, *small, "Expect: 200-ok")
        self.assert_sees(closing(BAD_METHOD), 5, FILE, "--http1.0", *small, "Expect: 100-continue")

    def test_sees_that_a_large_upload_is_refused_and_sends_nothing_of_it(self):
        huge = self.file(bytes(LARGEST_FILE + 1))
        self.assert_sees(BODY_TOO_LARGE, 0, UPLOAD, "--upload-file", huge)
        self.assert_sees(BODY_TOO_LARGE, 0, UPLOAD, "--upload-file", huge, after=self.publishing)

    def test_sees_that_a_coding_is_refused_and_sends_nothing_of_it(self):
        self.assert_sees(CODING_REFUSED, 0, UPLOAD, "--upload-file", self.file(b"hello"), "--header",
                         "Transfer-Encoding: chunked")


    def test_asks_for_several_ranges(self):
        listing = opening({"/a.txt": WORLD}).partition(END)[2].decode()
        publishing = [(DEPLOYS, "--data-binary", listing), (UPLOAD, "--request", "PUT", "--data-binary", "hello world")]
        for ranges in ("0-4,-5", "0-4,6-", ",0-4, 6-10,11-"):
            self.assert_sees(TWO_PARTS, 0, FILE, "--range", ranges, after=publishing)
        self.assert_sees(TWO_PARTS, 0, FILE, "--range", "0-4,-5", "--header", f'If-Range: "{WORLD}"', after=publishing)
        self.assert_sees(sent(b"hello world"), 0, FILE, "--range", "0-4,-5", "--header", "If-Range: x", after=publishing)


class Downloads(OverTcp):
    """A download that is cut, and then resumed."""

    content = bytes(range(251)) * 1_000
    exchanges = [(opening({"/a.txt": digest_of(content)}), opened(1, digest_of(content))),
                 (upload(1, "a.txt", content), uploaded(content, 2))]

    def setUp(self):
        super().setUp()
        folder = tempfile.TemporaryDirectory()
        self.addCleanup(folder.cleanup)
        self.folder = pathlib.Path(folder.name)

    def begin(self, *cuts):
        self.server = Server(self, self.exchanges, cuts)

    def assert_gets(self, status, count, *words):
        """This client ends with the status, and the file then has the first `count` bytes of the content."""
        self.assertEqual(downloaded(self.folder, f"http://127.0.0.1:{self.server.port}{FILE}", words), (status, self.content[:count]))

    def assert_asked(self, *ranges):
        """The requests had these ranges, and no others."""
        self.server.thread.join(PATIENCE)
        asked = [[line[7:] for line in head.decode().split("\r\n") if line.lower().startswith("range: ")] for head in self.server.asked]
        self.assertEqual(asked, [[value] if value else [] for value in ranges])

    @needs_curl
    def test_is_resumed_by_curl(self):
        self.begin(100_000, 65_536, None, None)
        self.assert_gets(18, 100_000, *CURL)
        self.assert_gets(18, 165_536, *CURL, "--continue-at", "-")
        self.assert_gets(0, 251_000, *CURL, "--continue-at", "-")
        self.assert_gets(0, 251_000, *CURL, "--continue-at", "-")
        self.assert_asked(None, "bytes=100000-", "bytes=165536-", "bytes=251000-")

    @needs_curl
    def test_is_resumed_under_the_tag_of_the_file_alone(self):
        self.begin(1, None, None)
        self.assert_gets(18, 1, *CURL)
        resuming = (*CURL, "--continue-at", "-", "--header")
        self.assert_gets(33, 1, *resuming, f'If-Range: "{HELLO}"')
        self.assert_gets(0, 251_000, *resuming, f'If-Range: "{digest_of(self.content)}"')
        self.assert_asked(None, "bytes=1-", "bytes=1-")

    @needs_wget
    def test_is_resumed_by_wget(self):
        self.begin(100_000, 65_536, None, None)
        self.assert_gets(4, 100_000, *WGET, "--tries", "1")
        self.assert_gets(4, 165_536, *WGET, "--tries", "1", "--continue")
        self.assert_gets(0, 251_000, *WGET, "--tries", "1", "--continue")
        self.assert_gets(0, 251_000, *WGET, "--tries", "1", "--continue")
        self.assert_asked(None, "bytes=100000-", "bytes=165536-", "bytes=251000-")

    @needs_wget
    def test_is_resumed_by_wget_on_its_own(self):
        self.begin(100_000, 65_536, None)
        self.assert_gets(0, 251_000, *WGET, "--tries", "3")
        self.assert_asked(None, "bytes=100000-", "bytes=165536-")


class OldConnection(http.client.HTTPConnection):
    _http_vsn, _http_vsn_str = 10, "HTTP/1.0"


class StandardLibrary(OverTcp):
    """Python's http.client."""

    def connect(self, kind=http.client.HTTPConnection):
        connection = kind("127.0.0.1", self.serve(), timeout=PATIENCE)
        self.addCleanup(connection.close)
        return connection

    def publish(self, connection, **fields):
        assert_exchanges(self, connection, opened(1, HELLO), "POST", DEPLOYS, LISTING, fields)
        assert_exchanges(self, connection, uploaded(b"hello", 2), "PUT", UPLOAD, b"hello", fields)

    def test_makes_several_requests_in_one_connection(self):
        connection = self.connect()
        self.publish(connection)
        part = sent(b"ell", "Content-Range: bytes 1-3/5", whole=b"hello")
        assert_exchanges(self, connection, part, "GET", FILE, None, {"Range": "bytes=1-3"})
        assert_exchanges(self, connection, to_head(sent(b"hello")), "HEAD", FILE)
        assert_exchanges(self, connection, BAD_METHOD, "POST", FILE, b"hello")
        assert_exchanges(self, connection, closing(sent(b"hello")), "GET", FILE, None, {"Connection": "close"})
        self.assert_ended_well()

    def test_finds_each_part_of_several_ranges(self):
        content = b"\r\n--fh0-\r\n\r\nhello\r\n--" + bytes(range(256)) * 300
        connection = self.connect()
        assert_exchanges(self, connection, opened(1, digest_of(content)), "POST", DEPLOYS,
                         opening({"/a.txt": digest_of(content)}).partition(END)[2])
        assert_exchanges(self, connection, uploaded(content, 2), "PUT", UPLOAD, content)
        connection.request("GET", FILE, None, {"Range": "bytes=0-23,-820,1-1,0-1,65530-65540"})
        got = connection.getresponse()
        text = f"Content-Type: {got.getheader('Content-Type')}\r\n\r\n".encode() + got.read()
        message = email.message_from_bytes(text)
        size = len(content)
        self.assertEqual((got.status, message.get_content_type(), message.defects), (206, "multipart/byteranges", []))
        self.assertEqual(
            [(part.items(), part.get_payload(decode=True)) for part in message.get_payload()],
            [([("Content-Type", "text/plain; charset=utf-8"), ("Content-Range", f"bytes {first}-{last}/{size}")], content[first:last + 1])
             for first, last in ((0, 23), (size - 820, size - 1), (1, 1), (0, 1), (65_530, 65_540))],
        )
        assert_exchanges(self, connection, closing(to_head(sent(content))), "HEAD", FILE, None, {"Connection": "close"})
        self.assert_ended_well()

    def test_is_served_in_the_old_version(self):
        for wanted, *asked in [
            (NO_FILE, "GET", FILE), (to_head(NO_FILE), "HEAD", FILE), (opened(1, HELLO), "POST", DEPLOYS, LISTING),
            (BAD_METHOD, "PUT", FILE, b"hello", EXPECT), (NO_FILE, "GET", FILE, None, {"Connection": "keep-alive"}),
        ]:
            assert_exchanges(self, self.connect(OldConnection), closing(wanted), *asked)
            self.assert_ended_well()

    def test_takes_no_notice_of_the_interim_reply(self):
        connection = self.connect()
        self.publish(connection, **EXPECT)
        assert_exchanges(self, connection, sent(b"hello"), "GET", FILE, None, EXPECT)
        connection.close()
        self.assert_ended_well()

    def test_may_wait_for_the_interim_reply(self):
        connection = self.connect()
        assert_exchanges(self, connection, opened(1, HELLO), "POST", DEPLOYS, LISTING)
        connection.request("PUT", UPLOAD, None, {"Content-Length": "5", **EXPECT})
        self.assertEqual(connection.sock.recv(len(INTERIM), socket.MSG_WAITALL), INTERIM)
        connection.send(b"hello")
        assert_reads(self, connection, uploaded(b"hello", 2))
        assert_exchanges(self, connection, sent(b"hello"), "GET", FILE)

    def test_reads_why_a_body_is_refused(self):
        connection = self.connect()
        self.publish(connection)
        length = {"Content-Length": str(LARGEST_FILE + 1)}
        assert_exchanges(self, connection, BODY_TOO_LARGE, "PUT", UPLOAD, None, length)
        self.assert_ended_well()
        connection = self.connect()
        assert_exchanges(self, connection, CODING_REFUSED, "PUT", UPLOAD, iter([b"hel", b"lo"]))
        connection.close()
        self.assert_ended_well()


# Requests with an Expect; some of them get an interim reply.
EXPECTING = [
    *((expecting(asked), INTERIM + wanted) for asked, wanted in PUBLISHED), (expecting(NEXT), sent(b"hello")),
    (expecting(request("HEAD", FILE, "Content-Length: 0")), INTERIM + to_head(sent(b"hello"))),
    (expecting(upload(1, "a.txt", b"hello"), "200-ok"), uploaded(b"hello")),
    (in_old_version(expecting(upload(1, "a.txt", b"hello"))), closing(uploaded(b"hello"))),
]


def joined(talk):
    """Its requests, and its replies."""
    return tuple(map(b"".join, zip(*talk)))


class Sockets(OverTcp):
    """Requests whose bytes come in pieces."""

    def assert_hears(self, pieces, wanted, message):
        connection = Connection(self)
        for piece in pieces:
            connection.send(piece)
        self.assertEqual(connection.end(), (0, wanted, b""), message)
        connection.leave()

    def test_bring_a_byte_at_a_time(self):
        for asked, wanted in (joined(TALK), joined(EXPECTING)):
            self.assert_hears([asked[place:place + 1] for place in range(len(asked))], wanted, asked[:100])

    def test_separate_requests_at_each_byte(self):
        for asked, wanted in (joined(TALK), joined(EXPECTING)):
            for place in range(1, len(asked)):
                self.assert_hears([asked[:place], asked[place:]], wanted, f"{asked[:100]}, after {place} bytes")

    def test_bring_the_interim_reply_before_the_body_is_sent(self):
        connection = Connection(self)
        for asked, wanted in EXPECTING:
            head, body = (asked + END).split(END)[:2]
            connection.send(head + END)
            if wanted.startswith(INTERIM):
                self.assertEqual(connection.receive(len(INTERIM)), INTERIM, asked)
            connection.send(body)
            wanted = wanted.removeprefix(INTERIM)
            self.assertEqual(connection.receive(len(wanted)), wanted, asked)
        self.assertEqual(connection.end(), (0, b"", b""))
