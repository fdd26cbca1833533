"""A connection from outside: its heads and bodies, its replies, and where it ends.

What is expected follows from docs/WIRE.md, docs/HTTP.md and docs/DECISIONS.md.
"""

import socket

from lib.client import (
    ABC, HELLO, LARGEST_FILE, PUBLISHED, REQUESTS, Client, Program, asking, closing, done, opened, opening, refused, request, run,
    sent, to_head, upload, uploaded,
)
from lib.sample_connection import ASKED, TALK
from lib.wire import (
    BAD_HEAD, BODY_TOO_LARGE, CODING_REFUSED, END, FILE, HEAD_LIMIT, HEAD_TOO_LARGE, LENGTH_BAD, LINE, NEXT, NO_FILE, long_head,
    with_fields,
)

JSON_LIMIT = 4_194_304

DEPLOYS = "/api/v1/sites/one/deploys"
UNDO = "/api/v1/sites/one/undo"
BAD_METHOD = refused("BadMethod", "Allow: GET, HEAD")


class Heads(Program):
    visible = bytes(range(0x21, 0x7F))
    token = b"!#$%&'*+-.^_`|~0123456789abcxyzABCXYZ"
    served = [
        LINE + b"\n\n", LINE + b"\nHost: x\n\n", LINE + b"\nHost: x\r\n\n", LINE + b"\r\nHost: x\n\r\n",
        b"\r\n\n\n\r\n" + NEXT, LINE + b"\r\nA:b\r\nB:\t b c \t\r\nC:\r\nD: \t \r\nA: b\tc" + END,
        LINE + b"\r\n" + token + b": " + visible + bytes(range(0x80, 0x100)) + END,
        b"GET /s/one/a?" + visible + b" HTTP/1.1" + END, "GET /s/one/ä€😀?ä€😀 HTTP/1.1".encode() + END,
    ]

    # What is refused in the place of the version, the method, the target and the fields.
    versions = [
        b"HTTP/1.2", b"HTTP/2.0", b"HTTP/0.9", b"HTTP/1", b"HTTP/1.10", b"HTTP/11", b"http/1.1",
        b"HTTPS/1.1", b"HTTP/1.1 ", b"HTTP/1.1 x", b" HTTP/1.1", b"\tHTTP/1.1", b"x HTTP/1.1", b"",
    ]
    methods = [
        b"", b" GET", b"GET ", b"GET\t", b"G(T", b"G\0T", b"G\xc3\xa4T", b"GET,", b"G:T", b'"GET"', b"/", b"\x7f",
    ]
    targets = [
        b"", b"s/one/a.txt", b"*", b"?a", b"#/a", b"http://x/s/one/a.txt", b"x:80", b"\xc3\xa4/a", b"\\",
        b"/s/one/\xff", b"/s/one/\xc3", b"/s/one/\xed\xa0\x80", b"/s/one/\x7f", b"/s/one/\1", b"/s/one/\0",
        b"/s/one/a\tb", b"/s/one/a b",
    ]
    fields = [
        b"no colon", b"A : b", b"A\t: b", b": b", b":", b" A: b", b"\tA: b", b"A: b\r\n c", b"A: b\r\n\tc: d",
        b"A b: c", b"A(: b", b"A\0: b", b"\xc3\xa4: b", b"A: b\0c", b"A: \1", b"A: b\x7fc", b"A: \x1b", b"A: b\rc",
        b"A: \rb", b"A\r: b", b"A: b\r\nC", b"Content-Length : 0",
    ]
    bad = [
        *(b"GET /s/one/a.txt " + version for version in versions), *(method + LINE[3:] for method in methods),
        *(b"GET " + target + b" HTTP/1.1" for target in targets), *(LINE + b"\r\nA: b\r\n" + line for line in fields),
        b"GET", b"GET ", b"GET /s/one/a.txt", b"hello", b"\0", b" ", b"HEAD /s/one/a.txt HTTP/1.2",
        b"HEAD /s/one/a.txt HTTP/1.1\r\nno colon",
    ]

    def test_are_served_in_each_form(self):
        for head in self.served:
            self.assert_answers(NEXT + head + NEXT, NO_FILE * 3, head)

    def test_may_have_any_token_as_their_method(self):
        for method in (b"get", b"GETS", b"M-SEARCH", b"X", self.token):
            self.assert_answers(method + LINE[3:] + END + NEXT, BAD_METHOD + NO_FILE, method)

    def test_are_refused_with_a_body_and_nothing_after_is_answered(self):
        for lines in self.bad:
            for end in (b"\r\n", b"\n"):
                head = lines.replace(b"\r\n", end) + end * 2
                self.assert_answers(NEXT + head + NEXT, NO_FILE + BAD_HEAD, head)

    def test_are_refused_with_a_carriage_return_that_ends_no_line(self):
        for head in (
            b"\r" + NEXT, b"\r\r\n" + NEXT, b"\r\r\n\n", LINE + b"\r" + END, LINE + b"\rA: b" + END,
            LINE + b"\r\nA: b\r\r\n\r\n", LINE + b"\r\n\r\r\n\r\n", LINE + b"\n\rA: b\n\n",
        ):
            self.assert_answers(NEXT + head + NEXT, NO_FILE + BAD_HEAD, head)

    def test_are_judged_only_when_they_are_whole(self):
        for cut in (
            b"", b"\r", b"\r\n", b"\n\n\n", b"G", b"no head", b"\xff\0", b"\0\n", LINE, LINE + b"\r\n",
            LINE + b"\r\n\r", LINE + b"\n\r", LINE + b"\r\n\r\r\n", LINE + b"\r\r", b"GET / HTTP/1.0\r\n",
            b"GET / HTTP/1.0\nno colon\n", with_fields(65)[:-2], long_head(HEAD_LIMIT - 1), b"\n" * (HEAD_LIMIT - 1),
            b"\r" * (HEAD_LIMIT - 1),
        ):
            self.assert_answers(cut, b"", cut[:100])
            self.assert_answers(NEXT + cut, NO_FILE, cut[:100])

    def test_have_at_most_16384_bytes(self):
        with_body = long_head(HEAD_LIMIT - 23) + b"\r\nContent-Length: 5" + END + b"hello"
        for stream, wanted in [
            (long_head(HEAD_LIMIT - 4) + END, NO_FILE), (long_head(HEAD_LIMIT - 3) + END, HEAD_TOO_LARGE),
            (long_head(HEAD_LIMIT - 2) + b"\n\n", NO_FILE), (long_head(HEAD_LIMIT - 1) + b"\n\n", HEAD_TOO_LARGE),
            (b"\n" * (HEAD_LIMIT - len(NEXT)) + NEXT, NO_FILE), (b"\n" * (HEAD_LIMIT - len(NEXT) + 1) + NEXT, HEAD_TOO_LARGE),
            (b"\r\n" * 4_000 + long_head(8_380) + END, NO_FILE), (b"\r\n" * 4_000 + long_head(8_381) + END, HEAD_TOO_LARGE),
            ((long_head(HEAD_LIMIT - 4) + END) * 3, NO_FILE * 3), (with_body * 2, NO_FILE * 2),
            (b"\n" + long_head(HEAD_LIMIT - 4) + END, HEAD_TOO_LARGE), (long_head(100_000) + END, HEAD_TOO_LARGE),
        ]:
            after = NO_FILE if wanted != HEAD_TOO_LARGE else b""
            self.assert_answers(NEXT + stream + NEXT, NO_FILE + wanted + after, f"{len(stream)} bytes, {stream[-40:]}")

    def test_have_an_end_within_16384_bytes(self):
        stretches = [text * 2 * HEAD_LIMIT for text in (b"\n", b"\r", b"\r\n", b"a", b"\0")]
        stretches += [long_head(2 * HEAD_LIMIT), long_head(HEAD_LIMIT - 3) + END]
        for stretch in stretches:
            self.assert_answers(stretch[:HEAD_LIMIT], HEAD_TOO_LARGE, stretch[:40])
            self.assert_answers(NEXT + stretch, NO_FILE + HEAD_TOO_LARGE, stretch[:40])

    def test_have_at_most_64_fields(self):
        self.assert_answers(with_fields(64) + NEXT, NO_FILE * 2)
        self.assert_answers(with_fields(64, "Content-Length: 5") + b"hello" + NEXT, NO_FILE * 2)
        self.assert_answers(with_fields(64, "Connection: close") + NEXT, closing(NO_FILE))
        for count in (65, 300):
            self.assert_answers(NEXT + with_fields(count) + NEXT, NO_FILE + HEAD_TOO_LARGE)
            self.assert_answers(b"HEAD" + with_fields(count)[3:] + NEXT, HEAD_TOO_LARGE)
            self.assert_answers(with_fields(count).replace(b"/s", b"s", 1) + NEXT, HEAD_TOO_LARGE)
        self.assert_answers(with_fields(64).replace(b"/s", b"s", 1) + NEXT, BAD_HEAD)
        self.assert_answers(with_fields(64, "no colon") + NEXT, BAD_HEAD)

    def test_of_the_older_version_are_served_and_end_the_connection(self):
        older = LINE.replace(b"1.1", b"1.0")
        for head in (older, older + b"\r\nConnection: keep-alive", older + b"\nHost: x", older + b"\r\nConnection: close"):
            self.assert_answers(NEXT + head + END + NEXT, NO_FILE + closing(NO_FILE), head)
            self.assert_answers(b"HEAD" + head[3:] + END + NEXT, to_head(closing(NO_FILE)), head)
        with_body = older + b"\r\nContent-Length: 5" + END
        self.assert_answers(with_body + b"hello" + NEXT, closing(NO_FILE))
        self.assert_answers(with_body + b"hell", b"")
        self.assert_answers(older + b"\r\nTransfer-Encoding: chunked" + END + NEXT, CODING_REFUSED)


class Bodies(Program):
    # The fields of heads that announce no body that is read, by the reply.
    bad_lengths = {
        BODY_TOO_LARGE: [["Content-Length: " + value] for value in ("4194305", "0004194305", "18446744073709551615")],
        LENGTH_BAD: [["Content-Length: " + value] for value in (
            "", "+5", "-5", "-0", "5,5", "5, 5", "5 5", "5x", "x", "0x5", "5.0", "5e0", "\uff15", '"5"',
            "18446744073709551616", "99999999999999999999", "1" + "0" * 100,
        )] + [
            ["Content-Length: 5"] * 2, ["Content-Length: 0", "content-length: 0"], ["Content-Length: 0"] * 3,
            ["Content-Length: 5", "Content-Length: 6"], ["Content-Length:", "Content-Length: 5"],
            ["Content-Length: 4194305"] * 2,
        ],
        CODING_REFUSED: [
            ["Transfer-Encoding: chunked"], ["Transfer-Encoding:"], ["Transfer-Encoding: gzip", "Transfer-Encoding: x"],
            ["TRANSFER-ENCODING: chunked", "Content-Length: 5"], ["Content-Length: 5", "transfer-encoding:identity"],
            ["Content-Length: 5", "Content-Length: 6", "Transfer-Encoding: x"],
            ["Content-Length: 4194305", "Transfer-Encoding: x"], ["Transfer-Encoding: x", "Content-Length: x"],
        ],
    }

    # How long a body may be, by method and target.
    limits = {
        LARGEST_FILE: [f"PUT /api/v1/deploys/{target}" for target in (
            "1/files/a", "1/files/a?b", "x/files/a", "0/files/a", "/files/a", "1/files/", "1/files/a//b", "1#/files/a",
        )],
        JSON_LIMIT: [
            "POST /api/v1/deploys/1/files/a", "HEAD /api/v1/deploys/1/files/a", "put /api/v1/deploys/1/files/a",
            "PUT /api/v1/deploys/1/files", "PUT /api/v1/deploys/1/files?/a", "PUT /api/v1/sites/one/aliases/x",
            "DELETE /api/v1/sites/one/files/a", f"POST {DEPLOYS}", f"POST {UNDO}", "POST /nowhere", f"PUT {FILE}",
            f"GET {FILE}", f"HEAD {FILE}",
        ],
    }

    def assert_refuses(self, method, asked, refusal):
        """The reply to the refused body of a HEAD has no body itself, and nothing after it is answered."""
        wanted = to_head(refusal) if method == "HEAD" else refusal
        self.assert_answers(NEXT + asked + b"hello" + NEXT, NO_FILE + wanted, asked)

    def test_have_the_length_that_the_head_tells(self):
        for value in (" 29", "29", " \t 029 \t", " " + "0" * 90 + "29"):
            for name in ("Content-Length", "content-LENGTH"):
                asked = request("GET", FILE, f"{name}:{value}")
                self.assert_answers(asked + NEXT * 2, NO_FILE * 2, asked)
                self.assert_answers(NEXT + asked + NEXT[:-1], NO_FILE, asked)
        for field in ("A: 5", "Content-Length: 0", "Content-Length: 000", "X-Content-Length: 5", "Content-Lengths: 5"):
            self.assert_answers(request("POST", "/nowhere", field) + NEXT, refused("NoRoute") + NO_FILE, field)

    def test_are_refused_for_their_length(self):
        for words in (f"GET {FILE}", f"HEAD {FILE}", "POST /nowhere", f"POST {DEPLOYS}", "get /s/One/"):
            method, target = words.split()
            for refusal, lines in self.bad_lengths.items():
                for fields in lines:
                    self.assert_refuses(method, request(method, target, "Host: x", *fields), refusal)

    def test_are_waited_for_up_to_the_greatest_length_and_no_further(self):
        for limit, lines in self.limits.items():
            for method, target in map(str.split, lines):
                within = request(method, target, f"Content-Length: {limit}")
                self.assert_answers(NEXT + within + NEXT, NO_FILE, within)
                self.assert_refuses(method, request(method, target, f"Content-Length: {limit + 1}"), BODY_TOO_LARGE)

    def test_are_taken_in_their_greatest_length(self):
        text = opening({"/a.txt": HELLO}).partition(END)[2].rjust(3_000_000)
        for length, wanted in ((JSON_LIMIT, opened(1, HELLO) + NO_FILE), (JSON_LIMIT + 1, BODY_TOO_LARGE)):
            self.assert_answers(request("POST", DEPLOYS, body=text.ljust(length)) + NEXT, wanted, length)
        largest = bytes(LARGEST_FILE)
        self.assert_converses([
            (request("GET", FILE, body=largest[:JSON_LIMIT]), NO_FILE),
            (upload("01", "a.txt", largest), refused("NoSuchDeploy")), (upload(1, "a//b", largest), refused("BadPath")),
            (NEXT, NO_FILE),
        ])


class Replies(Program):
    """When they come, and after which the connection ends."""

    # Each may follow what is published.
    kinds = [
        (opening({"/b.txt": ABC}), opened(3, ABC)), (opening({}), opened(3, published=4)), (NEXT, sent(b"hello")),
        (upload(1, "a.txt", b"hello"), uploaded(b"hello")), (upload(1, "a.txt", b"abc"), refused("WrongDigest")),
        (upload(1, "b.txt", b"abc"), refused("NotListed")), (upload(2, "a.txt", b"hello"), refused("NoSuchDeploy")),
        (request("HEAD", FILE), to_head(sent(b"hello"))), (request("PUT", FILE, body=b"hello"), BAD_METHOD),
        (request("GET", FILE, "Range: bytes=1-1"), sent(b"e", "Content-Range: bytes 1-1/5", whole=b"hello")),
        (request("GET", FILE, "Range: bytes=5-5"), refused("NotSatisfiable", "Content-Range: bytes */5")),
        (request("GET", "/s/one/b.txt"), NO_FILE), (request("HEAD", "/s/one/b.txt"), to_head(NO_FILE)),
        (request("GET", "/nowhere"), refused("NoRoute")), (request("GET", "/s/One/a"), refused("BadName")),
        (request("GET", "/s/one//"), refused("BadPath")), (asking("POST", UNDO), refused("BadBody")),
        (opening({"a": "b"}), refused("BadDigest")), (asking("POST", UNDO, change=2), done(entry=3)),
        (asking("POST", UNDO, change=1), refused("Clash", cell="draft 1", change=2)),
        (asking("PUT", "/api/v1/sites/one/aliases/x", deploy=1), done(entry=3)),
        (request("GET", "/api/v1/deploys/1"), done(id="1", required=[], site="one", state="kept")),
        (request("GET", "/api/v1/sites/two/changes"), done(changes=[])),
        (request("HEAD", "/api/v1/sites/two/changes"), to_head(done(changes=[]))),
    ]

    listing_close = [
        ["Connection: close"], ["CONNECTION:CLOSE"], ["Connection: keep-alive, Close"], ["connection:\tcLOSE\t"],
        ["Connection: ,keep-alive ,\t close \t,upgrade"], ["Connection: keep-alive", "Connection: close"],
        ["Connection: close", "Host: x", "Connection: keep-alive"], ["Connection: close,close"], ["Connection: close,"],
        ["Connection:", "Connection: ,close"],
    ]
    listing_others = [
        [], ["Connection: keep-alive"], ["Connection: closed"], ["Connection: close x"], ["Connection: c lose"],
        ["Connection: ,"], ["Connection:"], ["Proxy-Connection: close"], ["Connection: x-close", "Close: close"],
        ["Connection: close;q=1"], ['Connection: "close"'], ["Connection: keep-alive", "Connection: clos,e"],
    ]

    def test_come_before_the_next_request_is_sent(self):
        self.assert_converses_in_turns(TALK)

    def test_end_the_connection_where_the_client_asks_for_it(self):
        for asked, wanted in self.kinds:
            self.assert_converses([*PUBLISHED, (asked, wanted)])
            self.assert_converses([*PUBLISHED, (closing(asked), closing(wanted))], unread=NEXT)

    def test_end_the_connection_where_a_field_lists_close(self):
        for fields in self.listing_close:
            self.assert_answers(NEXT + request("GET", FILE, *fields) + NEXT, NO_FILE + closing(NO_FILE), fields)
        for fields in self.listing_others:
            self.assert_answers(NEXT + request("GET", FILE, *fields) + NEXT, NO_FILE * 3, fields)

    def test_end_the_connection_with_the_hundredth_request(self):
        others = PUBLISHED + [(request("GET", "/s/one/b.txt"), NO_FILE)] * (REQUESTS - 1 - len(PUBLISHED))
        self.assert_converses(others)
        self.assert_converses(others, unread=NEXT[:-1])
        for asked, wanted in self.kinds:
            self.assert_converses([*others, (asked, closing(wanted))], unread=NEXT)
        self.assert_converses([*others, (closing(NEXT), closing(sent(b"hello")))], unread=NEXT)
        self.assert_converses([*others, (b"hello" + END, BAD_HEAD)], unread=NEXT)

    def test_end_the_connection_while_the_input_is_open(self):
        too_long = request("PUT", "/api/v1/deploys/1/files/a.txt", f"Content-Length: {LARGEST_FILE + 1}")
        for asked, wanted in [
            (closing(NEXT), closing(NO_FILE)), (NEXT * REQUESTS, NO_FILE * (REQUESTS - 1) + closing(NO_FILE)),
            (NEXT + b"hello\n\n", NO_FILE + BAD_HEAD), (too_long, BODY_TOO_LARGE), (long_head(HEAD_LIMIT), HEAD_TOO_LARGE),
            (request("HEAD", FILE, "Transfer-Encoding: chunked"), to_head(CODING_REFUSED)),
            (LINE.replace(b"1.1", b"1.0") + END, closing(NO_FILE)),
        ]:
            client = Client(self)
            client.send(asked)
            self.assertEqual(client.end(), (0, wanted, b""), asked[-100:])

    def test_go_out_in_one_write_where_they_are_small(self):
        near, far = socket.socketpair(type=socket.SOCK_SEQPACKET)
        with near, far:
            self.assertEqual(run("solo", given=ASKED, stdout=far), (0, None, b""))
            far.close()
            self.assertEqual(list(iter(lambda: near.recv(100_000), b"")), [wanted for _, wanted in TALK])
