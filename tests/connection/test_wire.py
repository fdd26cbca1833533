"""What the wire itself answers: each fault of a head or of a length, the interim reply, and the old version, HTTP/1.0.

What is expected follows from docs/WIRE.md; the interim reply from RFC 9110, section 10.1.1.
"""

from lib.client import (
    HELLO, LARGEST_FILE, PUBLISHED, REQUESTS, Client, Program, asking, closing, done, opened, opening, refused, request, run, sent,
    to_head, upload, uploaded,
)
from lib.wire import (
    BAD_HEAD, BODY_TOO_LARGE, CODING_REFUSED, END, FAULTS, FILE, HEAD_LIMIT, HEAD_TOO_LARGE, INTERIM, LENGTH_BAD, LINE, NEXT, NO_FILE,
    expecting, in_old_version, long_head, with_fields,
)

JSON_LIMIT = 4_194_304
DEPLOYS = "/api/v1/sites/one/deploys"
UPLOAD = "/api/v1/deploys/1/files/a.txt"
CODED = "Transfer-Encoding: chunked"
EXPECTED = "Expect: 100-continue"
BAD_METHOD = refused("BadMethod", "Allow: GET, HEAD")
HELLO_SENT = sent(b"hello")
UNDO = asking("POST", "/api/v1/sites/one/undo", change=2)


class Faults(Program):
    """Faults of heads and lengths, and what is no fault."""

    def test_are_answered_byte_for_byte_while_the_input_is_open(self):
        for asked, wanted in FAULTS:
            client = Client(self)
            client.send(asked)
            self.assertEqual(client.end(), (0, wanted, b""), asked)

    def test_end_the_connection(self):
        for asked, wanted in FAULTS:
            self.assert_converses([*PUBLISHED, (asked, wanted)], unread=b"hello" + NEXT)

    def test_are_none_where_a_request_is_cut_short(self):
        asked = upload(1, "a.txt", b"hello")
        for length in range(len(asked)):
            self.assert_converses(PUBLISHED[:1], unread=asked[:length])

    def test_are_none_where_the_method_is_wrong(self):
        self.assert_answers(request("POST", FILE) + NEXT, (
            b'HTTP/1.1 405 Method Not Allowed\r\nContent-Type: application/json\r\nContent-Length: 21\r\n'
            b'Allow: GET, HEAD\r\n\r\n{"error":"BadMethod"}') + NO_FILE)

    def test_send_the_head_alone_to_head_where_one_was_read(self):
        for asked, wanted in [
            (request("HEAD", FILE, CODED), to_head(CODING_REFUSED)), (with_fields(65, method="HEAD"), HEAD_TOO_LARGE),
            (request("HEAD", FILE, "Content-Length: x"), to_head(LENGTH_BAD)),
            (request("HEAD", FILE, f"Content-Length: {JSON_LIMIT + 1}"), to_head(BODY_TOO_LARGE)),
            (request("HEAD", FILE, "no colon"), BAD_HEAD), (long_head(HEAD_LIMIT, "HEAD"), HEAD_TOO_LARGE),
        ]:
            self.assert_answers(NEXT + asked + NEXT, NO_FILE + wanted, asked[:100])

    def test_are_answered_in_their_order(self):
        twice, large = ["Content-Length: 5"] * 2, f"Content-Length: {LARGEST_FILE + 1}"
        for wanted, asked in [
            (HEAD_TOO_LARGE, long_head(HEAD_LIMIT - 3) + END), (HEAD_TOO_LARGE, b"\0" * HEAD_LIMIT),
            (HEAD_TOO_LARGE, b"no head\r\n" + long_head(HEAD_LIMIT)), (HEAD_TOO_LARGE, with_fields(65, CODED)),
            (HEAD_TOO_LARGE, with_fields(66, twice[0])), (HEAD_TOO_LARGE, with_fields(65, large)),
            (BAD_HEAD, request("PUT", UPLOAD, CODED, *twice, "no colon")), (BAD_HEAD, request("PUT", "x", CODED)),
            (BAD_HEAD, request("PUT", UPLOAD, *twice, " x")), (BAD_HEAD, request("PUT", UPLOAD, large, "x")),
            (CODING_REFUSED, request("PUT", UPLOAD, *twice, CODED)),
            (CODING_REFUSED, request("PUT", UPLOAD, large, CODED)),
            (CODING_REFUSED, request("get", "/nowhere", "Content-Length: +5", CODED)),
            (LENGTH_BAD, request("PUT", UPLOAD, large, large)),
            (LENGTH_BAD, request("PUT", UPLOAD, "Content-Length: +99999999")),
            (LENGTH_BAD, request("GET", "/nowhere", f"Content-Length: {2 ** 64}")),
            (BODY_TOO_LARGE, request("GET", "/nowhere", f"Content-Length: {2 ** 64 - 1}")),
            (BODY_TOO_LARGE, request("POST", DEPLOYS, f"Content-Length: {JSON_LIMIT + 1}")),
        ]:
            for stream in (asked, expecting(asked)):
                self.assert_answers(NEXT + stream + NEXT, NO_FILE + wanted, stream[:200])

    def test_of_a_bad_head_of_many_fields_have_either_name(self):
        for asked in (with_fields(65, "no colon"), with_fields(80, method="G(T"), with_fields(65, " a: b")):
            status, out, errors = run("solo", given=asked + NEXT)
            self.assertEqual((status, errors), (0, b""))
            self.assertIn(out, (BAD_HEAD, HEAD_TOO_LARGE))


class InterimReplies(Program):
    """The interim reply to a request that expects one, before its body is read."""

    def test_come_first_byte_for_byte(self):
        asked = request("PUT", UPLOAD, EXPECTED, "Content-Length: 5")
        self.assert_converses([PUBLISHED[0], (asked + b"hello", (
            b"HTTP/1.1 100 Continue\r\n\r\n"
            b"HTTP/1.1 200 OK\r\nContent-Type: application/json\r\nContent-Length: 64\r\n\r\n"
            b'{"published":2,"sha":"aaf4c61ddcc5e8a2dabede0f3b482cd9aea9434d"}'))])

    def test_come_before_the_body_is_sent(self):
        asked = expecting(upload(1, "a.txt", b"hello"))
        client = Client(self)
        client.send(opening({"/a.txt": HELLO}))
        self.assertEqual(client.receive(len(opened(1, HELLO))), opened(1, HELLO))
        client.send(asked[:-5])
        self.assertEqual(client.receive(len(INTERIM)), INTERIM)
        for byte in b"hello":
            client.send(bytes([byte]))
        client.program.stdin.close()
        self.assertEqual(client.end(), (0, uploaded(b"hello", 2), b""))

    def test_come_alone_where_the_body_is_cut_short(self):
        asked = expecting(upload(1, "a.txt", b"hello"))
        for left in range(1, 6):
            self.assert_answers(asked[:-left], INTERIM, left)
        self.assert_answers(asked[:-6], b"")
        self.assert_answers(request("PUT", UPLOAD, EXPECTED, f"Content-Length: {LARGEST_FILE}"), INTERIM)

    def test_come_whatever_is_asked_for(self):
        for asked, wanted in [
            (UNDO, done(entry=3)), (upload(1, "a.txt", b"x"), refused("WrongDigest")),
            (upload(7, "a", b""), refused("NoSuchDeploy")), (request("GET", "/nowhere", body=NEXT), refused("NoRoute")),
            (request("GET", FILE, body=b""), HELLO_SENT), (request("GET", FILE, "Content-Length: 0000"), HELLO_SENT),
            (request("HEAD", FILE, body=b"x"), to_head(HELLO_SENT)), (request("PUT", FILE, body=b"x"), BAD_METHOD),
            (closing(request("GET", FILE, body=b"")), closing(HELLO_SENT)),
        ]:
            self.assert_converses([*PUBLISHED, (expecting(asked), INTERIM + wanted)])

    def test_come_in_any_case_of_what_is_expected(self):
        for field in ("expect:100-continue", "EXPECT: \t100-CONTINUE \t", "Expect: 100-Continue"):
            self.assert_answers(request("GET", FILE, field, body=NEXT) + NEXT, INTERIM + NO_FILE * 2, field)

    def test_come_also_to_the_hundredth_request(self):
        asked = expecting(request("GET", FILE, body=b"hello"))
        wanted = (INTERIM + NO_FILE) * (REQUESTS - 1) + INTERIM + closing(NO_FILE)
        self.assert_answers(asked * (REQUESTS + 1), wanted)

    def test_come_to_no_request_without_a_length(self):
        self.assert_answers(expecting(NEXT) + NEXT, NO_FILE * 2)

    def test_come_to_no_other_expectation_whose_body_is_read(self):
        for fields in (
            ["Expect:"], ["Expect: 100 continue"], ["Expect: 100-continues"], ["Expect: 100-continue,"], ["Expect: ok"],
            ["Expect: x,100-continue"], ["Expect: 100-continue;a=b"], ['Expect: "100-continue"'], ["Expect: 100"],
            ["Expects: 100-continue"], [EXPECTED] * 2, [EXPECTED, "Expect:"], ["Expect: x", EXPECTED],
        ):
            self.assert_answers(request("GET", FILE, *fields, body=NEXT) + NEXT, NO_FILE * 2, fields)

    def test_come_to_no_request_in_the_old_version(self):
        asked = expecting(request("GET", FILE, body=NEXT))
        self.assert_answers(in_old_version(asked) + NEXT, closing(NO_FILE))


class OldVersion(Program):
    """Requests in HTTP/1.0, after whose reply the connection ends."""

    def test_is_answered_and_ends_the_connection(self):
        for asked, wanted in [
            (NEXT, HELLO_SENT), (request("HEAD", FILE), to_head(HELLO_SENT)), (UNDO, done(entry=3)),
            (upload(1, "a.txt", b"hello"), uploaded(b"hello")), (request("PUT", FILE, body=NEXT), BAD_METHOD),
            (request("GET", FILE, "Connection: keep-alive"), HELLO_SENT), (request("GET", "/"), refused("NoRoute")),
            (request("GET", FILE, "Range: bytes=1-1"), sent(b"e", "Content-Range: bytes 1-1/5", whole=b"hello")),
            (b"\n\r\n" + NEXT.replace(b"\r\n", b"\n"), HELLO_SENT),
        ]:
            asked = asked.replace(b" HTTP/1.1", b" HTTP/1.0", 1)
            self.assert_converses([*PUBLISHED, (asked, closing(wanted))], unread=NEXT)

    def test_ends_the_connection_while_the_input_is_open(self):
        for asked in (NEXT, closing(NEXT), request("GET", FILE, body=b"hello")):
            client = Client(self)
            client.send(in_old_version(asked))
            self.assertEqual(client.end(), (0, closing(NO_FILE), b""))

    def test_is_refused_for_the_same_faults(self):
        for wanted, asked in [
            (CODING_REFUSED, request("PUT", UPLOAD, CODED)), (to_head(CODING_REFUSED), request("HEAD", FILE, CODED)),
            (LENGTH_BAD, request("PUT", UPLOAD, "Content-Length: 5,5")), (HEAD_TOO_LARGE, with_fields(65)),
            (BODY_TOO_LARGE, request("GET", FILE, f"Content-Length: {JSON_LIMIT + 1}")),
            (BAD_HEAD, request("GET", FILE, "no colon")),
        ]:
            self.assert_answers(NEXT + in_old_version(asked) + NEXT, NO_FILE + wanted, asked)

    def test_is_no_other_than_these_two(self):
        for version in (b"0.9", b"1", b"1.2", b"1.00", b"1.01", b"2.0", b"1.0 ", b"1.0x", b"1,0"):
            self.assert_answers(NEXT + LINE[:-3] + version + END + NEXT, NO_FILE + BAD_HEAD, version)
