"""Forms of heads by which a request may be hidden in another, if two readers disagree on where a body ends.

A test says what is asserted of each: `assert_refused` of fields with which a request is refused and ends the connection, `assert_ends` of such a head,
`assert_hides` of fields with which the hidden request is a body, and `assert_answers` of requests and the replies to them.
"""

from lib.client import ABC, opened, opening, request
from lib.wire import BAD_HEAD, BODY_TOO_LARGE, CODING_REFUSED, FILE, HEAD_TOO_LARGE, LENGTH_BAD, NEXT, NO_FILE, with_fields

# What a body may hide: it would be answered, if it were read as a request.
HIDDEN = opening({"/hidden.txt": ABC})
LENGTH = f"Content-Length: {len(HIDDEN)}"


class HiddenRequests:
    """The tests of a class that asserts these."""

    def test_two_lengths(self):
        self.assert_refused(LENGTH_BAD, "Content-Length: 0", LENGTH)
        self.assert_refused(LENGTH_BAD, LENGTH, "Content-Length: 0")
        self.assert_refused(LENGTH_BAD, LENGTH, "Content-Length: 4194305")

    def test_two_lengths_that_are_equal(self):
        self.assert_refused(LENGTH_BAD, LENGTH, LENGTH)
        self.assert_refused(LENGTH_BAD, LENGTH, "Expect: 100-continue", LENGTH)
        self.assert_refused(LENGTH_BAD, *[LENGTH] * 60)

    def test_two_lengths_whose_names_differ_in_case(self):
        self.assert_refused(LENGTH_BAD, "content-length: 0", LENGTH)
        self.assert_refused(LENGTH_BAD, "CONTENT-LENGTH: 5", "Content-length: 5")

    def test_a_length_and_an_empty_one(self):
        self.assert_refused(LENGTH_BAD, "Content-Length:", LENGTH)
        self.assert_refused(LENGTH_BAD, LENGTH, "Content-Length: ")
        self.assert_refused(LENGTH_BAD, "Content-Length:")

    def test_a_list_of_lengths(self):
        for value in ("5,5", "5, 5", "0,5", "5,", ",5", ",", "5;5", "5 5", "5\t5"):
            self.assert_refused(LENGTH_BAD, f"Content-Length: {value}")

    def test_a_length_with_a_sign(self):
        for value in ("+5", "-5", "+0", "-0", "+ 5", "--5", "5-", "5+"):
            self.assert_refused(LENGTH_BAD, f"Content-Length: {value}")

    def test_a_length_that_is_no_decimal_number(self):
        for value in ("0x5", "5h", "5.0", "5e0", "0b1", "0_5", "1_000", "'5'", '"5"', "five", "\uff15", "\u0665"):
            self.assert_refused(LENGTH_BAD, f"Content-Length: {value}")

    def test_a_length_that_wraps_around(self):
        for value in (2 ** 64, 2 ** 64 + len(HIDDEN), 10 ** 100):
            self.assert_refused(LENGTH_BAD, f"Content-Length: {value}")
        for value in (2 ** 32, 2 ** 32 + len(HIDDEN), 2 ** 63, 2 ** 64 - 1):
            self.assert_refused(BODY_TOO_LARGE, f"Content-Length: {value}")

    def test_a_length_with_leading_zeros(self):
        self.assert_hides(LENGTH)
        for zeros in ("0", "00", "0" * 20, "0" * 1_000):
            self.assert_hides(f"Content-Length: {zeros}{len(HIDDEN)}")
            self.assert_answers(request("GET", FILE, f"Content-Length: {zeros}") + HIDDEN, NO_FILE + opened(1, ABC))

    def test_a_length_with_spaces_around_it(self):
        for space in ("", " ", "\t", " \t  "):
            self.assert_hides(f"content-LENGTH:{space}{len(HIDDEN)}{space}")

    def test_a_field_whose_name_is_like_that_of_the_length(self):
        for name in ("Content_Length", "Content-Lengths", "XContent-Length", "Content.Length", "ContentLength"):
            self.assert_hides(f"{name}: 0", LENGTH)
            self.assert_answers(request("GET", FILE, f"{name}: {len(HIDDEN)}") + HIDDEN, NO_FILE + opened(1, ABC))

    def test_a_length_with_a_coding(self):
        for coding in ("Transfer-Encoding: chunked", "transfer-encoding:CHUNKED", "TRANSFER-ENCODING: \tchunked\t"):
            self.assert_refused(CODING_REFUSED, LENGTH, coding)
            self.assert_refused(CODING_REFUSED, coding, LENGTH)
            self.assert_refused(CODING_REFUSED, coding)

    def test_a_length_with_an_unknown_coding(self):
        for value in ("", "identity", "xchunked", "chunked, x", "chunked;q=0", '"chunked"', "x\tchunked", "\x80"):
            self.assert_refused(CODING_REFUSED, LENGTH, f"Transfer-Encoding: {value}")

    def test_two_codings(self):
        self.assert_refused(CODING_REFUSED, "Transfer-Encoding: chunked", "Transfer-Encoding: identity", LENGTH)
        self.assert_refused(CODING_REFUSED, "Transfer-Encoding: x", "transfer-encoding: y", "Expect: 100-continue")

    def test_wrong_lengths_with_a_coding(self):
        for lengths in ([LENGTH] * 2, ["Content-Length: +5"], ["Content-Length: 4194305"], ["Content-Length:"]):
            self.assert_refused(CODING_REFUSED, *lengths, "Transfer-Encoding: chunked")

    def test_a_space_before_the_colon(self):
        for field in (
            "Content-Length : 5", "Content-Length\t: 5", "Content-Length  :5", "Transfer-Encoding : chunked",
            "Transfer-Encoding\t: chunked", "A : b", " : b",
        ):
            self.assert_refused(BAD_HEAD, field)
            self.assert_refused(BAD_HEAD, LENGTH, field)

    def test_a_folded_line(self):
        for field in (
            "Content-Length:\r\n 5", "Content-Length: 5\r\n 5", "Content-Length: 5\r\n\t", "A: b\r\n Content-Length: 5",
            "Transfer-Encoding:\r\n chunked", "Transfer-Encoding: chunked\r\n\t, identity", "A: b\r\n\tc",
        ):
            self.assert_refused(BAD_HEAD, field)
            self.assert_refused(BAD_HEAD, LENGTH, field)

    def test_a_space_before_the_first_field(self):
        for field in (" Content-Length: 5", "\tTransfer-Encoding: chunked", " A: b"):
            self.assert_ends(request("GET", FILE, field), BAD_HEAD)
            self.assert_ends(request("GET", FILE, field, LENGTH), BAD_HEAD)

    def test_a_bare_carriage_return(self):
        for field in (
            "Content-Length: 5\r", "Content-Length:\r5", "Content-Length\r: 5", "Content-Length: 5\rA: b", "\rA: b",
            "A: b\rContent-Length: 5", "A: b\rTransfer-Encoding: chunked", "Transfer-Encoding:\rchunked", "A: b\r",
        ):
            self.assert_refused(BAD_HEAD, field)
            self.assert_refused(BAD_HEAD, LENGTH, field)
        for place in (b"GET", b"/1.1"):
            self.assert_ends(NEXT.replace(place, place + b"\r"), BAD_HEAD)

    def test_a_bare_line_feed(self):
        self.assert_refused(CODING_REFUSED, LENGTH + "\nTransfer-Encoding: chunked")
        self.assert_refused(LENGTH_BAD, "A: b\n" + LENGTH, LENGTH)
        self.assert_hides("A: b\n" + LENGTH + "\nB: c")

    def test_a_control_byte(self):
        for byte in "\0\1\x08\x0b\x0c\x1b\x7f":
            for field in (f"Content-Length:{byte}5", f"Content-Length: 5{byte}", f"Content-Length{byte}: 5"):
                self.assert_refused(BAD_HEAD, field)
            self.assert_refused(BAD_HEAD, LENGTH, f"Transfer-Encoding:{byte}chunked")

    def test_a_name_that_is_no_token(self):
        for field in (": 5", ":", "Content-Length", "Content Length: 5", "Content-Length(: 5", "Content-Length\x80: 5"):
            self.assert_refused(BAD_HEAD, LENGTH, field)

    def test_more_fields_than_are_read(self):
        self.assert_hides(*["A: b"] * 63, LENGTH)
        for field in (LENGTH, "Transfer-Encoding: chunked"):
            head = with_fields(65, field)
            self.assert_ends(head, HEAD_TOO_LARGE)
