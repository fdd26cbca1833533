"""A run again and again, each time with one of its allocations refused: never a wrong answer.

The program is the real one. A small library in C stands before its allocator (refuse_allocation.c). Other runs have
little room for all their memory, and bodies that are announced as larger.
"""

import resource

from lib.client import EXAMPLES, LARGEST_FILE, Program, refused, request, run, upload
from lib.range_replies import TWO_PARTS
from lib.refused_allocations import NO_MEMORY, Refusing, pieces
from lib.sample_site import TEXTS
from lib.wire import (
    BAD_HEAD, BODY_TOO_LARGE, CODING_REFUSED, FILE, HEAD_LIMIT, HEAD_TOO_LARGE, INTERIM, LENGTH_BAD, NO_FILE, expecting, long_head,
)

MEBIBYTE = 1 << 20

OPENED, UPLOADED, PART, UNDONE, GONE = pieces((EXAMPLES / "first-run.replies").read_bytes())
NO_DEPLOY = refused("NoSuchDeploy")
NO_CHANGE = refused("NoSuchChange")
WHOLE = (
    b"HTTP/1.1 200 OK\r\nContent-Type: text/plain; charset=utf-8\r\nContent-Length: 5\r\n"
    b'ETag: "aaf4c61ddcc5e8a2dabede0f3b482cd9aea9434d"\r\nAccept-Ranges: bytes\r\n\r\nhello'
)

# What may follow the reply that says that there was no memory for a request, by the request's place: the replies
# if the request left nothing, or what it does first, or all that it does.
TAILS = [
    [[NO_DEPLOY, NO_FILE, NO_CHANGE, NO_FILE], [UPLOADED, PART, UNDONE, GONE]],
    [[NO_FILE, NO_CHANGE, NO_FILE], [PART, UNDONE, GONE]],
    [[UNDONE, GONE]],
    [[WHOLE], [GONE]],
    [[]],
]


def is_right(replies):
    """Whether these are the replies of the first run; one of them may say that there was no memory."""
    stated = [OPENED, UPLOADED, PART, UNDONE, GONE]
    if replies == stated:
        return True
    place = next((n for n, (one, other) in enumerate(zip(replies, stated)) if one != other), len(replies))
    if place == len(replies):
        return False
    if replies[place] == refused("OutOfMemory", "Connection: close"):
        return len(replies) == place + 1
    if replies[place] != refused("OutOfMemory"):
        return False
    return replies[place + 1:] in TAILS[place]


class RefusedAllocations(Refusing):
    def test_give_no_wrong_answer_at_any_place_of_the_first_run(self):
        whole, count = self.run_refusing(0)
        self.assertEqual(whole, (0, b"".join([OPENED, UPLOADED, PART, UNDONE, GONE]), b""))
        self.assertGreater(count, 20)
        refused = 0
        for place in range(1, count + 1):
            with self.subTest(place=place):
                (status, out, errors), _ = self.run_refusing(place)
                if status == 2:
                    self.assertEqual((out, errors), (b"", NO_MEMORY))
                else:
                    self.assertEqual((status, errors), (0, b""))
                    self.assertTrue(is_right(pieces(out)), out.decode())
                refused += out != whole[1]
        self.assertGreater(refused, 20)

    def assert_gives(self, given, wanted, *without_memory):
        """The wanted output, or one of these at some place, or nothing if there is no memory to begin."""
        whole, count = self.run_refusing(0, given)
        self.assertEqual(whole, (0, wanted, b""))
        seen = {self.run_refusing(place, given)[0] for place in range(1, count + 1)}
        allowed = {(0, out, b"") for out in (wanted, *without_memory)} | {(2, b"", NO_MEMORY)}
        self.assertLessEqual(seen, allowed)
        self.assertLessEqual({(0, out, b"") for out in without_memory}, seen, "each of these comes")

    def test_give_no_wrong_answer_to_a_client_that_waits(self):
        without_memory = refused("OutOfMemory", "Connection: close")
        self.assert_gives(expecting(request("GET", FILE, body=b"hello")), INTERIM + NO_FILE,
                          without_memory, INTERIM + without_memory, INTERIM + refused("OutOfMemory"))

    def test_give_no_wrong_answer_to_a_request_for_several_ranges(self):
        asked, before = (b"".join(texts) for texts in zip(*TEXTS))
        asked += request("GET", "/s/one/w.txt", "Range: bytes=0-4,-5")
        whole, count = self.run_refusing(0, asked)
        self.assertEqual(whole, (0, before + TWO_PARTS, b""))
        seen = {self.run_refusing(place, asked)[0] for place in range(1, count + 1)}
        # Where the requests before it were answered as ever, so that it alone may lack memory.
        after = {(status, out.removeprefix(before), errors) for status, out, errors in seen if out.startswith(before)}
        without_memory = refused("OutOfMemory"), refused("OutOfMemory", "Connection: close")
        self.assertEqual(after, {(0, reply, b"") for reply in (TWO_PARTS, *without_memory)})

    def test_give_no_wrong_answer_to_a_refused_head(self):
        without_memory = refused("OutOfMemory", "Connection: close")
        for fields, wanted in [
            (["Transfer-Encoding: chunked"], CODING_REFUSED), (["Content-Length: +5"], LENGTH_BAD),
            ([f"Content-Length: {LARGEST_FILE + 1}"], BODY_TOO_LARGE),
        ]:
            self.assert_gives(request("GET", FILE, "Expect: 100-continue", *fields), wanted, without_memory)
        self.assert_gives(b"GET\r\n\r\n", BAD_HEAD)
        self.assert_gives(long_head(HEAD_LIMIT), HEAD_TOO_LARGE)


class AnnouncedBodies(Program):
    # room for all memory of a run, its program and libraries included, which take less than 4 MiB of it
    ROOM = 12 * MEBIBYTE

    def run_in_little_room(self, came):
        """Runs an upload of the largest file, and sends `came` bytes of it."""

        def limit_room():
            resource.setrlimit(resource.RLIMIT_AS, (self.ROOM, self.ROOM))

        largest = upload(1, "file", bytes(LARGEST_FILE))
        return run("solo", given=largest[:len(largest) - LARGEST_FILE + came], preexec_fn=limit_room)

    def test_take_memory_only_for_the_bytes_that_come(self):
        for came in (0, 1, 3 * MEBIBYTE):
            with self.subTest(came=came):
                self.assertEqual(self.run_in_little_room(came), (0, b"", b""))

    def test_that_come_whole_and_have_no_room_are_refused(self):
        self.assertEqual(self.run_in_little_room(LARGEST_FILE), (0, refused("OutOfMemory", "Connection: close"), b""))
