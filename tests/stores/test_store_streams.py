"""A store over a connection whose stream is cut, or whose reads or writes fail: what was done is kept, and nothing else.

What is expected follows from docs/WIRE.md, "When a connection ends".
"""

import socket
import tempfile

from lib.client import EXAMPLES, PUBLISHED, content_length, cut_after, run
from lib.stores import IN_MEMORY, Stored, files_in, files_of, limited, opening_of
from lib.worked_runs import NO_FILE, entry, reading, renaming, serves, undoing
import journal

TALK = [
    *PUBLISHED, (renaming("/a.txt", "/c.txt"), entry(3)), (reading("/s/one/a.txt"), NO_FILE), (undoing(3), entry(4)),
    *serves("/a.txt", among=("/a.txt",)),
]
ASKED = b"".join(asked for asked, _ in TALK)
WANTED = b"".join(wanted for _, wanted in TALK)
# The entries, and how many of them there are after each number of requests.
ENTRIES = [opening_of({"/a.txt": b"hello"}), ("publish", "one", 1), ("rename", "one", "/a.txt", "/c.txt"), ("undo", "one", 3)]
COUNTS = [0, 1, 2, 3, 3, 4, 4]
# Where the file of the replies begins, so that their length can be limited and that of a store's files is not.
BASE = 1 << 20


def ends_of(messages):
    return [sum(map(len, messages[:count])) for count in range(len(messages) + 1)]


ASKED_ENDS = ends_of([asked for asked, _ in TALK])
WANTED_ENDS = ends_of([wanted for _, wanted in TALK])


def places(ends):
    """Places in a stream: around the end of each message, and within each."""
    near = {end + step for end in ends for step in (-1, 0, 1)}
    return sorted(place for place in near | set(range(0, ends[-1], 31)) if 0 <= place <= ends[-1])


class Streams(Stored):
    def assert_did(self, requests):
        """The store has what the first `requests` requests did, and nothing else; it is opened again, and then has the same."""
        file = journal.write(ENTRIES[:COUNTS[requests]])
        for _ in range(2):
            self.assertEqual(journal.file_in(self.folder), file)
            self.assertEqual(files_in(self.folder), files_of(b"hello") if requests > 1 else {})
            self.assert_answers(b"", b"")

    def assert_ends(self, place, ended, fault=None):
        """If the requests end or fail there, the whole ones before are answered, and no other does anything."""
        whole = sum(end <= place for end in ASKED_ENDS) - 1
        out = WANTED[:WANTED_ENDS[whole]]
        self.assertEqual(ended, (2, out, fault) if fault else (0, out, b""))
        self.assert_did(whole)

    def test_that_are_cut_leave_what_whole_requests_did(self):
        for place in places(ASKED_ENDS):
            with self.subTest(place=place):
                self.write([])
                self.assert_ends(place, run(*self.words, given=ASKED[:place]))

    def test_that_fail_at_a_read_leave_what_whole_requests_did(self):
        for place in places(ASKED_ENDS):
            with self.subTest(place=place):
                self.write([])
                near, far = socket.socketpair()
                with near, far:
                    # Who closes with something unread resets the connection, after what was sent.
                    far.send(b"unread")
                    near.sendall(ASKED[:place])
                    near.close()
                    ended = run(*self.words, given=None, stdin=far)
                self.assert_ends(place, ended, b"filehost: input fault\n")

    def test_that_fail_at_a_write_leave_what_its_request_did(self):
        for room in places(WANTED_ENDS)[:-1]:
            with self.subTest(room=room), tempfile.TemporaryFile() as out:
                self.write([])
                out.seek(BASE)
                ended = run(*self.words, given=ASKED, stdout=out, **limited(BASE + room))
                self.assertEqual(ended, (2, None, b"filehost: output fault\n"))
                out.seek(BASE)
                self.assertEqual(out.read(), WANTED[:room])
                self.assert_did(sum(end <= room for end in WANTED_ENDS))


class FirstRun(Stored):
    """The first run of examples/, cut at each byte of its requests and of its replies."""

    place = IN_MEMORY
    asked, replies = ((EXAMPLES / f"first-run.{name}").read_bytes() for name in ("http", "replies"))
    asked_ends, replies_ends = ([0, *cut_after(stream, content_length)] for stream in (asked, replies))
    entries = [opening_of({"/a.txt": b"hello"}), ("publish", "one", 1), ("undo", "one", 2)]
    # How many of them there are after so many requests.
    counts = [0, 1, 2, 2, 3, 3]

    def assert_did(self, requests):
        self.assertEqual(journal.file_in(self.folder), journal.write(self.entries[:self.counts[requests]]))
        self.assertEqual(files_in(self.folder), files_of(b"hello") if requests > 1 else {})

    def test_that_is_cut_leaves_what_whole_requests_did(self):
        for place in range(len(self.asked) + 1):
            with self.subTest(place=place):
                self.write([])
                whole = sum(end <= place for end in self.asked_ends) - 1
                self.assertEqual(run(*self.words, given=self.asked[:place]), (0, self.replies[:self.replies_ends[whole]], b""))
                self.assert_did(whole)

    def test_whose_replies_are_cut_leaves_what_they_tell(self):
        for room in range(len(self.replies)):
            with self.subTest(room=room), tempfile.TemporaryFile() as out:
                self.write([])
                out.seek(BASE)
                ended = run(*self.words, given=self.asked, stdout=out, **limited(BASE + room))
                self.assertEqual(ended, (2, None, b"filehost: output fault\n"))
                out.seek(BASE)
                self.assertEqual(out.read(), self.replies[:room])
                self.assert_did(sum(end <= room for end in self.replies_ends))
