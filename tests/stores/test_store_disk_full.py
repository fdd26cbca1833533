"""A store whose folder can't be written while the program runs: what is answered then, and what is there once it is opened again.

A limit on the size of files acts as a full disk, as does a small file system where one may be mounted. With `solo` and with `serve`.
"""

import contextlib

from lib.client import HELLO, asking, done, opened, opening, refused, request, sent, upload, uploaded
from lib.served_stores import OfServe
from lib.stores import Stored, limited, opening_of, small_file_system, write_store
from lib.worked_runs import (
    LISTING, NO_DEPLOY, NO_FILE, aliasing, cancelling, deleting, entry, patching, reading, removing, renaming, restoring, serves,
    showing, stands, unaliasing, undoing,
)
import journal

DEVICE, BROKEN = refused("Device"), refused("Broken")
DEPLOYED = [opening_of({"/a.txt": b"hello"}), ("publish", "one", 1)]

# What is asked once the journal of DEPLOYED failed, and what is answered: nothing of it is carried out.
CHANGES = [
    renaming("/a.txt", "/c.txt"), renaming("/a.txt", "/a.txt"), removing("/nothing"), opening({"/a.txt": HELLO}), patching({"/b.txt": None}),
    restoring(1), restoring(99), aliasing("next", 1), aliasing("next", 99), unaliasing("next"), undoing(2), undoing(99), undoing(0),
    upload(1, "a.txt", b"hello"), upload(1, "b.txt", b"hello"), upload(1, "a.txt", b"other"), cancelling(1), deleting(1),
]
# What is asked for is judged first and, if a target names no site, whether its deploy was ever opened.
REFUSED_FIRST = [
    (upload(99, "a.txt", b"hello"), NO_DEPLOY), (upload(2, "a.txt", b"hello"), NO_DEPLOY), (cancelling(2), NO_DEPLOY),
    (cancelling(0), NO_DEPLOY), (deleting(99), NO_DEPLOY), (deleting(2), NO_DEPLOY),
    (opening({"/a.txt": "12"}), refused("BadDigest")), (asking("POST", "/api/v1/sites/one/undo"), refused("BadBody")),
    (renaming("/", "/a"), refused("BadPath")), (upload(1, "..", b"hello"), refused("BadPath")),
    (request("POST", "/api/v1/sites/One/deploys"), refused("BadName")), (request("POST", "/api/v1"), refused("NoRoute")),
    (request("POST", "/s/one/a.txt"), refused("BadMethod", "Allow: GET, HEAD")),
]
READS = [
    (reading("/s/one/a.txt"), sent(b"hello")), (reading("/d/one/1/a.txt"), sent(b"hello")), (reading("/s/one/c.txt"), NO_FILE),
    (request("GET", "/s/one/a.txt", "Range: bytes=1-3"), sent(b"ell", "Content-Range: bytes 1-3/5", whole=b"hello")),
    (showing(1), stands(1, "kept")), (showing(2), NO_DEPLOY), (LISTING, done(changes=[
        {"entry": 1, "kind": "open", "live": True}, {"entry": 2, "kind": "publish", "live": True}])),
]


class FullDisk(Stored):
    def begin(self, room):
        """A program over a deploy, whose journal has room for `room` bytes more."""
        self.write(DEPLOYED, b"hello")
        return self.talk(**limited((self.folder / "journal").stat().st_size + room))

    def test_a_change_that_finds_no_room_is_told_and_no_other_is_made(self):
        for room in (0, 1, 4, 5, 20, 25):
            with self.subTest(room=room):
                talk = self.begin(room)
                talk.ask(renaming("/a.txt", "/c.txt"), DEVICE)
                talk.ask_all([*((change, BROKEN) for change in CHANGES), *REFUSED_FIRST, *READS, (CHANGES[0], BROKEN)])
                talk.end()
                self.assert_goes_on()

    def assert_goes_on(self):
        """With room again the store is opened, and the entry in hand may be there or not."""
        file = journal.file_in(self.folder)
        last = ("rename", "one", "/a.txt", "/c.txt")
        self.assertIn(journal.read(file), ([*DEPLOYED], [*DEPLOYED, last]))
        if len(journal.read(file)) == len(DEPLOYED):
            self.assert_converses([(renaming("/a.txt", "/c.txt"), entry(3))])
        self.assert_converses([*serves("/c.txt", among=("/a.txt", "/c.txt")), (undoing(3), entry(4)), (reading("/s/one/a.txt"), sent(b"hello"))])

    def test_what_was_acknowledged_before_is_there(self):
        talk = self.begin(2 * 26)
        talk.ask_all([(renaming("/a.txt", "/c.txt"), entry(3)), (renaming("/c.txt", "/a.txt"), entry(4)), (removing("/a.txt"), DEVICE)])
        talk.ask(reading("/s/one/a.txt"), sent(b"hello"))
        talk.end()
        self.assert_converses([(removing("/a.txt"), entry(5)), (reading("/s/one/a.txt"), NO_FILE)])

    def test_an_opening_remains_whose_publishing_finds_no_room(self):
        size = len(journal.encode(opening_of({"/b.txt": b"hello"}))) + 5
        talk = self.begin(size)
        talk.ask(opening({"/b.txt": HELLO}), DEVICE)
        talk.ask_all([(showing(3), stands(3, "open")), (opening({"/b.txt": HELLO}), BROKEN), (upload(3, "b.txt", b"hello"), BROKEN)])
        talk.ask_all([(cancelling(3), BROKEN), *serves("/a.txt", among=("/a.txt", "/b.txt"))])
        talk.end()
        self.assert_converses([(showing(3), stands(3, "open")), (upload(3, "b.txt", b"hello"), uploaded(b"hello", published=4))])

    def test_an_upload_remains_whose_publishing_finds_no_room(self):
        self.write([])
        size = len(journal.write([opening_of({"/a.txt": b"hello"})]))
        talk = self.talk(**limited(size))
        talk.ask_all([(opening({"/a.txt": HELLO}), opened(1, HELLO)), (upload(1, "a.txt", b"hello"), DEVICE)])
        talk.ask_all([
            (removing("/b.txt"), BROKEN), (undoing(1), BROKEN), (upload(1, "a.txt", b"hello"), BROKEN), (upload(9, "a.txt", b"hello"), NO_DEPLOY),
            (showing(1), stands(1, "open")), (reading("/s/one/a.txt"), NO_FILE),
            (LISTING, done(changes=[{"entry": 1, "kind": "open", "live": True}])),
        ])
        talk.end()
        self.assert_converses([(showing(1), stands(1, "open")), (upload(1, "a.txt", b"hello"), uploaded(b"hello", published=2)), *READS[:2]])

    def test_an_upload_that_finds_no_room_breaks_nothing(self):
        content = bytes(60_000)
        digest = opening_of({"/c": content})[3][0][1]
        self.write([*DEPLOYED, opening_of({"/c": content})], b"hello")
        talk = self.talk(**limited(50_000))
        talk.ask_all([(upload(3, "c", content), DEVICE), (showing(3), stands(3, "open", digest)), (upload(3, "c", content), DEVICE)])
        talk.ask_all([(renaming("/a.txt", "/c.txt"), entry(4)), (undoing(4), entry(5)), *READS[:2]])
        talk.end()
        self.assert_converses([(showing(3), stands(3, "open", digest)), (upload(3, "c", content), uploaded(content, published=6))])

    def test_a_full_file_system(self):
        with small_file_system(self.folder, 65_536) as mounted:
            write_store(self.folder, DEPLOYED, b"hello")
            ballast = self.folder / "ballast"
            with contextlib.suppress(OSError), ballast.open("wb", 0) as file:
                while mounted:
                    file.write(bytes(512))
            acknowledged = self.fill({} if mounted else limited(2_000))
            ballast.unlink()
            entries = journal.read_in(self.folder)
            self.assertIn(len(entries) - acknowledged, (0, 1))
            self.assertEqual(entries, [*DEPLOYED, *[("alias", "one", "next", 1)] * (len(entries) - len(DEPLOYED))])
            self.assert_converses([(aliasing("next", 1), entry(len(entries) + 1)), *READS[:2]])

    def fill(self, how):
        """Makes changes until there is no room for one, and some more; returns how many entries were acknowledged."""
        count, replies = len(DEPLOYED), []
        while DEVICE not in replies:
            talk = self.talk(**how)
            replies = [talk.answer_to(aliasing("next", 1)) for _ in range(90)]
            accepted = replies.index(DEVICE) if DEVICE in replies else len(replies)
            self.assertEqual(replies[:accepted], [entry(count + 1 + place) for place in range(accepted)])
            self.assertLessEqual(set(replies[accepted + 1:]), {BROKEN})
            count += accepted
            talk.ask_all(READS[:2])
            talk.end()
        self.assertGreater(count, len(DEPLOYED))
        return count


class FullDiskOfServe(OfServe, FullDisk):
    """The same of `serve`."""
