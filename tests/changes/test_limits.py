"""The limits of a history: how much of it a list of changes tells, and what is answered once it is full.

What is expected follows from docs/HTTP.md, docs/CHANGES.md and docs/STORAGE.md, and the order of refusals from docs/DECISIONS.md.
"""

from lib.client import ABC, HELLO, asking, done, opening, refused, request, sent, upload, uploaded
from lib.rows import change
from lib.stores import Stored, files_in, files_of, opening_of, write_store
from lib.worked_runs import (
    LISTING, NO_DEPLOY, NO_FILE, aliasing, cancelling, deleting, entry, patching, reading, removing, renaming, restoring, showing,
    stands, unaliasing, undoing,
)
import journal

MOST_LINES = 1_000
MOST_ENTRIES = 1_000_000
FULL = refused("HistoryFull")


def listing(site):
    return request("GET", f"/api/v1/sites/{site}/changes")


class Lists(Stored):
    """The last 1,000 entries of each site are told, the oldest first."""

    def test_tell_the_last_thousand_entries(self):
        self.write([entry for number in range(1, 1_200, 2) for entry in (opening_of({}), ("publish", "one", number))])
        lines = [change(number, "open" if number % 2 else "publish") for number in range(201, 1_201)]
        self.assert_converses([(LISTING, done(changes=lines))])

    def test_count_the_entries_of_their_site_alone(self):
        counts = {"few": MOST_LINES - 1, "all": MOST_LINES, "many": MOST_LINES + 1}
        entries = [opening_of({}, site, ()) for place in range(MOST_LINES + 1) for site, count in counts.items() if place < count]
        self.write(entries)
        for site, count in counts.items():
            numbers = [number for number, (_, where, *_) in enumerate(entries, 1) if where == site]
            self.assertEqual(len(numbers), count)
            self.assert_converses([(listing(site), done(changes=[change(number, "open") for number in numbers[-MOST_LINES:]]))])

    def test_go_on_with_each_entry(self):
        self.write([opening_of({}, flags=())] * MOST_LINES)

        def told_from(first, *undone):
            changes = [change(number, "open", number not in undone) for number in range(first, MOST_LINES + 1)]
            undos = [{"entry": MOST_LINES + place, "kind": "undo", "of": number} for place, number in enumerate(undone, 1)]
            return done(changes=changes + undos)

        self.assert_converses([
            (LISTING, told_from(1)), (undoing(500), entry(1_001)), (LISTING, told_from(2, 500)), (undoing(1), entry(1_002)),
            (LISTING, told_from(3, 500, 1)),
        ])


class Full(Stored):
    """A history of 1,000,000 entries, or of one less."""

    # After these entries and those that fill the history, all in the site `two`, each kind of change could be next.
    FIRST = [
        opening_of({}), ("publish", "one", 1), opening_of({"/a.txt": b"hello"}), ("publish", "one", 3), ("alias", "one", "next", 3),
        opening_of({"/b.txt": b"abc"}), opening_of({}, "two"), ("publish", "two", 7),
    ]
    FILLING = ("alias", "two", "next", 7)

    CHANGES = [
        opening({}), opening({"/c.txt": HELLO}), opening({}, draft=True), opening({f"/{number}": ABC for number in range(10_001)}),
        patching({"/a.txt": None}), restoring(1), restoring(6), restoring(99), cancelling(6), cancelling(1), deleting(1), deleting(3), deleting(6),
        aliasing("next", 1), aliasing("next", 99), aliasing("other", 3), unaliasing("next"), unaliasing("other"),
        renaming("/a.txt", "/c.txt"), renaming("/a.txt", "/a.txt"), renaming("/b.txt", "/c.txt"), removing("/a.txt"), removing("/b.txt"),
        undoing(6), undoing(2), undoing(0), undoing(MOST_ENTRIES), undoing(MOST_ENTRIES, "two"),
    ]
    # What is asked for is judged first and, if a target names no site, whether its deploy was ever opened.
    REFUSED_FIRST = [
        (cancelling(2), NO_DEPLOY), (cancelling(0), NO_DEPLOY), (deleting(2), NO_DEPLOY), (deleting(MOST_ENTRIES), NO_DEPLOY),
        (asking("POST", "/api/v1/sites/one/undo"), refused("BadBody")), (renaming("/", "/a"), refused("BadPath")),
        (opening({"/a.txt": "12"}), refused("BadDigest")), (opening({}, "One"), refused("BadName")),
    ]
    # An upload is no entry: only what would publish its deploy is refused.
    UPLOADS = [
        (showing(6), stands(6, "open", ABC)), (upload(6, "b.txt", b"hello"), refused("WrongDigest")), (showing(6), stands(6, "open", ABC)),
        (upload(6, "b.txt", b"abc"), FULL), (showing(6), stands(6, "open")), (upload(6, "b.txt", b"abc"), FULL),
        (upload(6, "b.txt", b"hello"), refused("WrongDigest")), (upload(6, "a.txt", b"hello"), refused("NotListed")),
        (upload(2, "a.txt", b"hello"), NO_DEPLOY), (upload(3, "a.txt", b"hello"), uploaded(b"hello")),
    ]
    READS = [
        (reading("/s/one/a.txt"), sent(b"hello")), (reading("/a/one/next/a.txt"), sent(b"hello")), (reading("/d/one/3/a.txt"), sent(b"hello")),
        (reading("/s/one/b.txt"), NO_FILE), (reading("/d/one/1/a.txt"), NO_FILE), (showing(3), stands(3, "kept")), (showing(2), NO_DEPLOY),
        (request("GET", "/s/one/a.txt", "Range: bytes=1-3"), sent(b"ell", "Content-Range: bytes 1-3/5", whole=b"hello")),
    ]
    LINES = [change(number, kind) for number, kind in enumerate(["open", "publish", "open", "publish", "alias", "open"], 1)]

    def write_filled(self, count):
        """Writes a store of `count` entries."""
        write_store(self.folder, [], b"hello")
        (self.folder / "journal").write_bytes(self.journal_of(count))

    def journal_of(self, count, *last):
        """A journal's file with `count` entries, and then these."""
        first, filling, last = (journal.write(entries)[len(journal.HEADER):-1] for entries in (self.FIRST, [self.FILLING], last))
        return journal.HEADER + first + filling * (count - len(self.FIRST)) + last + journal.SHUT

    def assert_journal(self, file):
        # A comparison that fails would show millions of bytes.
        self.assertTrue(journal.file_in(self.folder) == file, "the journal has other entries")

    def test_takes_no_change_and_no_undo(self):
        self.write_filled(MOST_ENTRIES)
        seen = [*self.READS, (showing(6), stands(6, "open", ABC)), (LISTING, done(changes=self.LINES))]
        self.assert_converses([*seen, *((asked, FULL) for asked in self.CHANGES), *self.REFUSED_FIRST, *seen])
        self.assert_journal(self.journal_of(MOST_ENTRIES))
        self.assertEqual(files_in(self.folder), files_of(b"hello"))

    def test_takes_the_last_entry(self):
        self.write_filled(MOST_ENTRIES - 1)
        lines = [*self.LINES[:5], change(6, "open", False), {"entry": MOST_ENTRIES, "kind": "undo", "of": 6}]
        self.assert_converses([
            (undoing(6), entry(MOST_ENTRIES)), (LISTING, done(changes=lines)), (undoing(6), FULL), (undoing(5), FULL), (opening({}), FULL),
            (removing("/a.txt"), FULL), (LISTING, done(changes=lines)), *self.READS,
        ])
        self.assert_journal(self.journal_of(MOST_ENTRIES - 1, ("undo", "one", 6)))

    def test_keeps_what_is_opened_or_uploaded_and_cannot_be_published(self):
        self.write_filled(MOST_ENTRIES - 1)
        seen = [(showing(MOST_ENTRIES), stands(MOST_ENTRIES, "open")), (LISTING, done(changes=[*self.LINES, change(MOST_ENTRIES, "open")]))]
        self.assert_converses([
            (opening({}), FULL), *seen, *self.UPLOADS, (opening({}), FULL), (cancelling(MOST_ENTRIES), FULL), (undoing(MOST_ENTRIES), FULL),
            *seen, *self.READS,
        ])
        self.assert_journal(self.journal_of(MOST_ENTRIES - 1, opening_of({})))
        self.assertEqual(files_in(self.folder), files_of(b"hello") | files_of(b"abc"))

    def test_has_no_record_more(self):
        self.write_filled(MOST_ENTRIES + 1)
        self.assert_fails(3, f"journal: BadRecord {MOST_ENTRIES + 1}")
