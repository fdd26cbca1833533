"""A desk that threads share, over `desk_driver`: what it answers and shows, how it is opened and closed, what goes on while another thread holds one
of its locks.
"""

from lib.client import LARGEST_FILE, digest_of
from lib.desks import DEPLOYERS, AtDesk, Look, entering, uploading
from lib.stores import PIECE, limited, opening_of
import journal

OPEN = opening_of({"/a.txt": b"hello"})
PUBLISH, REMOVE, CANCEL = ("publish", "one", 1), ("remove", "one", "/a.txt"), ("cancel", "one", 1)
UNDO_2, UNDO_3, UNDO_99 = ("undo", "one", 2), ("undo", "one", 3), ("undo", "one", 99)
HELLO_TO_1 = uploading(0, 1, "/a.txt", "hello")
# The digest as it is printed.
HELLO = list(bytes.fromhex(digest_of(b"hello")))
# Of a file of the greatest size, whose pieces are all others, and its table.
LARGE = "".join(f"{number:04}" * (PIECE // 4) for number in range(LARGEST_FILE // PIECE))
PUTS = LARGEST_FILE // PIECE + 1
# The lock isn't fair: until the thread that waits for it runs, some more puts may be made. It may also be held up by the machine. So it counts if it is read
# before most of the puts, once in so many uploads. If the lock were held for the whole upload, all puts would be made first, each time.
SOON, ATTEMPTS = PUTS // 2, 30


class Answers(AtDesk):
    """In one thread."""

    def assert_steps(self, *rows):
        """Each row is a line, what is answered, how many entries its deployer has made then, whether `/a.txt` is served, and all entries."""
        printed = self.play("steps", *(line for line, *_ in rows))
        self.assertEqual(printed.answers, [answer for _, answer, *_ in rows])
        self.assertEqual(printed.looks, [Look.of(*seen) for _, _, *seen in rows])
        self.assertEqual(journal.read(self.read_journal()), rows[-1][-1])
        return printed

    def test_refuse_over_the_log_that_they_tell(self):
        printed = self.assert_steps(
            (entering(0, OPEN), "Made(1)", 1, False, [OPEN]),
            (entering(1, UNDO_99), "Refused(NoSuchChange, 1)", 0, False, [OPEN]),
            (entering(1, PUBLISH), f"Refused(NotComplete(Digest({HELLO})), 1)", 0, False, [OPEN]),
        )
        self.assertEqual((printed.found, printed.shares), (0, [1] + [0] * 7))
        self.assertEqual(printed.closed, ["None of 7", "Some(1)"])

    def test_publish_once_by_an_upload(self):
        self.write_journal([OPEN])
        published = [OPEN, PUBLISH]
        printed = self.assert_steps(
            (uploading(1, 2, "/a.txt", "hello"), "NoSuchDeploy", 0, False, [OPEN]),
            (uploading(1, 1, "/b.txt", "hello"), "NotListed", 0, False, [OPEN]),
            (uploading(1, 1, "/a.txt", "jelly"), "WrongDigest", 0, False, [OPEN]),
            (uploading(1, 1, "/a.txt", "hello"), "Made(2)", 1, True, published),
            (uploading(1, 1, "/a.txt", "hello"), "Stored", 1, True, published),
            (uploading(0, 1, "/a.txt", "hello"), "Stored", 0, True, published),
        )
        self.assertEqual((printed.found, printed.closed), (1, ["None of 7", "Some(2)"]))

    def test_show_what_was_removed_once_that_is_undone(self):
        self.assert_steps(
            (entering(0, OPEN), "Made(1)", 1, False, [OPEN]),
            (HELLO_TO_1, "Made(2)", 2, True, [OPEN, PUBLISH]),
            (entering(0, REMOVE), "Made(3)", 3, False, [OPEN, PUBLISH, REMOVE]),
            (entering(2, UNDO_3), "Made(4)", 1, True, [OPEN, PUBLISH, REMOVE, UNDO_3]),
        )
        printed = self.assert_steps((entering(3, UNDO_3), "Refused(AlreadyUndone, 4)", 0, True, [OPEN, PUBLISH, REMOVE, UNDO_3]))
        self.assertEqual((printed.found, printed.closed), (4, ["None of 7", "Some(4)"]))


class FullDisks(AtDesk):
    """Each file may have as many bytes as the journal has, and no more."""

    def assert_broken(self, entries, is_served, entry):
        """The entry isn't made. From then on the desk is broken, for another seat, too, and shows what it showed."""
        before = self.read_journal()
        status, printed, errors = self.run_lines("steps", [entering(0, entry), entering(1, entry)], **limited(len(before)))
        self.assertEqual((status, errors, printed.answers), (0, "", ["Device", "Broken"]))
        self.assertEqual(printed.looks, [Look.of(0, is_served, entries)] * 2)
        self.assertEqual((printed.found, printed.shares), (len(entries), [0] * DEPLOYERS))
        self.assertEqual(printed.closed, ["None of 7", f"Some({len(entries)})"])
        self.assertEqual(self.read_journal(), before)

    def test_break_a_desk_at_a_change(self):
        self.play("steps", entering(0, OPEN), HELLO_TO_1)
        self.assert_broken([OPEN, PUBLISH], True, REMOVE)

    def test_break_a_desk_at_an_undo(self):
        self.play("steps", entering(0, OPEN), HELLO_TO_1)
        self.assert_broken([OPEN, PUBLISH], True, UNDO_2)


class Openings(AtDesk):
    def assert_not_opened(self, entries, why):
        self.write_journal(entries)
        before = self.read_journal()
        status, printed, errors = self.run_lines("steps", [entering(0, OPEN)])
        self.assertEqual((status, printed.lines), (1, []))
        self.assertIn(f"no host is found: {why}", errors)
        self.assertEqual(self.read_journal(), before)

    def test_end_where_an_entry_is_not_accepted_in_its_place(self):
        self.assertEqual(len(journal.write([CANCEL] * 3)), 71)
        self.assert_not_opened([CANCEL] * 3, "NotLegal(1)")
        self.assert_not_opened([OPEN, UNDO_99], "NotLegal(2)")
        self.assert_not_opened([OPEN, CANCEL, CANCEL], "NotLegal(3)")

    def test_of_what_is_legal(self):
        self.write_journal([OPEN, CANCEL, UNDO_2])
        printed = self.play("steps")
        self.assertEqual((printed.found, printed.closed), (3, ["None of 7", "Some(3)"]))


class Locks(AtDesk):
    """In threads, while another has a lock."""

    def test_receipts_are_those_of_each_thread(self):
        printed = self.play("threads", *[entering(0, OPEN)] * 3, *[entering(1, OPEN)] * 4)
        one, two = ([int(answer[5:-1]) for answer in printed.told["deployer", number]] for number in (0, 1))
        self.assertEqual((len(one), len(two)), (3, 4))
        self.assertEqual((one, two), (sorted(one), sorted(two)))
        self.assertEqual(sorted(one + two), [1, 2, 3, 4, 5, 6, 7])
        self.assertEqual(printed.shares, [3, 4] + [0] * (DEPLOYERS - 2))
        self.assertEqual(printed.closed, ["None of 7", "Some(7)"])

    def test_a_look_returns_during_a_sync(self):
        printed = self.play("look", entering(0, OPEN))
        self.assertEqual(printed.rows("held"), ["true saw 0"])
        self.assertEqual(printed.answers, ["Made(1)"])
        self.assertEqual(printed.rows("syncs"), ["2 passed 2"])

    def puts_before_a_read(self):
        """How many puts of an upload there were, in a new folder, when a chunk was read that was asked for during the first."""
        self.folder = self.new_folder()
        self.play("steps", entering(0, OPEN), HELLO_TO_1)
        opening = opening_of({"/b.bin": LARGE.encode()}, flags=())
        printed = self.play("read", entering(0, opening), uploading(0, "last", "/b.bin", LARGE))
        self.assertEqual(printed.answers, ["Made(3)", "Stored"])
        self.assertEqual(printed.rows("puts"), [f"{PUTS} passed {PUTS}"])
        row, = printed.rows("held")
        self.assertRegex(row, "^true read true after [0-9]+ puts$")
        return int(row.split(" ")[-2])

    def test_a_chunk_is_read_between_two_calls_of_an_upload(self):
        self.assertEqual((len(LARGE), PUTS), (16_777_216, 257))
        self.assertTrue(any(self.puts_before_a_read() <= SOON for _ in range(ATTEMPTS)))
