"""Each kind of change and its undo again and again, each time with one of their allocations refused: all other requests are answered as
ever, and after the one that finds no memory the host is what it was before, or has done the request whole, or the first of its two entries.

Over a store some are asked for again, after there was no memory for them. The program is the real one; a library in C refuses the allocation
(refuse_allocation.c).
"""

import collections

from lib.client import ABC, digest_of, uploaded
from lib.lacking_hosts import CHANGES, FOLDERS, LACKING, LACKING_AND_CLOSED, LIST, RENAME_FOLDER, RENAMED, alias, left_by, read, show, undo, upload
from lib.plain_model import Model
from lib.refused_allocations import NO_MEMORY, Refusing, pieces
from lib.stores import IN_MEMORY, Stored, as_bytes, entry_of, is_stored, opening_of, told
from lib.worked_runs import entry, stands
import journal


class Run:
    """What is asked of a host, and what it answers with ample memory."""

    def __init__(self, model, requests):
        self.requests = requests
        self.given = b"".join(map(as_bytes, requests))
        self.before, self.replies = [], []
        for asked in requests:
            self.before.append(model.copy())
            self.replies.append(model.answer(asked))
        self.model = model

    def hosts_after(self, test, out):
        """What the host may be that has answered so."""
        got = pieces(out)
        place = next((at for at, (one, other) in enumerate(zip(got, self.replies)) if one != other), len(got))
        if place == len(self.replies):
            return [self.model]
        test.assertIn(got[place:place + 1], [[LACKING], [LACKING_AND_CLOSED]], f"at {self.requests[place]}")
        hosts = left_by(self.before[place], self.requests[place])
        rest = list(zip(self.requests[place + 1:], got[place + 1:]))
        test.assertEqual(len(rest), 0 if got[place] == LACKING_AND_CLOSED else len(self.requests) - place - 1)
        for asked, reply in rest:
            hosts = [host for host in hosts if host.answer(asked) == reply]
            test.assertNotEqual(hosts, [], f"{asked[:2]}: {reply[:300]}")
        return hosts


class Swept(Refusing):
    def assert_swept(self, run, first=1, prepare=lambda: None, check=lambda hosts, out: None):
        """Each of the allocations of a run from the first one on is refused, and a reply tells it if it is missed."""
        prepare()
        whole, count = self.run_refusing(0, run.given)
        self.assertEqual(whole, (0, b"".join(run.replies), b""))
        lacked = 0
        for place in range(first, count + 1):
            with self.subTest(place=place):
                prepare()
                (status, out, errors), _ = self.run_refusing(place, run.given)
                if (status, out, errors) == (2, b"", NO_MEMORY):
                    check(run.before[:1], out)
                    continue
                self.assertEqual((status, errors), (0, b""))
                check(run.hosts_after(self, out), out)
                lacked += out != whole[1]
        return lacked


class Changes(Swept):
    def test_and_their_undos_are_made_or_lack_memory(self):
        self.assertGreater(self.assert_swept(Run(Model(), CHANGES)), 200)


class SweptStores(Swept, Stored):
    place = IN_MEMORY

    def sweep(self, entries, contents, requests, check=lambda hosts, out: None):
        """Refuses each of the allocations of requests to a store with these entries and uploads. The journal must have what the replies tell."""
        def prepare():
            self.write(entries, *contents)

        prepare()
        model = Model()
        model.entries, model.uploads = list(map(entry_of, entries)), {digest_of(content): content for content in contents}
        _, opened = self.run_refusing(0, b"")

        def check_both(hosts, out):
            found = journal.read_in(self.folder)
            self.assertIn(found, [list(map(told, host.entries)) for host in hosts])
            check(hosts, out)

        return self.assert_swept(Run(model, requests), opened + 1, prepare, check_both)


class StoredChanges(SweptStores):
    """The next entries close a block of 128 in the history, and split one in the state."""

    entries = [opening_of({"/a.txt": b"hello"}), ("publish", "one", 1), *(("alias", "one", f"n{number}", 1) for number in range(125))]
    requests = [alias("n125", 1), alias("n126", 1), undo(5), read("/a/one/n2/a.txt"), read("/a/one/n3/a.txt")]

    def test_and_their_undos_are_made_or_lack_memory(self):
        self.assertGreater(self.sweep(self.entries, [b"hello"], self.requests), 20)


class Repeats(SweptStores):
    """Something is asked for again, after there was no memory for it."""

    opened = [opening_of({"/a.txt": b"hello", "/b.txt": b"abc"})], [b"hello"]
    changed = [*opened[0], ("publish", "one", 1), ("rename", "one", "/a.txt", "/c.txt"), ("remove", "one", "/b.txt")], [b"hello", b"abc"]

    def ends(self, store, requests):
        """How often each row of replies came."""
        found = collections.Counter()
        self.sweep(*store, requests, lambda hosts, out: found.update([tuple(pieces(out))]))
        return found

    def test_an_undo_is_made_by_the_next_one(self):
        found = self.ends(self.changed, [undo(3), undo(3)])
        self.assertGreater(found[LACKING, entry(5)], 30)

    def test_the_renaming_of_a_folder_and_its_undo_are_made_by_the_next_one(self):
        self.assertGreater(self.ends(FOLDERS, [RENAME_FOLDER, RENAME_FOLDER])[LACKING, entry(4)], 30)
        self.assertGreater(self.ends(RENAMED, [undo(3), undo(3)])[LACKING, entry(5)], 30)

    def test_an_undo_that_finds_no_memory_leaves_the_journal_as_it_was(self):
        for entries, contents in (self.changed, RENAMED):
            before, kept = journal.write(entries), collections.Counter()

            def check(hosts, out):
                kept[out, journal.file_in(self.folder) == before] += 1

            self.sweep(entries, contents, [undo(3)], check)
            self.assertGreater(kept[LACKING, True], 30)
            # The text of the reply alone found no memory.
            self.assertLessEqual(kept[LACKING, False], 3)

    def test_an_upload_is_published_once(self):
        """Before there was memory it had done nothing, or its file was stored and the deploy was open, or only the text of the reply found none."""
        asked = upload(1, "b.txt", b"abc")
        found = self.ends(self.opened, [asked, show(1), asked, LIST])
        lacked = {replies[1:3]: count for replies, count in found.items() if replies[0] == LACKING}
        self.assertEqual(lacked.keys(), {
            (stands(1, "open", ABC), uploaded(b"abc", 2)), (stands(1, "open"), uploaded(b"abc", 2)), (stands(1, "kept"), uploaded(b"abc")),
        })

    def test_an_upload_is_known_as_soon_as_it_is_stored(self):
        found = set()

        def check(hosts, out):
            if len(replies := pieces(out)) == 2:
                found.add((replies[1], is_stored(self.folder, b"abc")))

        self.sweep(*self.opened, [upload(1, "b.txt", b"abc"), show(1)], check)
        known = {(stands(1, "open"), True), (stands(1, "kept"), True)}
        shown = {(reply, is_there) for reply, is_there in found if reply not in (LACKING, LACKING_AND_CLOSED)}
        self.assertEqual(shown, known | {(stands(1, "open", ABC), False)})


class EarlyChanges(Refusing, Stored):
    """Of which many more live changes come after than their undo may request memory."""

    moves, most = 2_000, 1_000
    entries = [
        opening_of({"/a.txt": b"hello", "/b.txt": b"abc"}), ("publish", "one", 1), ("rename", "one", "/a.txt", "/c.txt"), ("remove", "one", "/b.txt"),
        ("undo", "one", 3), *[("alias", "one", "next", 1)] * moves,
    ]

    def test_are_undone_with_few_allocations(self):
        undoing = as_bytes(undo(4))
        undone = (0, entry(len(self.entries) + 1), b"")
        self.write(self.entries, b"hello", b"abc")
        _, opened = self.run_refusing(0, b"")
        ended, count = self.run_refusing(0, undoing)
        self.assertEqual(ended, undone)
        self.assertLess(count - opened, self.most)
        self.write(self.entries, b"hello", b"abc")
        ended, _ = self.run_refusing(opened + self.most, undoing)
        self.assertEqual(ended, undone)
