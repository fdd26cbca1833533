"""`filehost serve` while there is no memory: each allocation of a run is refused in turn, from the first request on, or every so many, or all for a while.

Each reply is that of the plain model, or says that there is no memory. Then the request did nothing, the first of what it does, or all. Connections end or go
on as docs/WIRE.md says. No thread ends, nothing that was acknowledged is lost, and once there is memory again all answers are right. A library in C refuses
the allocations (refuse_on_demand.c).
"""

import collections
import itertools
import os
import random
import tempfile
from pathlib import Path

from lib.client import ABC, digest_of, to_head, uploaded
from lib.generated_histories import Generator
from lib.lacking_hosts import CHANGES, FOLDERS, LACKING, LACKING_AND_CLOSED, LIST, RENAME_FOLDER, RENAMED, Hosts, read, show, undo, upload
from lib.lines import Line
from lib.plain_model import Model, Request
from lib.refused_on_demand import FOR_GOOD, Refusals, built_in
from lib.served import Served, told_at
from lib.stores import IN_MEMORY, as_bytes, entry_of, is_stored, looks, opening_of, told, write_store
from lib.worked_runs import entry, stands
import journal

NODES, CONNECTIONS = 2, 4
# A body of more than 64 KiB is parsed by a thread of its own.
LONG = Request("POST", "/api/v1/sites/one/undo", body=b'{"change":1' + b" " * 70_000 + b"}")
ASKED = [*CHANGES, LONG, read("/d/one/1/a.txt", "Range: bytes=0-1,3-4"), read("/s/none/a.txt")]


class Short(Served):
    """Runs over nodes that may be refused allocations."""

    @classmethod
    def setUpClass(cls):
        super().setUpClass()
        room = tempfile.TemporaryDirectory()
        cls.addClassCleanup(room.cleanup)
        cls.room = Path(room.name)
        cls.library = built_in(cls.room)

    def new_store(self):
        """A folder for a store."""
        folder = tempfile.TemporaryDirectory(dir=IN_MEMORY)
        self.addCleanup(folder.cleanup)
        return Path(folder.name)

    def begin(self, *words):
        self.refusals = Refusals(self.library, self.room / "refusals")
        self.started = self.serve(*words, nodes=NODES, environment=self.refusals.environment)
        self.threads = self.count_threads()
        self.lines = [Line(self, number % NODES) for number in range(CONNECTIONS)]
        self.hosts, self.ends, self.end_of_each, self.replies = Hosts(Model()), collections.Counter(), [], []

    def count_threads(self):
        return len(os.listdir(f"/proc/{self.started.pid}/task"))

    def ask(self, asked, line):
        """Asks for something. Where there is no memory for it, the host may be more than one."""
        reply = line.ask(as_bytes(asked))
        self.replies.append(reply)
        if reply == LACKING_AND_CLOSED:
            end = "closed"
        elif reply in (to_head(LACKING) if asked.method == "HEAD" else LACKING, b""):
            end = "lacked" if reply else "silent"
            self.hosts.lack(asked)
        else:
            self.assertTrue(self.hosts.told(asked, reply), f"{asked[:2]}: {reply[:300]}")
            end = "answered"
        self.ends[end] += 1
        self.end_of_each.append(end)

    def play(self, requests, lines=None):
        for asked, line in zip(requests, itertools.cycle(lines or self.lines)):
            self.ask(asked, line)

    def assert_right_again(self):
        """Once there is memory, each node answers all that it is asked, and no thread is gone."""
        self.refusals.stop()
        before = self.ends["answered"]
        asked = looks(self.hosts.left[0])
        for line in self.lines[:NODES]:
            for one in asked:
                self.ask(one, line)
        self.assertEqual(self.ends["answered"] - before, len(asked) * NODES)
        self.assertEqual(self.count_threads(), self.threads)

    def finish(self):
        """Ends the program."""
        for line in self.lines:
            line.leave()
        self.end(self.started)


class Runs(Short):
    def sweep(self, place):
        """A run with this allocation refused, counted from its first request on. Answers how many allocations there were."""
        self.begin()
        self.refusals.refuse(place)
        self.play(ASKED)
        counted = self.refusals.counted
        self.assert_right_again()
        self.finish()
        return counted

    def test_each_allocation_from_the_first_request_on_is_refused(self):
        places, ends = self.sweep(0), [[] for _ in ASKED]
        self.assertEqual(self.ends.keys(), {"answered"})
        for place in range(1, places + 1):
            with told_at(place=place):
                self.sweep(place)
                for of_request, end in zip(ends, self.end_of_each):
                    of_request += [end] * (end != "answered")
        found = collections.Counter(itertools.chain(*ends))
        self.assertGreater(found["lacked"], 1_000)
        self.assertGreater(found["closed"], 50)
        for number, of_request in enumerate(ends):
            with self.subTest(asked=ASKED[number][:2]):
                # A connection ends without a reply where there is no memory for it to begin, and with one where its head or its body is read, which comes
                # before all else. Else it goes on.
                ways = ("silent", "closed", "lacked") if number < CONNECTIONS else ("closed", "lacked")
                self.assertEqual(of_request, [way for way in ways for _ in range(of_request.count(way))])


class Shortages(Short):
    """Drawn requests, over a store."""

    def begin(self):
        self.store = self.new_store()
        super().begin("--store", str(self.store))

    def settle(self):
        """Finds out, with memory, which of the hosts there is."""
        self.refusals.stop()
        for asked in looks(self.hosts.left[-1]):
            if len(self.hosts.left) > 1:
                self.ask(asked, self.lines[0])

    def draw(self, requests, refuse):
        """Asks for so many things while allocations are refused, which this begins anew each time."""
        for _ in range(requests):
            self.generator.model = self.hosts.left[0]
            asked = next(self.generator.requests(1))
            refuse()
            self.ask(asked, self.drawn.choice(self.lines))
            self.settle()

    def assert_kept(self):
        """After a kill the store has what was told."""
        self.finish()
        found = journal.read_in(self.store)
        hosts = [host for host in self.hosts.left if found == list(map(told, host.entries))]
        self.assertTrue(any(all(is_stored(self.store, content) for content in host.uploads.values()) for host in hosts))

    def assert_history(self, seed, refuse):
        self.begin()
        self.drawn, self.generator = random.Random(seed), Generator(seed, self.hosts.left[0])
        self.draw(25, self.refusals.stop)
        self.draw(50, refuse)
        self.draw(25, self.refusals.stop)
        self.assert_right_again()
        self.assert_kept()
        return self.ends

    def test_of_drawn_allocations(self):
        ends = sum((self.assert_history(seed, lambda: self.refusals.refuse(self.drawn.randrange(1, 120))) for seed in range(30)), collections.Counter())
        self.assertGreater(ends["lacked"], 200)

    def test_of_every_so_many_allocations(self):
        ends = collections.Counter()
        for apart in range(1, 41):
            ends += self.assert_history(apart, lambda: self.refusals.refuse(self.drawn.randrange(1, apart + 1), FOR_GOOD, apart))
        self.assertGreater(ends["lacked"], 200)

    def test_of_all_for_a_while(self):
        for seed in range(10):
            ends = self.assert_history(f"a while {seed}", lambda: self.refusals.refuse(1, FOR_GOOD))
            self.assertGreaterEqual(ends["silent"] + ends["closed"] + ends["lacked"], 40)

    def test_of_all_from_a_drawn_one_on(self):
        for seed in range(20):
            self.assert_history(f"from one on {seed}", lambda: self.refusals.refuse(self.drawn.randrange(1, 60), FOR_GOOD))


class Repeats(Short):
    """Something is asked for again, after there was no memory for it."""

    opened = [opening_of({"/a.txt": b"hello", "/b.txt": b"abc"})], [b"hello"]
    changed = [*opened[0], ("publish", "one", 1), ("rename", "one", "/a.txt", "/c.txt"), ("remove", "one", "/b.txt")], [b"hello", b"abc"]

    def ask_all(self, place, entries, contents, requests):
        """The replies of a host over a store with these entries and uploads, of which this allocation is refused, and whether `abc` is stored then."""
        store = self.new_store()
        write_store(store, entries, *contents)
        self.begin("--store", str(store))
        self.hosts.left[0].entries, self.hosts.left[0].uploads = list(map(entry_of, entries)), {digest_of(content): content for content in contents}
        self.assertEqual(self.lines[0].ask(as_bytes(LIST)), self.hosts.left[0].answer(LIST))
        self.refusals.refuse(place)
        self.replies = []
        self.play(requests, self.lines[:1])
        counted, replies = self.refusals.counted, tuple(self.replies)
        self.assert_right_again()
        self.finish()
        found = journal.read_in(store)
        self.assertIn(found, [list(map(told, host.entries)) for host in self.hosts.left])
        return counted, (*replies, is_stored(store, b"abc"))

    def rows(self, store, requests):
        """How often each row of replies came."""
        counted, _ = self.ask_all(0, *store, requests)
        found = collections.Counter()
        for place in range(1, counted + 1):
            with told_at(place=place):
                _, replies = self.ask_all(place, *store, requests)
                found[replies] += 1
        return found

    def test_an_undo_is_made_by_the_next_one(self):
        found = self.rows(self.changed, [undo(3), undo(3)])
        self.assertGreater(found[LACKING, entry(5), True], 30)

    def test_the_renaming_of_a_folder_and_its_undo_are_made_by_the_next_one(self):
        self.assertGreater(self.rows(FOLDERS, [RENAME_FOLDER, RENAME_FOLDER])[LACKING, entry(4), True], 30)
        self.assertGreater(self.rows(RENAMED, [undo(3), undo(3)])[LACKING, entry(5), True], 30)

    def test_an_upload_is_published_once(self):
        """Before there was memory it had done nothing, or its file was stored and the deploy was open, or only the text of the reply found none."""
        asked = upload(1, "b.txt", b"abc")
        found = self.rows(self.opened, [asked, show(1), asked, LIST])
        lacked = {replies[1:3] for replies in found if replies[0] == LACKING}
        self.assertEqual(lacked, {
            (stands(1, "open", ABC), uploaded(b"abc", 2)), (stands(1, "open"), uploaded(b"abc", 2)), (stands(1, "kept"), uploaded(b"abc")),
        })

    def test_an_upload_is_known_as_soon_as_it_is_stored(self):
        found = {row[1:] for row in self.rows(self.opened, [upload(1, "b.txt", b"abc"), show(1)]) if row[1] not in (LACKING, LACKING_AND_CLOSED, b"")}
        self.assertEqual(found, {(stands(1, "open"), True), (stands(1, "kept"), True), (stands(1, "open", ABC), False)})
