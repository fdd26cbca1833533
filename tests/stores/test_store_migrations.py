"""Stores of the version before, whose journal is one file of version 1: they are brought over once, whatever stops that, and serve the same."""

import itertools
import json
import os

from lib.client import EXAMPLES, digest_of, request, run, sent
from lib.file_traces import Traces
from lib.stores import Stored, files_of, kept_in, opening_of, write_slots
import journal

# What the version before kept of examples/take-back.http.
OLD_STORE = bytes.fromhex(
    "0146484a524e4c01010000004e01036f6e650200000002000b2f61626f75742e68746d6c0100fa2538abdbabd6b466b88d9f78ba4de8415af2000b2f696e6465"
    "782e68746d6c016f25532c1cd6874e5bce4ee79b653b7f7703c79c010000000d02036f6e650000000000000001010000001e06036f6e65000b2f61626f75742e"
    "68746d6c000a2f7465616d2e68746d6c010000002c01036f6e650300000001000b2f696e6465782e68746d6c01dd2753448b0af5f2fcc8491333ede76de42231"
    "36010000000d02036f6e650000000000000004010000000d00036f6e65000000000000000300")
PAGES = (b"<h1>Home</h1>\n", b"<h1>About</h1>\n", b"<h1>Home, new</h1>\n")
AFTER = tuple((EXAMPLES / f"after-restart.{ending}").read_bytes() for ending in ("http", "replies"))
# A whole record, as a stop leaves it behind a closed gate, and the front of one.
WHOLE = journal.record(journal.encode(("remove", "one", "/index.html")))[1:] + b"\0"
FRONT = WHOLE[:-9]
# The slots that a store of the version before may come to: alone, beside what a stop left of the new file, and with what it left of a put.
NEW = journal.write(journal.read(OLD_STORE))
SLOTS = {
    "alone": (OLD_STORE, None), "in the second slot": (b"", OLD_STORE), "beside a closed file": (OLD_STORE, b"\0" + NEW[1:]), "beside a part of it": (OLD_STORE, b"\0" + NEW[1:9]),
    "with a part of a record": (OLD_STORE + FRONT, None), "with a record": (OLD_STORE + WHOLE, b"\0"), "with both": (OLD_STORE[:-1] + b"\7" + WHOLE, b"\0" + NEW[1:]),
    "neither slot is in use": (b"\0" + OLD_STORE[1:], None),
}
MANY_FILES, MANY_ENTRIES = 1_000, 100_000


class Migrations(Stored):
    def make(self, slots):
        """The store of the version before, with these slots."""
        self.write([])
        for content in PAGES:
            for name, data in files_of(content).items():
                (self.folder / name).write_bytes(data)
        write_slots(self.folder, *slots)

    def assert_serves(self):
        self.assert_answers(*AFTER)

    def stopped(self, traces, number):
        """Runs the program over the store without a request, and kills it in place of the call of this number; returns its calls and its status."""
        ended = []
        trace = traces.of(lambda environment: ended.extend(run(*self.words, env=os.environ | environment)), number)
        return trace, ended[0]


class Small(Migrations):
    def test_is_brought_over_once_and_serves_the_same(self):
        traces = Traces(self.room, self.folder)
        for name, slots in SLOTS.items():
            with self.subTest(name):
                self.make(slots)
                entries = journal.read_in(self.folder)
                self.assert_answers(b"", b"")
                after = self.all_files()
                self.assertEqual(journal.read_in(self.folder), entries)
                self.assertTrue(journal.file_in(self.folder).startswith(journal.HEADER))
                trace, status = self.stopped(traces, 0)
                self.assertEqual((status, [line for line in trace if not line.startswith(("fsync", "fdatasync"))]), (0, []))
                self.assertEqual(self.all_files(), after)
                if entries:
                    self.assert_serves()

    def test_is_opened_whatever_call_a_kill_comes_to(self):
        """And whatever call of the opening after that another one comes to. Each time all entries are there, and what was to be dropped is kept."""
        traces = Traces(self.room, self.folder)
        for name, slots in SLOTS.items():
            self.make(slots)
            entries, lost = journal.read_in(self.folder), [slot for slot, loss in zip(slots, journal.dropped(*(slot or b"" for slot in slots))) if loss]
            calls = len(self.stopped(traces, 0)[0])
            self.assertGreater(calls, 8)
            for first, second in itertools.product(range(1, calls + 1), (None, *range(1, calls + 1, 2))):
                with self.subTest(name, first=first, second=second):
                    self.make(slots)
                    self.assertEqual(self.stopped(traces, first)[1], -9)
                    self.assertEqual(journal.read_in(self.folder), entries)
                    if second:
                        self.stopped(traces, second)
                        self.assertEqual(journal.read_in(self.folder), entries)
                    self.assert_answers(b"", b"")
                    self.assertEqual(journal.read_in(self.folder), entries)
                    for slot in lost:
                        self.assertIn(slot, kept_in(self.folder).values())
                    self.assertTrue(journal.file_in(self.folder).startswith(journal.HEADER))


class Large(Migrations):
    def many(self):
        """So many entries, of which half of the changes are undone, over so many files."""
        contents = [b"file %d" % number for number in range(MANY_FILES)]
        files = {f"/{number:03}.txt": content for number, content in enumerate(contents)}
        entries = [opening_of(files), ("publish", "one", 1)]
        for number in range((MANY_ENTRIES - 2) // 3):
            entries += [("alias", "one", f"a{number % 50}", 1), ("remove", "one", f"/{number % MANY_FILES:03}.txt"), ("undo", "one", len(entries) + 2)]
        return entries + [("alias", "one", "last", 1)] * (MANY_ENTRIES - len(entries)), files

    def assert_looks(self, entries, files):
        # A connection has a hundred requests, and a list of changes the last thousand; the opening has read all files.
        some = dict(list(files.items())[::11])
        given = [request("GET", f"/s/one{path}") for path in some] + [request("GET", "/api/v1/sites/one/changes")]
        status, out, errors = run(*self.words, given=b"".join(given))
        wanted = b"".join(map(sent, some.values()))
        self.assertEqual((status, out[:len(wanted)], errors), (0, wanted, b""))
        undone = {entry[2] for entry in entries if entry[0] == "undo"}
        changes = json.loads(out[len(wanted):].partition(b"\r\n\r\n")[2])["changes"]
        last = list(enumerate(entries, 1))[-len(changes):]
        self.assertEqual([change["entry"] for change in changes if change.get("live")],
                         [number for number, entry in last if entry[0] != "undo" and number not in undone])

    def test_of_many_entries_is_brought_over_and_serves_the_same(self):
        entries, files = self.many()
        self.assertEqual(len(entries), MANY_ENTRIES)
        old = journal.write(entries, journal.OLD_HEADER)
        self.write([], *files.values())
        write_slots(self.folder, old)
        for _ in range(2):
            self.assert_looks(entries, files)
            self.assertEqual(journal.slots_in(self.folder), (old, journal.write(entries)))
        self.assertEqual(kept_in(self.folder), {})
        given = request("POST", "/api/v1/sites/one/undo", body=b'{"change":%d}' % (MANY_ENTRIES - 3))
        self.assertEqual(run(*self.words, given=given)[0], 0)
        self.assertEqual(digest_of(journal.slots_in(self.folder)[0]), digest_of(old))
        self.assertGreaterEqual(len(journal.read_in(self.folder)), MANY_ENTRIES)
