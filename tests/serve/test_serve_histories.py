"""Histories over the nodes of `filehost serve`: each request goes over another connection, and each reply is the wanted one, byte for byte.

So whichever worker or node answers a request, its reply is over all that was changed before. Generated histories are compared with the plain model, and
worked runs with `solo` too, as those of test_changes.py, test_undos.py and test_versions.py are. FILEHOST_HISTORIES says how many generated ones there are,
if that of ./test isn't enough.
"""

import collections
import json
import random
import socket
import tempfile
import time
from pathlib import Path

from lib.client import ABC, EXAMPLES, HELLO, REQUESTS, digest_of, done, opened, opening, refused, request, sent, to_head, upload, uploaded
from lib.generated_histories import FolderGenerator, Generator, Run, count_of, views
from lib.hopping import Hopping
from lib.range_replies import TWO_PARTS, none_of, part
from lib.sample_site import TEXTS, WORLD
from lib.served import Served, ask
from lib.stores import IN_MEMORY, as_bytes, opening_of, told, write_store
from lib.wire import FAULTS, INTERIM, NEXT, NO_FILE, expecting
from lib.worked_runs import (
    CHANGED, CHANGED_AGAIN, LISTING, NO_CHANGE, NO_DEPLOY, REFUSED, Worked, clash, deployed, entry, first_deployed, patching, reading, removing, renaming,
    restoring, serves, showing, stands, undoing,
)
import journal

HISTORIES, RESTARTED = 40, 20
# How many entries of another site a history has.
OTHERS, ABC_TEXT = 20_000, b"abc"
TEXT = "text/plain; charset=utf-8"


def made_of(seed, of=Generator):
    """A history of fewer requests than one connection may have. The last ones read all that is visible."""
    made = Run()
    generator = of(seed, made.model)
    made.ask(generator.requests(generator.one_of((40, 55, 70))))
    made.ask(views(made.model, of=of)[:REQUESTS - 1 - len(made.requests)])
    return made, list(zip(map(as_bytes, made.requests), made.wanted))


class Generated(Hopping):
    def assert_history(self, seed):
        made, exchanges = made_of(seed)
        self.assert_hops(exchanges, seed, made.told)
        return made.tally()

    def assert_met(self, tally, *words):
        for word in words:
            self.assertGreater(tally[word], 4, f"met in all: {sorted(tally.items())}")

    def test_each_request_is_answered_as_by_the_plain_model(self):
        tally = sum(map(self.assert_history, range(count_of(HISTORIES))), collections.Counter())
        self.assert_met(
            tally, "open", "publish", "undo", "Clash", "rename", "rename-folder", "remove", "alias", "GET-200", "GET-206", "NoSuchFile", "NotListed",
            "AlreadyUndone",
        )


class Restarted(Generated):
    """Histories over a store, each by three programs, one after another, each of which is killed. Mostly they draw renamings of folders."""

    def assert_history(self, seed):
        made, exchanges = made_of(seed, Generator if seed % 4 == 0 else FolderGenerator)
        starts = [0, *sorted(random.Random(seed).sample(range(1, len(exchanges)), 2))]
        with tempfile.TemporaryDirectory(dir=IN_MEMORY) as store:
            for start, end in zip(starts, [*starts[1:], None]):
                self.assert_hops(exchanges[start:end], seed, lambda place: made.told(start + place), ("--store", store))
            self.assertEqual(journal.read_in(Path(store)), list(map(told, made.model.entries)), seed)
        return made.tally()

    def test_each_request_is_answered_as_by_the_plain_model(self):
        tally = sum(map(self.assert_history, range(count_of(RESTARTED))), collections.Counter())
        self.assert_met(tally, "open", "publish", "undo", "Clash", "rename", "rename-folder", "remove", "NestedFolder", "NoSuchFile")


class Examples(Hopping):
    def test_are_answered_as_by_one_connection(self):
        for example in ("first-run", "take-back", "two-versions"):
            with self.subTest(example):
                started = self.serve()
                plug = self.plug((EXAMPLES / f"{example}.http").read_bytes())
                self.assert_receives(plug, (EXAMPLES / f"{example}.replies").read_bytes())
                plug.close()
                self.end(started)


class Histories(Worked):
    """Changes, undos and refusals, each told to another connection than the one before."""

    def test_a_site_is_changed_taken_back_and_changed_again(self):
        self.assert_run(*CHANGED, *REFUSED, *CHANGED_AGAIN)

    def test_a_removed_file_is_there_again_after_its_undo(self):
        self.assert_run(
            *first_deployed("/a.txt"),
            (removing("/a.txt"), entry(3)),
            (reading("/s/one/a.txt"), NO_FILE),
            (undoing(3), entry(4)),
            (reading("/s/one/a.txt"), sent(b"hello")),
        )

    def test_a_patch_clashes_with_what_it_replaces(self):
        self.assert_run(
            *first_deployed("/a.txt"),
            (patching({"/a.txt": None, "/b.txt": HELLO}), opened(3, published=4)),
            *serves("/b.txt"),
            (showing(3), NO_DEPLOY),
            (undoing(2), clash(4, "live /a.txt")),
            (undoing(4), entry(5)),
            (showing(3), stands(3, "open")),
            *serves("/a.txt"),
        )

    def test_refusals_come_in_their_order(self):
        self.assert_run(
            *first_deployed("/a.txt", "/b.txt"),
            *deployed(3, "/a.txt", site="two"),
            (renaming("/a.txt", "/a.txt"), refused("SamePath")),
            (renaming("/a.txt", "/b.txt"), refused("PathTaken")),
            (renaming("/x.txt", "/y.txt"), NO_FILE),
            (undoing(4), NO_CHANGE),
            (undoing(2, site="two"), NO_CHANGE),
            (opening({"/c.txt": ABC}, draft=True), opened(5, ABC)),
            (upload(5, "d.txt", b"abc"), refused("NotListed")),
            (restoring(5), refused("NotComplete", digest=ABC)),
            (undoing(5), entry(6)),
            (upload(5, "c.txt", b"abc"), NO_DEPLOY),
            (restoring(5), NO_DEPLOY),
        )

    def test_a_chain_of_undos_is_told_to_each_connection(self):
        """Of eight changes of one file the last is undone first; an undo in another order clashes."""
        changes = [(renaming(f"/{number}", f"/{number + 1}"), entry(number + 3)) for number in range(8)]
        clashes = [(undoing(number), clash(number + 1, f"live /{number - 2}")) for number in range(3, 10)]
        undos = [(undoing(number), entry(21 - number)) for number in range(10, 2, -1)]
        seen = serves("/0", among=[f"/{number}" for number in range(9)])
        again = [(undoing(number), refused("AlreadyUndone")) for number in range(3, 11)]
        self.assert_run(*first_deployed("/0"), *changes, *clashes, *undos, *seen, *again)


class Reads(Worked):
    """Files and parts of them, by each node."""

    rows = [
        (part(b"hello world", 6, 10, TEXT), "bytes=6-18446744073709551616000"), (part(b"hello world", 0, 10, TEXT), "bytes=0-"),
        (TWO_PARTS, "bytes=0-4,-5"), (none_of(b"hello world"), "bytes=11-"), (none_of(b"hello world"), "bytes=-0"),
        (part(b"hello world", 0, 0, TEXT), "bytes=20-,,0-0"),
        *[(sent(b"hello world"), value) for value in ("bytes=0-9,0-9", "bytes=4-2", "bytes=", "bytes=0 -4", "lines=0-1")],
    ]

    def test_ranges_are_the_same_by_each_node(self):
        """Each is asked for five times in a row, so at both nodes."""
        asked = [(request("GET", "/s/one/w.txt", f"Range: {value}"), wanted) for wanted, value in self.rows for _ in range(5)]
        conditions = [
            (request("GET", "/s/one/w.txt", "Range: bytes=0-0", f"If-Range: {tag}"), wanted) for tag, wanted in [
                (f'"{WORLD}"', part(b"hello world", 0, 0, TEXT)), (f'W/"{WORLD}"', sent(b"hello world")),
                ("Wed, 21 Oct 2015 07:28:00 GMT", sent(b"hello world")),
            ]
        ]
        head = [(request("HEAD", "/s/one/w.txt", "Range: bytes=0-4"), to_head(sent(b"hello world")))]
        empty = [(request("GET", "/s/one/e.txt", f"Range: {value}"), sent(b"")) for value in ("bytes=-5", "bytes=0-")]
        self.assert_run(*TEXTS, *asked, *conditions, *head, *empty)

    def test_a_range_across_the_edge_of_a_chunk_is_the_same_by_each_node(self):
        content = bytes(65_537)
        across = request("GET", "/s/one/zeros.txt", "Range: bytes=65535-65536")
        self.assert_run(
            (opening({"/zeros.txt": digest_of(content)}), opened(1, digest_of(content))),
            (upload(1, "zeros.txt", content), uploaded(content, 2)),
            *[(across, part(content, 65_535, 65_536, TEXT)) for _ in range(3)],
            *[(reading("/s/one/zeros.txt"), sent(content)) for _ in range(3)],
        )


class Wire(Hopping):
    def test_a_faulty_head_ends_its_connection_alone(self):
        self.serve(nodes=2)
        other = self.plug(NEXT)
        self.assert_receives(other, NO_FILE)
        for node in (0, 1):
            for asked, wanted in FAULTS:
                with self.subTest(node=node, asked=asked[:200]):
                    plug = self.plug(asked, node)
                    self.assert_receives(plug, wanted)
                    self.assertEqual(self.received(plug, 1), b"")
        other.sendall(NEXT)
        self.assert_receives(other, NO_FILE)

    def test_a_client_that_waits_is_told_to_send_its_body(self):
        self.assert_hops([
            (opening({"/a.txt": HELLO}), opened(1, HELLO)),
            (expecting(upload(1, "a.txt", b"hello")), INTERIM + uploaded(b"hello", 2)),
            (request("POST", "/s/one/a.txt"), refused("BadMethod", "Allow: GET, HEAD")),
        ])

    def test_a_request_that_is_cut_short_makes_no_entry(self):
        self.serve()
        for asked in (opening({})[:-1], opening({})[:30], b"G"):
            plug = self.plug(asked)
            plug.shutdown(socket.SHUT_WR)
            self.assertEqual(self.received(plug, 1), b"")
        self.assert_receives(self.plug(LISTING), done(changes=[]))


class Lists(Served):
    """How long a list of changes takes. A bound is coarse: it is for the kind of search, and not for the machine."""

    def quickest(self, *words):
        """The shortest time for the list of a site that was never named, and for that of a site with one entry, in seconds."""
        self.serve(*words)
        client, found = self.client(), []
        for site in ("never", "once"):
            took = []
            for _ in range(REQUESTS // 3):
                began = time.perf_counter()
                status, listed = ask(client, "GET", f"/api/v1/sites/{site}/changes")
                took.append(time.perf_counter() - began)
                self.assertEqual((status, len(json.loads(listed)["changes"])), (200, site == "once" and bool(words)))
            found.append(min(took))
        return found

    def test_entries_of_other_sites_make_none_longer(self):
        folder = self.folder() / "store"
        entries = [opening_of({"/a": ABC_TEXT}, "once")]
        for number in range(2, OTHERS + 2, 2):
            entries += [opening_of({"/a": ABC_TEXT}, "other"), ("publish", "other", number)]
        write_store(folder, entries, ABC_TEXT)
        for long, short in zip(self.quickest("--store", str(folder)), self.quickest()):
            self.assertLess(long, 4 * short)
