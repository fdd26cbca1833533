"""Reads through the nodes of `filehost serve`, each again and again with another allocation refused: several ranges of a file that another node owns, with
nothing in a cache; and a file whose load another connection waits for. Each reply is right, or says that there is no memory, and the connection goes on.

What is expected follows from docs/WIRE.md, "If memory runs out". A library in C refuses the allocations (refuse_on_demand.c), and another one holds a
load (hold_file.c).
"""

import bisect
import collections
import hashlib
import time

from lib.client import digest_of, request, sent
from lib.held_file import HeldFile
from lib.lacking_hosts import LACKING, LACKING_AND_CLOSED
from lib.lines import Line
from lib.range_replies import parts
from lib.refused_on_demand import Refusals, built_in
from lib.served import HOST, Served, told_at
from lib.stores import opening_of, write_store
from lib.wire import NEXT, NO_FILE

FILES = {f"/w{number}.txt": f"hello {number:05}".encode() for number in range(40)}
RANGES = "Range: bytes=0-4,-5"
TEXT = "text/plain; charset=utf-8"
# The ports for other nodes come after so many of those for clients.
PEERS, POINTS = 8, 50
# How many bytes of a request come before the others.
BEGUN = 10
# Nothing goes on any more in a program that made no allocation for so many seconds.
QUIET = 0.03


def hash_of(text):
    return int.from_bytes(hashlib.sha1(text.encode()).digest()[:4], "big")


def owner(names, digest):
    """The place of the node that owns a chunk, by the rule of crates/peer_ring/PROMISES.md."""
    points = dict(sorted((hash_of(f"{point}{name}"), place) for place, name in enumerate(names) for point in range(POINTS)))
    hashes = sorted(points)
    return points[hashes[bisect.bisect_left(hashes, hash_of(digest)) % len(hashes)]]


class Short(Served):
    """Nodes over a store with these files, none of which is in a cache at first. Allocations may be refused to them."""

    files = FILES

    def setUp(self):
        self.room, self.store = self.folder().resolve(), self.folder().resolve()
        write_store(self.store, [opening_of(self.files), ("publish", "one", 1)], *self.files.values())
        self.refusals = Refusals(built_in(self.room), self.room / "refusals")

    def begin(self, nodes, environment):
        return self.serve("--store", str(self.store), "--workers", "1", nodes=nodes, environment=environment)

    def ask(self, line, asked, right):
        """A reply is right, or says that there is no memory. Answers which."""
        return self.judge(line.ask(asked), right)

    def judge(self, reply, right):
        self.assertIn(reply, (right, LACKING, LACKING_AND_CLOSED))
        return {LACKING: "lacked", LACKING_AND_CLOSED: "closed"}.get(reply, "right")


class Ranges(Short):
    """Of a file of which the other node owns the only chunk, which is in no cache. A node that gave no answer is passed over, so each read is of nodes that
    were just started."""

    def read(self, owned_by, place):
        """Reads a file of that node through the first one while this allocation is refused, and once more."""
        started = self.begin(2, self.refusals.environment)
        names = [f"{HOST}:{self.port + PEERS + node}" for node in range(2)]
        path = next(path for path, content in FILES.items() if owner(names, digest_of(content)) == owned_by)
        asked, right = request("GET", f"/s/one{path}", RANGES), parts(FILES[path], (0, 4), (6, 10), kind=TEXT)
        line = Line(self)
        self.assertEqual(line.ask(NEXT), NO_FILE)
        self.refusals.refuse(place)
        end = self.ask(line, asked, right)
        self.refusals.stop()
        self.counted = self.refusals.counted
        self.assertEqual(line.ask(asked), right)
        self.end(started)
        return end

    def test_of_what_another_node_owns_are_right_or_lack_memory(self):
        self.read(0, 0)
        alone = self.counted
        self.read(1, 0)
        places, ends = self.counted, collections.Counter()
        # Who asks another node takes more.
        self.assertGreater(places, alone + 10)
        for place in range(1, places + 1):
            with told_at(place=place):
                ends[self.read(1, place)] += 1
        self.assertGreater(ends["lacked"], 5)
        self.assertGreater(ends["right"], 5)


class Joins(Short):
    """Two connections that want the same file, of which the first loads it. The load is held until the second waits for it."""

    files = {"/x.txt": bytes(range(256)) * 200}
    asked, right = request("GET", "/s/one/x.txt"), sent(files["/x.txt"])

    def setUp(self):
        super().setUp()
        self.held = HeldFile(self.room, self.store / f"c-{digest_of(self.files['/x.txt'])}")
        self.environment = self.held.environment | self.refusals.environment
        self.environment["LD_PRELOAD"] = f"{self.held.library} {self.refusals.library}"

    def wait_until_quiet(self):
        """Waits until the second connection waits too, or was answered."""
        counted = 0
        while not counted or counted != self.refusals.counted:
            counted = self.refusals.counted
            time.sleep(QUIET)

    def read(self, place, is_refused_first):
        """What both are answered, if this allocation is refused: counted from where the second request comes, or from where the load goes on."""
        # An opening reads each file.
        self.held.open()
        started = self.begin(1, self.environment)
        self.held.close()
        leader, joiner = Line(self), Line(self)
        for line in (leader, joiner):
            self.assertEqual(line.ask(NEXT), NO_FILE)
        leader.send(self.asked)
        self.held.wait("opened", "held")
        # A connection at rest has no room for a request. Without memory for that it ends, which isn't looked at here.
        self.refusals.refuse(0)
        joiner.send(self.asked[:BEGUN])
        self.wait_until_quiet()
        self.refusals.refuse(place if is_refused_first else 0)
        joiner.send(self.asked[BEGUN:])
        self.wait_until_quiet()
        self.counted = self.refusals.counted
        self.refusals.refuse(0 if is_refused_first else place)
        self.held.open()
        ends = tuple(self.judge(line.receive(), self.right) for line in (leader, joiner))
        self.refusals.stop()
        if not is_refused_first:
            self.counted = self.refusals.counted
        for line in (leader, joiner):
            self.assertEqual(line.ask(self.asked), self.right)
        self.end(started)
        return ends

    def sweep(self, is_refused_first):
        """How often each pair of ends came, where each allocation is refused in turn."""
        self.assertEqual(self.read(0, is_refused_first), ("right", "right"))
        ends = collections.Counter()
        for place in range(1, self.counted + 1):
            with told_at(place=place):
                ends[self.read(place, is_refused_first)] += 1
        return ends

    def test_who_joins_a_load_that_finds_no_memory_is_told_so(self):
        ends = self.sweep(is_refused_first=False)
        self.assertGreater(ends["lacked", "lacked"], 0)

    def test_who_finds_no_memory_to_join_is_told_so_alone(self):
        ends = self.sweep(is_refused_first=True)
        self.assertGreater(ends["right", "lacked"], 0)
        self.assertEqual({first for first, _ in ends}, {"right"})
