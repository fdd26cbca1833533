"""Starts of `filehost serve`, each with another of its allocations refused: it serves all the same, or says that there is no memory, takes no client and leaves
its store as it was. A library in C refuses the allocation (refuse_on_demand.c).
"""

from lib.client import PATIENCE, refused, request, run, sent
from lib.refused_allocations import NO_MEMORY
from lib.refused_on_demand import Refusals, built_in
from lib.served import HOST, Served, ports_of_several, told_at
from lib.stores import opening_of, write_store
import journal

# So many programs start at once. One that lacks the memory for a thread waits for it for some seconds.
AT_ONCE = 16
CONTENT = bytes(range(256)) * 300
ENTRIES = [
    opening_of({"/a.txt": b"hello", "/d": CONTENT}), ("publish", "one", 1), ("alias", "one", "next", 1), ("rename", "one", "/d", "/e"), ("undo", "one", 4),
    opening_of({"/p": b"never there"}, "two"), ("cancel", "two", 6), ("restore", "one", 1),
]
READS = [(request("GET", "/s/one/a.txt"), sent(b"hello")), (request("GET", "/a/one/next/d"), sent(CONTENT, kind="application/octet-stream"))]


def files_of(folder):
    return {file.name: file.read_bytes() for file in folder.iterdir()}


class Slot:
    """A folder and ports, for one program after another."""

    def __init__(self, test, room, port):
        self.test, self.port, self.folder = test, port, room / str(port)
        self.refusals = Refusals(built_in(room), room / f"{port}.refusals")
        self.folder.mkdir()

    def start(self, place, *words):
        """Starts a program of which this allocation is refused."""
        self.place = place
        self.refusals.refuse(place)
        self.started = self.test.start("--store", str(self.folder), *words, nodes=self.test.nodes, port=self.port, environment=self.refusals.environment)

    def ended(self):
        """Whether it ends, and says that there is no memory: before it takes a client, or where the line of a node finds none. Else it serves."""
        with told_at(place=self.place):
            for node in range(self.test.nodes):
                line = self.started.stdout.readline()
                if not line:
                    self.test.assertEqual((self.started.wait(PATIENCE), self.started.stderr.read()), (2, NO_MEMORY))
                    return True
                self.test.assertEqual(line, f"node {node} listening on {HOST}:{self.port + node}\n".encode())
            self.counted = self.refusals.counted
            self.assert_serves()
        self.test.end(self.started)
        return False

    def assert_serves(self):
        self.test.port = self.port
        for node in range(self.test.nodes):
            plug = self.test.plug(node=node)
            for asked, wanted in self.test.reads:
                plug.sendall(asked)
                self.test.assert_receives(plug, wanted)
            plug.close()


class Starts(Served):
    nodes, reads = 2, READS

    def setUp(self):
        room = self.folder()
        self.slots = [Slot(self, room, port) for port in ports_of_several(AT_ONCE)]

    def assert_starts(self, prepare, check):
        """Starts with each of their allocations refused, one after another. Answers how many ended."""
        first, *_ = self.slots
        prepare(first)
        first.start(0)
        self.assertFalse(first.ended())
        places, ends = range(1, first.counted + 1), 0
        for begin in range(0, len(places), AT_ONCE):
            some = list(zip(self.slots, places[begin:begin + AT_ONCE]))
            for slot, place in some:
                prepare(slot)
                slot.start(place)
            for slot, _ in some:
                ends += slot.ended()
                check(slot)
        return ends

    def test_over_a_store_leave_it_as_it_is(self):
        for slot in self.slots:
            write_store(slot.folder, ENTRIES, b"hello", CONTENT)
        before = files_of(self.slots[0].folder)
        self.assertGreater(self.assert_starts(lambda slot: None, lambda slot: self.assertEqual(files_of(slot.folder), before)), 200)
        for slot in self.slots:
            slot.start(0)
            self.assertFalse(slot.ended())

    def test_of_a_new_store_leave_one_that_can_be_opened(self):
        def empty(slot):
            for file in slot.folder.iterdir():
                file.unlink()

        def open_again(slot):
            self.assertEqual(run("solo", "--store", str(slot.folder)), (0, b"", b""))
            self.assertEqual(files_of(slot.folder), {"journal": b"", "journal.2": journal.EMPTY})

        self.nodes, self.reads = 1, [(request("GET", "/s/one/a.txt"), refused("NoSuchFile"))]
        self.assertGreater(self.assert_starts(empty, open_again), 100)
