"""Three nodes of `filehost serve`: which of them is asked for what, and that all of them see at once what anyone was told.

What is expected follows from docs/ARCHITECTURE.md, "How `serve` is built", and docs/WIRE.md, "Threads". The owner of a chunk is the node with the next point on
the ring.
"""

import itertools
import os
import random
import re
import resource
import time

from lib.client import REQUESTS, digest_of, request, sent
from lib.crowds import LONGEST, WHOLE, Crowds
from lib.held_file import HeldFile
from lib.ring import NO_CHUNK, PEERS, answer_with, asking_for, owner
from lib.rows import OTHER
from lib.served import FILE, ask, free_ports, publish
from lib.stores import PIECE, opening_of, pieces_of, write_store

NODES = 3
# How many times each of two workers of a node is asked while nothing changes, about, how many connections to a node see what comes then, and how often.
QUIET, KEPT, ROUNDS = 1_200, 8, 3
# How long a node waits for another one, in seconds, how long it passes over one that gave no answer, and how soon it asks that again then.
FETCH, PASSED_OVER, SOON = 2, 5, 1
TOLD = re.compile(r"filehost: \S+Z peer: node (\S+) (is passed over for 5 seconds|answers again)\n")


def unaccepted_at(port):
    """How many connections have come to a port and weren't accepted."""
    with open("/proc/net/tcp", "rb") as file:
        lines = [line.split() for line in file]
    # The one that listens is in this state.
    return next(int(line[4].partition(b":")[2], 16) for line in lines if line[3] == b"0A" and line[1].endswith(b":%04X" % port))


class Nodes(Crowds):
    def begin_cold(self, workers=2, **how):
        """A store with files that no node has read: many of one piece each, some of which each node owns, and a large one."""
        drawn, self.store = random.Random(1), self.folder().resolve() / "store"
        contents = {f"/{number}": drawn.randbytes(60_000) for number in range(60)}
        large = drawn.randbytes(3_000_000)
        write_store(self.store, [opening_of({**contents, "/large": large}, "two"), ("publish", "two", 1)], *contents.values(), large)
        self.large, self.owned, self.port = large, {node: [] for node in range(NODES)}, free_ports()
        for path, content in contents.items():
            self.owned[owner(self.port, digest_of(content), NODES)].append((path, content))
        how = self.held_in(**how)
        self.begin("--store", str(self.store), "--workers", str(workers), nodes=NODES, port=self.port, second=WHOLE, **how)

    def pieces_owned(self, its_owner):
        """The pieces of the large file that a node owns, each with the place of its first byte."""
        pieces = enumerate(pieces_of(self.large))
        return [(number * PIECE, piece) for number, piece in pieces if owner(self.port, digest_of(piece), NODES) == its_owner]

    def held_in(self, most=None, is_large=False):
        """What the program is started with: so many reads are to be held of the next file that the second node owns, or of its first piece of the large one, if
        a number is said."""
        if most is None:
            return {}
        content = self.pieces_owned(1)[0][1] if is_large else self.owned[1][-1][1]
        self.held = HeldFile(self.folder(), self.store / f"c-{digest_of(content)}", most)
        # The program reads each piece once as it opens the store.
        self.held.open()
        return {"environment": self.held.environment}

    def assert_reads(self, node, path, content):
        """The node answers a read at once."""
        mark, began = self.stalls.mark(), time.monotonic()
        self.assertEqual(self.read(f"/s/two{path}", node), (200, content))
        self.assertLess(time.monotonic() - began, LONGEST + self.stalls.since(mark))

    def has_kept(self, node, content):
        """Whether a node has a piece in its caches that isn't in the store any more."""
        (self.store / f"c-{digest_of(content)}").unlink(missing_ok=True)
        plug = self.plug(asking_for(content), PEERS + node)
        came = self.received(plug, len(NO_CHUNK))
        plug.close()
        self.assertIn(came, (NO_CHUNK, answer_with(content)[:len(NO_CHUNK)]))
        return came != NO_CHUNK

    def test_each_reads_through_the_owner_which_keeps_what_it_gave(self):
        self.begin_cold()
        for reader, its_owner in itertools.product(range(NODES), repeat=2):
            path, content = self.owned[its_owner].pop()
            with self.subTest(reader=reader, owner=its_owner):
                self.assert_reads(reader, path, content)
                self.assertTrue(self.has_kept(its_owner, content))
                for other in {*range(NODES)} - {reader, its_owner}:
                    self.assertFalse(self.has_kept(other, content))
                # Each is answered by the owner now.
                for node in range(NODES):
                    self.assert_reads(node, path, content)

    def test_all_read_a_file_whose_pieces_have_several_owners(self):
        self.begin_cold()
        for node in range(NODES):
            self.assert_reads(node, "/large", self.large)

    def test_one_that_gives_nothing_in_time_is_passed_over(self):
        """Its read from the store is held, and that of the node that asked it is not."""
        self.begin_cold(most=1)
        self.held.close()
        (path, content), self.lines = self.owned[1].pop(), ""
        mark, began = self.stalls.mark(), time.monotonic()
        self.assertEqual(self.read(f"/s/two{path}"), (200, content))
        took = time.monotonic() - began
        self.assertGreater(took, FETCH / 2)
        self.assertLess(took, FETCH + LONGEST + self.stalls.since(mark))
        self.assertEqual(self.held.told(), ["opened", "held", "opened"])
        self.assert_in_time(lambda: self.told() == [(f"127.0.0.1:{self.port + PEERS + 1}", "is passed over for 5 seconds")], 2)
        self.held.open()

    def test_one_that_still_gives_nothing_is_asked_a_single_question(self):
        """Both of its threads for other nodes want the same piece, whose read is held. So what it is asked later stays where it came."""
        self.begin_cold(most=1)
        self.held.close()
        _, content = self.owned[1].pop()
        holding = [self.plug(asking_for(content), PEERS + 1) for _ in range(2)]
        self.held.wait("opened", "held")
        (path, content), began = self.owned[1].pop(), time.monotonic()
        self.assertEqual(self.read(f"/s/two{path}"), (200, content))
        self.assertGreater(time.monotonic() - began, FETCH / 2)
        asked = unaccepted_at(self.port + PEERS + 1)
        time.sleep(PASSED_OVER + SOON)
        files = [self.owned[1].pop() for _ in range(2)]
        plugs = [self.plug(request("GET", f"/s/two{path}")) for path, _ in files]
        for plug, (_, content) in zip(plugs, files):
            self.assert_receives(plug, sent(content, kind=OTHER))
        self.assertEqual(unaccepted_at(self.port + PEERS + 1), asked + 1)
        self.held.open()
        del holding

    def test_all_stretches_of_a_request_share_the_time_for_other_nodes(self):
        """The owner of the first one gives nothing until that is over. So the owner of the second one isn't asked any more."""
        self.begin_cold(most=1, is_large=True)
        self.held.close()
        (first, _), (second, other) = self.pieces_owned(1)[0], self.pieces_owned(2)[-1]
        stretches = [(first, first + 9), (second, second + 9)]
        status, body = ask(self.client(), "GET", "/s/two/large", Range="bytes=" + ",".join(f"{start}-{end}" for start, end in stretches))
        self.assertEqual(status, 206)
        for start, end in stretches:
            self.assertIn(self.large[start:end + 1], body)
        self.assertEqual(self.held.told(), ["opened", "held", "opened"])
        self.assertFalse(self.has_kept(2, other))
        self.held.open()

    def test_answers_all_connections_of_other_nodes_however_many_workers_there_are(self):
        """There are more of them than the node has threads for them, and than it has workers."""
        self.begin_cold(workers=4)
        _, content = self.owned[1].pop()
        plugs = [self.plug(asking_for(content), PEERS + 1) for _ in range(8)]
        for plug in plugs:
            self.assert_receives(plug, answer_with(content))

    def told(self):
        """What the operator was told of other nodes."""
        os.set_blocking(self.started.stderr.fileno(), False)
        self.lines += (self.started.stderr.read() or b"").decode()
        return TOLD.findall(self.lines)

    def read_owned(self, its_owner):
        """The first node reads a file that another one owns. Returns its content."""
        path, content = self.owned[its_owner].pop()
        self.assertEqual(self.kept.request("GET", f"/s/two{path}"), None)
        self.assertEqual(self.kept.getresponse().read(), content)
        return content

    def test_one_that_is_not_reached_is_passed_over_and_asked_again(self):
        """The program has no descriptor for a while. A silent client gives one for the file."""
        self.begin_cold()
        self.lines, self.kept = "", self.client()
        self.assertTrue(self.has_kept(1, self.read_owned(1)))
        silent = self.crowd(10)
        before = resource.prlimit(self.started.pid, resource.RLIMIT_NOFILE)
        resource.prlimit(self.started.pid, resource.RLIMIT_NOFILE, (self.least_descriptor(), before[1]))
        content = self.read_owned(1)
        failed = time.monotonic()
        resource.prlimit(self.started.pid, resource.RLIMIT_NOFILE, before)
        self.assertFalse(self.has_kept(1, content))
        # It isn't asked for a while, and the node that is asked beside it is.
        content, other = self.read_owned(1), self.read_owned(2)
        if time.monotonic() < failed + PASSED_OVER:
            self.assertFalse(self.has_kept(1, content))
        self.assertTrue(self.has_kept(2, other))
        time.sleep(PASSED_OVER + SOON)
        self.assertTrue(self.has_kept(1, self.read_owned(1)))
        self.assert_in_time(lambda: len(self.told()) == 2, 2)
        address = f"127.0.0.1:{self.port + PEERS + 1}"
        self.assertEqual(self.told(), [(address, "is passed over for 5 seconds"), (address, "answers again")])
        del silent

    def least_descriptor(self):
        """The least number that no descriptor of the program has."""
        taken = set(map(int, os.listdir(f"/proc/{self.started.pid}/fd")))
        return next(number for number in itertools.count() if number not in taken)


class Looks(Crowds):
    """What anyone was told is seen by each later request, however long nothing had changed before."""

    def look_often(self, node, wanted):
        """Asks a node again and again, over some connections."""
        for _ in range(2 * QUIET // REQUESTS):
            plug = self.plug(request("GET", FILE) * (REQUESTS - 1), node)
            self.assert_receives(plug, wanted * (REQUESTS - 1))
            plug.close()

    def assert_all_see(self, plugs, wanted):
        """Each of these connections is answered so, and so is a new one to each node."""
        for plug in plugs:
            plug.sendall(request("GET", FILE))
        new = [self.plug(request("GET", FILE), node) for node in range(NODES)]
        for plug in plugs + new:
            self.assert_receives(plug, wanted)
        for plug in new:
            plug.close()

    def test_after_a_thousand_quiet_ones_at_each_node(self):
        self.begin("--workers", "2", nodes=NODES, second=WHOLE)
        plugs = [self.plug(node=node) for node in range(NODES) for _ in range(KEPT)]
        wanted = sent(b"hello")
        for turn in range(ROUNDS):
            for node in range(NODES):
                self.look_often(node, wanted)
            self.assert_all_see(plugs, wanted)
            content = b"content of turn %d" % turn
            publish(self.client(turn % NODES), {"/a.txt": content})
            wanted = sent(content)
            self.assert_all_see(plugs, wanted)
