"""`filehost serve` with few descriptors, and with other words for a second of the deadlines: nobody is refused for want of a descriptor.

What is expected follows from docs/WIRE.md, "Deadlines and places". The launcher starts the program, under the limits.
"""

import random
import select
import threading
import time

from lib.client import PATIENCE, digest_of, request
from lib.crowds import WHOLE, Crowds
from lib.held_file import HeldFile
from lib.launched import Launched, limited_to
from lib.served import FILE, ask, ports_of_several
from lib.stores import opening_of, pieces_of, write_store

# A line for the operator where a descriptor was wanted: a connection gave one, or another node couldn't be asked.
GIVEN = rb"filehost: \d{4}-\d\d-\d\dT\d\d:\d\d:\d\dZ (?:descriptors|peer): [^\n]+\n"
# How many clients read at once, unless a test says otherwise, and how many bytes a file has that nobody has read: more than one piece.
READERS, SIZE = 8, 70_000
# How many connections of other nodes a node has at most.
OF_NODES = 16


class Descriptors(Launched, Crowds):
    """A limit of descriptors that clients want to exceed."""

    # How often an honest client asks, and within how many seconds it is answered but for one request in a hundred.
    asked, usual = 100, 0.05

    def write_store(self, count):
        """A folder with a store of so many files that are read nowhere yet, and their contents by their targets."""
        folder, drawn = self.folder() / "store", random.Random(count)
        contents = {f"/{number}": drawn.randbytes(SIZE) for number in range(count)}
        write_store(folder, [opening_of(contents, "two"), ("publish", "two", 1)], *contents.values())
        return folder, {f"/s/two{path}": content for path, content in contents.items()}

    def read_all(self, contents, nodes, readers):
        """Reads each of these files once, in so many threads, each over a new connection to one node or another."""
        targets, faults = list(contents), []

        def run():
            while targets:
                target = targets.pop()
                try:
                    status, body = self.read(target, node=len(targets) % nodes)
                except Exception as fault:
                    status, body = fault, b""
                if (status, body) != (200, contents[target]):
                    faults.append((target, status))

        threads = [threading.Thread(target=run) for _ in range(readers)]
        for thread in threads:
            thread.start()
        for thread in threads:
            thread.join()
        self.assertEqual(faults, [])

    def idle(self, count, node):
        """So many connections to a node: a fourth was answered once, and then others came that are silent. Those that have no place any more are of these."""
        answered = self.crowd(count // 4, request("GET", FILE), node=node)
        for plug in answered:
            self.assertEqual(plug.recv(1), b"H")
        return answered + self.crowd(count - len(answered), node=node)

    def assert_serves_all(self, limit, nodes, readers=READERS):
        folder, contents = self.write_store(limit)
        self.begin("--store", str(folder), nodes=nodes, second=WHOLE, **limited_to(limit))
        idle = [self.idle(limit // nodes, node) for node in range(nodes)]
        idle += [self.crowd(OF_NODES, node=8 + node) for node in range(nodes)]
        with self.beside_honest(*range(nodes)):
            self.read_all(contents, nodes, readers)
        del idle
        self.started.terminate()
        self.started.wait(PATIENCE)
        self.assertRegex(self.started.stderr.read(), rb"\A(?:%s)*\Z" % GIVEN)

    def test_64_of_one_node(self):
        self.assert_serves_all(64, 1)

    def test_80_of_two_nodes(self):
        """Two readers a node. With more, one whose request hasn't come yet may have to go for the next: it is a client of which no request was answered."""
        self.assert_serves_all(80, 2, 2 * 2)

    def test_256_of_one_node(self):
        self.assert_serves_all(256, 1)

    def test_256_of_two_nodes(self):
        self.assert_serves_all(256, 2)

    def test_too_few_are_refused_before_anything_else(self):
        """Eight connections of each node are the fewest."""
        for nodes, few, enough in ((1, 39, 40), (2, 63, 64)):
            for limit in (24, few):
                with self.subTest((nodes, limit)):
                    started = self.start(nodes=nodes, **limited_to(limit))
                    self.assertEqual((started.wait(PATIENCE), started.stdout.read(), started.stderr.read()), (2, b"", b"filehost: cannot listen\n"))
            self.serve(nodes=nodes, **limited_to(enough))
            self.assertEqual(ask(self.client(nodes - 1), "GET", FILE)[0], 404)

    def test_a_client_whose_first_request_is_at_work_keeps_its_place(self):
        """An idle one that was answered goes, as long as there is one: else two new clients would end each other."""
        folder, contents = self.write_store(1)
        (target, content), = contents.items()
        held = HeldFile(self.folder(), (folder / f"c-{digest_of(pieces_of(content)[1])}").resolve())
        # The program reads each piece once as it opens the store.
        held.open()
        self.begin("--store", str(folder), second=WHOLE, environment=held.environment, **limited_to(40))
        answered = self.crowd(8, request("GET", FILE))
        for plug in answered:
            self.assertEqual(plug.recv(1), b"H")
        # Bytes moved on them longer ago than on any that come now.
        time.sleep(0.1)
        held.close()
        reader = self.plug(request("GET", target, "Connection: close"))
        held.wait("opened", "held")
        for _ in range(2):
            self.assertEqual(self.read(FILE), (200, b"hello"))
        held.open()
        came = b"".join(iter(lambda: reader.recv(65_536), b""))
        self.assertTrue(came.endswith(content), came[:100])


class Seconds(Launched):
    """FILEHOST_DEADLINE_SECOND, which is for tests."""

    def test_other_words_than_its_range_count_as_a_whole_second(self):
        """An idle connection has fifteen of them."""
        words = ["0", "1", "5", "9", "1001", "99999999999999999999", "x", "-10", "10x", ""]
        ports = ports_of_several(len(words) + 1)
        for word, port in zip([*words, "10"], ports):
            self.serve(second=word, port=port)
        plugs = []
        for self.port in ports:
            plugs.append(self.plug())
        began = time.monotonic()
        *others, short = plugs
        self.assertEqual(short.recv(1), b"")
        self.assertGreater(time.monotonic() - began, 0.1)
        self.assertEqual(select.select(others, [], [], 1.2)[0], [])
