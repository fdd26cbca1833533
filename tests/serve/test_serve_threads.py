"""The threads of `filehost serve`: all of them run, or the program says that there is no memory, and takes no client. Where all wait, they take little
processor time.

What is expected follows from docs/WIRE.md and docs/ARCHITECTURE.md. A thread is refused by a library in C before the C library's pthread_create.
"""

import os
import socket
import subprocess
import time

from lib.client import HERE, LARGEST_FILE, PATIENCE, PUBLISHED, REQUESTS, SECONDS, digest_of, refused, request
from lib.crowds import FILES, WHOLE, reset
from lib.held_file import HeldFile
from lib.launched import Launched
from lib.ring import PEERS, asking_for
from lib.rooms import Room
from lib.served import FILE, HOST, Served, ask, ports_of_several, sockets_of
from lib.stores import PIECE, opening_of, write_store

SOURCE = HERE / "refuse_thread.c"
# The last thread of those that are refused, which the program doesn't make.
LAST = 12
# How many threads a node has beside its workers: two for what its workers leave, and two for other nodes.
OTHERS = 4
# A body that is larger than it may be, and one of which a part has come.
TOO_LARGE, UPLOAD = (
    f"PUT /api/v1/deploys/1/files/a HTTP/1.1\r\nContent-Length: {length}\r\n\r\n".encode() + bytes(rest)
    for length, rest in ((LARGEST_FILE + 1, 0), (LARGEST_FILE, 1_000))
)
# What the system calls the counter by which the wait of a worker is ended.
WAKER = "anon_inode:[eventfd]"
# A start that waits for a thread ends after so many seconds, and a stop takes no longer.
LONGEST = 10


class Refused(Served):
    """One thread can't be made. No launcher is needed for that."""

    def test_all_threads_run_or_none_takes_a_client(self):
        library = self.folder() / "refuse_thread.so"
        subprocess.run(["gcc", "-O1", "-shared", "-fPIC", "-o", library, SOURCE, "-ldl"], check=True, timeout=SECONDS)
        begun = []
        for place, port in enumerate(ports_of_several(LAST), 1):
            environment = {"LD_PRELOAD": str(library), "REFUSED_PLACE": str(place)}
            begun.append((place, self.start(port=port, environment=environment), port))
        ended = []
        for place, started, self.port in begun:
            with self.subTest(place):
                line = started.stdout.readline()
                if line:
                    self.assertEqual(line.decode(), f"node 0 listening on {HOST}:{self.port}\n")
                    self.assertEqual(ask(self.client(), "GET", "/")[0], 404)
                else:
                    self.assertEqual((started.wait(PATIENCE), started.stderr.read()), (2, b"filehost: out of memory\n"))
                    ended.append(place)
        # The first thread does without another one's help, and those that aren't asked for can't be missed.
        self.assertIn(2, ended)
        self.assertNotIn(LAST, ended)


class Counted(Launched):
    """How many threads there are."""

    def assert_has(self, nodes, workers):
        """So many nodes and workers have their threads, and the program has at most two beside them. It is asked to end, and does."""
        started = self.serve("--workers", str(workers), nodes=nodes)
        of_nodes = nodes * (workers + OTHERS)
        threads = len(os.listdir(f"/proc/{started.pid}/task"))
        self.assertGreaterEqual(threads, of_nodes)
        self.assertLessEqual(threads, of_nodes + 2)
        for node in range(nodes):
            self.assertEqual(ask(self.client(node), "GET", "/", Connection="close")[0], 404)
        began = time.monotonic()
        started.terminate()
        self.assertEqual(started.wait(PATIENCE), 0)
        self.assertLess(time.monotonic() - began, LONGEST)

    def test_of_one_node(self):
        self.assert_has(1, 2)

    def test_of_eight_nodes_with_eight_workers(self):
        self.assert_has(8, 8)


def half_close(plug):
    plug.shutdown(socket.SHUT_WR)


def read_and_half_close(plug):
    """The reply is read, and no request follows."""
    plug.recv(65_536)
    half_close(plug)


class Quiet(Room):
    """Connections that all wait for something."""

    # What each sends, how many bytes of room it has for what comes, and what its client does then.
    clients = [
        (b"", None, None), (b"GET /s", None, None), (request("GET", FILE), None, None), (request("GET", "/s/one/large") * 4, 4_096, None),
        (request("GET", "/s/one/large") * 4, 4_096, half_close), (UPLOAD, None, None), (TOO_LARGE, None, None), (TOO_LARGE, None, read_and_half_close),
        (request("GET", "/s/two/cold"), None, None), (request("GET", "/s/two/cold"), None, half_close),
    ]
    nodes = [(b"", None, None), (b"GET /_", None, None), (asking_for(FILES["/large"][:PIECE]) * REQUESTS, 4_096, None)]

    def begin_all(self):
        """Two connections of each kind, and bodies that wait for room. A load from the store is held."""
        content, folder = bytes(1_000), self.folder().resolve() / "store"
        write_store(folder, [opening_of({"/cold": content}, "two"), ("publish", "two", 1)], content)
        held = HeldFile(self.folder(), folder / f"c-{digest_of(content)}")
        held.open()
        self.begin("--store", str(folder), second=WHOLE, environment=held.environment)
        self.assertEqual(self.read("/s/one/large")[0], 200)
        held.close()
        fill = self.begin_fill()
        pairs = [self.begin_bodies(1, 2)]
        for plug in pairs[0]:
            plug.sendall(bytes(1_000))
        for kinds, node in ((self.clients, 0), (self.nodes, PEERS)):
            for given, room, how in kinds:
                pairs.append(self.crowd(2, given, node, room))
                for plug in pairs[-1] if how else ():
                    how(plug)
        return fill, pairs

    def assert_takes_little(self):
        """Less than a tenth of a processor."""
        # Until then it does what is to be done.
        time.sleep(0.3)
        took, began = self.processor_time(self.started), time.monotonic()
        time.sleep(1.5)
        self.assertLess(self.processor_time(self.started) - took, (time.monotonic() - began) / 10)

    def test_take_little_processor_time(self):
        """Also once a client of each kind has reset its connection."""
        fill, pairs = self.begin_all()
        self.assert_takes_little()
        for plug, _ in pairs:
            reset(plug)
        self.assert_takes_little()
        del fill


class Woken(Launched):
    """Workers that all sleep, each on a set of its own."""

    def test_a_client_is_answered_at_once(self):
        """Also where its place is with another worker than the one that accepts it. Without its wake it would be answered at the next look, within a second."""
        self.serve("--workers", "4", second=WHOLE)
        kept, took = [], []
        for _ in range(40):
            # Each worker waits for so much of a second at most, so they don't look soon.
            time.sleep(0.05)
            began = time.monotonic()
            kept.append(self.plug(request("GET", FILE)))
            self.assertEqual(kept[-1].recv(1), b"H")
            took.append(time.monotonic() - began)
        self.assertLess(sorted(took)[len(took) * 9 // 10], 0.1)

    def test_what_a_worker_is_told_while_it_takes_note_that_it_was_woken_is_heard(self):
        """It is held there, and the other worker gives it clients meanwhile."""
        held = HeldFile(self.folder(), WAKER, most=1)
        held.open()
        started = self.serve("--workers", "2", second=WHOLE, environment=held.environment)
        alone = sockets_of(started)
        held.close()
        # A thread that may wait carries out the first request, and its worker is told then.
        asked, wanted = PUBLISHED[0]
        plugs = [(self.plug(asked), wanted)]
        held.wait("held")
        # The other worker takes them all, and each worker has at least one of them.
        plugs += [(self.plug(request("GET", FILE)), refused("NoSuchFile")) for _ in range(4)]
        until = time.monotonic() + PATIENCE
        while sockets_of(started) < alone + len(plugs):
            self.assertLess(time.monotonic(), until)
            time.sleep(0.01)
        time.sleep(0.1)
        held.open()
        for plug, wanted in plugs:
            self.assert_receives(plug, wanted)
