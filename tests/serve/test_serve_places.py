"""The places of `filehost serve`: who goes for whom, that each is free again however its connection ended, and that each client counts once.

What is expected follows from docs/WIRE.md, "Deadlines and places", and from `serve --help`.
"""

import contextlib
import itertools
import json
import os
import resource
import select
import socket
import subprocess
import time

from lib.client import HERE, LARGEST_FILE, PATIENCE, SECONDS, digest_of, request, sent
from lib.crowds import GRACE, IDLE, MOVED, WHOLE, Crowds, reset
from lib.held_file import HeldFile
from lib.launched import limited_to
from lib.ring import PEERS, answer_with, asking_for, owner
from lib.rows import OTHER
from lib.served import FILE, HOST, ask, seconds_until_closed, sockets_of
from lib.stores import opening_of, write_store

GET, HELLO = request("GET", FILE), sent(b"hello")
TOO_LARGE = f"PUT /api/v1/deploys/1/files/a HTTP/1.1\r\nContent-Length: {LARGEST_FILE + 1}\r\n\r\n".encode()
UPLOAD = b"PUT /api/v1/deploys/1/files/a HTTP/1.1\r\nContent-Length: 1000000\r\n\r\n" + bytes(1_000)
OPENING = request("POST", "/api/v1/sites/two/deploys", body=b'{"files":{"/a":"' + digest_of(b"a").encode() + b'"},"draft":true}')
# The most connections of a node.
PLACES = 1_024
# How many descriptors a program has where there are to be few places, and how many connections come at once then: fewer than there are places, and more than
# a third of them.
FEW, EACH = 64, 20
# A second of the deadlines where connections are to be late, in milliseconds.
SECOND = 50
# A connection whose place is wanted has gone before this time, in seconds.
SOON = 10
# How many connections of other nodes a node has at most.
OF_NODES = 16


def stay(plug):
    """The connection stays as it is."""


def half_close(plug):
    plug.shutdown(socket.SHUT_WR)


# What a client sends, and what it does then. Some end by themselves, and some are late.
CLIENTS = [
    (b"", stay), (b"GET /s", stay), (TOO_LARGE, stay), (b"\0\r\n\r\n", stay), (request("GET", FILE, "Connection: close"), stay), (GET, half_close),
    (GET, socket.socket.close), (GET, reset), (b"GET /s", reset), (UPLOAD, reset), (UPLOAD, half_close), (OPENING, reset), (request("GET", "/s/one/large"), reset),
]
ASKED = asking_for(b"hello")
NODES = [(b"", stay), (b"GET /_", stay), (b"\0\r\n\r\n", stay), (ASKED, half_close), (ASKED, socket.socket.close), (ASKED * 5, reset), (b"GET /_", reset)]


class Ways(Crowds):
    def let_have(self, more):
        """Lets the program have so many descriptors more than it has now. Returns the limits from before."""
        taken = set(map(int, os.listdir(f"/proc/{self.started.pid}/fd")))
        least = next(number for number in itertools.count() if number not in taken)
        before = resource.prlimit(self.started.pid, resource.RLIMIT_NOFILE)
        resource.prlimit(self.started.pid, resource.RLIMIT_NOFILE, (least + more, before[1]))
        return before

    def come_and_go(self, *ways, node=0, count=EACH):
        """So many connections come and end in each of these ways, one way after the other."""
        for given, how in ways:
            plugs = self.crowd(count, given, node=node)
            # Then what each sent has been seen, or most of it.
            time.sleep(0.02)
            for plug in plugs:
                how(plug)
            self.assert_in_time(lambda: self.sockets() == 0, self.seconds(IDLE) + GRACE)

    def assert_all_at_once(self, count, asked, wanted, node=0):
        """So many connections are there at once, and each is answered twice: none has to go for another one."""
        plugs = self.crowd(count, node=node)
        for _ in range(2):
            for plug in plugs:
                plug.sendall(asked)
                self.assert_receives(plug, wanted)
        for plug in plugs:
            plug.close()
        self.assert_alone()


class Free(Ways):
    """Each place is free again."""

    def test_of_clients_that_end_in_any_way(self):
        self.begin(second=SECOND, **limited_to(FEW))
        for _ in range(3):
            self.come_and_go(*CLIENTS)
        self.assert_all_at_once(EACH, GET, HELLO)

    def test_of_nodes_that_end_in_any_way(self):
        self.begin(second=SECOND)
        for _ in range(2):
            self.come_and_go(*NODES, node=PEERS, count=OF_NODES - 2)
        self.assert_all_at_once(OF_NODES - 2, ASKED, answer_with(b"hello"), node=PEERS)

    def test_of_those_from_another_address_that_are_cut_unread(self):
        self.begin(second=WHOLE)
        for _ in range(3 * OF_NODES):
            with socket.create_connection((HOST, self.port + PEERS), PATIENCE, ("127.0.0.2", 0)) as plug, contextlib.suppress(ConnectionError):
                plug.sendall(ASKED)
                self.assertEqual(plug.recv(1), b"")
        self.assert_all_at_once(OF_NODES - 2, ASKED, answer_with(b"hello"), node=PEERS)

    def test_of_clients_that_gave_their_descriptors(self):
        """More come than there are descriptors, and each that comes ends another one. Then there are enough again."""
        self.begin(second=WHOLE)
        before = self.let_have(20)
        plugs = self.crowd(PLACES + 300)
        self.assert_in_time(lambda: 0 < self.sockets() <= 20, PATIENCE)
        for plug in plugs:
            plug.close()
        self.assert_alone()
        resource.prlimit(self.started.pid, resource.RLIMIT_NOFILE, before)
        self.assert_all_at_once(200, GET, HELLO)


class Counted(Ways):
    """A program that ends after so many clients."""

    def test_each_client_counts_once_however_it_ends(self):
        """Also one that goes for another. The last one ends the program."""
        evicted = 3 * FEW
        clients = evicted + 4 * len(CLIENTS)
        started = self.serve("--conns", str(clients + 1), second=SECOND, **limited_to(FEW))
        alone = sockets_of(started)
        for given, how in [(b"", stay)] * evicted + CLIENTS * 4:
            plug = self.plug(given)
            time.sleep(0.002)
            how(plug)
        until = time.monotonic() + PATIENCE
        while sockets_of(started) > alone:
            self.assertLess(time.monotonic(), until)
            time.sleep(0.01)
        self.assertIsNone(started.poll())
        self.assertEqual(ask(self.client(), "GET", FILE, Connection="close")[0], 404)
        self.assertEqual((started.wait(PATIENCE), started.stderr.read()), (0, b""))

    def test_other_nodes_are_no_clients(self):
        started = self.serve("--conns", "3", nodes=2)
        for node in (0, 1):
            for _ in range(5):
                self.assertEqual(self.plug(asking_for(b"nothing") + b"\0\r\n\r\n", PEERS + node).recv(12), b"HTTP/1.1 404")
        time.sleep(0.1)
        self.assertIsNone(started.poll())
        plug = self.plug(asking_for(b"nothing"), PEERS + 1)
        self.assertEqual(plug.recv(12), b"HTTP/1.1 404")
        for node in (0, 1) * 3:
            self.assertEqual(ask(self.client(node), "GET", FILE, Connection="close")[0], 404)
        self.assertEqual(started.wait(PATIENCE), 0)


class First(Ways):
    """Who goes for whom."""

    def count_places(self):
        """How many places there are: more connections come, and then go."""
        plugs = self.crowd(FEW)
        self.assert_in_time(lambda: len(select.select(plugs, [], [], 0)[0]) == FEW - self.sockets(), PATIENCE)
        places = self.sockets()
        for plug in plugs:
            plug.close()
        self.assert_alone()
        return places

    def crowd_later(self, count, node=0):
        """So many silent connections, which come some time after all others."""
        time.sleep(0.1)
        return self.crowd(count, node=node)

    def test_a_client_in_the_midst_of_its_next_head_outlasts_silent_ones(self):
        """Since it was answered, however long ago that is."""
        self.begin(second=WHOLE, **limited_to(FEW))
        kept = self.plug(GET)
        self.assert_receives(kept, HELLO)
        kept.sendall(GET[:10])
        first = self.crowd_later(2 * FEW)[0]
        self.assertLess(seconds_until_closed(first, SOON), SOON)
        kept.sendall(GET[10:])
        self.assert_receives(kept, HELLO)

    def test_a_client_that_was_answered_outlasts_those_that_sent_a_part_of_their_first_head(self):
        """Though its worker answered it last, and they moved bytes since. The first time a thread that may wait reads the file."""
        self.begin("--workers", "1", second=WHOLE, **limited_to(FEW))
        kept = self.plug()
        for _ in range(2):
            kept.sendall(GET)
            self.assert_receives(kept, HELLO)
        time.sleep(0.1)
        first = self.crowd(2 * FEW, GET[:10], pause=0.005)[0]
        self.assertLess(seconds_until_closed(first, SOON), SOON)
        kept.sendall(GET)
        self.assert_receives(kept, HELLO)

    def test_of_silent_ones_the_one_that_sent_a_byte_outlasts_others_that_came_later(self):
        self.begin(second=WHOLE, **limited_to(FEW))
        places = self.count_places()
        plug, other = self.crowd(1)[0], self.crowd_later(places - 1)[0]
        # None of them is new any more.
        time.sleep(1.2)
        plug.sendall(GET[:1])
        self.crowd_later(places // 2)
        self.assertLess(seconds_until_closed(other, SOON), SOON)
        plug.sendall(GET[1:])
        self.assert_receives(plug, HELLO)

    def begin_cold(self, **how):
        """A store with a file that nobody has read, whose load is held."""
        content, folder = bytes(60_000), self.folder().resolve() / "store"
        write_store(folder, [opening_of({"/cold": content}, "two"), ("publish", "two", 1)], content)
        self.held = HeldFile(self.folder(), folder / f"c-{digest_of(content)}")
        self.held.open()
        self.begin("--store", str(folder), environment=self.held.environment, **how)
        self.held.close()

    def test_a_client_that_another_worker_took_ends_nobody(self):
        """It has the last descriptor. A worker that was told of it too, since it looked before it was taken, finds neither a descriptor nor a client."""
        library = self.folder() / "slow_accept.so"
        subprocess.run(["gcc", "-O1", "-shared", "-fPIC", "-o", library, HERE / "slow_accept.c", "-ldl"], check=True, timeout=SECONDS)
        self.begin("--workers", "2", second=WHOLE, environment={"LD_PRELOAD": str(library), "ACCEPT_MILLISECONDS": "200"})
        kept = self.crowd(6, GET)
        for plug in kept:
            self.assert_receives(plug, HELLO)
        time.sleep(0.5)
        self.let_have(2)
        for _ in range(3):
            # The worker that takes the first one looks again while the other one takes the second.
            plugs = self.crowd(2, pause=0.1)
            self.assert_in_time(lambda: self.sockets() == len(kept) + len(plugs), GRACE)
            time.sleep(0.5)
            self.assertEqual(select.select(kept + plugs, [], [], 0)[0], [])
            for plug in plugs:
                plug.close()
            self.assert_in_time(lambda: self.sockets() == len(kept), GRACE)

    def test_a_request_that_comes_back_to_a_place_of_another_one_is_dropped(self):
        """Its client had to go for another one, since all others have downloads that move."""
        self.begin_cold(second=WHOLE, **limited_to(FEW))
        places = self.count_places()
        gone = self.plug(request("GET", "/s/two/cold"))
        self.held.wait("opened", "held")
        plugs = self.downloads(places - 1)
        late = self.plug(GET)
        self.assert_receives(late, HELLO)
        self.assertLess(seconds_until_closed(gone, SOON), SOON)
        self.held.open()
        time.sleep(0.3)
        late.sendall(GET)
        self.assert_receives(late, HELLO)
        for plug in plugs:
            self.assertEqual(len(self.received(plug, MOVED)), MOVED)

    def test_of_all_nodes_the_one_goes_for_a_file_that_has_least_to_lose(self):
        """A cold file finds no descriptor. A silent client of the other node gives its own, and no client that was answered."""
        contents = {f"/{number}": b"content %d" % number * 1_000 for number in range(40)}
        folder = self.folder() / "store"
        write_store(folder, [opening_of(contents, "two"), ("publish", "two", 1)], *contents.values())
        self.begin("--store", str(folder), nodes=2, second=WHOLE)
        # It needs no other node, for which no descriptor would be left.
        path, content = next((path, content) for path, content in contents.items() if owner(self.port, digest_of(content)) == 0)
        kept = self.crowd(5, GET)
        for plug in kept:
            self.assert_receives(plug, HELLO)
        time.sleep(0.1)
        silent = self.crowd(1, node=1)[0]
        # Its worker has taken it when the others come: each worker tells by itself when its connections came.
        self.assert_in_time(lambda: self.sockets() == 6, GRACE)
        self.crowd_later(4, node=1)
        self.assert_in_time(lambda: self.sockets() == 10, GRACE)
        self.let_have(0)
        kept[0].sendall(request("GET", f"/s/two{path}"))
        self.assert_receives(kept[0], sent(content, kind=OTHER))
        self.assertLess(seconds_until_closed(silent, SOON), SOON)
        for plug in kept:
            plug.sendall(GET)
            self.assert_receives(plug, HELLO)

    def test_a_silent_connection_of_another_node_goes_for_a_file_before_clients_that_were_answered(self):
        """A cold file finds no descriptor."""
        content, folder = b"cold" * 1_000, self.folder() / "store"
        write_store(folder, [opening_of({"/cold": content}, "two"), ("publish", "two", 1)], content)
        self.begin("--store", str(folder), second=WHOLE)
        kept = self.crowd(5, GET)
        for plug in kept:
            self.assert_receives(plug, HELLO)
        silent = self.crowd_later(1, node=PEERS)[0]
        self.assert_in_time(lambda: self.sockets() == len(kept) + 1, GRACE)
        self.let_have(0)
        kept[0].sendall(request("GET", "/s/two/cold"))
        self.assert_receives(kept[0], sent(content, kind=OTHER))
        self.assertLess(seconds_until_closed(silent, SOON), SOON)
        for plug in kept:
            plug.sendall(GET)
            self.assert_receives(plug, HELLO)

    def test_silent_clients_go_for_an_upload_before_those_that_were_answered(self):
        """Neither its piece nor its table finds a descriptor, nor the folder that is synced after these."""
        self.begin("--store", str(self.folder()), second=WHOLE)
        client, kept = self.client(), self.crowd(4, GET)
        for plug in kept:
            self.assert_receives(plug, HELLO)
        status, told = ask(client, "POST", "/api/v1/sites/two/deploys", f'{{"files":{{"/a":"{digest_of(b"a")}"}}}}')
        self.assertEqual(status, 200, told)
        silent = self.crowd_later(4)
        self.assert_in_time(lambda: self.sockets() == 1 + len(kept + silent), GRACE)
        self.let_have(0)
        status, told = ask(client, "PUT", f"/api/v1/deploys/{json.loads(told)['id']}/files/a", b"a")
        self.assertEqual(status, 200, told)
        self.assertNotEqual(select.select(silent, [], [], SOON)[0], [])
        for plug in kept:
            plug.sendall(GET)
            self.assert_receives(plug, HELLO)
