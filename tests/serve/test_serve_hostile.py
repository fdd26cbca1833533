"""Clients that hold what they can of `filehost serve`, beside an honest one.

What is expected follows from docs/WIRE.md, "Deadlines and places". A second of the deadlines is shorter here. That a client goes in time is here that it goes
at all: test_serve_crowds.py says how soon.
"""

import contextlib
import random
import resource
import time

from lib.client import PATIENCE, request
from lib.crowds import FILES, REPLY, SHORT, WHOLE, Crowds, drip
from lib.served import FILE, ask, publish, seconds_until_closed

# A connection whose place is wanted has gone before this time; that is long before it would be late.
SOON = 5


class Hostile(Crowds):
    """Clients that hold what they can, beside an honest one."""

    def assert_goes(self, plug):
        """The program ends this connection."""
        self.assertLess(seconds_until_closed(plug, PATIENCE), PATIENCE)

    def test_silent_clients_go_in_time(self):
        self.begin()
        with self.beside_honest():
            for plug in [self.plug() for _ in range(100)] + [self.plug(b"GET /s/one/a.txt HT") for _ in range(100)]:
                self.assert_goes(plug)

    def test_clients_that_drip_a_head_go_in_time(self):
        self.begin()
        plug, until = self.plug(), time.monotonic() + PATIENCE
        with self.beside_honest(), contextlib.suppress(ConnectionError):
            while time.monotonic() < until:
                plug.sendall(b"G")
                time.sleep(0.05)
        self.assertLess(time.monotonic(), until)

    def test_clients_that_drip_a_body_go_in_time(self):
        self.begin()
        began = time.monotonic()
        plugs = [self.plug(b"PUT /api/v1/deploys/1/files/large HTTP/1.1\r\nContent-Length: 1048576\r\n\r\n") for _ in range(50)]
        with self.beside_honest():
            while plugs and time.monotonic() < began + PATIENCE:
                drip(plugs, b"x")
                time.sleep(0.05)
        self.assertEqual(plugs, [])
        self.assertGreater(time.monotonic() - began, 2)

    def test_clients_that_read_nothing_go_in_time(self):
        """Each has then only a part of what it asked for."""
        self.begin(second=SHORT)
        plugs = self.crowd(50, request("GET", "/s/one/large") * 8, room=4_096)
        with self.beside_honest():
            self.assert_unread_go(plugs, REPLY)
        for plug in plugs:
            came = 0
            with contextlib.suppress(ConnectionError):
                while more := len(plug.recv(1_048_576)):
                    came += more
            self.assertLess(came, 8 * len(FILES["/large"]))

    def test_a_slow_download_goes_on(self):
        self.begin(files={"/a.txt": random.Random(3).randbytes(1_000_000)})
        plug = self.plug(request("GET", FILE, "Connection: close"))
        came = b""
        while more := plug.recv(16_384):
            came += more
            time.sleep(0.07)
        self.assertEqual(came.partition(b"\r\n\r\n")[2], random.Random(3).randbytes(1_000_000))

    def test_more_clients_than_places_end_the_one_that_waited_longest(self):
        self.begin(second=WHOLE)
        plugs = [self.plug()]
        # The first is taken some time before the others.
        time.sleep(0.1)
        plugs += [self.plug() for _ in range(1_199)]
        self.assertEqual(ask(self.client(), "GET", FILE), (200, b"hello"))
        self.assertLess(seconds_until_closed(plugs[0], SOON), SOON)
        plugs[-1].sendall(request("GET", FILE, "Connection: close"))
        self.assertIn(b"hello", b"".join(iter(lambda: plugs[-1].recv(65_536), b"")))

    def test_few_descriptors_serve_all(self):
        def few():
            resource.setrlimit(resource.RLIMIT_NOFILE, (40, 40))

        self.begin(second=WHOLE, preexec_fn=few)
        plugs = [self.plug() for _ in range(60)]
        for _ in range(20):
            self.assertEqual(ask(self.client(), "GET", FILE, Connection="close"), (200, b"hello"))
        del plugs

    def test_silent_peers_go_in_time(self):
        self.begin(nodes=2)
        plugs = [self.plug(node=8 + peer) for peer in (0, 1) for _ in range(3)]
        large = random.Random(4).randbytes(500_000)
        publish(self.client(), {"/large": large})
        for node in (0, 1):
            self.assertEqual(ask(self.client(node), "GET", "/s/one/large"), (200, large))
        for plug in plugs:
            self.assert_goes(plug)
