"""Clients of `filehost serve` that send more than is read, and the places of a node: who gets all replies, who waits, and who goes first.

What is expected follows from docs/WIRE.md, "When a connection ends" and "Deadlines and places".
"""

import contextlib
import socket
import time

from lib.client import LARGEST_FILE, PATIENCE, REQUESTS, closing, refused, request, sent
from lib.crowds import CLOSING, GRACE, WHOLE, Crowds
from lib.served import FILE, HOST, seconds_until_closed

GET = request("GET", FILE)
# One that is longer than it need be: of 150 of them some aren't read when the hundredth was answered.
LONG_GET = request("GET", FILE, f"X-Padding: {'x' * 300}")
HELLO = sent(b"hello")
HUNDRED = HELLO * (REQUESTS - 1) + closing(HELLO)
TOO_LARGE = closing(refused("BodyTooLarge"))
# The most connections of a node.
PLACES = 1_024
# Sooner than an idle connection goes.
SOON = 10


def too_large_head():
    return f"PUT /api/v1/deploys/1/files/large HTTP/1.1\r\nContent-Length: {LARGEST_FILE + 1}\r\n\r\n".encode()


class Ends(Crowds):
    """Clients that send on after the last request that is answered."""

    def assert_all(self, plug, wanted):
        """These bytes come over a bare connection, and then its end. A reset would be an error of the client's socket."""
        self.assertEqual(self.received(plug, len(wanted) + 1), wanted)

    def test_a_hundred_replies_come_to_more_requests(self):
        self.begin(second=WHOLE)
        for get in (GET, LONG_GET):
            for _ in range(10):
                self.assert_all(self.plug(get * 150), HUNDRED)

    def test_a_hundred_replies_come_while_more_requests_do(self):
        self.begin(second=WHOLE)
        plug = self.plug(GET * REQUESTS)
        self.assert_receives(plug, HUNDRED[:1_000])
        for _ in range(50):
            plug.sendall(GET)
            time.sleep(0.002)
        self.assert_all(plug, HUNDRED[1_000:])

    def test_a_body_that_is_too_large_is_answered(self):
        self.begin(second=WHOLE)
        for _ in range(3):
            self.assert_all(self.plug(too_large_head() + bytes(LARGEST_FILE + 1)), TOO_LARGE)

    def test_a_body_behind_a_bad_head_is_answered(self):
        self.begin(second=WHOLE)
        self.assert_all(self.plug(b"PUT / HTTP/1.1\r\nContent-Length: x\r\n\r\n" + bytes(1_048_576)), closing(refused("LengthBad")))

    def test_what_is_answered_is_closed_once_its_client_has_closed(self):
        """Long before the deadline, and before a client that stays open."""
        self.begin(second=WHOLE)
        plugs = [self.plug(too_large_head() + bytes(100_000)) for _ in range(2)]
        for plug in plugs:
            self.assert_all(plug, TOO_LARGE)
        self.assertEqual(self.sockets(), 2)
        plugs[0].close()
        self.assert_in_time(lambda: self.sockets() == 1, GRACE)
        time.sleep(0.5)
        self.assertEqual(self.sockets(), 1)

    def test_a_connection_that_its_client_asked_to_end_is_closed_at_once(self):
        """No close in stages: its client stays open, and the program's socket goes long before the deadline."""
        self.begin(second=WHOLE)
        for asked in (request("GET", FILE, "Connection: close"), b"GET /s/one/a.txt HTTP/1.0\r\n\r\n"):
            plug = self.plug(asked)
            self.assert_all(plug, closing(HELLO))
            self.assert_in_time(lambda: self.sockets() == 0, GRACE)

    def test_a_client_that_sends_on_and_on_is_cut_in_time(self):
        self.begin(second=100)
        with self.beside_honest():
            mark, began = self.stalls.mark(), time.monotonic()
            plug = self.plug(too_large_head())
            self.assert_receives(plug, TOO_LARGE)
            with contextlib.suppress(ConnectionError):
                while time.monotonic() < began + PATIENCE:
                    plug.sendall(bytes(65_536))
            lasted = time.monotonic() - began
        self.assertLess(lasted, self.seconds(CLOSING) + GRACE + self.stalls.since(mark))
        self.assertGreater(lasted, self.seconds(CLOSING) * 0.8)

    def test_a_client_that_stays_open_is_cut_in_time(self):
        self.begin(second=100)
        with self.beside_honest():
            self.assert_unread_go(self.crowd(200, LONG_GET * 150), CLOSING)
        self.assert_alone()


class Places(Crowds):
    """More clients than a node has places for."""

    def connect_at_once(self, count):
        """Connections that are asked for in a row, and not waited for."""
        plugs = []
        for _ in range(count):
            plug = socket.socket()
            self.addCleanup(plug.close)
            plug.setblocking(False)
            plug.connect_ex((HOST, self.port))
            plugs.append(plug)
        return plugs

    def crowd_after_one(self, count, given=b""):
        """So many connections, of which the first was taken, and answered if it asked, some time before the others."""
        first = self.crowd(1, given)
        if given:
            self.assert_receives(first[0], HELLO)
        time.sleep(0.1)
        return first + self.crowd(count - 1, given)

    def test_a_burst_of_connections_lets_nobody_wait(self):
        self.begin(second=WHOLE)
        with self.beside_honest():
            for _ in range(4):
                plugs = self.connect_at_once(1_000)
                time.sleep(0.3)
                for plug in plugs:
                    plug.close()
                time.sleep(0.2)

    def test_a_client_that_was_answered_outlasts_silent_ones(self):
        self.begin(second=WHOLE)
        kept = self.plug(GET)
        self.assert_receives(kept, HELLO)
        first = self.crowd_after_one(PLACES + 200)[0]
        self.assertLess(seconds_until_closed(first, SOON), SOON)
        kept.sendall(GET)
        self.assert_receives(kept, HELLO)

    def test_of_those_that_were_answered_the_one_that_waited_longest_goes(self):
        self.begin(second=WHOLE)
        plugs = self.crowd_after_one(PLACES, GET)
        for plug in plugs[1:]:
            self.assert_receives(plug, HELLO)
        late = self.plug(GET)
        self.assert_receives(late, HELLO)
        self.assertLess(seconds_until_closed(plugs[0], SOON), SOON)
        plugs[-1].sendall(GET)
        self.assert_receives(plugs[-1], HELLO)

    def test_a_connection_that_closes_goes_before_a_silent_one(self):
        self.begin(second=WHOLE)
        silent = self.crowd(1)[0]
        time.sleep(0.1)
        open_still = self.plug(GET * 101)
        self.assert_receives(open_still, HUNDRED)
        # The worker that sent this lets go of the connection.
        time.sleep(0.1)
        self.crowd(PLACES - 1)
        self.assert_silent(silent)
        silent.sendall(GET)
        self.assert_receives(silent, HELLO)
