"""Crowds at a port of `filehost serve`, each of another kind, while an honest client asks all the time: it is answered at once, and the crowd goes in time.

What is expected follows from docs/WIRE.md, "Deadlines and places". A second of the deadlines is shorter here.
"""

import itertools
import json
import random
import resource
import signal
import socket
import subprocess
import time

from lib.client import LARGEST_FILE, PATIENCE, REQUESTS, SECONDS, closing, digest_of, opening, request, sent
from lib.crowds import FILES, GRACE, HEAD, IDLE, OF_AN_HONEST_ONE, REPLY, SHORT, TRANSFER, WHOLE, Crowds, drip, for_seconds, reset
from lib.over_tcp import needs_curl
from lib.rows import OTHER
from lib.served import FILE, HOST, ask

LARGE = "/s/one/large"
HUGE = random.Random(1).randbytes(LARGEST_FILE)
# The most connections of a node.
PLACES = 1_024
# How many descriptors the program has in one test, and how many of them a node with one port for clients keeps for other things.
DESCRIPTORS, KEPT = 64, 32


def upload_head(length):
    return f"PUT /api/v1/deploys/1/files/large HTTP/1.1\r\nContent-Length: {length}\r\n\r\n".encode()


class Slow(Crowds):
    """200 of each kind."""

    def test_that_say_nothing(self):
        self.begin()
        with self.beside_honest():
            self.assert_go(self.crowd(200), IDLE)
        self.assert_alone()

    def test_that_say_a_part_of_a_head(self):
        self.begin()
        with self.beside_honest():
            self.assert_go(self.crowd(200, b"GET /s/one/a.txt HT"), HEAD)
        self.assert_alone()

    def test_that_drip_a_head(self):
        self.begin()
        with self.beside_honest():
            plugs = self.crowd(200, b"GET /")
            self.assert_go(list(plugs), HEAD, lambda: drip(plugs, b"a"))
        self.assert_alone()

    def test_that_drip_a_body(self):
        self.begin()
        with self.beside_honest():
            plugs = self.crowd(200, upload_head(1_048_576))
            self.assert_go(list(plugs), TRANSFER, lambda: drip(plugs, b"a"))
        self.assert_alone()

    def test_that_read_nothing(self):
        self.begin(second=SHORT)
        with self.beside_honest():
            self.assert_unread_go(self.crowd(200, request("GET", LARGE), room=4_096), REPLY)
        self.assert_alone()


class Many(Crowds):
    """More than there is room for: as others come, those that waited longest go, and an honest client isn't one of them."""

    def assert_first_go(self, plugs, places, turn):
        """Some go before they are late, since others come, but only so many that these places are taken. They are of the first: the last three quarters of so
        many as have places stay. (Of those that came in the same millisecond any may go first.)"""
        self.assertLessEqual(self.assert_go(plugs, IDLE, turn, early=len(plugs) - places * 3 // 4), len(plugs) - places)

    def test_2000_that_say_nothing(self):
        self.begin(second=200)
        with self.beside_honest():
            plugs = self.crowd(2_000, pause=0.0005)
            self.assert_first_go(plugs, PLACES - OF_AN_HONEST_ONE, lambda: self.assertLessEqual(self.sockets(), PLACES + OF_AN_HONEST_ONE))
        self.assert_alone()

    def test_where_few_descriptors_are_left(self):
        self.begin(second=200, preexec_fn=lambda: resource.setrlimit(resource.RLIMIT_NOFILE, (DESCRIPTORS, DESCRIPTORS)))
        plugs = self.crowd(200)
        with self.beside_honest():
            plugs += self.crowd(200, pause=0.01)
            places = DESCRIPTORS - KEPT
            self.assert_first_go(plugs, places - OF_AN_HONEST_ONE, lambda: self.assertLessEqual(self.sockets(), places + OF_AN_HONEST_ONE))
        self.assert_alone()


class Busy(Crowds):
    """16 that take as much as they get."""

    def test_that_send_a_hundred_requests_at_once(self):
        self.begin(second=WHOLE)
        asked = request("GET", FILE) * REQUESTS
        wanted = sent(b"hello") * (REQUESTS - 1) + closing(sent(b"hello"))

        def pipeline():
            with socket.create_connection((HOST, self.port), timeout=PATIENCE) as plug:
                plug.sendall(asked)
                self.assertEqual(self.received(plug, len(wanted) + 1), wanted)

        with self.beside_honest():
            self.at_once(16, pipeline, 2, for_seconds(2))
        self.assert_alone()

    def test_that_download_as_fast_as_they_can(self):
        self.begin(files={"/a.txt": b"hello", "/large": HUGE}, second=WHOLE)
        wanted = closing(sent(HUGE, kind=OTHER))

        def download():
            room, count = bytearray(len(wanted) + 1), 0
            with socket.create_connection((HOST, self.port), timeout=PATIENCE) as plug:
                plug.sendall(request("GET", LARGE, "Connection: close"))
                while more := plug.recv_into(memoryview(room)[count:]):
                    count += more
            self.assertEqual(count, len(wanted))
            self.assertTrue(room.startswith(wanted))

        with self.beside_honest():
            self.at_once(16, download, 1, for_seconds(2))
        self.assert_alone()


class Uploads(Crowds):
    def test_eight_slow_ones_beside_small_ones(self):
        """Each sends 2 KiB a second: that is twice as much as is enough, so it may go on as long as it takes."""
        self.begin()
        client = self.client()
        client.request("POST", "/api/v1/sites/one/deploys", opening({"/large": digest_of(HUGE)}, draft=True).partition(b"\r\n\r\n")[2])
        deploy = json.loads(client.getresponse().read())["id"]
        client.close()
        with self.beside_honest(kind="uploads"):
            plugs = self.crowd(8, upload_head(LARGEST_FILE).replace(b"deploys/1", f"deploys/{deploy}".encode()))
            self.drip_for(plugs, 1.2 * self.seconds(TRANSFER))
            self.assertEqual(len(plugs), 8)
            self.assertGreaterEqual(self.sockets(), 8)
            for plug in plugs:
                plug.close()
            self.assert_in_time(lambda: self.sockets() <= OF_AN_HONEST_ONE, GRACE)
        self.assert_alone()
        status, told = ask(self.client(), "GET", f"/api/v1/deploys/{deploy}")
        self.assertEqual((status, digest_of(HUGE).encode() in told), (200, True))

    def drip_for(self, plugs, seconds):
        """Sends as much as is due over each connection, now and then. What it is late with, if the machine held it up, it sends then."""
        began, gone_out = time.monotonic(), 0
        while (passed := time.monotonic() - began) < seconds:
            due = int(passed / self.seconds(1) * 2_048)
            drip(plugs, bytes(due - gone_out))
            gone_out = due
            time.sleep(self.seconds(1))


class Ends(Crowds):
    def test_that_reset_their_connections(self):
        """At each stage: before the first byte, in a head, in a body, and in a reply that they don't read."""
        self.begin(second=WHOLE)
        stages = itertools.cycle(itertools.product([
            (b"", 0), (b"GET /s/one/a.txt HT", 0), (upload_head(1_048_576) + bytes(1_000), 0), (request("GET", FILE), 0), (request("GET", LARGE) * 4, 0),
            (request("GET", FILE), 1), (request("GET", LARGE) * 4, 100_000),
        ], (0, 0.002)))

        def break_off():
            (asked, read), pause = next(stages)
            plug = socket.create_connection((HOST, self.port), timeout=PATIENCE)
            plug.sendall(asked)
            self.assertEqual(len(self.received(plug, read)), read)
            time.sleep(pause)
            reset(plug)

        with self.beside_honest():
            self.at_once(8, break_off, 21, for_seconds(1.5))
        self.assert_alone()

    def test_that_end_their_side(self):
        """What was asked is answered whole; of what isn't whole nothing is, and the connection ends."""
        self.begin(second=WHOLE)
        large = sent(FILES["/large"], kind=OTHER)
        cases = itertools.cycle([
            (request("GET", FILE) * 5, sent(b"hello") * 5), (request("GET", LARGE) * 2, large * 2), (b"GET /s/one/a.txt HT", b""), (b"", b""),
            (upload_head(1_048_576) + bytes(1_000), b""), (request("GET", FILE) + b"G", sent(b"hello")),
        ])

        def end_side():
            asked, wanted = next(cases)
            with socket.create_connection((HOST, self.port), timeout=PATIENCE) as plug:
                plug.sendall(asked)
                plug.shutdown(socket.SHUT_WR)
                self.assertEqual(self.received(plug, len(wanted) + 1), wanted)

        with self.beside_honest():
            self.at_once(8, end_side, 6, for_seconds(1.5))
        self.assert_alone()

    def test_that_end_their_side_and_read_nothing(self):
        self.begin(second=SHORT)
        with self.beside_honest():
            plugs = self.crowd(50, request("GET", LARGE) * 8, room=4_096)
            for plug in plugs:
                plug.shutdown(socket.SHUT_WR)
            self.assert_unread_go(plugs, REPLY)
        self.assert_alone()


class Stops(Crowds):
    def stop_for(self, seconds):
        """Stops the program for a while, and answers how long that was in the end."""
        began = time.monotonic()
        self.started.send_signal(signal.SIGSTOP)
        time.sleep(seconds)
        self.started.send_signal(signal.SIGCONT)
        return time.monotonic() - began

    def test_of_the_program(self):
        """It is stopped and continued, while clients download and ask: none is refused."""
        self.begin(files={"/a.txt": b"hello", "/large": HUGE}, second=WHOLE)
        wanted = closing(sent(HUGE, kind=OTHER))
        with self.beside_honest():
            plugs = self.crowd(4, request("GET", LARGE, "Connection: close"))
            for _ in range(6):
                # An honest client may wait through all of the stops, where the program gets no processor between them.
                self.longest += self.stop_for(0.15)
                time.sleep(0.05)
            for plug in plugs:
                self.assertEqual(digest_of(self.received(plug, len(wanted) + 1)), digest_of(wanted))
        self.assert_alone()

    @needs_curl
    def test_of_clients(self):
        """Clients that are stopped in their downloads go in time, and then find that their downloads were cut."""
        self.begin(files={"/a.txt": b"hello", "/large": HUGE}, second=SHORT)
        clients, folder = [], self.folder()
        with self.beside_honest():
            for number in range(8):
                file = folder / str(number)
                # It is so slow that it has read little once it is stopped: what it hasn't read has to be more than there is room for in sockets.
                words = ["--limit-rate", "2M", "--output", file, f"http://{HOST}:{self.port}{LARGE}"]
                clients.append(subprocess.Popen(["curl", "--disable", "--silent", "--noproxy", "*", *words]))
                self.addCleanup(clients[-1].kill)
                until = time.monotonic() + PATIENCE
                while not file.exists() or file.stat().st_size == 0:
                    self.assertLess(time.monotonic(), until)
                    self.assertIsNone(clients[-1].poll())
                    time.sleep(0.002)
                clients[-1].send_signal(signal.SIGSTOP)
            self.assert_in_time(lambda: self.sockets() <= OF_AN_HONEST_ONE, self.seconds(REPLY) + GRACE)
        self.assert_alone()
        for client in clients:
            client.send_signal(signal.SIGCONT)
        for client in clients:
            self.assertIn(client.wait(SECONDS), (18, 56))
