"""Deadlines of `filehost serve` over several requests of one connection, and while a thread that may wait has a request.

What is expected follows from docs/WIRE.md, "Deadlines and places" and "Threads". A second of the deadlines is shorter here.
"""

import time

from lib.client import digest_of, refused, request, sent
from lib.crowds import HEAD, IDLE, SHORT, TRANSFER, Crowds
from lib.held_file import HeldFile
from lib.ring import PEERS, answer_with, asking_for
from lib.rows import OTHER
from lib.served import FILE
from lib.stores import opening_of, write_store

HELLO = sent(b"hello")
NO_DEPLOY = refused("NoSuchDeploy")
# A second of the deadlines, in milliseconds, and where a test has many of them.
SECOND, SHORTER = 50, 30
# How many connections are of a kind.
EACH = 5
# How many bytes of a body have to move in its time, and some more.
ENOUGH = 62_000
UPLOAD = request("PUT", "/api/v1/deploys/9/files/a", body=bytes(3 * ENOUGH))


class Times(Crowds):
    def exchange(self, plugs, asked=request("GET", FILE), wanted=HELLO):
        """Each of these connections asks, and is answered. Its time counts from then."""
        for plug in plugs:
            plug.began = time.monotonic()
            plug.sendall(asked)
        for plug in plugs:
            self.assert_receives(plug, wanted)
            plug.came = time.monotonic()

    def send(self, plugs, piece):
        """Sends these bytes over each connection. Its time counts from then."""
        for plug in plugs:
            plug.began = time.monotonic()
            plug.sendall(piece)
            plug.came = time.monotonic()

    def wait(self, seconds):
        time.sleep(self.seconds(seconds))

    def keep(self):
        """Connections to clients and to other nodes that ask three times, within 24 seconds."""
        clients, nodes = self.crowd(2 * EACH), self.crowd(2 * EACH, node=PEERS)
        for pause in (0, 12, 12):
            self.wait(pause)
            self.exchange(clients)
            self.exchange(nodes, asking_for(b"hello"), answer_with(b"hello"))
        self.assert_go(clients + nodes, IDLE)

    def test_a_kept_connection_has_its_time_from_each_reply_on(self):
        self.begin(second=SECOND)
        self.in_time(self.keep)
        self.assert_alone()

    def begin_heads(self):
        """Connections that begin a head when they were idle for longer than a head may take: the first time or the second."""
        kept = self.crowd(EACH)
        self.exchange(kept)
        plugs = kept + self.crowd(EACH)
        self.wait(12)
        self.send(plugs, b"GET /s")
        self.assert_go(plugs, HEAD)

    def test_a_head_has_its_time_from_its_first_byte_on(self):
        self.begin(second=SECOND)
        self.in_time(self.begin_heads)
        self.assert_alone()

    def send_bodies(self):
        """Bodies that take longer than a part of one may, two over a connection. Others move as much twice, and then nothing."""
        whole, others = self.crowd(EACH), self.crowd(EACH)
        half = len(UPLOAD) - 2 * ENOUGH
        self.send(whole + others, UPLOAD[:half])
        self.wait(40)
        self.send(whole + others, UPLOAD[half:half + ENOUGH])
        self.wait(40)
        self.exchange(whole, UPLOAD[half + ENOUGH:], NO_DEPLOY)
        self.send(whole, UPLOAD[:half])
        self.assert_go(others, TRANSFER)
        self.exchange(whole, UPLOAD[half:], NO_DEPLOY)

    def test_each_part_of_a_body_has_its_time(self):
        self.begin(second=SHORTER)
        self.in_time(self.send_bodies)

    def hold_requests(self):
        """Requests that wait for a load, or for a thread that does, for longer than a head, a body or a quiet time may last."""
        content, folder = bytes(60_000), self.folder().resolve() / "store"
        write_store(folder, [opening_of({"/file": content}, "cold"), ("publish", "cold", 1)], content)
        held = HeldFile(self.folder(), folder / f"c-{digest_of(content)}")
        # The program reads each piece once as it opens the store.
        held.open()
        self.begin("--store", str(folder), "--workers", "2", second=SHORT, environment=held.environment)
        held.close()
        plugs, uploads = self.crowd(EACH, request("GET", "/s/cold/file")), self.crowd(EACH)
        held.wait("opened", "held")
        self.send(uploads, UPLOAD)
        self.wait(1.5 * TRANSFER)
        opened = time.monotonic()
        held.open()
        for plug, wanted in [(plug, sent(content, kind=OTHER)) for plug in plugs] + [(plug, NO_DEPLOY) for plug in uploads]:
            self.assert_receives(plug, wanted)
            plug.began, plug.came = opened, time.monotonic()
        self.assert_go(plugs + uploads, IDLE)
        self.assert_alone()

    def test_no_time_runs_while_a_thread_has_the_request(self):
        self.in_time(self.hold_requests)
