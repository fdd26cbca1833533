"""The client of bench/serve that discards (bench/discard.c): it counts right over a server with known replies, and any other reply ends it."""

import collections
import contextlib
import pathlib
import socket
import subprocess
import sys
import tempfile
import threading
import time
import unittest

from lib.repository import TOP

sys.path.insert(0, str(TOP / "bench"))

from discarding import SAID, ask_all, build, request_for  # noqa: E402
from servers import Failure  # noqa: E402


def reply(body, *fields, status="200 OK"):
    return "\r\n".join([f"HTTP/1.1 {status}", f"content-length: {len(body)}", *fields, "", ""]).encode() + body


class KnownServer:
    """A server that answers each request with the parts of a known reply, each part a send of its own. It counts what it was asked, how many bytes its bodies
    had, and its connections. A reply that says so ends its connection."""

    def __init__(self, parts_of):
        self.parts_of, self.lock = parts_of, threading.Lock()
        self.asked, self.bodies, self.connections = collections.Counter(), 0, 0
        self.listener = socket.create_server(("127.0.0.1", 0))
        self.port = self.listener.getsockname()[1]
        threading.Thread(target=self.accept, daemon=True).start()

    def close(self):
        # A shutdown ends the wait of `accept`, too.
        self.listener.shutdown(socket.SHUT_RDWR)
        self.listener.close()

    def accept(self):
        while True:
            try:
                connection = self.listener.accept()[0]
            except OSError:
                return
            with self.lock:
                self.connections += 1
            threading.Thread(target=self.serve, args=(connection,), daemon=True).start()

    def serve(self, connection):
        connection.setsockopt(socket.IPPROTO_TCP, socket.TCP_NODELAY, 1)
        # A client that ends at a reply resets its connection.
        with connection, connection.makefile("rb") as given, contextlib.suppress(ConnectionError):
            while line := given.readline():
                while given.readline() != b"\r\n":
                    pass
                target = line.split()[1].decode()
                parts = self.parts_of(target)
                whole = b"".join(parts)
                with self.lock:
                    self.asked[target] += 1
                    self.bodies += len(whole.partition(b"\r\n\r\n")[2])
                for part in parts:
                    connection.sendall(part)
                if b"\r\nConnection: close\r\n" in whole:
                    return


class Discarding(unittest.TestCase):
    @classmethod
    def setUpClass(cls):
        cls.room = tempfile.TemporaryDirectory(prefix="filehost-test-")
        cls.addClassCleanup(cls.room.cleanup)
        cls.client = build(pathlib.Path(cls.room.name))

    def load(self, parts_of, targets=("/a",), connections=4, seconds=0.3):
        """What the client counts over a server with these replies, and the server."""
        server = KnownServer(parts_of)
        self.addCleanup(server.close)
        return ask_all(self.client, server.port, [request_for(target) for target in targets], connections, seconds), server

    def test_counts_replies_their_bodies_and_connections(self):
        """Bodies of each size: none, one that comes with its head, and one that comes in parts."""
        replies = {"/none": [reply(b"")], "/small": [reply(bytes(4_096))], "/large": [reply(bytes(300_000))]}
        told, server = self.load(replies.get, [*replies], 5)
        self.assertEqual((told.replies, told.bodies, told.connections), (server.asked.total(), server.bodies, 5))
        self.assertEqual(server.connections, 5)
        self.assertEqual({*server.asked}, {*replies})
        # Two threads ask in turn.
        self.assertLessEqual(max(server.asked.values()) - min(server.asked.values()), 2)

    def test_reads_a_reply_however_it_comes(self):
        """The head byte by byte, its end with some of the body, and the rest after a while."""
        whole = reply(bytes(20_000), status="206 Partial Content")
        cut = whole.index(b"\r\n\r\n") + 2
        told, server = self.load(lambda _: [*(whole[at:at + 1] for at in range(cut)), whole[cut:cut + 50], whole[cut + 50:]])
        self.assertEqual((told.replies, told.bodies), (server.asked.total(), 20_000 * told.replies))
        self.assertGreater(told.replies, 0)

    def test_makes_a_connection_anew_where_a_reply_is_the_last(self):
        told, server = self.load(lambda _: [reply(b"abc", "Connection: close")], connections=3)
        self.assertEqual((told.replies, told.connections), (server.asked.total(), server.connections))
        self.assertEqual(told.connections, told.replies)

    def test_tells_how_long_replies_take(self):
        """One request of ten takes longer, so half are quick and of a hundred more than one is late."""
        def parts_of(target):
            time.sleep(0.1 if target == "/late" else 0.005)
            return [reply(b"abc")]

        told, _ = self.load(parts_of, ["/late", *["/a"] * 9], connections=1, seconds=0.6)
        self.assertTrue(0.005 <= told.half < 0.1 <= told.late, told)

    def test_awaits_what_is_under_way_at_the_end_and_asks_for_no_more(self):
        def parts_of(_):
            time.sleep(0.5)
            return [reply(b"abc")]

        told, server = self.load(parts_of, connections=2, seconds=0.9)
        self.assertEqual((told.replies, server.asked.total()), (4, 4))
        self.assertGreaterEqual(told.seconds, 1)

    def test_ends_at_another_reply(self):
        cases = {
            "a reply that begins with HTTP/1.1 404": [reply(b"abc", status="404 Not Found")],
            "a reply without a length": [b"HTTP/1.1 200 OK\r\n\r\nabc"],
            "a reply that goes on after its 3 bytes": [reply(b"abc") + b"d"],
            "a reply that ends early: its connection has ended": [reply(b"abc", "Connection: close")[:-1]],
            "a head of more than 8192 bytes": [reply(b"abc", "A: " + "a" * 10_000)],
        }
        for why, parts in cases.items():
            with self.subTest(why), self.assertRaisesRegex(Failure, f"discard: {why}$"):
                self.load(lambda _, parts=parts: parts, connections=1)

    def test_takes_no_other_words(self):
        for words in ((), ("80", "0", "1", "1"), ("80", "2", "1", "1"), ("80", "1", "1", "0"), ("80", "1", "1", "a")):
            ran = subprocess.run([self.client, *words], input=request_for("/a"), capture_output=True, timeout=10)
            with self.subTest(words):
                self.assertEqual((ran.returncode, ran.stdout, SAID.search(ran.stderr.decode())), (1, b"", None))
                self.assertRegex(ran.stderr.decode(), r"^discard: it takes [^\n]+\n$")
