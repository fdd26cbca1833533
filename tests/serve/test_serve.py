"""`filehost serve`: nodes and workers over real sockets.

What is expected follows from README.md, docs/HTTP.md and `serve --help`.
"""

import json
import os
import random
import signal
import socket
import subprocess
import time

from lib.client import ABC, HELLO, PATIENCE, SECONDS, request, run
from lib.many_clients import ManyClients, Shown
from lib.over_tcp import needs_curl
from lib.served import FILE, HOST, Served, ask, free_ports, publish

# How many seconds deployers and readers go on beside one another.
MANY_SECONDS = float(os.environ.get("FILEHOST_MANY_SECONDS", "4"))


class Serving(Served):
    def test_keeps_a_connection_alive(self):
        self.serve()
        client = self.client()
        self.assertEqual(publish(client, {"/a.txt": b"hello"}), 2)
        for _ in range(20):
            self.assertEqual(ask(client, "GET", FILE), (200, b"hello"))
        self.assertEqual(ask(client, "GET", FILE, Range="bytes=1-3"), (206, b"ell"))
        self.assertEqual(ask(client, "GET", FILE, Range="bytes=9-"), (416, b'{"error":"NotSatisfiable"}'))
        self.assertEqual(ask(client, "HEAD", FILE), (200, b""))
        self.assertEqual(ask(client, "GET", "/s/one/b.txt"), (404, b'{"error":"NoSuchFile"}'))
        self.assertEqual(ask(client, "POST", "/api/v1/sites/one/undo", json.dumps({"change": 2})), (200, b'{"entry":3}'))
        self.assertEqual(ask(client, "GET", FILE)[0], 404)

    @needs_curl
    def test_is_driven_by_curl(self):
        self.serve()
        publish(self.client(), {"/a.txt": b"hello"})
        url = f"http://{HOST}:{self.port}{FILE}"
        ran = subprocess.run(["curl", "--disable", "--silent", "-v", url, url, "--range", "1-3"], capture_output=True, timeout=SECONDS)
        self.assertEqual((ran.returncode, ran.stdout), (0, b"ellell"))
        self.assertIn(b"Re-using existing connection", ran.stderr)

    def test_answers_pipelined_requests_in_order(self):
        self.serve()
        publish(self.client(), {"/a.txt": b"hello", "/b.txt": b"abc"})
        asked = [request("GET", path) for path in (FILE, "/s/one/b.txt") * 25]
        plug = self.plug(b"".join([*asked, request("GET", FILE, "Connection: close")]))
        came = b"".join(iter(lambda: plug.recv(65_536), b""))
        bodies = [part.partition(b"\r\n\r\n")[2] for part in came.split(b"HTTP/1.1 200 OK\r\n")[1:]]
        self.assertEqual(bodies, [b"hello", b"abc"] * 25 + [b"hello"])

    def test_answers_a_hundred_requests_a_connection(self):
        self.serve()
        publish(self.client(), {"/a.txt": b"hello"})
        plug = self.plug(request("GET", FILE) * 101)
        came = b"".join(iter(lambda: plug.recv(65_536), b""))
        self.assertEqual(came.count(b"HTTP/1.1 200 OK"), 100)

    def test_takes_a_large_upload_and_gives_it_back(self):
        self.serve()
        large = random.Random(1).randbytes(16_777_216)
        client = self.client()
        publish(client, {"/large": large})
        self.assertEqual(ask(client, "GET", "/s/one/large"), (200, large))
        self.assertEqual(ask(client, "GET", "/s/one/large", Range="bytes=65535-131072"), (206, large[65_535:131_073]))

    def test_nodes_answer_the_same_bytes(self):
        self.serve(nodes=3)
        large = random.Random(2).randbytes(3_000_000)
        publish(self.client(0), {"/large": large, "/a.txt": b"hello world"})
        for node in (0, 1, 2, 1):
            client = self.client(node)
            self.assertEqual(ask(client, "GET", "/s/one/large"), (200, large))
            self.assertEqual(ask(client, "GET", FILE, Range="bytes=6-18446744073709551616000"), (206, b"world"))
        self.assertEqual(publish(self.client(2), {"/a.txt": b"abc"}), 4)
        self.assertEqual(ask(self.client(1), "GET", FILE), (200, b"abc"))

    def test_nodes_give_each_other_chunks_by_the_peers_protocol(self):
        self.serve(nodes=2)
        publish(self.client(), {"/a.txt": b"hello"})
        for peer in (0, 1):
            plug = self.plug(f"GET /_groupcache/chunks/{HELLO} HTTP/1.1\r\nHost: peer\r\nConnection: close\r\n\r\n".encode(), 8 + peer)
            came = b"".join(iter(lambda: plug.recv(65_536), b""))
            self.assertEqual(came, b"HTTP/1.1 200 OK\r\nContent-Length: 5\r\n\r\nhello")
            plug = self.plug(f"GET /_groupcache/chunks/{ABC} HTTP/1.1\r\nHost: peer\r\nConnection: close\r\n\r\n".encode(), 8 + peer)
            came = b"".join(iter(lambda: plug.recv(65_536), b""))
            self.assertEqual(came, b"HTTP/1.1 404 Not Found\r\nContent-Length: 0\r\n\r\n")

    def test_ends_after_the_clients_that_it_is_to_serve(self):
        started = self.serve("--conns", "2", nodes=2)
        for node in (0, 1, 1, 0):
            self.assertEqual(ask(self.client(node), "GET", "/", Connection="close")[0], 404)
        self.assertEqual((started.wait(PATIENCE), started.stderr.read()), (0, b""))

    def test_a_client_that_breaks_off_counts_as_one(self):
        started = self.serve("--conns", "3")
        self.plug().close()
        self.plug(b"GET / HT").close()
        self.plug(b"\0\0\r\n\r\n").close()
        self.assertEqual(started.wait(PATIENCE), 0)


class NotServing(Served):
    def assert_says(self, wanted, *words):
        self.assertEqual(run("serve", *words), wanted)

    def test_says_that_a_port_is_taken(self):
        store = self.folder()
        self.serve("--store", str(store))
        publish(self.client(), {"/a.txt": b"hello"})
        port, other = self.port, self.folder()
        for node in (0, 8):
            self.assert_says((2, b"", b"filehost: cannot listen\n"), "--listen", f"{HOST}:{port + node}", "--store", str(other))
        first = free_ports()
        with socket.create_server((HOST, first + 9)):
            self.assert_says((2, b"", b"filehost: cannot listen\n"), "--listen", f"{HOST}:{first}", "--nodes", "2")
        self.assert_says((2, b"", b"filehost: cannot listen\n"), "--listen", "192.0.2.1:8080")
        self.assert_says((3, b"", b"filehost: journal: Device\n"), "--listen", f"{HOST}:{port}", "--store", str(store))
        self.assertEqual(ask(self.client(), "GET", FILE), (200, b"hello"))
        self.serve("--store", str(other))
        self.assertEqual(ask(self.client(), "GET", FILE)[0], 404)

    def test_says_that_an_address_is_bad(self):
        for address in ("", "8080", "localhost:8080", "127.0.0.1", "127.0.0.1:", "127.0.0.1:0", "127.0.0.1:65521", "127.0.0.1:65536", "1.2.3:80"):
            self.assert_says((1, b"", b"filehost: bad address\n"), "--listen=" + address)

    def test_refuses_other_words(self):
        listen = ("--listen", f"{HOST}:{free_ports()}")
        for words in [
            (), ("--nodes", "1"), (*listen, "--nodes", "0"), (*listen, "--nodes", "9"), (*listen, "--nodes", "x"), (*listen, "--workers", "0"),
            (*listen, "--workers", "9"), (*listen, "--conns", "0"), (*listen, "--conns", "1000001"), (*listen, *listen), (*listen, "more"),
            (*listen, "--store"), ("--listen",),
        ]:
            status, out, err = run("serve", *words)
            self.assertEqual((status, out), (1, b""), words)
            self.assertTrue(err, words)

    def test_says_why_a_store_cannot_be_opened_before_it_listens(self):
        with socket.create_server((HOST, 0)) as taken:
            address = f"{HOST}:{min(taken.getsockname()[1], 65_520)}"
            self.assert_says((3, b"", b"filehost: journal: Device\n"), "--listen", address, "--store", "/nowhere")
            self.assert_says((3, b"", b"filehost: journal: Device\n"), "--listen", address, "--store=")
            store = self.folder()
            (store / "journal").write_bytes(b"\1no journal at all")
            self.assert_says((3, b"", b"filehost: journal: BadHeader\n"), "--listen", address, "--store", str(store))


def end_by_interrupt():
    """A process that was started in the background ignores SIGINT, and so would the program."""
    signal.signal(signal.SIGINT, signal.SIG_DFL)


class Stopped(Served):
    def test_a_stop_loses_nothing_that_was_acknowledged(self):
        store = self.folder()
        for count, how in enumerate((signal.SIGKILL, signal.SIGTERM, signal.SIGINT), 1):
            started = self.serve("--store", str(store), nodes=2, preexec_fn=end_by_interrupt)
            for before in range(1, count):
                self.assertEqual(ask(self.client(1), "GET", f"/s/site{before}/a.txt"), (200, b"%d" % before))
            publish(self.client(count % 2), {"/a.txt": b"%d" % count}, f"site{count}")
            self.assertEqual(self.end(started, how), -how)
        self.serve("--store", str(store))
        for before in (1, 2, 3):
            self.assertEqual(ask(self.client(), "GET", f"/s/site{before}/a.txt"), (200, b"%d" % before))

    def test_goes_on_after_it_was_stopped_and_continued(self):
        started = self.serve()
        client = self.client()
        publish(client, {"/large": bytes(4_000_000)})
        plug = self.plug(request("GET", "/s/one/large", "Connection: close"))
        for _ in range(5):
            started.send_signal(signal.SIGSTOP)
            time.sleep(0.02)
            started.send_signal(signal.SIGCONT)
            time.sleep(0.02)
        came = b"".join(iter(lambda: plug.recv(65_536), b""))
        self.assertEqual(came.partition(b"\r\n\r\n")[2], bytes(4_000_000))


class Many(Served):
    def test_each_reply_is_of_one_state_no_older_than_anyone_was_told(self):
        self.serve(nodes=2)
        many, shown = ManyClients(self.client), Shown()
        many.told = many.publish(self.client(), b"first")
        # Where the machine is slow they go on until they have done something, however long that takes.
        while not (len(many.looks) > 100 and len(many.entries) > 10):
            self.assertEqual(many.go(MANY_SECONDS), [])
            self.assertEqual(many.faults, [])
        shown.add([many.entries[number] for number in range(1, max(many.entries) + 1)], many.contents)
        shown.model.compare()
        self.assertIsNone(shown.fault_of(many.looks))
