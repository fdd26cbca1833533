"""Small replies that a worker of `filehost serve` keeps, and sends again to the same head.

Each request is made more often than once, so that its reply may be one that is kept: whatever a worker keeps, no reply differs from what it would have been
without that.
"""

import itertools
import json
import pathlib
import random
import threading
import time

from lib.client import LARGEST_FILE, PATIENCE, closing, digest_of, refused, request, sent, to_head
from lib.served import FILE, Served, ask, publish
from lib.stores import opening_of, write_store

OLD, NEW = b"hello", b"hello again"
# How often a request is made, and over how many connections at once, so that each worker has had it more often than once.
TIMES, PLUGS = 12, 4
# How many seconds readers go on beside a deployer, how many there are at each node, and how long one goes on over a connection.
SECONDS, READERS, READS = 4, 3, 90
# How large the largest reply is that is kept, how many heads ask for such a file, and how many MiB a node may take for all of them.
LARGEST, HEADS, ROOM = 8_192, 6_000, 8
# What else the program may take meanwhile.
BESIDE = 4
# How many of the largest files have more bytes together than a node's cache.
MANY = 5
UNDO = "/api/v1/sites/one/undo"


class Kept(Served):
    def begin(self, *words, nodes=1, files=None):
        self.started = self.serve("--workers", "2", *words, nodes=nodes)
        self.last = publish(self.client(), files or {"/a.txt": OLD, "/b.txt": b"abc"})

    def exchange(self, plug, asked, wanted):
        plug.sendall(asked)
        self.assert_receives(plug, wanted)

    def warm(self, *asked, wanted):
        """Asks so often, over connections to each worker, that each has had the request."""
        plugs = [self.plug() for _ in range(PLUGS)]
        for plug in plugs * TIMES:
            self.exchange(plug, b"".join(asked), wanted)
        for plug in plugs:
            plug.close()


class Heads(Kept):
    def test_a_head_has_the_reply_to_its_own_method(self):
        self.begin()
        get, head = (request(method, FILE) for method in ("GET", "HEAD"))
        for asked, wanted in ((get, sent(OLD)), (head, to_head(sent(OLD)))):
            self.warm(asked, wanted=wanted)
        plug = self.plug()
        for _ in range(TIMES):
            self.exchange(plug, get, sent(OLD))
            self.exchange(plug, head, to_head(sent(OLD)))

    def test_a_range_is_its_own_request(self):
        self.begin()
        part, whole = request("GET", FILE, "Range: bytes=1-3"), request("GET", FILE)
        wanted = sent(b"ell", "Content-Range: bytes 1-3/5", whole=OLD)
        plug = self.plug()
        for _ in range(TIMES):
            self.exchange(plug, whole, sent(OLD))
            self.exchange(plug, part, wanted)

    def test_other_fields_make_another_head(self):
        self.begin()
        plug = self.plug()
        for number in itertools.chain(range(TIMES), range(TIMES)):
            self.exchange(plug, request("GET", FILE, f"X-Number: {number}"), sent(OLD))
            self.exchange(plug, request("GET", "/s/one/b.txt", f"X-Number: {number}"), sent(b"abc"))

    def test_requests_with_a_body_are_read_whole(self):
        self.begin()
        plug = self.plug()
        for _ in range(TIMES):
            self.exchange(plug, request("GET", FILE, body=b"GET /s/one/b.txt HTTP/1.1\r\n\r\n"), sent(OLD))
            self.exchange(plug, request("GET", FILE, body=b""), sent(OLD))

    def test_a_client_that_waits_for_an_interim_reply_gets_it_each_time(self):
        self.begin()
        plug = self.plug()
        for _ in range(TIMES):
            self.exchange(plug, request("GET", FILE, "Expect: 100-continue", body=b""), b"HTTP/1.1 100 Continue\r\n\r\n" + sent(OLD))

    def test_empty_lines_before_a_head_change_nothing(self):
        self.begin()
        self.warm(b"\r\n\r\n", request("GET", FILE), wanted=sent(OLD))
        self.warm(request("GET", FILE), wanted=sent(OLD))

    def test_heads_that_come_in_pieces_and_together(self):
        self.begin()
        asked = request("GET", FILE)
        self.warm(asked, wanted=sent(OLD))
        plug = self.plug()
        for end in range(1, len(asked)):
            plug.sendall(asked[:end])
            time.sleep(0.001)
            self.exchange(plug, asked[end:], sent(OLD))
        other = request("GET", "/s/one/b.txt")
        plug = self.plug()
        self.exchange(plug, (asked + other) * 40, (sent(OLD) + sent(b"abc")) * 40)


class Ends(Kept):
    def test_the_hundredth_reply_ends_the_connection(self):
        self.begin()
        asked = request("GET", FILE)
        for _ in range(3):
            plug = self.plug(asked * 101)
            came = b"".join(iter(lambda: plug.recv(65_536), b""))
            self.assertEqual(came, sent(OLD) * 99 + closing(sent(OLD)))
        plug = self.plug()
        for number in range(1, 101):
            self.exchange(plug, asked, sent(OLD) if number < 100 else closing(sent(OLD)))
        self.assertEqual(plug.recv(1), b"")

    def test_a_connection_ends_whose_client_asks_for_it(self):
        self.begin()
        self.warm(request("GET", FILE), wanted=sent(OLD))
        for asked in (closing(request("GET", FILE)), request("GET", FILE).replace(b"HTTP/1.1", b"HTTP/1.0")):
            for _ in range(TIMES):
                plug = self.plug(asked)
                self.assertEqual(b"".join(iter(lambda: plug.recv(65_536), b"")), closing(sent(OLD)))
        self.warm(request("GET", FILE), wanted=sent(OLD))

    def test_what_cannot_be_read_is_told_after_a_reply_that_is_kept(self):
        self.begin()
        asked = request("GET", FILE)
        self.warm(asked, wanted=sent(OLD))
        plug = self.plug(asked + b"no head\r\n\r\n")
        self.assertEqual(b"".join(iter(lambda: plug.recv(65_536), b"")), sent(OLD) + closing(refused("BadHead")))


class Changes(Kept):
    def test_each_change_is_seen_at_once(self):
        """By connections to both nodes that were there before, also where the file wasn't there before, or isn't any more."""
        self.begin(nodes=2)
        asked, client = request("GET", "/s/one/new.txt"), self.client()
        plugs = [self.plug(node=node) for node in (0, 0, 1, 1)]

        def assert_shown(wanted):
            for plug in plugs * 2:
                self.exchange(plug, asked, wanted)

        for turn in range(TIMES):
            content = b"turn %d" % turn
            published = publish(client, {"/a.txt": OLD, "/new.txt": content})
            assert_shown(sent(content))
            self.assertEqual(ask(client, "POST", UNDO, json.dumps({"change": published}))[0], 200)
            assert_shown(refused("NoSuchFile"))

    def test_no_reader_sees_an_older_reply_after_a_newer_one(self):
        """What a reader sees of one file over one connection is what the file had, one content after another, with some left out. A change that its connection
        was told of is seen."""
        self.begin(nodes=2, files={"/a.txt": b"0"})
        # What the file had, one after another: each is added before it may be seen.
        had, ended, faults = [b"0"], threading.Event(), []

        def read(node):
            while not ended.is_set():
                client, at = self.client(node), 0
                for _ in range(READS):
                    status, content = ask(client, "GET", FILE)
                    seen = had[:]
                    while at < len(seen) and seen[at] != content:
                        at += 1
                    if status != 200 or at == len(seen):
                        faults.append((node, status, content, seen[-3:]))
                        ended.set()
                    if ended.is_set():
                        break
                client.close()

        def deploy(node):
            client, until, number = self.client(node), time.monotonic() + SECONDS, 0
            while time.monotonic() < until and not ended.is_set():
                number += 1
                before, content = had[-1], b"%d" % number
                had.append(content)
                published = publish(client, {"/a.txt": content})
                told, wanted = [ask(client, "GET", FILE) for _ in range(3)], [(200, content)] * 3
                if number % 3 == 0:
                    had.append(before)
                    told.append(ask(client, "POST", UNDO, json.dumps({"change": published}))[:1])
                    told.append(ask(client, "GET", FILE))
                    wanted += [(200,), (200, before)]
                if told != wanted:
                    faults.append((node, told, wanted))
                    ended.set()
                if number % 20 == 0:
                    client.close()
            ended.set()

        threads = [threading.Thread(target=read, args=(node,)) for node in (0, 1) for _ in range(READERS)] + [threading.Thread(target=deploy, args=(0,))]
        for thread in threads:
            thread.start()
        for thread in threads:
            thread.join(PATIENCE + SECONDS)
        self.assertEqual(faults, [])
        self.assertGreater(len(had), 10)


class Stores(Kept):
    def test_what_is_kept_goes_out_until_the_next_entry_though_its_piece_is_lost(self):
        """The piece is in the store no more, and in the cache no more. A request with another head is refused."""
        folder, drawn = self.folder() / "store", random.Random(1)
        large = {f"/{number}": drawn.randbytes(LARGEST_FILE) for number in range(MANY)}
        contents = {"/a.txt": OLD} | large
        write_store(folder, [opening_of(contents), ("publish", "one", 1)], *contents.values())
        self.serve("--store", str(folder), "--workers", "1")
        asked, other, missing = request("GET", FILE), request("GET", FILE, "X-Other: 1"), refused("Missing")
        self.warm(asked, wanted=sent(OLD))
        # The thread that finds the piece missing may answer what comes next over its connection, and keeps no replies: so each head has its own one.
        client, plug, another = self.client(), self.plug(), self.plug()
        for path, content in large.items():
            self.assertEqual(ask(client, "GET", f"/s/one{path}"), (200, content))
        (folder / f"c-{digest_of(OLD)}").unlink()
        for _ in range(TIMES):
            self.exchange(plug, asked, sent(OLD))
            self.exchange(another, other, missing)
        publish(client, {"/b.txt": b"abc"}, "two")
        self.exchange(plug, asked, missing)


class Room(Kept):
    def resident(self):
        """How many MiB of memory the program takes."""
        lines = pathlib.Path(f"/proc/{self.started.pid}/status").read_text().splitlines()
        return int(dict(line.split(":", 1) for line in lines)["VmRSS"].split()[0]) / 1_024

    def test_what_is_kept_takes_no_more_than_its_room(self):
        content = b"x" * (LARGEST - 300)
        self.begin(files={"/a.txt": content})
        self.warm(request("GET", FILE), wanted=sent(content))
        before = self.resident()
        for first in range(0, HEADS, 45):
            plug = self.plug()
            for number in range(first, first + 45):
                # What comes once isn't kept.
                for _ in range(2):
                    self.exchange(plug, request("GET", FILE, f"X-Number: {number}"), sent(content))
            plug.close()
        self.assertLess(self.resident() - before, ROOM + BESIDE)
