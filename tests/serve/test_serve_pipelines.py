"""Connections of `filehost serve` that send many requests at once, some of which a node answers at once, while it has to wait for others: the replies come in
order.

Each reply is that of the plain model, byte for byte: over all that was told before, to this connection or to another one, by whichever node. The stores are in
folders, so files that weren't read yet, uploads and changes have to wait.
"""

import collections
import concurrent.futures
import itertools
import json
import random
import re
import socket

from lib.client import PATIENCE, digest_of
from lib.generated_histories import Generator, Run, views
from lib.plain_model import Model, Request
from lib.served import HOST, Served, ask
from lib.stores import PIECE, as_bytes

SITE = "/api/v1/sites/one"
# How many histories are generated, how many requests each has, and how many of them a connection sends at once, at most.
HISTORIES, LONG, MOST = 30, 60, 25
# How often a connection to each node sends the same kinds of requests.
TURNS = 6
# How many connections go on side by side, how many deploys each makes, and how many drafts.
BESIDE, DEPLOYS, DRAFTS = 8, 20, 60


def without_numbers(replies):
    """Replies without the numbers of entries that published, and without the lengths of what tells them."""
    return re.sub(rb'Content-Length: \d+\r\n\r\n\{"published":\d+', b'{"published":N', replies)


class Pipelines(Served):
    def begin(self):
        return self.serve("--store", str(self.folder()), "--workers", "2", nodes=2)

    def exchange(self, given, node, pieces=1):
        """What comes over a connection to a node that was sent these bytes, in so many pieces, until it ends."""
        with socket.create_connection((HOST, self.port + node), timeout=PATIENCE) as plug:
            plug.setsockopt(socket.IPPROTO_TCP, socket.TCP_NODELAY, 1)
            size = -(-len(given) // pieces)
            for start in range(0, len(given), size):
                plug.sendall(given[start:start + size])
            plug.shutdown(socket.SHUT_WR)
            return b"".join(iter(lambda: plug.recv(262_144), b""))

    def assert_answered(self, requests, wanted, node, pieces=1):
        """A connection to a node sends these requests at once, and is sent these replies and no more."""
        came = self.exchange(b"".join(map(as_bytes, requests)), node, pieces)
        for asked, reply in zip(requests, wanted):
            self.assertEqual(came[:len(reply)], reply, asked[:2])
            came = came[len(reply):]
        self.assertEqual(came, b"")


class Order(Pipelines):
    def answered(self, *requests):
        """What the model answers to these requests of one connection."""
        self.model.requests = 0
        return [self.model.answer(asked) for asked in requests]

    def turn(self, number, node, pieces):
        """A deploy is opened over the other node. Then one connection reads, uploads what publishes it, and changes, and reads what it did each time."""
        content = random.Random(number).randbytes(2 * PIECE + number)
        listing = json.dumps({"files": {f"/new{number}": digest_of(content), "/a.txt": digest_of(b"hello")}, "patch": True}).encode()
        opened = Request("POST", f"{SITE}/deploys", body=listing)
        self.assert_answered([opened], self.answered(opened), 1 - node)
        deploy = len(self.model.entries)
        get, get_new = (Request("GET", f"/s/one/{name}") for name in ("a.txt", f"new{number}"))
        requests = [
            get, get_new, Request("PUT", f"/api/v1/deploys/{deploy}/files/new{number}", body=content), get_new, get,
            Request("DELETE", f"{SITE}/files/a.txt"), get, Request("POST", f"{SITE}/undo", body=json.dumps({"change": deploy + 2}).encode()), get,
            Request("GET", f"{SITE}/changes"), get_new, Request("GET", f"/api/v1/deploys/{deploy}"), Request("HEAD", f"/s/one/new{number}"), get,
        ]
        self.assert_answered(requests, self.answered(*requests), node, pieces)

    def test_of_replies_that_come_at_once_and_of_those_that_have_to_wait(self):
        self.begin()
        self.model = Model()
        opened = Request("POST", f"{SITE}/deploys", body=json.dumps({"files": {"/a.txt": digest_of(b"hello")}}).encode())
        uploaded = Request("PUT", "/api/v1/deploys/1/files/a.txt", body=b"hello")
        self.assert_answered([opened, uploaded], self.answered(opened, uploaded), 0)
        for number in range(2 * TURNS):
            self.turn(number, number % 2, pieces=number // 2 + 1)

    def test_of_generated_histories(self):
        """Each is sent over one connection after another, to either node, in parts that are drawn."""
        tally = collections.Counter()
        for seed in range(HISTORIES):
            self.begin()
            made, drawn = Run(), random.Random(seed)
            generator = Generator(seed, made.model)
            while len(made.requests) < LONG:
                before, made.model.requests = len(made.requests), 0
                made.ask(generator.requests(drawn.randint(1, MOST)))
                self.assert_answered(made.requests[before:], made.wanted[before:], drawn.randrange(2), drawn.randint(1, 5))
            before, made.model.requests = len(made.requests), 0
            made.ask(views(made.model)[:99])
            self.assert_answered(made.requests[before:], made.wanted[before:], seed % 2)
            tally += made.tally()
            self.doCleanups()
        for word in ("open", "publish", "undo", "Clash", "rename", "remove", "alias", "GET-200", "NoSuchFile"):
            self.assertGreater(tally[word], 4, f"met in all: {sorted(tally.items())}")


class Beside(Pipelines):
    """Connections that each upload to a deploy of their own, and read what is there before and after that publishes it."""

    def deploy(self, place, turn):
        """Opens a deploy of two files, and returns its number and their contents."""
        contents = [random.Random(f"{place} {turn} {path}").randbytes(PIECE + 100) for path in "xy"]
        files = dict(zip(("/x", "/y"), map(digest_of, contents)))
        status, told = ask(self.clients[place], "POST", f"/api/v1/sites/site{place}/deploys", json.dumps({"files": files}))
        self.assertEqual(status, 200, told)
        return json.loads(told)["id"], contents

    def go_on(self, place):
        before = None
        for turn in range(DEPLOYS):
            number, contents = self.deploy(place, turn)
            gets = [Request("GET", f"/s/site{place}/{path}") for path in "xy"]
            puts = [Request("PUT", f"/api/v1/deploys/{number}/files/{path}", body=content) for path, content in zip("xy", contents)]
            requests = [*gets, puts[0], *gets, puts[1], *gets, puts[0], *gets]
            came = self.exchange(b"".join(map(as_bytes, requests)), (place + turn) % 2)
            self.assertEqual(without_numbers(came), self.wanted(place, before, contents, requests))
            before = contents

    def wanted(self, place, before, contents, requests):
        """What a host of this site alone answers, but for the numbers of entries."""
        model = Model()
        for number, files in enumerate(filter(None, (before, contents))):
            listing = dict(zip(("/x", "/y"), map(digest_of, files)))
            model.answer(Request("POST", f"/api/v1/sites/site{place}/deploys", body=json.dumps({"files": listing}).encode()))
            if files is before:
                for path, content in zip("xy", files):
                    model.answer(Request("PUT", f"/api/v1/deploys/1/files/{path}", body=content))
        own = len(model.entries)
        model.requests = 0
        replies = [model.answer(asked._replace(target=re.sub(r"deploys/\d+", f"deploys/{own}", asked.target))) for asked in requests]
        return without_numbers(b"".join(replies))

    def test_see_what_they_did_in_order(self):
        self.begin()
        self.clients = [self.client(place % 2) for place in range(BESIDE)]
        with concurrent.futures.ThreadPoolExecutor(BESIDE) as pool:
            for done in [pool.submit(self.go_on, place) for place in range(BESIDE)]:
                done.result()

    def open_drafts(self, place):
        """Opens drafts of a site, over one connection, and returns their numbers."""
        client, numbers = self.client(place % 2), []
        for turn in range(DRAFTS):
            body = json.dumps({"files": {"/a": digest_of(b"%d" % turn)}, "draft": True})
            status, told = ask(client, "POST", f"/api/v1/sites/site{place}/deploys", body)
            self.assertEqual(status, 200, told)
            numbers.append(int(json.loads(told)["id"]))
        return numbers

    def test_open_drafts_at_once(self):
        """None is refused since another one is opened just then, and each is one entry of its site."""
        self.begin()
        with concurrent.futures.ThreadPoolExecutor(BESIDE) as pool:
            opened = list(pool.map(self.open_drafts, range(BESIDE)))
        self.assertEqual(sorted(itertools.chain(*opened)), list(range(1, BESIDE * DRAFTS + 1)))
        for place, numbers in enumerate(opened):
            listed = json.loads(ask(self.client(), "GET", f"/api/v1/sites/site{place}/changes")[1])["changes"]
            self.assertEqual([change["entry"] for change in listed], numbers)
