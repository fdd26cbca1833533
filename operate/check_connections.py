"""Connections between nginx and the host: kept ones, those that the host ends, and a host that is stopped and started again under load."""

import collections
import contextlib
import hashlib
import http.client
import json
import os
import threading
import time
import unittest

from check_sites import LOGIN
from recorder import Recorder
from stand import INTERFACE, OWN, PUBLIC, Stand

LARGE = os.urandom(1_000_000)
HOME = b"<h1>Home</h1>" * 50
REQUESTS = 1_000


class Kept(unittest.TestCase):
    def test_requests_go_over_kept_connections_which_the_host_ends_after_a_hundred(self):
        with contextlib.ExitStack() as stack:
            recorders = []

            def record(host):
                recorders.append(Recorder(stack, (host.port, host.port + 1)))
                return recorders[0].ports

            stand = Stand(stack, between=record)
            stand.deploy({"/index.html": HOME}, "www")
            asked, connections = len(recorders[0].heads), recorders[0].connections
            visitor, changer = stand.visitor(PUBLIC), stand.visitor(INTERFACE)
            for number in range(REQUESTS):
                reply = visitor.ask("GET", "/s/www/")
                self.assertEqual((reply.status, reply.content), (200, HOME), f"request {number}")
                if number % 5 == 0:
                    # A change, which nginx wouldn't send again.
                    reply = changer.ask("PUT", "/api/v1/sites/www/aliases/next", '{"deploy":0}', login=LOGIN)
                    self.assertEqual((reply.status, json.loads(reply.content)["error"]), (404, "NoSuchDeploy"), f"request {number}")
            asked, connections = len(recorders[0].heads) - asked, recorders[0].connections - connections
            print(f"\n{asked} requests to the host over {connections} connections", flush=True)
            self.assertEqual(asked, REQUESTS * 6 // 5)
            # At least as many as the host ends after a hundred, and nowhere near one a request.
            self.assertGreaterEqual(connections, asked // 100)
            self.assertLessEqual(connections, asked // 20)


class Restarts(unittest.TestCase):
    """A host that is stopped as systemd does it and started again, while visitors read and two deployers change a site."""

    def setUp(self):
        self.stack = contextlib.ExitStack()
        self.addCleanup(self.stack.close)
        self.stand = Stand(self.stack)
        self.stand.deploy({"/index.html": HOME, "/large.bin": LARGE}, "www")
        self.ended, self.faults, self.acknowledged = threading.Event(), [], {}
        self.seen = collections.Counter()

    def read(self, name, target, wanted):
        """Reads a file again and again. Each reply is whole: the file, or a 502."""
        with contextlib.closing(self.stand.visitor(name)) as visitor:
            while not self.ended.is_set():
                try:
                    reply = visitor.ask("GET", target)
                except (OSError, http.client.HTTPException) as fault:
                    self.faults.append(f"{name}{target}: {fault!r}")
                    return
                self.seen[name, reply.status] += 1
                if reply.status == 200 and reply.content != wanted or reply.status not in (200, 502):
                    self.faults.append(f"{name}{target}: {reply.status}, {len(reply.content)} bytes")

    def change(self, place):
        """Publishes one file again and again, and notes each number that is told."""
        with contextlib.closing(self.stand.visitor(INTERFACE)) as visitor:
            for number in range(10 ** 9):
                if self.ended.is_set():
                    return
                content = b"%d of deployer %d" % (number, place)
                listed = json.dumps({"files": {f"/of-{place}.txt": hashlib.sha1(content).hexdigest()}, "patch": True})
                reply = visitor.ask("POST", "/api/v1/sites/www/deploys", listed, login=LOGIN)
                self.seen["change", reply.status] += 1
                if reply.status == 200:
                    deploy = json.loads(reply.content)["id"]
                    self.acknowledged[int(deploy)] = "open"
                    reply = visitor.ask("PUT", f"/api/v1/deploys/{deploy}/files/of-{place}.txt", content, login=LOGIN)
                    self.seen["change", reply.status] += 1
                    if reply.status == 200 and (published := json.loads(reply.content)["published"]):
                        self.acknowledged[published] = "publish"
                    elif reply.status not in (200, 404, 502):
                        self.faults.append(f"{reply.status} {reply.content}")
                elif reply.status != 502:
                    self.faults.append(f"{reply.status} {reply.content}")

    def test_a_stop_cuts_no_reply_and_loses_no_change(self):
        self.go_through(3, lambda: self.assertEqual(self.stand.host.stop(), 0))
        self.assertEqual(self.faults, [])

    def test_a_kill_loses_no_change(self):
        """It may cut a reply in hand."""
        self.go_through(3, self.stand.host.kill)
        self.assertEqual([fault for fault in self.faults if "IncompleteRead" not in fault], [])

    def go_through(self, turns, end):
        works = [(self.read, PUBLIC, "/s/www/large.bin", LARGE), (self.read, PUBLIC, "/s/www/", HOME), (self.read, OWN, "/", HOME)]
        works += [(self.change, place) for place in range(2)]
        threads = [threading.Thread(target=work, args=words) for work, *words in works]
        for thread in threads:
            thread.start()
        for _ in range(turns):
            time.sleep(1)
            end()
            self.look_while_down()
            self.stand.host.start()
            with contextlib.closing(self.stand.visitor(PUBLIC)) as visitor:
                reply = visitor.ask("GET", "/s/www/")
            self.assertEqual((reply.status, reply.content), (200, HOME))
        time.sleep(0.5)
        self.ended.set()
        for thread in threads:
            thread.join()
        self.look_at_changes()

    def look_while_down(self):
        """What is cached is shown, also after its second is over, and of all else nginx says that the host is down."""
        with contextlib.closing(self.stand.visitor(PUBLIC)) as visitor, contextlib.closing(self.stand.visitor(OWN)) as own:
            for _ in range(15):
                self.assertEqual(visitor.ask("GET", "/s/www/").status, 502)
                reply = own.ask("GET", "/")
                self.assertEqual((reply.status, reply.content), (200, HOME))
                time.sleep(0.1)

    def look_at_changes(self):
        """Another start has each change that was told; the list has the last thousand."""
        self.stand.host.stop()
        self.stand.host.start()
        client = self.stand.direct()
        client.request("GET", "/api/v1/sites/www/changes")
        kinds = {change["entry"]: change["kind"] for change in json.loads(client.getresponse().read())["changes"]}
        told = {number: kind for number, kind in self.acknowledged.items() if number >= min(kinds)}
        print(f"\n{dict(self.seen)}, {len(self.acknowledged)} changes told", flush=True)
        self.assertGreater(len(told), 50)
        self.assertEqual({number: kind for number, kind in told.items() if kinds.get(number) != kind}, {})


if __name__ == "__main__":
    unittest.main()
