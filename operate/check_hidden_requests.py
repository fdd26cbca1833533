"""Heads by which a request may be hidden in another, through nginx: the host is sent the requests that nginx took, each once, and nothing else."""

import contextlib
import json
import re
import socket
import time
import unittest

from check_sites import LOGIN
from recorder import Recorder
from stand import HOST, INTERFACE, PUBLIC, SECONDS, Stand
from lib.client import request
from lib.hidden_requests import HIDDEN, HiddenRequests
from lib.wire import FILE

DEPLOYS = "/api/v1/sites/one/deploys"
# How long nginx may be silent before it counts as waiting for more.
SILENCE = 0.3


class ThroughNginx(HiddenRequests, unittest.TestCase):
    @classmethod
    def setUpClass(cls):
        stack = contextlib.ExitStack()
        cls.addClassCleanup(stack.close)
        recorders = []

        def record(host):
            recorders.append(Recorder(stack, (host.port, host.port + 1)))
            return recorders[0].ports

        def add_plain_ports(text, stand):
            """Each of the two names without TLS too: so what is sent is what nginx gets, to the byte."""
            return re.sub(r"server_name (?=sites|deploy)", f"listen {HOST}:{stand.spare_port};\n    server_name ", text)

        cls.stand = Stand(stack, add_plain_ports, between=record)
        cls.recorder, cls.attempts, cls.reached = recorders[0], 0, 0

    @classmethod
    def tearDownClass(cls):
        print(f"\n{cls.attempts} heads were sent, and {cls.reached} requests of them reached the host", flush=True)

    def send(self, name, given):
        """What nginx answers to these bytes until it ends the connection, or waits for more."""
        with socket.create_connection((HOST, self.stand.spare_port), timeout=SECONDS) as client:
            with contextlib.suppress(ConnectionError):
                client.sendall(given)
            client.settimeout(SILENCE)
            answered = b""
            with contextlib.suppress(TimeoutError, ConnectionError):
                while came := client.recv(65_536):
                    answered += came
        return answered

    def try_head(self, head):
        """Sends the head of a request with a hidden one after it, to both names. The host must be sent what nginx logs as handed on, in that order."""
        line, end, rest = re.fullmatch(rb"(?s)(.*?)(\r?\n)(.*)", head).groups()
        for name in (PUBLIC, INTERFACE):
            fields = b"Host: %s%sAuthorization: Basic %s%s" % (name.encode(), end, LOGIN.encode(), end)
            whole = line + end + fields + re.sub(rb"(?i)Host: x\r?\n", b"", rest)
            hidden = HIDDEN.replace(b"\r\n", b"\r\n" + fields.replace(end, b"\r\n"), 1)
            last = request("GET", FILE + "?last", f"Host: {name}", "Connection: close")
            asked, logged = len(self.recorder.heads), len(self.stand.nginx.log.read_text().splitlines()) if self.stand.nginx.log.exists() else 0
            self.send(name, whole + hidden + last)
            type(self).attempts += 1
            self.compare(asked, logged, whole)

    def taken(self, logged):
        """The requests that nginx logs as handed on. Of one that it couldn't read the line may have anything between the quotes. A line that is still being written
        doesn't count."""
        lines = self.stand.nginx.log.read_text().rpartition("\n")[0].split("\n")[logged:] if self.stand.nginx.log.exists() else []
        return [re.search(r'"(.*) HTTP/1\.[01]" ', line)[1] for line in lines if not line.rpartition("host=")[2].startswith("-")]

    def compare(self, asked, logged, whole):
        # A line comes after the reply.
        end = time.monotonic() + 2
        while self.recorder.asked()[asked:] != self.taken(logged) and time.monotonic() < end:
            time.sleep(0.01)
        came = self.recorder.asked()[asked:]
        type(self).reached += len(came)
        self.assertEqual(came, self.taken(logged), whole)
        # The head's own request, and the next one if its body wasn't that.
        self.assertLessEqual(len([target for target in came if not target.endswith("?last")]), 2, whole)

    def assert_ends(self, head, wanted):
        self.try_head(head)

    def assert_refused(self, wanted, *fields):
        for method, target in (("GET", FILE), ("POST", DEPLOYS)):
            self.try_head(request(method, target, *fields))

    def assert_hides(self, *fields):
        for method in ("GET", "HEAD"):
            self.try_head(request(method, FILE, *fields))
        self.try_head(request("POST", DEPLOYS, *fields))

    def assert_answers(self, given, wanted, message=None):
        self.try_head(given.partition(b"\r\n\r\n")[0] + b"\r\n\r\n")

    def tearDown(self):
        """After each test the host has as many deploys as nginx logged as opened, so it found no other request in what it was sent."""
        opened = [line for line in self.stand.nginx.logged() if re.search(rf'"POST {DEPLOYS} HTTP/1\.[01]" 200 ', line)]
        client = self.stand.direct()
        client.request("GET", "/api/v1/sites/one/changes")
        changes = json.loads(client.getresponse().read())["changes"]
        self.assertEqual(len([change for change in changes if change["kind"] == "open"]), len(opened))


if __name__ == "__main__":
    unittest.main()
