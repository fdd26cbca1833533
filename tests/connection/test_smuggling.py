"""Forms of heads by which a request may be hidden in another, if two readers disagree on where a body ends.

Each is answered by one name, after which nothing is answered or read; or it is read as docs/WIRE.md says.
"""

import re
import socket

from lib.client import Program, refused, request, run, to_head
from lib.hidden_requests import HIDDEN, HiddenRequests
from lib.wire import BAD_HEAD, FILE, NEXT, NO_FILE

BAD_METHOD = refused("BadMethod", "Allow: GET, HEAD")


class Smuggling(HiddenRequests, Program):
    def assert_ends(self, head, wanted):
        """The head is answered so, and the bytes after it are neither answered nor read."""
        near, far = socket.socketpair(type=socket.SOCK_SEQPACKET)
        with near, far:
            # A read takes no more than one of these.
            for packet in (NEXT, head, HIDDEN):
                near.send(packet)
            near.shutdown(socket.SHUT_WR)
            self.assertEqual(run("solo", given=None, stdin=far), (0, NO_FILE + wanted, b""), head)
            self.assertEqual(far.recv(len(HIDDEN) + 1), HIDDEN, head)

    def assert_refused(self, wanted, *fields):
        """A request with these fields is answered so, and ends the connection, whatever it asks for."""
        for method, target in (("GET", FILE), ("POST", "/api/v1/sites/one/deploys"), ("put", "/nowhere")):
            head = request(method, target, "Host: x", *fields)
            self.assert_ends(head, wanted)
            self.assert_ends(re.sub(b"(?<!\r)\r\n", b"\n", head), wanted)
        self.assert_ends(request("HEAD", FILE, *fields), wanted if wanted == BAD_HEAD else to_head(wanted))

    def assert_hides(self, *fields):
        """Such a request has the hidden one as its body, which is not answered; the next one is."""
        for method, wanted in (("GET", NO_FILE), ("HEAD", to_head(NO_FILE)), ("PUT", BAD_METHOD), ("get", BAD_METHOD)):
            self.assert_answers(request(method, FILE, *fields) + HIDDEN + NEXT, wanted + NO_FILE, fields)
