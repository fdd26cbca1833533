"""Connections to the nodes of a program that serves, each of which is made anew once it has ended."""

import contextlib

from lib.client import REQUESTS, content_length


def is_whole(got, is_head):
    head, end, body = got.partition(b"\r\n\r\n")
    return bool(end) and (is_head or len(body) >= content_length(head + end))


class Line:
    """A connection to a node."""

    def __init__(self, test, node=0):
        self.test, self.node, self.plug, self.requests = test, node, None, 0

    def send(self, asked):
        """Sends a request. The hundredth would end the connection, so it is another connection's first."""
        if self.requests == REQUESTS - 1:
            self.leave()
        if not self.plug:
            self.plug, self.requests = self.test.plug(node=self.node), 0
        self.requests += 1
        self.is_head = asked.startswith(b"HEAD ")
        with contextlib.suppress(ConnectionError):
            self.plug.sendall(asked)

    def receive(self):
        """The reply, or less if the connection ends before."""
        got = b""
        with contextlib.suppress(ConnectionError):
            while not is_whole(got, self.is_head) and (more := self.plug.recv(65_536)):
                got += more
        if not is_whole(got, self.is_head) or b"\r\nConnection: close\r\n" in got:
            self.end()
        return got

    def ask(self, asked):
        self.send(asked)
        return self.receive()

    def end(self):
        """The connection has ended, or ends now."""
        with contextlib.suppress(ConnectionError):
            self.test.assertEqual(self.plug.recv(1), b"")
        self.leave()

    def leave(self):
        if self.plug:
            self.plug.close()
            self.plug = None
