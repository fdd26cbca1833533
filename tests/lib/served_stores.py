"""Conversations with `serve` over a store in a folder, in the place of those with `solo`."""

import re
import signal
import socket
import subprocess

from lib.client import PATIENCE, PROGRAM, SECONDS
from lib.served import HOST, free_ports
from lib.stores import Conversation

# A line for the operator: what failed is told there too.
TOLD = re.compile(rb"filehost: \d{4}-\d\d-\d\dT\d\d:\d\d:\d\dZ (?:device|journal): [^\n]*\n")


class ServedClient:
    """A client that starts `serve` over a test's folder, and has one connection to it, if it comes to listen. `serve` ends after one client."""

    def __init__(self, test, **how):
        port = free_ports()
        words = [PROGRAM, "serve", "--listen", f"{HOST}:{port}", "--conns", "1", "--store", str(test.folder)]
        self.program = subprocess.Popen(words, stdin=subprocess.DEVNULL, stdout=subprocess.PIPE, stderr=subprocess.PIPE, **how)
        self.plug = None
        test.addCleanup(self.leave)
        if self.program.stdout.readline():
            self.plug = socket.create_connection((HOST, port), timeout=PATIENCE)

    def send(self, piece):
        if not self.plug:
            raise BrokenPipeError
        self.plug.sendall(piece)

    def receive(self, count):
        """`count` bytes of replies, or fewer if there are no more."""
        got = b""
        while self.plug and len(got) < count and (piece := self.plug.recv(count - len(got))):
            got += piece
        return got

    def close(self, waits=False):
        """What the program ends with if nothing more is asked: its status, what it still sends, and what it says but for lines to the operator. Unless it is
        waited for, it is ended once its connection has ended, and counts as one that ended well."""
        rest = b""
        if self.plug:
            self.plug.shutdown(socket.SHUT_WR)
            rest = self.receive(1)
            if not waits:
                self.program.kill()
        status = self.program.wait(SECONDS)
        return 0 if status == -signal.SIGKILL else status, rest, TOLD.sub(b"", self.program.stderr.read())

    def leave(self):
        self.program.kill()
        self.program.wait()
        for part in (self.plug, self.program.stdout, self.program.stderr):
            if part:
                part.close()


class ServedConversation(Conversation):
    clients = ServedClient


class OfServe:
    """Lets a test of `solo` over a store have its conversations with `serve`. What is looked at afterwards is looked at by `solo`."""

    # The name under which its first put writes.
    temporary = "blob-0.tmp"

    def talk(self, **how):
        return ServedConversation(self, **how)
