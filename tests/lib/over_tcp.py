"""Clients that aren't this project's own, over TCP: what they are called with, and programs of their own that they reach."""

import fcntl
import shutil
import socket
import struct
import subprocess
import sys
import termios
import threading
import time
import unittest

from lib.client import HERE, PATIENCE, PROGRAM, SECONDS, Program
from lib.wire import END

needs_curl = unittest.skipUnless(shutil.which("curl"), "curl is missing: ./test installs it")
needs_wget = unittest.skipUnless(shutil.which("wget"), "wget is missing: ./test installs it")
needs_aria = unittest.skipUnless(shutil.which("aria2c"), "aria2c is missing: ./test installs it")

# Each downloads the URL that follows these words to the file `file` of the folder in which it runs.
CURL = ("curl", "--disable", "--silent", "--noproxy", "*", "--output", "file", "--max-time", str(SECONDS))
WGET = ("wget", "--no-config", "--no-proxy", "--quiet", "--timeout", str(PATIENCE), "--waitretry", "0", "--output-document", "file")
ARIA = ("aria2c", "--no-conf", "--quiet", "--no-proxy", "*", "--file-allocation", "none", "--out", "file")
# curl sends the body of an upload after the interim reply alone: it waits for that longer than a test may take.
WAITING = ("--include", "--expect100-timeout", str(SECONDS), "--max-time", str(PATIENCE))


def downloaded(folder, url, words):
    """The status with which this client ends, and what it has downloaded to its file."""
    ran = subprocess.run([*words, url], cwd=folder, timeout=SECONDS)
    return ran.returncode, (folder / "file").read_bytes()


def assert_reads(test, connection, wanted):
    """http.client reads this reply: its status line, its fields in their order, and its body."""
    head, _, body = wanted.partition(END)
    got = connection.getresponse()
    fields = [f"{name}: {value}" for name, value in got.getheaders()]
    test.assertEqual([f"HTTP/1.1 {got.status} {got.reason}", *fields], head.decode().split("\r\n"))
    test.assertEqual((got.read(), got.will_close), (body, b"Connection: close" in head))


def assert_exchanges(test, connection, wanted, *asked):
    """http.client makes this request, and reads this reply."""
    connection.request(*asked)
    assert_reads(test, connection, wanted)


class OverTcp(Program):
    """Tests with a client that is not this project's own."""

    def serve(self):
        """Lets a new program be reached by one connection, and returns its port."""
        relay = subprocess.Popen([sys.executable, HERE / "relay.py", PROGRAM, "solo"], stdout=subprocess.PIPE)
        self.addCleanup(relay.wait)
        self.addCleanup(relay.kill)
        self.addCleanup(relay.stdout.close)
        self.relay = relay
        return int(relay.stdout.readline())

    def assert_ended_well(self):
        """The program whose port was returned last has ended with status 0, since its connection has."""
        self.assertEqual(self.relay.wait(SECONDS), 0)

    def converse(self, *requests):
        """Sends the requests by one call of curl, in one connection, and returns what curl prints."""
        port = self.serve()
        words = []
        for target, *options in requests:
            words += ["--next"] * bool(words) + ["--silent", "--show-error", "--max-time", str(SECONDS)]
            words += ["--write-out", " %{http_code}\n", *options, f"http://127.0.0.1:{port}{target}"]
        ran = subprocess.run(["curl", "--disable", *words], capture_output=True, timeout=SECONDS)
        self.assertEqual((ran.returncode, ran.stderr), (0, b""))
        self.assert_ended_well()
        return ran.stdout.decode()


class Server:
    """A server to which exchanges are made beforehand, and whose connections are cut.

    It takes as many connections as there are cuts, and one request in each. A new program makes the exchanges and then answers the
    request; as many bytes of the reply's body as the cut says are let through.
    """

    def __init__(self, test, exchanges, cuts):
        self.exchanges = exchanges
        self.asked = []
        self.listener = socket.create_server(("127.0.0.1", 0))
        self.listener.settimeout(PATIENCE)
        self.port = self.listener.getsockname()[1]
        self.thread = threading.Thread(target=self.serve, args=(cuts,), daemon=True)
        self.thread.start()
        test.addCleanup(self.thread.join, PATIENCE)

    def serve(self, cuts):
        with self.listener:
            for cut in cuts:
                connection, _ = self.listener.accept()
                with connection:
                    connection.settimeout(PATIENCE)
                    self.asked.append(self.request(connection))
                    head, end, body = self.reply(self.asked[-1]).partition(END)
                    connection.sendall(head + end + body[:cut])

    def request(self, connection):
        """The head of the next request, which has no body."""
        head = b""
        while not head.endswith(END) and (piece := connection.recv(65_536)):
            head += piece
        return head

    def reply(self, asked):
        given = b"".join(exchange[0] for exchange in self.exchanges) + asked
        ran = subprocess.run([PROGRAM, "solo"], input=given, stdout=subprocess.PIPE, timeout=PATIENCE)
        return ran.stdout[sum(len(exchange[1]) for exchange in self.exchanges):]


class Connection:
    """Both ends of a TCP connection. A new program has the far one. If that takes too long, the program is ended."""

    def __init__(self, test):
        with socket.create_server(("127.0.0.1", 0)) as listener:
            self.near = socket.create_connection(listener.getsockname())
            self.far, _ = listener.accept()
        self.near.settimeout(PATIENCE)
        # No byte waits for others that could go with it.
        self.near.setsockopt(socket.IPPROTO_TCP, socket.TCP_NODELAY, True)
        ends = {"stdin": self.far, "stdout": self.far, "stderr": subprocess.PIPE}
        self.program = subprocess.Popen([PROGRAM, "solo"], **ends)
        self.watch = threading.Timer(PATIENCE, self.program.kill)
        self.watch.start()
        test.addCleanup(self.leave)

    def send(self, piece):
        """Sends these bytes, and waits until the program has taken them all, or has ended."""
        self.near.sendall(piece)
        left = bytearray(4)
        while fcntl.ioctl(self.far, termios.FIONREAD, left) == 0 and struct.unpack("i", left) != (0,):
            if self.program.poll() is not None:
                return
            time.sleep(0)

    def receive(self, count):
        """`count` bytes of replies, or fewer if there are no more."""
        got = b""
        while len(got) < count and (piece := self.near.recv(count - len(got))):
            got += piece
        return got

    def end(self):
        """What the program ends with, though its input may still be open: its status, its last replies and words."""
        errors = self.program.stderr.read()
        status = self.program.wait()
        self.far.shutdown(socket.SHUT_WR)
        return status, b"".join(iter(lambda: self.near.recv(65_536), b"")), errors

    def leave(self):
        self.watch.cancel()
        self.program.kill()
        self.program.wait()
        for part in (self.program.stderr, self.near, self.far):
            part.close()
