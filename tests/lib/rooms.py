"""Connections of `filehost serve` that hold much: bodies that stay behind, and replies that aren't read; and what memory the program takes for them.

docs/WIRE.md, "Memory", says how much they may hold.
"""

import contextlib
import hashlib
import pathlib
import select
import time

from lib.client import LARGEST_FILE, PATIENCE, request
from lib.crowds import Crowds, Plug
from lib.served import sockets_of
from lib.stores import PIECE
from lib.wire import END

MEBIBYTE = 1_048_576
# How many MiB bodies may hold, and replies.
OF_BODIES, OF_REPLIES = 64, 256
# How long a body waits for room until another one goes, in seconds.
WAIT = 10
# How many bodies fill the room, if no other number is asked for. Beside the first one, which has room of its own, they have 48 MiB, but for less than a step of
# the program takes.
FILL, FILLED = 13, 48 * MEBIBYTE - 261_000


def sent_to(port):
    """How many bytes were sent to a port over connections, and were not read there."""
    name, unread = f":{port:04X}".encode(), 0
    # There may be very many of others.
    with open("/proc/net/tcp", "rb") as file:
        lines = [line.split() for line in file if name in line]
    for _, local, remote, _, queues, *_ in lines:
        out, came = (int(number, 16) for number in queues.split(b":"))
        unread += out * remote.endswith(name) + came * local.endswith(name)
    return unread


def held_for(plug):
    """How many bytes the system holds that were written to the other end of a connection, and that this end hasn't taken."""
    ends = [f":{end[1]:04X}".encode() for end in (plug.getpeername(), plug.getsockname())]
    with open("/proc/net/tcp", "rb") as file:
        lines = [line.split() for line in file]
    return next(int(line[4].split(b":")[0], 16) for line in lines if [end[-5:] for end in line[1:3]] == ends)


class Body:
    """The body of a reply that is read: its digest, and how many bytes it has."""

    def __init__(self):
        self.head, self.hash, self.size = b"", hashlib.sha1(), 0

    def add(self, piece):
        if END not in self.head:
            self.head += piece
            self.head, end, piece = self.head.partition(END)
            self.head += end
        self.hash.update(piece)
        self.size += len(piece)


class Room(Crowds):
    """Connections that hold much of a program's memory."""

    def resident(self, started):
        """How many MiB of memory a program takes, and how many it took at most."""
        lines = pathlib.Path(f"/proc/{started.pid}/status").read_text().splitlines()
        values = dict(line.split(":", 1) for line in lines)
        return tuple(int(values[name].split()[0]) / 1_024 for name in ("VmRSS", "VmHWM"))

    def reader(self, target, *fields):
        """A connection that asks for a file, takes few bytes which it doesn't read, and has got the first of them."""
        plug = Plug()
        self.addCleanup(plug.close)
        plug.come(self.port, request("GET", target, "Connection: close", *fields), room=4_096)
        self.assertEqual(plug.recv(1), b"H")
        return plug

    def read_all(self, plugs):
        """Reads what comes over these connections until each has ended, all at once so that none is slow. Returns the body of each."""
        bodies, left, ready = [Body() for _ in plugs], {plug.fileno(): place for place, plug in enumerate(plugs)}, select.poll()
        for number in left:
            ready.register(number, select.POLLIN)
        while left:
            found = ready.poll(PATIENCE * 1_000)
            self.assertTrue(found)
            for number, _ in found:
                piece = b""
                with contextlib.suppress(ConnectionError):
                    piece = plugs[left[number]].recv(PIECE)
                if piece:
                    bodies[left[number]].add(piece)
                else:
                    ready.unregister(number)
                    del left[number]
        return bodies

    def begin_bodies(self, number, count):
        """Connections over each of which the head of an upload was sent."""
        head = f"PUT /api/v1/deploys/{number}/files/large HTTP/1.1\r\nHost: h\r\nContent-Length: {LARGEST_FILE}\r\n\r\n"
        return [self.plug(head.encode()) for _ in range(count)]

    def assert_all_taken(self, seconds=PATIENCE):
        """The program reads all that was sent to it."""
        self.assert_in_time(lambda: sent_to(self.port) == 0, seconds, look=0.005)

    def begin_fill(self, count=FILL, seconds=PATIENCE):
        """So many bodies that fill the room, and stay behind. All are taken in time."""
        plugs = []
        for _ in range(count):
            plugs += self.begin_bodies(1, 1)
            plugs[-1].sendall(bytes(FILLED // (count - 1)))
        self.assert_all_taken(seconds)
        return plugs

    def push(self, plugs, each, patience):
        """Sends so many bytes over each connection, until all are taken, or for so many seconds none is."""
        left, ready = {plug.fileno(): (plug, each) for plug in plugs}, select.poll()
        for number, (plug, _) in left.items():
            plug.setblocking(False)
            ready.register(number, select.POLLOUT)
        # A poll that comes late still finds the room.
        while left and (found := ready.poll(patience * 1_000)):
            for number, _ in found:
                plug, rest = left[number]
                try:
                    rest -= plug.send(bytes(min(262_144, rest)))
                except BlockingIOError:
                    pass
                except ConnectionError:
                    # It has gone.
                    rest = 0
                left[number] = plug, rest
                if not rest:
                    ready.unregister(number)
                    del left[number]

    def is_open(self, plug):
        """Whether a connection over which nothing came is still open."""
        plug.setblocking(False)
        try:
            return plug.recv(1) != b""
        except BlockingIOError:
            return True
        except ConnectionError:
            return False

    def assert_has_at_most(self, started, sockets):
        """The program comes to have no more sockets than these."""
        until = time.monotonic() + PATIENCE
        while sockets_of(started) > sockets:
            self.assertLess(time.monotonic(), until)
            time.sleep(0.01)

    def assert_takes(self, started, least):
        """The program comes to take so many MiB at least."""
        until = time.monotonic() + PATIENCE
        while self.resident(started)[0] < least:
            self.assertLess(time.monotonic(), until)
            time.sleep(0.01)

    def assert_takes_at_most(self, started, most):
        """The program comes to take no more MiB than that."""
        until = time.monotonic() + PATIENCE
        while self.resident(started)[0] > most:
            self.assertLess(time.monotonic(), until)
            time.sleep(0.01)

    def assert_stay(self, plugs, began, second):
        """None of them goes before a body has waited for room so long, and then one in each such time."""
        gone = [self.is_open(plug) for plug in plugs].count(False)
        self.assertLessEqual(gone, (time.monotonic() - began) / (WAIT * second / 1_000))
