"""Many clients of `filehost serve` that hold what they can, beside honest ones that are to be answered at once.

No limit here depends on how fast the machine is. What each connection of a crowd meets is looked at by itself, since a slow machine may let the first ones go
before the last have come. Limits of time don't count what the machine took from the program or from the client (lib/stalls.py).
"""

import contextlib
import http.client
import resource
import select
import socket
import struct
import subprocess
import sys
import threading
import time

from lib.client import HERE, PATIENCE, SECONDS, request
from lib.served import HOST, Served, ask, publish, sockets_of
from lib.stalls import Stalls

# How many milliseconds a second of the deadlines has, unless a test says otherwise, and the deadlines in these seconds (docs/WIRE.md, "Deadlines and places").
SECOND = 100
HEAD, IDLE, TRANSFER, REPLY, CLOSING = 10, 15, 60, 360, 5
# The same where replies are to be late, in milliseconds.
SHORT = 20
# A second where no deadline is to pass: it is a real one.
WHOLE = 1_000
# How many seconds later than its deadline a connection is gone at the latest: the program looks through its connections once in a second of the deadlines.
GRACE = 2
# How often something is tried at most that the machine may hold up.
TRIES = 3
# How often it is looked whether something is done, in seconds.
LOOK = 0.05
# The longest that the program lets an honest client wait, in seconds, and how many connections one has at most, with those that it closed and the program
# didn't yet.
LONGEST = 0.5
OF_AN_HONEST_ONE = 4
# How often an honest client asks at least, also if the crowd has gone before that.
ASKED = 20
FILES = {"/a.txt": b"hello", "/large": bytes(1_048_576)}
# More bytes than a reply needs to move for it to keep its place.
MOVED = 400_000


class Honest:
    """An honest client, in a process of its own: what others do takes nothing of its time."""

    def __init__(self, port, kind, process, late, asked):
        words = [sys.executable, HERE / "honest_client.py", str(port), kind, str(process), str(asked), str(late)]
        self.client = subprocess.Popen(words, stdin=subprocess.PIPE, stdout=subprocess.PIPE, stderr=subprocess.PIPE, text=True)
        self.first = self.client.stdout.readline()

    def end(self):
        """The longest that the program let it wait, and the longest but for one request in a hundred. No request was refused."""
        waits, errors = self.client.communicate(timeout=SECONDS)
        assert (self.client.returncode, self.first, errors) == (0, "answered\n", ""), errors
        return tuple(map(float, waits.split()))

    def stop(self):
        self.client.kill()
        self.client.wait()
        for pipe in (self.client.stdin, self.client.stdout, self.client.stderr):
            pipe.close()


class Plug(socket.socket):
    """A connection of a crowd. It came between two times: it wasn't there before the first, and was at the second."""

    def come(self, port, given, room=None):
        """Connects, and sends these bytes; there are so many bytes of room for what comes."""
        if room:
            self.setsockopt(socket.SOL_SOCKET, socket.SO_RCVBUF, room)
            # As over a network: with the large segments of loopback, a socket of the program takes some MiB that nobody reads.
            self.setsockopt(socket.IPPROTO_TCP, socket.TCP_MAXSEG, 1_460)
        self.settimeout(PATIENCE)
        self.began = time.monotonic()
        self.connect((HOST, port))
        self.sendall(given)
        self.came = time.monotonic()


class Crowds(Served):
    """A crowd at a port of a program, and honest clients beside it. They ask so often at least, and all but one request in a hundred is answered within so
    many seconds."""

    asked, usual = ASKED, LONGEST

    def setUp(self):
        # Until there is a program.
        self.stalls = Stalls("self")

    def begin(self, *words, nodes=1, files=FILES, second=SECOND, **how):
        """Serves some files. Then the program has the sockets of its ports alone."""
        soft, hard = resource.getrlimit(resource.RLIMIT_NOFILE)
        resource.setrlimit(resource.RLIMIT_NOFILE, (min(max(soft, 8_192), hard), hard))
        self.addCleanup(resource.setrlimit, resource.RLIMIT_NOFILE, (soft, hard))
        self.second = second
        self.started = self.serve(*words, nodes=nodes, second=second, **how)
        self.stalls, self.longest = Stalls(self.started.pid), LONGEST
        self.mark = self.stalls.mark()
        self.alone = 0
        self.alone = self.sockets()
        self.publish_alone(files)

    def publish_alone(self, files):
        """Deploys some files over a connection that has gone then."""
        mark, client = self.stalls.mark(), self.client()
        try:
            publish(client, files)
        except (ConnectionError, http.client.HTTPException):
            if not self.is_excused(mark):
                raise
            client.close()
            return self.publish_alone(files)
        client.close()
        return self.assert_alone()

    def seconds(self, deadline):
        """How long a deadline is here."""
        return deadline * self.second / 1000

    def is_excused(self, mark):
        """Whether the machine held this process or the program up since then for so long that a connection may be late, and is cut for that."""
        return self.stalls.since(mark) > self.seconds(IDLE) / 2

    def in_time(self, work):
        """Does some work, and again where it failed since the machine stood still meanwhile."""
        for left in reversed(range(TRIES)):
            mark = self.stalls.mark()
            try:
                return work()
            except (AssertionError, ConnectionError):
                if not left or not self.is_excused(mark):
                    raise

    def read(self, target, node=0):
        """The status and the body of a file, over a new connection."""
        mark, client = self.stalls.mark(), self.client(node)
        try:
            return ask(client, "GET", target)
        except (ConnectionError, http.client.HTTPException):
            if not self.is_excused(mark):
                raise
            return self.read(target, node)
        finally:
            client.close()

    def sockets(self):
        """How many sockets the program has, apart from those of its ports. It hasn't ended."""
        count = sockets_of(self.started)
        self.assertIsNone(self.started.poll())
        return count - self.alone

    def assert_in_time(self, is_done, seconds, turn=None, look=LOOK):
        """Does a turn now and then until something is done, which is so before these seconds have passed, without those that the machine took."""
        mark, began = self.stalls.mark(), time.monotonic()
        undone = looked = began
        while not is_done():
            undone = looked
            # A wait for a processor is counted only once it has ended. So this waits on, and judges the last look at which it wasn't done.
            self.assertLess(undone - began, seconds + PATIENCE + self.stalls.since(mark))
            if turn:
                turn()
            time.sleep(look)
            looked = time.monotonic()
        self.assertLess(undone - began, seconds + self.stalls.since(mark))

    def assert_alone(self):
        """All connections have gone."""
        self.assert_in_time(lambda: self.sockets() == 0, GRACE)

    def assert_go(self, plugs, deadline, turn=None, early=0):
        """The program takes each of these connections, and ends it soon after its deadline. It ends none sooner, but so many of the first may go for others:
        answers how many did.

        A connection that it didn't take wouldn't end."""
        limit, left, ends = self.seconds(deadline), {plug.fileno(): plug for plug in plugs}, select.poll()
        staying, sooner = set(plugs[early:]), set()
        for number in left:
            ends.register(number, select.POLLRDHUP)
        while left:
            looked = time.monotonic()
            for number, _ in ends.poll(0):
                ends.unregister(number)
                plug = left.pop(number)
                if time.monotonic() - plug.began < limit * 0.8:
                    sooner.add(plug)
            self.assertEqual(len(staying & sooner), 0, "a connection went too soon")
            if left:
                self.assertLess(looked - min(plug.came for plug in left.values()), limit + GRACE + self.stalls.since(self.mark))
                if turn:
                    turn()
                time.sleep(LOOK)
        return len(sooner)

    def assert_unread_go(self, plugs, deadline, beside=OF_AN_HONEST_ONE):
        """The same where the program has begun replies that nobody reads, and these connections are all but so many: only the sockets of the program tell then
        that a connection has ended."""
        for plug in plugs:
            self.assertEqual(len(plug.recv(1, socket.MSG_PEEK)), 1)
        limit = self.seconds(deadline)
        self.assert_in_time(lambda: self.sockets() <= beside, limit + GRACE)
        # One of these has gone, and the others may be left.
        self.assertGreater(time.monotonic() - plugs[-1 - beside].began, limit * 0.8)

    @contextlib.contextmanager
    def beside_honest(self, *nodes, kind="reads"):
        """Honest clients of these nodes, or of the first, ask meanwhile. Each is answered at once. Then no connection is left."""
        honest = [Honest(self.port + node, kind, self.started.pid, self.seconds(IDLE) / 2, self.asked) for node in nodes or (0,)]
        for client in honest:
            self.addCleanup(client.stop)
        yield
        for client in honest:
            longest, usual = client.end()
            self.assertLess(longest, self.longest)
            self.assertLess(usual, max(self.usual, self.longest - LONGEST))

    def crowd(self, count, given=b"", node=0, room=None, pause=0):
        """Connections over which these bytes were sent, with so many bytes of room for what comes, and a pause after each."""
        plugs = []
        for _ in range(count):
            plugs.append(Plug())
            self.addCleanup(plugs[-1].close)
            plugs[-1].come(self.port + node, given, room)
            time.sleep(pause)
        return plugs

    def downloads(self, count, moved=MOVED):
        """So many connections that took so much of a large file, and take no more: the system holds what a reply goes on with."""
        plugs = self.crowd(count, request("GET", "/s/one/large"), room=4_096)
        for plug in plugs:
            self.assertEqual(len(self.received(plug, moved)), moved)
        return plugs

    def at_once(self, count, work, least, goes_on):
        """Does some work in so many threads, again and again as long as it goes on, and in each so often at least. It fails if one does."""
        faults = []

        def run():
            done = 0
            try:
                while done < least or goes_on():
                    work()
                    done += 1
            except Exception as fault:
                faults.append(fault)

        threads = [threading.Thread(target=run) for _ in range(count)]
        for thread in threads:
            thread.start()
        for thread in threads:
            thread.join()
        self.assertEqual(faults, [])


def for_seconds(seconds):
    """Tells whether so many seconds from now on still go on."""
    until = time.monotonic() + seconds
    return lambda: time.monotonic() < until


def drip(plugs, piece):
    """Sends a piece over each connection that takes it, and forgets the others."""
    for plug in list(plugs):
        try:
            plug.send(piece, socket.MSG_DONTWAIT)
        except BlockingIOError:
            pass
        except ConnectionError:
            plugs.remove(plug)


def reset(plug):
    """Ends a connection by a reset."""
    plug.setsockopt(socket.SOL_SOCKET, socket.SO_LINGER, struct.pack("ii", 1, 0))
    plug.close()
