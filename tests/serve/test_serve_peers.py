"""Crowds at the port for other nodes of one of two nodes: what both have in their caches is answered at once, and what one has to fetch is right, in time.

What is expected follows from docs/WIRE.md, "Deadlines and places", and docs/DECISIONS.md, "Serving over TCP": sixteen places each, and at most two seconds for
the fetches of a request. A second of the deadlines is shorter here, but not those of a fetch.
"""

import concurrent.futures
import contextlib
import itertools
import random
import resource
import select
import socket
import threading
import time

from lib.client import PATIENCE, REQUESTS, digest_of
from lib.crowds import FILES, HEAD, IDLE, LONGEST, LOOK, REPLY, SECOND, SHORT, Crowds, drip, for_seconds, reset
from lib.ring import asking_for, owner
from lib.served import HOST

# The port for other nodes of the second node.
PEERS = 9
# How many connections are served there at once, and how many come that are too many.
AT_ONCE, WAITING = 16, 100
# After so many milliseconds a connection that isn't there has no room in the line.
NO_ROOM = 200
# How many descriptors are for other things than the connections that fill the line.
OTHERS = 100
HEAD_OF_A_CHUNK = b"HTTP/1.1 200 OK\r\nContent-Length: 65536\r\n\r\n"
# The longest that a node tries to fetch a chunk, in seconds.
FETCH = 2


class AtPeers(Crowds):
    """Each kind comes to the port first as many as are served at once, and then more than there are places for."""

    milliseconds = SECOND

    def setUp(self):
        self.begin(nodes=2, second=self.milliseconds)
        drawn = random.Random(1)
        contents = [drawn.randbytes(65_536) for _ in range(60)]
        owned = [content for content in contents if owner(self.port, digest_of(content)) == 1][:12]
        files = {f"/{number}": content for number, content in enumerate(owned)}
        self.assertEqual(len(files), 12)
        self.publish_alone({**FILES, **files})
        # A node that doesn't own a chunk keeps it only now and then.
        for node in (0, 1):
            for _ in range(50):
                self.assertEqual(self.read("/s/one/a.txt", node), (200, b"hello"))
        self.chunk = owned[0]
        # Files that no node has read, and the second node owns.
        self.unread = iter(list(files.items())[1:])

    def assert_fetches(self, seconds):
        """The first node reads a file that it has to fetch from the second one, within this time, without what the machine took."""
        path, content = next(self.unread)
        mark, began = self.stalls.mark(), time.monotonic()
        self.assertEqual(self.read(f"/s/one{path}"), (200, content))
        self.assertLess(time.monotonic() - began, seconds + self.stalls.since(mark))

    @contextlib.contextmanager
    def dripping(self, plugs, piece):
        """Sends a piece over each of these connections now and then."""
        ended = threading.Event()

        def go():
            while not ended.wait(LOOK):
                drip(plugs, piece)

        thread = threading.Thread(target=go)
        thread.start()
        try:
            yield
        finally:
            ended.set()
            thread.join()

    def assert_answers_again(self):
        """The second node answers another one, and what is fetched from it comes at once."""
        plug = self.plug(asking_for(self.chunk), PEERS)
        self.assert_receives(plug, HEAD_OF_A_CHUNK + self.chunk)
        plug.close()
        self.assert_fetches(LONGEST)

    def come(self, given, **how):
        """As many connections as are served at once."""
        return self.crowd(AT_ONCE, given, PEERS, **how)

    def assert_fetches_beside(self, given, piece=b"", **how):
        """While more come, which begin with these bytes and drip others, what the first node fetches is right in time, and when they have gone, at once."""
        with self.beside_honest(0, 1):
            line = self.crowd(WAITING, given, PEERS, **how)
            with self.dripping(list(line), piece):
                for _ in range(2):
                    self.assert_fetches(FETCH + LONGEST)
            for plug in line:
                plug.close()
            self.assert_answers_again()
        self.assert_alone()


class Unread(AtPeers):
    milliseconds = SHORT

    def test_that_read_nothing(self):
        given = asking_for(self.chunk) * REQUESTS
        self.assert_unread_go(self.come(given, room=4_096), REPLY, beside=0)
        self.assert_fetches_beside(given, room=4_096)


class Peers(AtPeers):
    def test_that_say_nothing(self):
        self.assert_go(self.come(b""), IDLE)
        self.assert_fetches_beside(b"")

    def test_that_say_a_part_of_a_head(self):
        self.assert_go(self.come(b"GET /_groupcache"), HEAD)
        self.assert_fetches_beside(b"GET /_groupcache")

    def test_that_drip_a_head(self):
        plugs = self.come(b"GET /")
        self.assert_go(list(plugs), HEAD, lambda: drip(plugs, b"a"))
        self.assert_fetches_beside(b"GET /", b"a")

    def has_room(self, plug):
        """Whether a connection that was begun is there soon."""
        there = select.poll()
        there.register(plug, select.POLLOUT)
        return bool(there.poll(NO_ROOM))

    def fill_the_line(self):
        """Connects until no connection can come any more, or as often as descriptors allow."""
        plugs, most = [], resource.getrlimit(resource.RLIMIT_NOFILE)[0] - OTHERS
        while len(plugs) < most and (not plugs or self.has_room(plugs[-1])):
            plugs.append(socket.socket())
            self.addCleanup(plugs[-1].close)
            plugs[-1].setblocking(False)
            with contextlib.suppress(BlockingIOError):
                plugs[-1].connect((HOST, self.port + PEERS))
        return plugs

    def test_more_that_say_nothing_than_may_wait_in_line(self):
        """The first node can't even connect then."""
        with self.beside_honest(0, 1):
            plugs = self.fill_the_line()
            for _ in range(2):
                self.assert_fetches(FETCH + LONGEST)
            for plug in plugs:
                plug.close()
            self.assert_answers_again()
        self.assert_alone()

    def test_that_ask_all_the_time(self):
        answer, answers = HEAD_OF_A_CHUNK + self.chunk, []

        def ask_often():
            mark = self.stalls.mark()
            with socket.create_connection((HOST, self.port + PEERS), timeout=PATIENCE) as plug, contextlib.suppress(ConnectionError):
                for _ in range(REQUESTS):
                    plug.sendall(asking_for(self.chunk))
                    if (came := self.received(plug, len(answer))) != answer:
                        self.assertTrue(self.is_excused(mark) and answer.startswith(came), came[:200])
                        return
                    answers.append(answer)

        ended, in_time = threading.Event(), for_seconds(PATIENCE)
        with self.beside_honest(0, 1), concurrent.futures.ThreadPoolExecutor(1) as pool:
            crowd = pool.submit(self.at_once, 8, ask_often, 1, lambda: in_time() and not (ended.is_set() and len(answers) > 100))
            try:
                for _ in range(5):
                    self.assert_fetches(FETCH + LONGEST)
                    time.sleep(0.3)
            finally:
                ended.set()
            crowd.result()
            self.assertGreater(len(answers), 100)
            self.assert_answers_again()
        self.assert_alone()

    def test_that_end_their_side(self):
        """What was asked is answered whole; of what isn't whole nothing is, and the connection ends."""
        asked, answer = asking_for(self.chunk), HEAD_OF_A_CHUNK + self.chunk
        cases = itertools.cycle([(asked * 3, answer * 3), (asked + asked[:20], answer), (asked[:20], b""), (b"", b"")])

        def end_side():
            given, wanted = next(cases)
            while True:
                mark, came = self.stalls.mark(), None
                with socket.create_connection((HOST, self.port + PEERS), timeout=PATIENCE) as plug, contextlib.suppress(ConnectionError):
                    plug.sendall(given)
                    plug.shutdown(socket.SHUT_WR)
                    came = self.received(plug, len(wanted) + 1)
                if came == wanted:
                    return
                # It was cut, since the machine held it up.
                self.assertTrue(self.is_excused(mark) and wanted.startswith(came or b""), came)

        with self.beside_honest(0, 1):
            self.at_once(1, end_side, 8, for_seconds(1))
            self.assert_answers_again()
        self.assert_alone()

    def test_that_reset_their_connections(self):
        stages = (b"", b"GET /_groupcache", b"\0" * 100, asking_for(self.chunk), asking_for(self.chunk) * 10, asking_for(b"of no file"))
        each = itertools.cycle(itertools.product(stages, (0, 0.002)))

        def break_off():
            asked, pause = next(each)
            plug = socket.create_connection((HOST, self.port + PEERS), timeout=PATIENCE)
            plug.sendall(asked)
            time.sleep(pause)
            reset(plug)

        with self.beside_honest(0, 1):
            self.at_once(4, break_off, 12, for_seconds(1))
            self.assert_answers_again()
        self.assert_alone()
