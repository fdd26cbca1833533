"""More clients of `filehost serve` than there are places: which newcomers outlast whom, and for whom a download goes.

What is expected follows from docs/WIRE.md, "Deadlines and places". Mostly one worker serves all, so it is known which connection has least to lose.
"""

import contextlib
import select
import time

from lib.client import PATIENCE, request, sent
from lib.crowds import GRACE, MOVED, TRIES, WHOLE, Crowds
from lib.launched import limited_to
from lib.served import FILE

GET, HELLO = request("GET", FILE), sent(b"hello")
# How many descriptors the program has, of which the larger part are for clients.
FEW = 64
# How long a connection is new, and how long all that has to happen meanwhile may take, in seconds.
NEW, MEANWHILE = 1, 0.8
# A second of the deadlines where a download is to be slow, in milliseconds, and after how many of these nothing of it is of late.
SHORT, LATE = 100, 21
# How much of a slow download moves that is to go after one of which nothing does.
LITTLE = 100_000
# A file that is larger than what a reply moves here and what the system holds of it besides.
FILES = {"/a.txt": b"hello", "/large": bytes(2_097_152)}


def ended(plugs):
    """Those of these connections of which nothing else can come that have ended."""
    return [plug for plug in plugs if plug in select.select(plugs, [], [], 0)[0]]


class Newcomers(Crowds):
    """A node with few places, which are all taken."""

    def begin_full(self, second=WHOLE, workers=1):
        """Serves by so many workers. Returns how many places they have: more connections come, and then go."""
        self.begin("--workers", str(workers), second=second, files=FILES, **limited_to(FEW))
        plugs = self.crowd(FEW)
        self.assert_in_time(lambda: 0 < len(ended(plugs)) == FEW - self.sockets(), PATIENCE)
        places = self.sockets()
        self.close(plugs)
        return places

    def close(self, plugs):
        for plug in plugs:
            plug.close()
        self.assert_alone()

    def idle(self, count):
        """So many connections that were answered and are idle, in this order."""
        plugs = []
        for _ in range(count):
            plugs.append(self.plug(GET))
            self.assert_receives(plugs[-1], HELLO)
        return plugs

    def newcomers(self, count):
        """So many silent ones, in this order: of two that come in one millisecond either may go first."""
        plugs = []
        for _ in range(count):
            plugs += self.crowd(1)
            time.sleep(0.002)
        return plugs

    def assert_first_go(self, plugs, wanted, come):
        """Others come for whose places so many of these connections go, and these are the ones."""
        others = come()
        self.assert_in_time(lambda: len(ended(plugs + others)) >= len(wanted), GRACE)
        time.sleep(0.05)
        self.assertEqual([(plugs + others).index(plug) for plug in ended(plugs + others)], wanted)
        return others

    def assert_answered(self, plugs):
        for plug in plugs:
            plug.sendall(GET)
            self.assert_receives(plug, HELLO)

    def while_new(self, places, count, wanted):
        """So many silent ones come where all places have idle ones. Returns both, and which went are those wanted, while those that came are new."""
        for left in reversed(range(TRIES)):
            idle, began = self.idle(places), time.monotonic()
            try:
                new = self.assert_first_go(idle, wanted, lambda: self.newcomers(count))
            except AssertionError:
                if not left or time.monotonic() - began < MEANWHILE:
                    raise
                self.close(idle)
            else:
                return idle, new

    def test_new_ones_outlast_idle_ones(self):
        """As many as are a quarter, and then each is answered. Of the idle ones those go that were silent longest."""
        places = self.begin_full()
        count = places // 4
        idle, new = self.while_new(places, count, list(range(count)))
        self.assert_answered(new + idle[count:])

    def test_of_more_than_a_quarter_the_first_go(self):
        places = self.begin_full()
        count, quarter = places * 3 // 4, places // 4 + 1
        gone = [*range(quarter), *range(places, places + count - quarter)]
        idle, new = self.while_new(places, count, gone)
        self.assert_answered(idle[quarter:] + new[count - quarter:])

    def test_a_second_later_they_go_before_idle_ones(self):
        places = self.begin_full()
        count = places // 4
        idle, new = self.while_new(places, count, list(range(count)))
        time.sleep(NEW * 1.2)
        self.assert_first_go(idle[count:] + new, list(range(places - count, places - count + count // 2)), lambda: self.crowd(count // 2))
        self.assert_answered(idle[count:] + new[count // 2:])

    def test_new_ones_outlast_those_in_the_middle_of_their_next_head(self):
        """Of which those go that moved least of late. The second one that comes finds the first."""
        places = self.begin_full()
        plugs, asked = [], {2: 2, 5: 1}
        for number in range(places):
            count = asked.get(number, 3)
            plugs.append(self.plug(GET * count + GET[:10]))
            self.assert_receives(plugs[-1], HELLO * count)
        late = self.assert_first_go(plugs, [2, 5], lambda: self.crowd(2))
        self.assert_answered(late)

    def test_a_download_that_moves_goes_for_nobody(self):
        """So one that comes is cut."""
        places = self.begin_full()
        plugs = self.downloads(places)
        late = self.plug()
        with contextlib.suppress(ConnectionError):
            self.assertEqual(late.recv(1), b"")
        late.close()
        for plug in plugs:
            self.assertEqual(len(self.received(plug, len(FILES["/large"]) // 2)), len(FILES["/large"]) // 2)

    def test_of_downloads_the_one_goes_that_moved_least(self):
        places, half = self.begin_full(SHORT), len(FILES["/large"]) // 2
        slow, slower = self.downloads(2)
        # What they moved is no longer of late.
        time.sleep(LATE * SHORT / 1_000)
        plugs = self.downloads(places - 2)
        self.received(slow, LITTLE)
        late = self.plug(GET)
        self.assert_receives(late, HELLO)
        self.assertLess(len(self.received(slower, 2 * half)), half)
        for plug in [slow, *plugs]:
            self.assertEqual(len(self.received(plug, half)), half)

    def test_a_worker_that_had_none_to_give_gives_one_that_is_idle_now(self):
        """All are downloads that move, so each that comes is cut. Soon after, one of them is over, and another one has its place."""
        places, rest = self.begin_full(workers=2), len(FILES["/large"]) - MOVED
        plugs = self.downloads(places)
        for _ in range(4):
            with contextlib.suppress(ConnectionError):
                self.assertEqual(self.plug().recv(1), b"")
            self.assertEqual(len(self.received(plugs.pop(0), rest)), rest)
            plugs += self.downloads(1)
        for plug in plugs:
            self.assertEqual(len(self.received(plug, rest)), rest)
