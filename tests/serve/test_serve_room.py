"""What the connections of `filehost serve` may hold in memory, and who goes if they hold more.

What is expected follows from docs/WIRE.md, "Deadlines and places". A second of the deadlines is shorter here.
"""

import contextlib
import hashlib
import random
import select
import socket
import threading
import time

from lib.client import LARGEST_FILE, PATIENCE, SECONDS, digest_of, request, sent
from lib.crowds import GRACE, WHOLE, reset
from lib.launched import limited_to
from lib.rooms import MEBIBYTE, OF_BODIES, OF_REPLIES, WAIT, Room, held_for
from lib.served import FILE, ask, publish, sockets_of
from lib.stalls import Stalls
from lib.stores import PIECE, files_of, opening_of
import journal

# How many MiB the program takes for other things than what its connections hold.
OTHERS = 24
# How many bytes a piece of a file takes, times its own: it has whole pages, and one for its head.
OF_PIECES = 17 / 16
# How many MiB the cache of a node has.
OF_THE_CACHE = 64
# How many bodies there are, and how many bytes each sends at first, which are all taken, and then: for these there isn't room enough.
BODIES, TAKEN, MORE = 12, 3_670_016, MEBIBYTE
# A second of the deadlines where bodies are to go, in milliseconds, and where replies are.
SECOND, SHORT = 200, 50
# More bytes of a reply than the system holds.
MUCH = 2 * MEBIBYTE
# How many workers a node has where its memory is measured, and how many MiB each takes beside what replies may hold: a reply counts once its first step has
# ended.
WORKERS, OF_A_WORKER = 2, 16
# How many readers there are, and how many of them are left: their replies hold as much as replies may.
READERS, LEFT = 64, OF_REPLIES * MEBIBYTE // LARGEST_FILE
# All but the last piece of a file are those of one of so many contents. So many together are more than a node's cache has; or fewer, for which it has room.
CONTENTS, CACHED = 8, 2
# How many descriptors a program has where others take the places of connections, and more bytes than the system holds of a reply, which these move.
FEW, MORE_MOVED = 64, 400_000
# How many connections are idle, what each was answered, and how many MiB they take at most.
IDLE_ONES, HELLO, OF_IDLE_ONES = 1_000, sent(b"hello"), 8
# How many replies hold one file, which is read from the store for each.
HOLDERS = 8
# What the operator is told where a reply ends since all hold too much.
TOLD = rb"\Afilehost: \S+Z replies: they hold more than they may, so the slowest one ends( \(\d+ more\))?\n\Z"
# How many bytes the system holds of a reply at most, and how many it holds for a client that takes none.
SYSTEM, FAR = 262_144, 65_536


class Rooms(Room):
    """Bodies that wait for room, and replies that hold too much."""

    def test_bodies_hold_no_more_than_they_may(self):
        started = self.serve(second=WHOLE)
        plugs = self.begin_bodies(1, BODIES)
        before, began = self.resident(started)[0], time.monotonic()
        self.push(plugs, 12 * MEBIBYTE, 0.5)
        self.assert_takes(started, before + OF_BODIES / 2)
        self.assert_stay(plugs, began, WHOLE)
        self.assertLess(self.resident(started)[1], before + OF_BODIES + OTHERS)

    def test_bodies_that_stay_behind_give_their_room_to_one_that_comes(self):
        started = self.serve(second=SECOND)
        stalls, content = Stalls(started.pid), random.Random(1).randbytes(LARGEST_FILE)
        ask(self.client(), "POST", "/api/v1/sites/s/deploys", f'{{"files":{{"/large":"{digest_of(content)}"}}}}')
        plugs = self.begin_bodies(1, BODIES)
        before = self.resident(started)[0]
        self.push(plugs, TAKEN, PATIENCE)
        self.assert_takes(started, before + BODIES * TAKEN / MEBIBYTE * 0.8)
        began = time.monotonic()
        self.push(plugs, MORE, 0.5)
        self.assert_stay(plugs, began, SECOND)
        # What they moved is no longer of late.
        time.sleep(4.5)
        mark, began = stalls.mark(), time.monotonic()
        self.assertEqual(ask(self.client(), "PUT", "/api/v1/deploys/1/files/large", content)[0], 200)
        # Had it waited for the deadline of the others, it would have taken longer: that is 12 seconds from their last bytes.
        self.assertLess(time.monotonic() - began, 5 + stalls.since(mark))
        self.assertLess(self.resident(started)[1], before + OF_BODIES + 16 + OTHERS)
        self.assertIn(False, [self.is_open(plug) for plug in plugs])

    def test_bodies_that_go_on_all_come_whole(self):
        self.serve("--workers", "4")
        content = random.Random(2).randbytes(LARGEST_FILE)
        ask(self.client(), "POST", "/api/v1/sites/s/deploys", f'{{"files":{{"/large":"{digest_of(content)}"}}}}')
        plugs, ready = self.begin_bodies(1, 8), select.poll()
        rests = {plug.fileno(): (plug, memoryview(content)) for plug in plugs}
        for number, (plug, _) in rests.items():
            plug.setblocking(False)
            ready.register(number, select.POLLOUT)
        until = time.monotonic() + SECONDS
        while rests and time.monotonic() < until:
            for number, _ in ready.poll(PATIENCE * 1_000):
                plug, rest = rests.pop(number)
                with contextlib.suppress(BlockingIOError):
                    rest = rest[plug.send(rest[:262_144]) :]
                if rest:
                    rests[number] = plug, rest
                else:
                    ready.unregister(number)
        for plug in plugs:
            plug.settimeout(PATIENCE)
            self.assertEqual(self.received(plug, 12), b"HTTP/1.1 200")

    def write_store(self, readers=READERS, count=CONTENTS):
        """A folder with a store of `hello` and of a file for each of so many readers, all different, and the digests of these files. They have so many contents
        but for their last pieces."""
        folder, entries, digests = self.folder(), [opening_of({"/a.txt": b"hello"}), ("publish", "one", 1)], []
        drawn = random.Random(4)
        contents = [drawn.randbytes(LARGEST_FILE - PIECE) for _ in range(count)]
        lasts = [drawn.randbytes(PIECE) for _ in range(readers)]
        for content in (b"hello", *contents, *lasts):
            for name, data in files_of(content).items():
                (folder / name).write_bytes(data)
        fronts = [hashlib.sha1(content) for content in contents]
        for number, last in enumerate(lasts):
            front = fronts[number % count]
            whole = front.copy()
            whole.update(last)
            digests.append(whole.hexdigest())
            names = (folder / f"t-{front.hexdigest()}").read_bytes()[8:] + bytes.fromhex(digest_of(last))
            (folder / f"t-{digests[-1]}").write_bytes(LARGEST_FILE.to_bytes(8, "big") + names)
            entries += [("open", f"site{number}", ("auto",), (("/large", digests[-1]),)), ("publish", f"site{number}", len(entries) + 1)]
        (folder / "journal").write_bytes(journal.write(entries))
        return folder, digests

    def test_replies_that_nobody_reads_hold_no_more_than_they_may(self):
        folder, digests = self.write_store()
        self.assertEqual(len(set(digests)), READERS)
        started = self.serve("--store", str(folder), "--workers", str(WORKERS), second=WHOLE)
        before, alone = self.resident(started)[0], sockets_of(started)
        plugs = [self.reader(f"/s/site{number}/large") for number in range(READERS - 1)]
        # Workers that look at the same moment may each end one. So all others have gone that have to, before the last comes.
        self.assert_has_at_most(started, alone + LEFT)
        plugs.append(self.reader(f"/s/site{READERS - 1}/large"))
        self.assertEqual(ask(self.client(), "GET", FILE), (200, b"hello"))
        # Without a bound the replies would hold four times as much.
        self.assertLess(self.resident(started)[1], before + (OF_REPLIES + OF_THE_CACHE + WORKERS * OF_A_WORKER) * OF_PIECES + OTHERS)
        bodies = self.read_all(plugs)
        self.assert_takes_at_most(started, before + OF_THE_CACHE * OF_PIECES + OTHERS)
        whole = [(body.hash.hexdigest(), digest) for body, digest in zip(bodies, digests) if body.size == LARGEST_FILE]
        # The small file came from the store, and counted too until it was sent: one more may have gone for it.
        self.assertIn(len(whole), (LEFT - 1, LEFT))
        for came, digest in whole:
            self.assertEqual(came, digest)

    def test_a_file_is_in_memory_once_however_many_replies_hold_it(self):
        """The cache lets its pieces go between one reply and the next."""
        folder, _ = self.write_store()
        started = self.serve("--store", str(folder), "--workers", "1", second=WHOLE)
        before, plugs = self.resident(started)[0], []
        for _ in range(HOLDERS):
            plugs.append(self.reader("/s/site0/large"))
            for number in range(1, CONTENTS):
                self.assertEqual(len(ask(self.client(), "GET", f"/s/site{number}/large")[1]), LARGEST_FILE)
        of_one = LARGEST_FILE / MEBIBYTE
        self.assertLess(self.resident(started)[0], before + (OF_THE_CACHE + of_one) * OF_PIECES + OTHERS)
        self.read_all(plugs)
        self.assert_takes_at_most(started, before + OF_THE_CACHE * OF_PIECES + OTHERS)

    def go_for_others(self, plugs):
        """Clients come, more than there are places, and each moves more than these connections and is in the middle of its next head: so these go. Returns the
        clients."""
        others = []
        for _ in range(FEW):
            others.append(self.plug(request("GET", "/s/site0/large", f"Range: bytes=0-{MORE_MOVED}") + request("GET", FILE)[:10]))
            self.assertEqual(len(self.received(others[-1], MORE_MOVED)), MORE_MOVED)
        self.assertGreater(len([body for body in self.read_all(plugs) if body.size < LARGEST_FILE]), 0)
        return others

    def test_a_reply_gives_its_room_back_once_it_is_sent_or_broken_off(self):
        """One connection reads more files in turn than there is room for. As many others ask for one and go, and some have to. Then there is room as before."""
        folder, digests = self.write_store(LEFT + 4, CACHED)
        started = self.serve("--store", str(folder), "--workers", "2", second=WHOLE, **limited_to(FEW))
        alone, client = sockets_of(started), self.client()
        for number in range(LEFT + 4):
            status, content = ask(client, "GET", f"/s/site{number}/large")
            self.assertEqual((status, digest_of(content)), (200, digests[number]))
        client.close()
        for number in range(LEFT + 4):
            reset(self.reader(f"/s/site{number}/large"))
        self.assert_has_at_most(started, alone)
        for plug in self.go_for_others([self.reader(f"/s/site{number}/large") for number in range(LEFT - 2)]):
            plug.close()
        self.assert_has_at_most(started, alone)
        # They aren't all of the same files as those before.
        numbers = range(6, LEFT + 4)
        plugs = [self.plug(request("GET", f"/s/site{number}/large", "Connection: close")) for number in numbers]
        for plug in plugs:
            self.assertEqual(plug.recv(1, socket.MSG_PEEK), b"H")
        for number, body in zip(numbers, self.read_all(plugs)):
            self.assertEqual(body.hash.hexdigest(), digests[number])

    @contextlib.contextmanager
    def reading(self, plug):
        """Reads what comes over a connection all the time, slowly."""
        ended = threading.Event()

        def go():
            while not ended.wait(0.005):
                plug.recv(4_096)

        thread = threading.Thread(target=go)
        thread.start()
        try:
            yield
        finally:
            ended.set()
            thread.join()

    def test_ranges_of_a_file_that_end_one_after_another_give_their_room_back(self):
        """As of a client that loads one file over several connections, again and again. In the end a reply may hold all that there is room for."""
        self.serve(second=SECOND)
        content, part = random.Random(5).randbytes(LARGEST_FILE), LARGEST_FILE // HOLDERS
        publish(self.client(), {"/large": content})
        for _ in range(2 * OF_REPLIES * MEBIBYTE // LARGEST_FILE):
            plugs = [self.reader("/s/one/large", f"Range: bytes={first}-{first + part - 1}") for first in range(0, LARGEST_FILE, part)]
            for plug in plugs:
                self.assertEqual(self.read_all([plug])[0].size, part)
                plug.close()
        plug = self.reader("/s/one/large")
        # The node looks several times meanwhile whether replies hold too much.
        time.sleep(5 * SECOND / 1_000)
        body, = self.read_all([plug])
        self.assertEqual(body.hash.hexdigest(), digest_of(content))

    def test_of_replies_that_hold_too_much_the_one_goes_that_moved_least_of_late(self):
        """It is one that moved much, but long ago; and not the one that began first, whose client goes on to read."""
        started = self.serve("--store", str(self.write_store(LEFT + 1, CACHED)[0]), "--workers", "1", second=SHORT)
        alone = sockets_of(started)
        moving, once = self.reader("/s/site0/large"), self.reader("/s/site1/large")
        self.assertEqual(len(self.received(once, MUCH)), MUCH)
        with self.reading(moving):
            time.sleep(2 * WAIT * SHORT / 1_000)
            # Each of the others moves what the system holds of it.
            others = [self.reader(f"/s/site{number}/large") for number in range(2, LEFT + 1)]
            self.assert_has_at_most(started, alone + LEFT)
        for plug in [moving, *others]:
            self.assertEqual(len(self.received(plug, MUCH)), MUCH)
        self.assertLess(len(self.received(once, LARGEST_FILE - MUCH)), MUCH)

    def test_the_operator_is_told_that_a_reply_ends_since_all_hold_too_much(self):
        started = self.serve("--store", str(self.write_store(LEFT + 1, CACHED)[0]), "--workers", "1", second=WHOLE)
        for number in range(LEFT + 1):
            self.reader(f"/s/site{number}/large")
        self.assertTrue(select.select([started.stderr], [], [], PATIENCE)[0])
        self.assertRegex(started.stderr.readline(), TOLD)

    def test_the_system_holds_as_much_of_a_reply_as_a_client_far_away_takes_at_once(self):
        """With less, each round trip would bring but a few bytes; with more, a slow client would be late."""
        self.begin(files={"/large": bytes(MUCH)}, second=WHOLE)
        plug = self.reader("/s/one/large")
        self.assert_in_time(lambda: FAR < held_for(plug) <= SYSTEM, GRACE)

    def test_idle_connections_take_little_memory(self):
        """Each has read a file, so it had the room for heads and for replies, which would be 25 MiB for all."""
        self.begin(second=WHOLE)
        before, plugs = self.resident(self.started)[0], []
        for _ in range(IDLE_ONES):
            plugs.append(self.plug(request("GET", FILE)))
            self.assert_receives(plugs[-1], HELLO)
        self.assertLess(self.resident(self.started)[0], before + OF_IDLE_ONES)
        for plug in plugs:
            plug.sendall(request("GET", FILE))
            self.assert_receives(plug, HELLO)

    def test_readers_of_one_file_are_not_cut(self):
        self.serve("--workers", "4", second=WHOLE)
        content = random.Random(3).randbytes(LARGEST_FILE)
        publish(self.client(), {"/a.txt": content})
        plugs = [self.reader(FILE) for _ in range(20)]
        for body in self.read_all(plugs):
            self.assertEqual(body.hash.hexdigest(), digest_of(content))
