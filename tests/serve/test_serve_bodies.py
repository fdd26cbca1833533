"""Bodies of requests to `filehost serve`: those that wait for room have no deadline meanwhile, and whatever becomes of one, its room is free then.

What is expected follows from docs/WIRE.md, "Memory" and "Deadlines and places". A second of the deadlines is shorter in some tests.
"""

import json
import random
import select
import socket
import time

from lib.client import LARGEST_FILE, PATIENCE, digest_of, refused, request, sent
from lib.crowds import GRACE, LOOK, TRANSFER, WHOLE, drip, reset
from lib.held_file import HeldFile
from lib.launched import limited_to
from lib.rooms import FILL, MEBIBYTE, WAIT, Room
from lib.served import FILE, ask, seconds_until_closed

# How many bodies stay behind where there is room for them, and how many bytes each has.
BODIES, TAKEN = 12, 3_670_016
# How many small bodies fill the room, and how many bytes more of one then wait.
SMALL, SENT = 97, 100_000
# A second of the deadlines where bodies are to be late, in milliseconds.
SHORT = 60
HELLO, NO_DEPLOY = sent(b"hello"), refused("NoSuchDeploy")
# How many descriptors a program has where others take the places of connections.
FEW = 64


class Bodies(Room):
    def assert_has_room(self):
        """There is room for as many bodies as ever: they stay behind, all taken, and none has to go for another one."""
        plugs = self.begin_bodies(1, BODIES)
        for plug in plugs:
            plug.sendall(bytes(TAKEN))
        self.assert_all_taken()
        self.assertEqual(self.count_gone(plugs), 0)
        for plug in plugs:
            plug.close()
        self.assert_alone()

    def count_gone(self, plugs):
        return [self.is_open(plug) for plug in plugs].count(False)


class Waits(Bodies):
    def begin_waiting(self):
        """Bodies that fill the room, send more, and wait for longer than one may stay behind."""
        self.begin(second=SHORT)
        # Small ones: what one gives that goes is room for few of the others.
        plugs, began = self.begin_fill(SMALL), time.monotonic()
        for plug in plugs:
            plug.setblocking(False)
            plug.send(bytes(SENT))
        time.sleep(self.seconds(TRANSFER + 8))
        # One goes in each time that one waits at most, for the others. The first one doesn't wait, and is late.
        self.assertLessEqual(self.count_gone(plugs), (time.monotonic() - began) / self.seconds(WAIT) + 1)

    def test_have_no_deadline(self):
        self.in_time(self.begin_waiting)

    def test_go_on_once_others_are_late(self):
        """Before any has waited so long that one goes for it. The room of those that were late is free then."""
        self.begin(second=SHORT)
        began, content = time.monotonic(), bytes(LARGEST_FILE)
        fill = self.begin_fill()
        # Before the first of them is late, and not so long before the last one is.
        time.sleep(max(0, began + self.seconds(TRANSFER - 5) - time.monotonic()))
        mark, began = self.stalls.mark(), time.monotonic()
        self.assertEqual(ask(self.client(), "PUT", "/api/v1/deploys/9/files/a", content)[0], 404)
        self.assertLess(time.monotonic() - began, 3 + self.stalls.since(mark))
        self.assertGreater(self.count_gone(fill), 0)
        self.assert_in_time(lambda: self.sockets() <= 1, self.seconds(TRANSFER) + GRACE)
        self.begin_fill(seconds=WAIT)

    def move_one(self):
        """A body moves all the time, and others stay behind. Then one comes that waits for room."""
        self.begin("--conns", str(FILL + 3), second=100)
        moving = self.begin_bodies(1, 1)
        drip(moving, bytes(20_000))
        self.assert_all_taken()
        fill = self.begin_fill()
        content, began = bytes(MEBIBYTE), time.monotonic()
        waiting = self.plug(request("PUT", "/api/v1/deploys/9/files/a", body=content))
        while not select.select([waiting], [], [], LOOK)[0]:
            self.assertLess(time.monotonic() - began, PATIENCE)
            drip(moving, bytes(20_000))
        self.assert_receives(waiting, NO_DEPLOY)
        self.assertEqual(self.count_gone(moving), 0)
        self.assertGreater(self.count_gone(fill), 0)
        for plug in [*moving, *fill, waiting]:
            plug.close()
        self.assertEqual(self.started.wait(PATIENCE), 0)

    def test_one_that_moves_stays_and_one_that_stays_behind_goes(self):
        """That one counts as a client that came and went, as each other does."""
        self.in_time(self.move_one)


class Rooms(Bodies):
    """The room of a body is free again."""

    def test_once_it_is_answered(self):
        """Beside one that stays behind, and has the room of its own that the first one has."""
        self.begin(second=WHOLE)
        first = self.begin_bodies(1, 1)[0]
        first.sendall(bytes(MEBIBYTE))
        self.assert_all_taken()
        asked = request("PUT", "/api/v1/deploys/9/files/a", body=bytes(4 * MEBIBYTE))
        mark, began = self.stalls.mark(), time.monotonic()
        kept = self.plug()
        for _ in range(20):
            plug = self.plug()
            for one in (kept, plug):
                one.sendall(asked)
                self.assert_receives(one, NO_DEPLOY)
            plug.close()
        self.assertLess(time.monotonic() - began, WAIT + self.stalls.since(mark))
        first.close()
        kept.close()
        self.assert_has_room()

    def test_once_its_connection_has_ended(self):
        self.begin(second=WHOLE)
        for how in (reset, socket.socket.close, lambda plug: plug.shutdown(socket.SHUT_WR)):
            plugs = self.begin_fill()
            # One that waits then has no room, and goes too.
            plugs += self.begin_bodies(1, 5)
            for plug in plugs[FILL:]:
                plug.sendall(bytes(SENT))
            time.sleep(0.1)
            for plug in plugs:
                how(plug)
            self.assert_alone()
        self.assert_has_room()

    def test_once_its_place_is_needed(self):
        """One that waits for room goes on soon, long before another one would have to go for it."""
        self.begin(second=WHOLE, **limited_to(FEW))
        plugs, waiting = self.begin_fill(), self.plug(request("GET", FILE))
        # So its place is needed last.
        self.assert_receives(waiting, HELLO)
        mark, began = self.stalls.mark(), time.monotonic()
        waiting.sendall(request("PUT", "/api/v1/deploys/9/files/a", body=bytes(SENT)))
        others = self.crowd(FEW)
        for plug in plugs:
            self.assertLess(seconds_until_closed(plug, PATIENCE), PATIENCE)
        self.assert_receives(waiting, NO_DEPLOY)
        self.assertLess(time.monotonic() - began, WAIT / 2 + self.stalls.since(mark))
        for plug in [*others, waiting]:
            plug.close()
        self.assert_alone()
        self.assert_has_room()

    def evict(self, plugs):
        """Downloads that move take all places, until these have gone for them: one whose request is with a thread goes last."""
        others, left = [], plugs
        while left:
            others += self.downloads(1)
            left = [plug for plug in left if plug not in select.select(left, [], [], 0)[0]]
        for plug in others:
            plug.close()

    def reset_all(self, plugs):
        for plug in plugs:
            reset(plug)

    def test_once_it_is_answered_though_its_client_has_gone(self):
        """Threads that may wait have the requests, and are held."""
        contents = [random.Random(number).randbytes(TAKEN) for number in range(FILL - 1)]
        listed = json.dumps({"files": {f"/{number}": digest_of(content) for number, content in enumerate(contents)}, "draft": True})
        for end_all in (self.reset_all, self.evict):
            store = self.folder().resolve()
            # Both threads are held at the sync after a file's table.
            held = HeldFile(self.folder(), store)
            held.open()
            self.begin("--store", str(store), second=WHOLE, environment=held.environment, **limited_to(FEW))
            client = self.client()
            status, told = ask(client, "POST", "/api/v1/sites/two/deploys", listed)
            self.assertEqual(status, 200, told)
            # From now on they are in the cache, and no thread is needed for them.
            for target in (FILE, "/s/one/large"):
                self.assertEqual(ask(client, "GET", target)[0], 200)
            client.close()
            held.close()
            target = f"/api/v1/deploys/{json.loads(told)['id']}/files"
            plugs = [self.plug(request("PUT", f"{target}/{number}", body=content)) for number, content in enumerate(contents)]
            self.assert_all_taken()
            end_all(plugs)
            held.open()
            self.assert_in_time(lambda: self.sockets() == 0, PATIENCE)
            self.assert_has_room()
            self.end(self.started)
