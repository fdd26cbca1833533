"""`filehost serve` while the load of a chunk from the shelf is held: whom that holds, and how often the chunk is loaded.

What is expected follows from docs/ARCHITECTURE.md, "How `serve` is built": a worker that waits for a load holds no other worker, those who want the same
chunk wait for the same load, and what is in a node's cache is read past the shelf. Other chunks are loaded meanwhile, and files are uploaded.
"""

import random
import time

from lib.client import HELLO, PATIENCE, REQUESTS, digest_of, done, opened, opening, refused, request, sent, to_head
from lib.held_file import HeldFile
from lib.ring import NO_CHUNK, PEERS, asking_for as asking_node_for
from lib.served import Served, ask, publish
from lib.worked_runs import entry, removing, undoing

# Of each file its content, which is one chunk.
FILES = {path: random.Random(path).randbytes(size) for path, size in (("/x.txt", 60_000), ("/y.txt", 50_000), ("/z.txt", 65_536))}
# What is told of a file that was loaded once.
LOADED = ["opened", "held", "went on"]
# A body that takes long to be parsed, and asks for nothing, and how many requests come meanwhile.
LONG = b'{"files":{"/a":"no digest"},"x":[' + b'{"":0},' * 590_000 + b'{"":0}]}'
WAITING = 8
# The longest that a node waits for another one, in seconds.
FETCH = 2
# How many other nodes ask at once, each as often as one may over a connection, and how many times.
AT_ONCE, ROUNDS = 12, 50


def asking_for(path, method="GET"):
    return request(method, f"/s/one{path}")


def reply_with(path):
    return sent(FILES[path])


class Held(Served):
    """The load of /x.txt is held until it is let go."""

    def begin(self, workers, nodes=1):
        """Serves the files. /y.txt was read at each node, and /x.txt at none."""
        room, store = self.folder().resolve(), self.folder().resolve()
        self.held = HeldFile(room, store / f"c-{digest_of(FILES['/x.txt'])}")
        self.serve("--workers", str(workers), "--store", str(store), nodes=nodes, environment=self.held.environment)
        publish(self.client(), FILES)
        for node in range(nodes):
            self.assertEqual(ask(self.client(node), "GET", "/s/one/y.txt"), (200, FILES["/y.txt"]))
        self.assertEqual(self.held.told(), [])

    def hold(self, node=0):
        """A connection whose request is in the midst of the load."""
        plug = self.plug(asking_for("/x.txt"), node)
        self.held.wait("opened", "held")
        return plug

    def assert_still_held(self):
        self.assertEqual(self.held.told(), ["opened", "held"])

    def assert_loaded_once(self):
        self.held.wait(*LOADED)

    def assert_goes_on(self, *plugs):
        """Each of these connections was sent nothing; once the load is let go, each is sent the file, which was loaded once."""
        for plug in plugs:
            self.assert_silent(plug)
        self.assert_still_held()
        self.held.open()
        for plug in plugs:
            self.assert_receives(plug, reply_with("/x.txt"))
        self.assert_loaded_once()


class Loads(Held):
    def test_holds_no_other_connection(self):
        self.begin(workers=2)
        first = self.hold()
        second = self.plug(asking_for("/y.txt"))
        self.assert_receives(second, reply_with("/y.txt"))
        self.assert_goes_on(first)

    def test_holds_no_change_and_no_read_without_a_load(self):
        self.begin(workers=2)
        first = self.hold()
        second = self.plug()
        for asked, wanted in [
            (asking_for("/x.txt", "HEAD"), to_head(reply_with("/x.txt"))), (removing("/x.txt"), entry(3)), (undoing(3), entry(4)),
            (request("GET", "/api/v1/deploys/1"), done(id="1", required=[], site="one", state="kept")), (asking_for("/y.txt"), reply_with("/y.txt")),
        ]:
            second.sendall(asked)
            self.assert_receives(second, wanted)
        self.assert_goes_on(first)

    def test_goes_on_for_the_version_that_was_asked_for(self):
        """Though the file was removed meanwhile."""
        self.begin(workers=2)
        first = self.hold()
        second = self.plug(removing("/x.txt"))
        self.assert_receives(second, entry(3))
        self.assert_goes_on(first)
        self.assertEqual(ask(self.client(), "GET", "/s/one/x.txt")[0], 404)

    def test_is_shared_by_those_who_want_the_same_chunk(self):
        self.begin(workers=3)
        first = self.hold()
        third = self.plug(asking_for("/x.txt"))
        self.assert_silent(third)
        second = self.plug(asking_for("/y.txt"))
        self.assert_receives(second, reply_with("/y.txt"))
        self.assert_goes_on(first, third)

    def test_is_kept_for_those_who_come_after_it(self):
        self.begin(workers=2)
        self.assert_goes_on(self.hold())
        self.assertEqual(ask(self.client(), "GET", "/s/one/x.txt"), (200, FILES["/x.txt"]))
        self.assertEqual(self.held.told(), LOADED)

    def test_holds_no_load_of_another_chunk(self):
        self.begin(workers=2)
        first = self.hold()
        second = self.plug(asking_for("/z.txt"))
        self.assert_receives(second, reply_with("/z.txt"))
        self.assert_goes_on(first)

    def test_holds_no_read_from_the_caches_though_more_wait_for_it_than_threads_may_wait(self):
        """A node of one worker answers each read that its caches have, and each list of changes."""
        self.begin(workers=1)
        first = self.hold()
        others = [self.plug(asking_for("/x.txt")) for _ in range(4)]
        for _ in range(10):
            second = self.plug(asking_for("/y.txt") + request("GET", "/api/v1/sites/none/changes") + asking_for("/y.txt"))
            self.assert_receives(second, reply_with("/y.txt") + done(changes=[]) + reply_with("/y.txt"))
        self.assert_goes_on(first, *others)

    def test_holds_no_upload(self):
        """Nor the first read of what was uploaded."""
        self.begin(workers=2)
        first, client, content = self.hold(), self.client(), bytes(200_000)
        publish(client, {"/new.txt": content}, site="two")
        self.assertEqual(ask(client, "GET", "/s/two/new.txt"), (200, content))
        self.assert_goes_on(first)

    def test_those_that_wait_for_a_thread_are_answered_in_their_order(self):
        """The load holds one of the two threads that may wait. The other one parses a long body when they come."""
        self.begin(workers=1)
        first, plugs = self.hold(), [self.plug(asking_for("/y.txt")) for _ in range(WAITING)]
        for plug in plugs:
            self.assert_receives(plug, reply_with("/y.txt"))
        long = self.plug(request("POST", "/api/v1/sites/one/deploys", body=LONG))
        time.sleep(0.1)
        for plug in plugs:
            plug.sendall(opening({"/new.txt": HELLO}, "two"))
            time.sleep(0.002)
        self.assert_receives(long, refused("BadDigest"))
        # The files were published by the second entry.
        for number, plug in enumerate(plugs, 3):
            self.assert_receives(plug, opened(number, HELLO))
        self.assert_goes_on(first)

    def test_goes_on_though_its_client_has_gone(self):
        self.begin(workers=2)
        self.hold().close()
        second = self.plug(asking_for("/y.txt"))
        self.assert_receives(second, reply_with("/y.txt"))
        self.assert_goes_on()
        self.assertEqual(ask(self.client(), "GET", "/s/one/x.txt"), (200, FILES["/x.txt"]))


class Nodes(Held):
    """Two nodes of one worker each."""

    def hold(self, node=0):
        self.began = time.monotonic()
        return super().hold(node)

    def is_slow(self):
        """Whether a node may have waited for the other one as long as it does. Then it may have begun to load the chunk itself."""
        return time.monotonic() - self.began >= FETCH

    def assert_still_held(self):
        told = self.held.told()
        self.assertEqual(told[:2] if self.is_slow() else told, ["opened", "held"])

    def assert_loaded_once(self):
        """On a machine that is so slow that the other node has given up to wait, that node has loaded it too, whole."""
        if not self.is_slow():
            super().assert_loaded_once()
            return
        until = time.monotonic() + PATIENCE
        while (told := sorted(self.held.told())) not in (sorted(LOADED), sorted(LOADED * 2)):
            self.assertLess(time.monotonic(), until, told)
            time.sleep(0.01)

    def test_a_held_load_holds_no_other_node(self):
        for node in (0, 1):
            with self.subTest(node):
                self.begin(workers=1, nodes=2)
                first = self.hold(node)
                second = self.plug(asking_for("/y.txt"), 1 - node)
                self.assert_receives(second, reply_with("/y.txt"))
                self.assert_goes_on(first)

    def test_two_nodes_that_want_the_same_chunk_load_it_once(self):
        """The node that doesn't own it asks the other one, and waits for the load there."""
        for node in (0, 1):
            with self.subTest(node):
                self.begin(workers=1, nodes=2)
                first = self.hold(node)
                second = self.plug(asking_for("/x.txt"), 1 - node)
                self.assert_goes_on(first, second)


class Joined(Served):
    """Loads that others join at any moment, also at their end."""

    def test_each_is_answered_who_asks_for_a_chunk_that_is_not_there(self):
        """Nothing is kept of it, so each request begins a load, or joins the one of another thread."""
        self.serve()
        for _ in range(ROUNDS):
            plugs = [self.plug(asking_node_for(b"of no file") * REQUESTS, PEERS) for _ in range(AT_ONCE)]
            for plug in plugs:
                self.assert_receives(plug, NO_CHUNK * REQUESTS)
                plug.close()
