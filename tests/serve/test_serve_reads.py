"""`filehost serve` while the sync of a change is held: no read comes to the desk, whatever its connection has seen.

A read asks the desk only if its connection knows of entries that aren't shown yet. Whoever asks the desk waits for the lock of its book, which a change has until
it is synced and shown. So a read that comes to the desk meanwhile has no reply before the change has one. The reads that are answered are counted.
"""

from lib.client import digest_of, opened, opening, refused, request, sent, to_head, upload, uploaded
from lib.held_file import HeldFile
from lib.served import Served, publish
from lib.worked_runs import NO_CHANGE, NO_FILE, entry, removing, undoing

KEPT, GONE = b"kept", b"gone"
# How often a change is held.
ROUNDS = 6
# Each read, with its reply while the removal of /gone.txt isn't shown.
READS = [
    (request("GET", "/s/one/kept.txt"), sent(KEPT)),
    (request("HEAD", "/s/one/kept.txt"), to_head(sent(KEPT))),
    (request("GET", "/s/one/gone.txt"), sent(GONE)),
    (request("GET", "/d/one/1/gone.txt"), sent(GONE)),
    (request("GET", "/s/one/none.txt"), NO_FILE),
]


class Reads(Served):
    def begin(self, workers, nodes):
        store = self.folder().resolve()
        self.held = HeldFile(self.folder(), store / "journal.2")
        self.held.open()
        self.serve("--workers", str(workers), "--store", str(store), nodes=nodes, environment=self.held.environment)
        self.last = publish(self.client(), {"/kept.txt": KEPT, "/gone.txt": GONE})

    def exchange(self, plug, asked, wanted):
        plug.sendall(asked)
        self.assert_receives(plug, wanted)

    def learn(self, node):
        """Connections to a node that know all entries: each asked for something else, and was answered after the last change."""
        new = self.last + 1
        self.last += 2
        asked = [
            (opening({"/kept.txt": digest_of(KEPT)}, site="two"), opened(new, published=self.last)),
            (upload(1, "kept.txt", KEPT), uploaded(KEPT)),
            (upload(1, "kept.txt", GONE), refused("WrongDigest")),
            (removing("/none.txt"), NO_FILE),
            (undoing(10_000), NO_CHANGE),
            READS[0],
        ]
        plugs = []
        for one in asked:
            plugs.append(self.plug(node=node))
            self.exchange(plugs[-1], *one)
        return plugs

    def hold(self, changing):
        """Holds the sync of a change that this connection asks for. If there is a second node, another change waits for the desk there: a node has two
        threads for what may wait, and a read of what isn't in the caches needs one of them."""
        self.held.close()
        changing.sendall(removing("/gone.txt"))
        self.held.wait("held")
        return self.plug(undoing(self.last + 1), node=1) if self.nodes > 1 else None

    def count(self, plugs):
        """How many reads of these connections and of new ones are answered while the change is held."""
        count = 0
        for plug in [*plugs, *(self.plug(node=node) for node in range(self.nodes))]:
            for asked, wanted in READS:
                self.exchange(plug, asked, wanted)
                count += 1
        self.assertEqual(self.held.told(), ["held"])
        return count

    def let_go(self, changing, waiting):
        """The change goes on, and another one takes it back, over a connection that this returns."""
        self.assert_silent(changing)
        self.held.open()
        self.assert_receives(changing, entry(self.last + 1))
        waiting = waiting or self.plug(undoing(self.last + 1))
        self.assert_receives(waiting, entry(self.last + 2))
        self.last += 2
        return waiting

    def play(self, changing):
        """A change is held while all read, and then another one takes it back."""
        plugs = [plug for node in range(self.nodes) for plug in self.learn(node)]
        waiting = self.hold(changing)
        self.assertEqual(self.count(plugs), (len(plugs) + self.nodes) * len(READS))
        waiting = self.let_go(changing, waiting)
        # It has seen the undo, or not: another connection asked for it.
        self.exchange(waiting, *READS[2])
        for plug in (*plugs, waiting):
            plug.close()

    def test_none_comes_to_the_desk(self):
        for self.nodes, workers in ((1, 2), (2, 4)):
            with self.subTest(nodes=self.nodes, workers=workers):
                self.begin(workers, self.nodes)
                changing = self.plug()
                for _ in range(ROUNDS):
                    self.play(changing)

    def test_that_of_whoever_made_the_last_change_comes_to_no_desk(self):
        """The connection knows of it by its receipt, and its worker has looked at nothing since."""
        self.nodes = 2
        self.begin(workers=1, nodes=self.nodes)
        plug, changing = self.plug(), self.plug(node=1)
        self.last += 2
        self.exchange(plug, opening({"/kept.txt": digest_of(KEPT)}, site="two"), opened(self.last - 1, published=self.last))
        waiting = self.hold(changing)
        for asked, wanted in READS:
            self.exchange(plug, asked, wanted)
        self.assertEqual(self.held.told(), ["held"])
        self.let_go(changing, waiting)
