"""`filehost serve` while the sync of an upload's piece is held: whom that holds, and what two uploads of one file leave. And deploys of many files.

What is expected follows from docs/ARCHITECTURE.md, "Between crates": an upload takes its locks in steps, and none while its bytes are written and synced.
"""

import random
import time

from lib.client import PATIENCE, digest_of, done, opened, opening, refused, request, sent, upload, uploaded
from lib.held_file import HeldFile
from lib.served import Served, ask, publish
from lib.stores import PIECE, is_stored
from lib.worked_runs import entry, removing, showing, undoing

FILES = {path: random.Random(path).randbytes(size) for path, size in (("/x.txt", 60_000), ("/y.txt", 3 * PIECE), ("/z.txt", 50_000))}
X, Y = (digest_of(FILES[path]) for path in ("/x.txt", "/y.txt"))
# What is told of the deploy that lists them.
STANDS = done(id="3", required=sorted([X, Y]), site="two", state="open")


class HeldSyncs(Served):
    """A file is served, and deploy 3 lists two that aren't uploaded yet. The first piece that is written after that is held before its sync."""

    # Of which file of the store syncs are held, or of the folder itself.
    file = "blob-0.tmp"

    def begin(self, workers, nodes=1):
        room, self.store = self.folder().resolve(), self.folder().resolve()
        self.held = HeldFile(room, self.store / self.file)
        self.held.open()
        started = self.serve("--workers", str(workers), "--store", str(self.store), nodes=nodes, environment=self.held.environment)
        publish(self.client(), {"/z.txt": FILES["/z.txt"]})
        self.held.close()
        plug = self.plug(opening({"/x.txt": X, "/y.txt": Y}, site="two"))
        self.assert_receives(plug, opened(3, *sorted([X, Y])))
        return started

    def upload(self, path, node=0):
        """A connection that uploads a file of the deploy."""
        return self.plug(upload(3, path[1:], FILES[path]), node)

    def hold(self, path, node=0):
        """One whose upload is in the midst of the sync."""
        plug = self.upload(path, node)
        self.held.wait("opened", "held")
        return plug

    def assert_goes_on(self, plug, path, published):
        """The upload was told nothing; once the sync is let go, it is told that it is done."""
        self.assert_silent(plug)
        self.assertEqual(self.held.told(), ["opened", "held"])
        self.held.open()
        self.assert_receives(plug, uploaded(FILES[path], published))

    def assert_served(self, *paths):
        for path in paths:
            self.assertEqual(ask(self.client(), "GET", f"/s/two{path}"), (200, FILES[path]))


class Syncs(HeldSyncs):
    def test_hold_no_other_upload(self):
        """Its file is known before that of the held one, which publishes the deploy then."""
        for nodes in (1, 2):
            with self.subTest(nodes):
                self.begin(workers=2, nodes=nodes)
                first = self.hold("/x.txt")
                second = self.upload("/y.txt", nodes - 1)
                self.assert_receives(second, uploaded(FILES["/y.txt"]))
                self.assert_goes_on(first, "/x.txt", 4)
                self.assert_served("/x.txt", "/y.txt")

    def test_hold_no_change_and_no_read(self):
        self.begin(workers=2)
        first = self.hold("/x.txt")
        second = self.plug()
        for asked, wanted in [
            (request("GET", "/s/one/z.txt"), sent(FILES["/z.txt"])), (removing("/z.txt"), entry(4)), (undoing(4), entry(5)),
            (showing(3), STANDS),
        ]:
            second.sendall(asked)
            self.assert_receives(second, wanted)
        self.assert_goes_on(first, "/x.txt", None)

    def test_hold_no_upload_of_the_same_bytes(self):
        """Both put the same files, each under a temporary name of its own first."""
        self.begin(workers=2)
        first = self.hold("/x.txt")
        second = self.upload("/x.txt")
        self.assert_receives(second, uploaded(FILES["/x.txt"]))
        self.assert_goes_on(first, "/x.txt", None)
        self.assertTrue(is_stored(self.store, FILES["/x.txt"]))
        self.assertEqual(list(self.store.glob("*.tmp")), [])
        third = self.upload("/y.txt")
        self.assert_receives(third, uploaded(FILES["/y.txt"], 4))
        self.assert_served("/x.txt", "/y.txt")


class Folders(HeldSyncs):
    """Syncs of the folder, by which the names of files last."""

    file = "."

    def test_begin_after_the_last_file_has_its_name(self):
        """While the sync for one upload goes on, another one gets its names. It isn't answered before the folder was synced since."""
        self.begin(workers=2)
        self.assert_receives(self.plug(opening({"/x.txt": X, "/y.txt": Y, "/w.txt": digest_of(b"w")}, site="three")), opened(4, *sorted([X, Y, digest_of(b"w")])))
        first = self.plug(upload(4, "x.txt", FILES["/x.txt"]))
        self.held.wait("opened", "held")
        second = self.plug(upload(4, "y.txt", FILES["/y.txt"]))
        until = time.monotonic() + PATIENCE
        while not (self.store / f"t-{Y}").exists():
            self.assertLess(time.monotonic(), until)
            time.sleep(0.01)
        for plug in (first, second):
            self.assert_silent(plug)
        self.held.open()
        self.assert_receives(first, uploaded(FILES["/x.txt"]))
        self.assert_receives(second, uploaded(FILES["/y.txt"]))
        self.assertGreaterEqual(self.held.told().count("held"), 2)


class Failures(HeldSyncs):
    def test_of_one_put_leave_the_others(self):
        """A folder has the name of a piece, so it can't be put there."""
        self.begin(workers=2)
        place = self.store / f"c-{X}"
        place.mkdir()
        first = self.hold("/y.txt")
        self.assert_receives(self.upload("/x.txt"), refused("Device"))
        place.rmdir()
        self.assert_receives(self.upload("/x.txt"), uploaded(FILES["/x.txt"]))
        self.assert_goes_on(first, "/y.txt", 4)
        self.assert_served("/x.txt", "/y.txt")
        self.assertEqual(list(self.store.glob("*.tmp")), [])

    def test_of_a_table_leave_pieces_that_the_next_put_writes_again(self):
        """They were damaged meanwhile. The program goes on, so it might know them."""
        self.begin(workers=2)
        self.held.open()
        table, piece = self.store / f"t-{X}", self.store / f"c-{X}"
        table.mkdir()
        self.assert_receives(self.upload("/x.txt"), refused("Device"))
        piece.write_bytes(bytes(len(FILES["/x.txt"])))
        table.rmdir()
        self.assert_receives(self.upload("/x.txt"), uploaded(FILES["/x.txt"]))
        self.assert_receives(self.upload("/y.txt"), uploaded(FILES["/y.txt"], 4))
        self.assert_served("/x.txt", "/y.txt")
        self.assertTrue(is_stored(self.store, FILES["/x.txt"]))


class Orders(Served):
    """Deploys of many small files, without a folder."""

    COUNT = 4_000

    def taken(self, site, paths):
        """How much of a processor it takes to deploy files at these paths, which are uploaded in this order."""
        before = self.processor_time(self.started)
        published = publish(self.client(), {path: f"{site}{path}".encode() for path in paths}, site)
        self.assertIsNotNone(published)
        return self.processor_time(self.started) - before

    def test_make_no_deploy_dearer(self):
        """All uploads of a deploy together go over its paths a few times. If each went over those before it, it would take many times as much."""
        self.started = self.serve("--workers", "1")
        paths = [f"/{number:04}" for number in range(self.COUNT)]
        in_order = self.taken("one", paths)
        orders = {"last-first": [paths[-1], *paths[:-1]], "backwards": paths[::-1], "halves": [*paths[1::2], *paths[::2]]}
        for site, order in orders.items():
            with self.subTest(site):
                self.assertLess(self.taken(site, order), 1.5 * in_order + 0.2)


class Kills(HeldSyncs):
    def test_leave_a_file_that_is_not_known(self):
        """The next run needs it uploaded, and takes the temporary name again."""
        started = self.begin(workers=2)
        self.hold("/x.txt")
        self.end(started)
        self.assertEqual([file.name for file in self.store.glob("*.tmp")], ["blob-0.tmp"])
        self.serve("--store", str(self.store))
        self.assert_receives(self.plug(showing(3)), STANDS)
        self.assert_receives(self.upload("/y.txt"), uploaded(FILES["/y.txt"]))
        self.assert_receives(self.upload("/x.txt"), uploaded(FILES["/x.txt"], 4))
        self.assert_served("/x.txt", "/y.txt")
        self.assertEqual(list(self.store.glob("*.tmp")), [])
