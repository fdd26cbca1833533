"""A store whose files fail: each call of the system on them is refused in turn, or the program is killed at it, and what was acknowledged is there
afterwards.

A library in C is before these calls (refuse_device.c). With `solo` and with `serve`.
"""

import os
import signal
import subprocess

from lib.client import HERE, SECONDS, digest_of, refused
from lib.generated_histories import in_json
from lib.plain_model import Model, Request
from lib.served_stores import OfServe
from lib.stores import Stored, as_bytes, found_in, looks, told, write_slots
from lib.worked_runs import NO_DEPLOY

SOURCE = HERE / "refuse_device.c"
DEVICE, BROKEN = refused("Device"), refused("Broken")
FAULTS = [(3, b"", b"filehost: journal: Device\n"), (4, b"", b"filehost: blobs: Device\n")]


class Possible:
    """What a host may be, by all that it has answered: some models, and whether its journal has failed in each."""

    def __init__(self, model):
        self.hosts = [(model, False)]
        self.before, self.in_hand = None, None

    def take(self, asked, got):
        """Keeps what the host may be after this reply. A call of the system has failed at most once."""
        kept = [host for before in self.hosts for host in self.after(*before, asked, got)]
        if got == DEVICE and self.in_hand is None:
            self.before, self.in_hand = self.hosts[0][0], asked
            kept += self.after_failure(self.before, asked)
        self.hosts = kept

    def after(self, model, is_broken, asked, got):
        done = model.copy()
        wanted = done.answer(asked)
        if not is_broken or asked.method == "GET":
            return [(done, is_broken)] if got == wanted else []
        # Of the routes without a site, only uploads are asked for here.
        names_nothing = asked.method == "PUT" and wanted == NO_DEPLOY
        return [(model, True)] if got == (NO_DEPLOY if names_nothing else BROKEN) else []

    def after_failure(self, model, asked):
        """A read or an upload failed at the store's files; or the journal did, at the first or the second entry of the request."""
        done = model.copy()
        done.answer(asked)
        hosts = [(model, False)] if asked.method in ("GET", "PUT") else []
        for count in range(len(model.entries), len(done.entries)):
            host = model.copy()
            host.entries, host.uploads = done.entries[:count], dict(done.uploads)
            hosts.append((host, True))
        return hosts


class Failures(Stored):
    """Runs with one of their calls on the store's files refused, from the first to the last."""

    first, second, third = (bytes([place]) * 70_000 for place in (1, 2, 3))
    # The name under which its first put writes.
    temporary = "blob.tmp"

    def setUp(self):
        super().setUp()
        self.library, self.told_in = self.room / "refuse_device.so", self.room / "calls"
        subprocess.run(["gcc", "-O1", "-shared", "-fPIC", "-o", self.library, SOURCE, "-ldl"], check=True, timeout=SECONDS)

    def opening(self, site, **members):
        listing = {path: digest_of(content) for path, content in (("/a", self.first), ("/b", self.second))}
        return Request("POST", f"/api/v1/sites/{site}/deploys", body=in_json(files=listing, **members))

    def requests(self):
        """What is asked of an empty store: each kind of change, and reads."""
        return [
            self.opening("one"),
            Request("PUT", "/api/v1/deploys/1/files/a", body=self.first),
            Request("PUT", "/api/v1/deploys/1/files/b", body=self.second),
            Request("GET", "/s/one/a"),
            Request("POST", "/api/v1/sites/one/rename", body=in_json(**{"from": "/a", "to": "/c"})),
            self.opening("two"),
            Request("GET", "/s/two/b"),
            Request("POST", "/api/v1/sites/one/undo", body=in_json(change=4)),
            Request("GET", "/s/one/a"),
        ]

    def environment(self, place, is_late):
        return os.environ | {
            "LD_PRELOAD": str(self.library), "REFUSED_FOLDER": str(self.folder), "REFUSED_PLACE": str(place),
            "REFUSED_LATE": str(int(is_late)), "CALLS_FILE": str(self.told_in),
        }

    def converse(self, model, requests, place, is_late):
        """Asks all of one program. Returns what its host may be, and how the program ended."""
        possible = Possible(model)
        talk = self.talk(env=self.environment(place, is_late))
        for asked in requests:
            if not (got := talk.answer_to(as_bytes(asked))):
                break
            possible.take(asked, got)
            self.assertNotEqual(possible.hosts, [], f"{asked[:2]}: {got[:300]}")
        # Only a program that ends by itself tells how many calls there were.
        return possible, talk.close(waits=place == 0)

    def assert_found(self, possible):
        """The store has what was acknowledged, and answers so when it is opened again."""
        found = None
        for host, is_broken in possible.hosts:
            try:
                found = found_in(self, self.folder, *((possible.before, possible.in_hand) if is_broken else (host, possible.in_hand)))
                self.assertEqual(found.entries[:len(host.entries)], host.entries)
                self.assertTrue(is_broken or len(found.entries) == len(host.entries))
                break
            except AssertionError as error:
                fault = error
        else:
            raise fault
        self.assert_answers_as(found, looks(found))

    def assert_tidy(self, possible, end):
        """If uploads were tried, there is no temporary file, neither theirs nor one that a stop had left."""
        if end not in FAULTS and not all(is_broken for _, is_broken in possible.hosts):
            self.assertEqual(list(self.folder.glob("*.tmp")), [])

    def assert_swept(self, prepare, requests):
        """Each of the calls of such a run is refused, early or late, and a reply or the end of the program tells it."""
        possible, end = self.converse(prepare(), requests, 0, False)
        self.assertEqual((end, possible.in_hand), ((0, b"", b""), None))
        calls = int(self.told_in.read_text())
        self.assertGreater(calls, 20)
        for is_late in (False, True):
            for place in range(1, calls + 1):
                with self.subTest(place=place, is_late=is_late):
                    possible, end = self.converse(prepare(), requests, place, is_late)
                    self.assertTrue(end in FAULTS or end == (0, b"", b"") and possible.in_hand, f"the failure is told, and not {end}")
                    self.assert_tidy(possible, end)
                    self.assert_found(possible)

    def converse_until_killed(self, model, requests, place, is_late):
        """Asks a program that is killed at this call. Returns what it acknowledged, and what was in hand: nothing, if it was killed as it ended."""
        talk, in_hand = self.talk(env=self.environment(place, is_late) | {"REFUSED_KILLS": "1"}), None
        for asked in requests:
            done = model.copy()
            wanted = done.answer(asked)
            if not (got := talk.answer_to(as_bytes(asked))):
                in_hand = asked
                break
            self.assertEqual(got, wanted)
            model = done
        else:
            talk.close(waits=True)
        self.assertEqual(talk.client.program.wait(SECONDS), -signal.SIGKILL)
        return model, in_hand

    def assert_outlives_kills(self, prepare, requests):
        """A kill at each of the calls of such a run, before it or after it, leaves what was acknowledged, and at most what was in hand."""
        self.converse(prepare(), requests, 0, False)
        calls = int(self.told_in.read_text())
        self.assertGreater(calls, 20)
        for is_late in (False, True):
            for place in range(1, calls + 1):
                with self.subTest(place=place, is_late=is_late):
                    found = found_in(self, self.folder, *self.converse_until_killed(prepare(), requests, place, is_late))
                    self.assert_answers_as(found, looks(found))

    def prepare_nothing(self):
        self.write([])
        write_slots(self.folder)
        return Model()

    def prepare_store(self):
        """A store with two deploys, after whose journal a stop has left some bytes, and a piece without its name."""
        model = Model()
        for asked in self.requests():
            model.answer(asked)
        self.write(list(map(told, model.entries)), self.first, self.second)
        with (self.folder / "journal").open("ab") as file:
            file.write(b"the front of an entry")
        (self.folder / self.temporary).write_bytes(b"the front of a piece")
        return model

    def more_requests(self):
        """What is asked of a store with two deploys."""
        return [
            Request("GET", "/d/two/5/b"), self.opening("one", draft=True), Request("POST", "/api/v1/sites/one/deploys/8/restore"),
            Request("GET", "/s/one/b"),
            Request("POST", "/api/v1/sites/two/deploys", body=in_json(files={"/c": digest_of(self.third)})),
            Request("PUT", "/api/v1/deploys/7/files/c", body=self.third),
            Request("GET", "/s/two/c"),
        ]

    def test_no_failure_in_a_new_store_loses_what_was_acknowledged(self):
        self.assert_swept(self.prepare_nothing, self.requests())

    def test_no_failure_in_a_store_that_is_opened_again_loses_what_was_acknowledged(self):
        self.assert_swept(self.prepare_store, self.more_requests())

    def test_no_kill_in_a_new_store_loses_what_was_acknowledged(self):
        self.assert_outlives_kills(self.prepare_nothing, self.requests())

    def test_no_kill_in_a_store_that_is_opened_again_loses_what_was_acknowledged(self):
        self.assert_outlives_kills(self.prepare_store, self.more_requests())


class FailuresOfServe(OfServe, Failures):
    """The same of `serve`."""
