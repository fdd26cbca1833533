"""A crash at each call on a store's files: whatever it may leave then is opened, and what was acknowledged is there.

The calls that `solo` and `serve` make are traced. What a crash may leave after each of them follows from docs/STORAGE.md, "What a crash leaves of a file", by a
plain model (lib/crash_images.py): the longest journal, with each of some bytes wherever it may have any, and the files of the shelf that were renamed since the
folder was synced, or not.
"""

import os

from lib.client import PATIENCE, digest_of, run
from lib.crash_images import stops_of
from lib.file_traces import Traces
from lib.generated_histories import in_json
from lib.plain_model import Model, Request
from lib.served import Served
from lib.stores import Stored, as_bytes, files_in, found_in, kept_in, looks, told, write_slots
import journal

# The bytes that a crash leaves wherever it may leave any: a closed gate, an open one, and one that is neither.
BYTES = (0, 1, 7)
COMMANDS = ("solo", "serve")
REPLIES = ("write replies", "send socket")
FIRST, SECOND = bytes([1]) * 70_000, bytes([2]) * 70_000


def opening(site, contents, **members):
    return Request("POST", f"/api/v1/sites/{site}/deploys", body=in_json(files={path: digest_of(content) for path, content in contents.items()}, **members))


def uploading(number, path, content):
    return Request("PUT", f"/api/v1/deploys/{number}/files{path}", body=content)


def undoing(site, change):
    return Request("POST", f"/api/v1/sites/{site}/undo", body=in_json(change=change))


# What an empty store is asked: deploys, uploads that publish, changes, undos, one of them refused, and a request that makes two entries.
CHANGES = [
    opening("one", {"/a": FIRST, "/b": SECOND}), uploading(1, "/a", FIRST), uploading(1, "/b", SECOND),
    Request("POST", "/api/v1/sites/one/rename", body=in_json(**{"from": "/a", "to": "/c"})), undoing("one", 3), undoing("one", 99),
    opening("two", {"/a": FIRST}),
]
# What it is asked after that, in another run.
MORE = [opening("two", {"/c": b"third"}), uploading(7, "/c", b"third"), undoing("two", 8), opening("one", {"/d": b"fourth"}, draft=True)]

# What a stop may have left half done after these, with its record.
REMOVAL = Request("DELETE", "/api/v1/sites/one/files/b")
RECORD = journal.write([("remove", "one", "/b")])[len(journal.EMPTY):]


def model_of(requests):
    model = Model()
    for asked in requests:
        model.answer(asked)
    return model


def half_open(gate, header=journal.HEADER):
    """The journal with the changes, after whose last gate, which is this one, a whole record stands."""
    return journal.write(map(told, model_of(CHANGES).entries), header)[:-1] + bytes([gate]) + RECORD


class Stops(Stored, Served):
    """What a program answers to requests over a store, with the calls on its files; and what is opened of each image that a crash may leave."""

    def begin(self, model, file=None, left=None):
        """A store with the entries and the files of this model, or with this file as its journal, in which a stop left this request half done."""
        self.model, self.left, self.opened = model, left, set()
        self.write(list(map(told, model.entries)), *model.uploads.values())
        if file is not None:
            (self.folder / "journal").write_bytes(file)
        self.before = self.all_files()

    def trace_solo(self, requests):
        """The calls of `solo`, which answers these requests as the model does."""
        traces, replies = Traces(self.room, self.folder), self.folder / "replies"

        def run_program(environment):
            notices = self.notices()
            with replies.open("wb") as output:
                ended = run(*self.words, given=b"".join(map(as_bytes, requests)), stdout=output, env=os.environ | environment)
            self.assertEqual(ended, (0, None, notices))

        trace = traces.of(run_program)
        self.assertEqual(replies.read_bytes(), b"".join(map(self.model.copy().answer, requests)))
        replies.unlink()
        return trace

    def trace_serve(self, requests):
        """The calls of `serve`, which does."""
        traces, model = Traces(self.room, self.folder), self.model.copy()

        def run_program(environment):
            started, plug = self.serve("--store", str(self.folder), environment=environment), self.plug()
            for asked in requests:
                plug.sendall(as_bytes(asked))
                self.assert_receives(plug, model.answer(asked))
            self.end(started)

        return traces.of(run_program)

    def trace(self, command, requests):
        """The calls of a program that answers these requests, and what its shelf has in the end."""
        trace = {"solo": self.trace_solo, "serve": self.trace_serve}[command](requests)
        self.assertEqual(sum(line in REPLIES for line in trace), len(requests))
        return trace, files_in(self.folder) | kept_in(self.folder)

    def models(self, requests):
        """The model before the first request, and after each."""
        model = self.model.copy()
        yield model.copy()
        for asked in requests:
            model.answer(asked)
            yield model.copy()

    def images(self, requests, trace, contents):
        """What a crash may leave after each of these calls and wasn't opened yet: the files, the model of what was acknowledged, and the requests that may
        have been in hand, one of them. The one that a stop left is in hand until the opening has closed its gate for good."""
        models = list(self.models(requests))
        for replies, store in stops_of(trace, self.before, contents):
            for byte in BYTES:
                for are_renamed in (False, True):
                    files = store.files(byte, are_renamed)
                    image = replies, tuple(sorted(files.items()))
                    if image not in self.opened:
                        in_hand = requests[replies:replies + 1] or [None]
                        yield image, files, models[replies], in_hand + ([self.left] if store.slots["journal"].syncs < 2 else [])

    def assert_opens(self, image, files, model, in_hand):
        """A store with these files is opened with what was acknowledged, and at most what was in hand."""
        self.use(self.room / "image")
        self.folder.mkdir(exist_ok=True)
        for file in self.folder.iterdir():
            file.unlink()
        for name, data in files.items():
            (self.folder / name).write_bytes(data)
        found = self.found(model, *in_hand)
        self.assert_answers_as(found, looks(found))
        self.opened.add(image)

    def found(self, model, asked, *others):
        """What the store has, with one of these requests in hand."""
        try:
            return found_in(self, self.folder, model, asked)
        except AssertionError:
            if not others:
                raise
            return self.found(model, *others)

    def is_lossy(self, requests, trace, contents):
        """Whether a program that made these calls would have a crash lose something."""
        try:
            for image in self.images(requests, trace, contents):
                self.assert_opens(*image)
        except (AssertionError, journal.BadHeader, journal.BadRecord):
            return True
        return False

    def assert_stops(self, command, requests):
        """Whatever a crash leaves after each call of such a run, nothing that was acknowledged is lost. Returns the calls, and what the shelf has."""
        trace, contents = self.trace(command, requests)
        for number, image in enumerate(self.images(requests, trace, contents)):
            with self.subTest(command, image=number):
                self.assert_opens(*image)
        return trace, contents

    def assert_each_counts(self, requests, trace, contents, first):
        """From the call at this place on, no sync can be left out, and no reply can come a call earlier. The last request may make two entries at once,
        of which the first needs no sync of its own."""
        last = [place for place, line in enumerate(trace) if line in REPLIES][-2]
        for place in range(first, last + 1):
            line, front, rest = trace[place], trace[:place], trace[place + 1:]
            if line.startswith(("fsync", "fdatasync")):
                self.assertTrue(self.is_lossy(requests, front + rest, contents), f"{place}: {line} may be left out")
            if line in REPLIES and front[-1].startswith(("fsync", "fdatasync")):
                self.assertTrue(self.is_lossy(requests, [*front[:-1], line, front[-1], *rest], contents), f"{place}: {line} may come before {front[-1]}")


class Runs(Stops):
    """Two runs in a row: in a new store, and in one that a stop left unfinished."""

    def test_in_a_new_store(self):
        for command in COMMANDS:
            with self.subTest(command):
                self.begin_anew()
                trace, contents = self.assert_stops(command, CHANGES)
                self.assertGreater(len(self.opened), 50)
                # The opening syncs the folder and then both slots, of which there is nothing yet. A stop loses nothing of the file that it makes.
                self.assertEqual([line.split(" ")[:2] for line in trace[:3]], [["fsync", "folder"], ["fdatasync", "journal"], ["fdatasync", "journal.2"]])
                made = [f"pwrite journal.2 0 {journal.SHUT.hex()}", f"pwrite journal.2 1 {journal.EMPTY[1:].hex()}", f"pwrite journal.2 0 {journal.OPEN.hex()}"]
                self.assertEqual((trace[3:9:2], trace[4:9:2]), (made, ["fdatasync journal.2"] * 3))
                self.assert_each_counts(CHANGES, trace, contents, 9)

    def test_in_a_new_store_the_folder_is_synced_once_it_has_both_slots(self):
        """A crash keeps no name that came later. The program is killed in place of that sync, which is its first call."""
        starts = {
            "solo": lambda environment: run(*self.words, env=os.environ | environment),
            "serve": lambda environment: self.start("--store", str(self.folder), environment=environment).wait(PATIENCE),
        }
        for command in COMMANDS:
            with self.subTest(command):
                self.begin_anew()
                self.assertEqual(Traces(self.room, self.folder).of(starts[command], stop=1), ["fsync folder"])
                self.assertEqual(self.all_files(), dict.fromkeys(journal.SLOTS, b""))

    def begin_anew(self):
        self.begin(Model())
        write_slots(self.folder)
        self.before = {}

    def test_in_a_store_with_an_unfinished_entry(self):
        """A gate is neither open nor closed, and a whole entry follows it."""
        for command in COMMANDS:
            with self.subTest(command):
                self.begin(model_of(CHANGES), half_open(7), REMOVAL)
                (self.folder / "blob.tmp").write_bytes(b"the front of a piece")
                trace, contents = self.assert_stops(command, MORE)
                # The whole entry is kept first.
                opening = ["fsync", "write", "fsync", "rename", "fsync", "fdatasync", "fdatasync", "pwrite", "fdatasync", "ftruncate", "fdatasync"]
                self.assertEqual([line.split(" ")[0] for line in trace[:len(opening)]], opening)
                self.assert_each_counts(MORE, trace, contents, len(opening))


class Openings(Stops):
    """Journals of each kind that docs/STORAGE.md names, opened without a request."""

    def test_of_each_kind(self):
        shut, old = (half_open(0, header)[:-len(RECORD)] for header in (journal.HEADER, journal.OLD_HEADER))
        no_file = [b"", *(bytes([byte]) for byte in (*BYTES, 255)), b"\x00HJRNL\x01\x01junk", bytes(20), b"\x07" + journal.EMPTY[1:]]
        no_entry = [*no_file, journal.EMPTY, journal.write([], journal.OLD_HEADER)]
        older = [old, old + b"\xff\x01", *(half_open(gate, journal.OLD_HEADER) for gate in (0, 7))]
        for file in (*no_entry, shut, shut + b"\xff\x01", *map(half_open, (0, 2, 7, 255)), *older):
            with self.subTest(file[:12].hex(), size=len(file)):
                self.begin(Model() if file in no_entry else model_of(CHANGES), file, REMOVAL)
                self.assert_stops("solo", [])
