"""Undos of changes after which there are many others: worked ones, and generated histories of some hundred to some thousand entries in which
most requests are undos, of changes whose clash is far after them or which have none. There the program answers each request as the plain
model does, byte for byte.

Each history is in a store of its own, over which the program is called anew for each hundred requests.
"""

import collections
import concurrent.futures
import itertools
import os
import pathlib
import tempfile
import unittest

from lib.client import REQUESTS, Program, digest_of, refused, run, sent
from lib.generated_histories import CONTENTS, PROGRAMS_AT_ONCE, Generator, in_json
from lib.plain_history import Refused, is_in
from lib.plain_model import Model, Request
from lib.replayed_model import ReplayedModel
from lib.stores import Stored, as_bytes, looks, opening_of, told
from lib.worked_runs import NO_ALIAS, NO_DEPLOY, clash, entry, reading, serves, showing, stands, undoing
import journal

# How many entries each history has at least.
SIZES = (2_000, 1_500, 1_000, 800, 600, 500, 400, 300)
SHORT_HISTORIES = 30
FAR = 100
SITES = ("one", "two", "three")
PATHS = ("/a.txt", "/b.css", "/d", "/d/c", "/d/e/f", "/index.html", "/x", "/y", '/"é".svg', "/zz", "/é", "/日")
NAMES = ("next", "old", "v1", "v2")
# Nothing here depends on the disk, and a folder in memory takes no time to be synced.
FOLDERS = "/dev/shm" if os.access("/dev/shm", os.W_OK) else None


class UndoGenerator(Generator):
    """Draws many undos, and deploys of many files. For some time all other requests are about a few sites, paths and names, and then about
    others."""

    def __init__(self, seed, model):
        super().__init__(seed, model)
        self.look_elsewhere()
        # changes that are to be undone, each but the first because it is in the way of the one before it
        self.wanted = []

    def look_elsewhere(self):
        """Draws the sites, paths and names of the next requests."""
        self.sites = self.one_of((("one",), ("one",), ("two",), ("three",), SITES))
        self.paths = self.random.sample(PATHS, self.one_of((3, 6, 12)))
        self.names = self.random.sample(NAMES, 2)
        self.sizes = (0, 1, 2, len(self.paths) - 1, len(self.paths))

    def keys(self, kind, site=None):
        return [key for where, what, key in self.model.state() if what == kind and where in ([site] if site else self.sites)]

    def any_change(self):
        """An early change of a site, any or a late one that is not undone; rarely any entry."""
        site = self.one_of(SITES)
        live = [number for number in self.model.live_changes() if self.model.entry(number).site == site]
        if not live or self.happens(0.05):
            return self.one_of(self.any_number())
        return self.one_of(self.one_of((live[:12], live, live, live[-3:])))

    def change_to_undo(self):
        """Mostly the one that is wanted: what was in the way of another, or that other again."""
        if self.wanted and self.happens(0.7):
            return self.wanted[-1]
        change = self.any_change()
        if self.happens(0.5):
            self.wanted = [change]
        return change

    def undo(self):
        change = self.change_to_undo()
        is_live = change in self.model.live_changes()
        in_the_way = [number for number, _ in itertools.islice(self.model.clashes(change), 1)] if is_live else []
        if change in self.wanted[-1:]:
            self.wanted = self.wanted + in_the_way if in_the_way else self.wanted[:-1]
        return Request("POST", f"/api/v1/sites/{self.site_of(change)}/undo", body=in_json(change=self.written(change)))

    changes = {
        Generator.open: 8, Generator.restore: 4, Generator.cancel: 2, Generator.remove_deploy: 5, Generator.move_alias: 8, Generator.remove_alias: 3,
        Generator.rename: 6, Generator.rename_folder: 6, Generator.remove: 4,
    }
    others = {undo: 66, Generator.read: 3, Generator.show_deploy: 2, Generator.show_changes: 1, Generator.mistake: 1}

    def beginning(self):
        """A deploy of all contents but the one that is never there, which are uploaded."""
        files = {f"/{number}": content for number, content in enumerate(CONTENTS[:-1])}
        listed = {path: digest_of(content) for path, content in files.items()}
        yield Request("POST", "/api/v1/sites/one/deploys", body=in_json(files=listed))
        yield from (Request("PUT", f"/api/v1/deploys/1/files{path}", body=content) for path, content in files.items())

    def connections(self, entries):
        """The requests of each connection, until there are `entries` entries."""
        yield self.beginning()
        while len(self.model.entries) < entries:
            if self.happens(0.35):
                self.look_elsewhere()
            yield (self.draw(self.changes | self.others) for _ in range(REQUESTS))


class Everywhere:
    """What all of these requests are of."""

    sites, paths, names = SITES, PATHS, NAMES


class TalliedModel(ReplayedModel):
    """Counts how undos are answered."""

    def __init__(self):
        super().__init__()
        self.tally = collections.Counter()
        # for each change that was undone what it touched
        self.touched = {}

    def undo(self, site, change):
        changed, touched = self.effects.get(change, ((), ()))
        later = [number for number in self.effects if number > change and self.entry(number).site == site]
        try:
            number = super().undo(site, change)
        except Refused as reason:
            self.tally[reason.told["error"]] += 1
            if "cell" in reason.told:
                self.count_clash(change, changed, reason.told["change"], reason.told["cell"])
            raise
        self.tally["undo over many later changes"] += len(later) >= FAR
        self.tally["undo that passes over an undone change"] += self.is_passed_over(change, changed, number)
        self.touched[change] = touched
        return number

    def count_clash(self, change, changed, later, cell):
        self.tally[f"far clash at {cell.partition(' ')[0]}"] += later - change >= FAR
        self.tally["far clash"] += later - change >= FAR
        self.tally["clash that passes over an undone change"] += self.is_passed_over(change, changed, later)

    def is_passed_over(self, change, changed, later):
        """Whether a change in between was undone that touched what this one changed."""
        between = (touched for number, touched in self.touched.items() if change < number < later)
        return any(is_in(cell, touched) for touched in between for cell in changed)


def first_difference(exchanges, out):
    """What is wrong with these replies, if they aren't the wanted ones."""
    for number, (asked, wanted) in enumerate(exchanges, 1):
        if not out.startswith(wanted):
            return f"request {number}: {asked}\nwanted:\n{wanted[:2_000]}\ngot:\n{out[:2_000]}"
        out = out[len(wanted):]
    return out and f"after the last reply:\n{out[:2_000]}"


def converse(folder, model, requests):
    """Lets the program over this store answer the requests of a connection, each as the model does."""
    model.requests = 0
    exchanges = [(asked, model.answer(asked)) for asked in requests]
    given = b"".join(as_bytes(asked) for asked, _ in exchanges)
    status, out, errors = run("solo", "--store", folder, given=given)
    if wrong := first_difference(exchanges, out) or (status, errors) != (0, b""):
        raise AssertionError(f"{len(model.entries)} entries, status {status}, {errors}: {wrong}")


def converse_at_length(folder, generator, entries):
    """The same for a history of `entries` entries. Afterwards all that is visible is as in the model, and the journal has its entries."""
    model = generator.model
    for requests in generator.connections(entries):
        converse(folder, model, requests)
    visible = looks(model, of=Everywhere)
    for start in range(0, len(visible), REQUESTS):
        converse(folder, model, visible[start:start + REQUESTS])
    if journal.file_in(pathlib.Path(folder)) != journal.write(map(told, model.entries)):
        raise AssertionError("the journal has other entries")


def tally_of(seed):
    """How often each kind of entry was made in a history, and each answer to an undo given."""
    model = TalliedModel()
    with tempfile.TemporaryDirectory(prefix="filehost-test-", dir=FOLDERS) as room:
        try:
            converse_at_length(room, UndoGenerator(seed, model), SIZES[seed])
        except AssertionError as error:
            raise AssertionError(f"the history of seed {seed}: {error}") from None
    return model.tally + collections.Counter(made.kind for made in model.entries)


class OldUndos(Program):
    def test_are_answered_as_by_the_plain_model(self):
        with concurrent.futures.ProcessPoolExecutor(PROGRAMS_AT_ONCE) as pool:
            tally = sum(pool.map(tally_of, range(len(SIZES))), collections.Counter())
        least = {
            "undo": 2_000, "undo over many later changes": 60, "undo that passes over an undone change": 700,
            "Clash": 4_000, "far clash": 100, "clash that passes over an undone change": 1_300,
            "far clash at live": 25, "far clash at alias": 40, "far clash at draft": 25,
            "NoSuchChange": 200, "NotAChange": 200, "AlreadyUndone": 200,
            **dict.fromkeys(("open", "publish", "cancel", "alias", "unalias", "rename", "remove", "restore", "delete"), 150), "rename-folder": 100,
        }
        rare = {word: tally[word] for word, number in least.items() if tally[word] < number}
        self.assertEqual(rare, {}, f"met in all: {sorted(tally.items())}")


class AfterManyChanges(Stored):
    """The first entries of a site, and many moves of one alias after them."""

    moves = 2_000
    first = [
        opening_of({"/a.txt": b"hello", "/b.txt": b"hello"}), ("publish", "one", 1), ("rename", "one", "/a.txt", "/c.txt"), ("remove", "one", "/b.txt"),
        ("undo", "one", 3),
    ]

    def test_an_early_change_is_undone_and_each_other_names_what_is_in_its_way(self):
        self.write([*self.first, *[("alias", "one", "next", 1)] * self.moves], b"hello")
        last = len(self.first) + self.moves
        self.assert_converses([
            (undoing(1), clash(2, "draft 1")),
            (undoing(2), clash(4, "live /b.txt")),
            (undoing(3), refused("AlreadyUndone")),
            (undoing(5), refused("NotAChange")),
            (undoing(6), clash(7, "alias next")),
            *serves("/a.txt"),
            (undoing(4), entry(last + 1)),
            *serves("/a.txt", "/b.txt"),
            (undoing(2), clash(6, "kept 1")),
            # A move to the deploy that the alias names already changes nothing, though it touches the alias.
            (undoing(7), entry(last + 2)),
            (undoing(last), entry(last + 3)),
            (undoing(6), clash(8, "alias next")),
            (reading("/a/one/next/a.txt"), sent(b"hello")),
        ])

    def test_the_first_is_undone_where_each_later_one_was(self):
        undos = [("undo", "one", number) for number in range(7, 6 + self.moves)]
        self.write([*self.first, *[("alias", "one", "next", 1)] * self.moves, *undos], b"hello")
        last = len(self.first) + self.moves + len(undos)
        self.assert_converses([
            (undoing(2), clash(4, "live /b.txt")),
            (undoing(4), entry(last + 1)),
            (undoing(2), clash(6, "kept 1")),
            (undoing(6), entry(last + 2)),
            (reading("/a/one/next/a.txt"), NO_ALIAS),
            (undoing(2), entry(last + 3)),
            *serves(),
            (showing(1), stands(1, "open")),
            (undoing(1), entry(last + 4)),
            (showing(1), NO_DEPLOY),
        ])


class Models(unittest.TestCase):
    def test_the_replayed_model_answers_as_the_plain_one(self):
        for seed in range(SHORT_HISTORIES):
            plain, replayed = Model(), ReplayedModel()
            generator = UndoGenerator(seed, plain)
            requests = itertools.islice(itertools.chain.from_iterable(generator.connections(REQUESTS)), 2 * REQUESTS)
            for asked in requests:
                self.assertEqual(replayed.answer(asked), plain.answer(asked), (seed, asked))
            self.assertEqual((replayed.state(), replayed.live_changes()), (plain.state(), plain.live_changes()), seed)
