"""Generated histories: the program answers each of their requests as the plain model does, byte for byte.

FILEHOST_HISTORIES says how many of each kind there are, if that of ./test isn't enough.
"""

import collections
import concurrent.futures
import itertools

from lib.client import REQUESTS, Program
from lib.generated_histories import PROGRAMS_AT_ONCE, FolderGenerator, Generator, Run, count_of, in_json, views
from lib.plain_model import Request

HISTORIES = 3_000
UNDONE_AT_ONCE = 1_200
OF_FOLDERS = 500
BATCHES = 40


def run_of_any(seed, of=Generator):
    """A history of up to a hundred requests. The last ones read all that is visible."""
    made = Run()
    generator = of(seed, made.model)
    made.ask(generator.requests(generator.one_of((40, 55, 70, 85))))
    made.ask(views(made.model, of=of)[:REQUESTS - len(made.requests)])
    made.replies()
    return made.tally()


def run_of_folders(seed):
    return run_of_any(seed, FolderGenerator)


def run_with_a_change_undone_at_once(seed):
    """A history with a change that is undone at once: all that is visible is then as it was before."""
    made = Run()
    generator = Generator(seed, made.model)
    made.ask(generator.requests(generator.random.randrange(12, 32)))
    change, added, after = a_change(generator, made, seed)
    looks = views(made.model, after)
    before = len(made.requests)
    undos = [Request("POST", f"/api/v1/sites/{after.entry(number).site}/undo", body=in_json(change=number))
             for number in reversed(added)]
    asked = [*looks, change, *undos, *looks]
    if before + len(asked) >= REQUESTS:
        return collections.Counter()
    made.ask(asked)
    replies = made.replies()
    if replies[before:before + len(looks)] != replies[-len(looks):]:
        raise AssertionError(f"{made.told(REQUESTS)}\nis not as before the change that is undone at once")
    return collections.Counter(["run", *(after.entry(number).kind for number in added)])


def a_change(generator, made, seed):
    """A change that is accepted, the numbers of its entries, and the model after it. Its kind goes by the seed."""
    kinds = list(Generator.changes)
    for turn in itertools.count():
        change = kinds[seed % len(kinds)](generator) if turn < 20 else generator.draw(Generator.changes)
        after = made.model.copy()
        after.answer(change)
        added = range(len(made.model.entries) + 1, len(after.entries) + 1)
        if added:
            return change, added, after


def tally_of(make, seeds):
    """Makes the runs of these seeds, and adds up their tallies, until one fails. Tells also what is wrong there."""
    tally = collections.Counter()
    for seed in seeds:
        try:
            tally += make(seed)
        except AssertionError as error:
            return tally, f"the history of seed {seed}:\n{error}"
    return tally, None


class Histories(Program):
    """Histories that are drawn by chance. Each is asked of a new program, whose host is empty at first."""

    def assert_tally(self, make, usual, least):
        """All these runs go well, and each of these words was met at least so often where there are as many runs as usual."""
        count = count_of(usual)
        batches = [range(start, count, BATCHES) for start in range(BATCHES)]
        with concurrent.futures.ProcessPoolExecutor(PROGRAMS_AT_ONCE) as pool:
            tallies, faults = zip(*pool.map(tally_of, [make] * BATCHES, batches))
        for fault in filter(None, faults):
            self.fail(fault)
        tally = sum(tallies, collections.Counter())
        rare = {word: tally[word] for words, number in least.items() for word in words.split() if tally[word] < number * count // usual}
        self.assertEqual(rare, {}, f"met in all: {sorted(tally.items())}")

    def test_are_answered_as_by_the_plain_model(self):
        self.assert_tally(run_of_any, HISTORIES, {
            "undo Clash": 3_000,
            "open publish cancel alias unalias rename rename-folder remove restore delete": 500,
            "NoSuchFile NoSuchDeploy NoSuchDraft NotListed NoSuchAlias NoSuchChange": 400,
            "NotComplete PathTaken SamePath NestedFolder DeployInUse NotAChange AlreadyUndone WrongDigest": 400,
            "NotSatisfiable BadName BadPath BadDigest BadBody NoRoute BadMethod": 50,
            "GET-200 GET-206 HEAD-200 HEAD-404 closed": 500,
            "parts conditions": 50,
        })

    def test_of_folders_are_answered_as_by_the_plain_model(self):
        self.assert_tally(run_of_folders, OF_FOLDERS, {
            "undo Clash rename-folder": 1_000,
            "NoSuchFile PathTaken SamePath NestedFolder": 80,
            "PathTooLong": 25,
        })

    def test_are_as_before_where_a_change_is_undone_at_once(self):
        self.assert_tally(run_with_a_change_undone_at_once, UNDONE_AT_ONCE, {
            "run": 600,
            "open publish cancel alias unalias rename rename-folder remove restore delete": 20,
        })
