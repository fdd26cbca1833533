"""Eight deployers and eight readers at one desk, each in a thread of its own, over `desk_driver`. The log is legal, each receipt has a number of its own,
each refusal is one over the log that it tells, and no reader sees less than before; also after a kill and another opening.
"""

import collections
import itertools
import random
import re

from lib.client import digest_of
from lib.desks import DEPLOYERS, READERS, AtDesk, Printed, entering, uploading
from lib.generated_histories import FOLDERS, NAMES, PATHS, SITES
from lib.long_model import LongModel
from lib.plain_history import Deploy, Entry, Refused
from lib.stores import entry_of, opening_of, told
import journal

TASKS = 10_000
# The opening of a deploy of all words, and its publishing.
PREPARED = 2
LINES_BEFORE_THE_KILL = 3_000
# Each file's content is one word, as a line of the program has it.
WORDS = [f"word{number}" for number in range(40)]
CONTENT_OF = {digest_of(word.encode()): word.encode() for word in WORDS}
KINDS = {"open": 30, "rename": 8, "rename-folder": 5, "remove": 8, "restore": 8, "alias": 5, "unalias": 2, "delete": 4, "cancel": 2, "undo": 33}
MADE, REFUSED = re.compile(r"Made\(([0-9]+)\)"), re.compile(r"Refused\((\w+)\b.*, ([0-9]+)\)")
OTHERS = ("Stored", "NoSuchDeploy")


class Task:
    """What a deployer is to do: an entry, and the word that is then uploaded to the deploy that it opens."""

    def __init__(self, draw, most):
        self.word = None
        kind = draw.choices(list(KINDS), list(KINDS.values()))[0]
        site, number = draw.choice(SITES), 1 + int(most * draw.random() ** 0.5)
        self.entry = Entry(kind, site, self.parts(kind, draw, number))

    def parts(self, kind, draw, number):
        if kind == "open":
            self.path, self.word = draw.choice(PATHS), draw.choice(WORDS)
            return (Deploy({self.path: digest_of(self.word.encode())}, False, draw.random() < 0.7),)
        if kind == "rename":
            return draw.choice(PATHS), draw.choice(PATHS)
        if kind == "rename-folder":
            return draw.choice(FOLDERS), draw.choice(FOLDERS)
        if kind == "remove":
            return (draw.choice(PATHS),)
        return {"alias": (draw.choice(NAMES), number), "unalias": (draw.choice(NAMES),)}.get(kind, (number,))

    def lines(self, deployer):
        yield entering(deployer, told(self.entry))
        if self.word:
            yield uploading(deployer, "last", self.path, self.word, self.entry.site)

    def entries(self, numbers):
        """What is asked for by each line, where these numbers were made by the deployer so far."""
        yield self.entry
        if self.word:
            yield Entry("publish", self.entry.site, (numbers[-1],))


def scripts(seed, count, most):
    """The tasks of each deployer. They name entries up to `most` and as many more as there are tasks."""
    draw = random.Random(seed)
    each = [[] for _ in range(DEPLOYERS)]
    for place in range(count):
        each[place % DEPLOYERS].append(Task(draw, most + place + 1))
    return each


def lines_of(each):
    return [line for tasks in zip(*each) for deployer, task in enumerate(tasks) for line in task.lines(deployer)]


class Answers(Printed):
    """What the threads tell."""

    def entries(self, each):
        """For each answer the entry that it is to, so far as answers came."""
        for deployer, tasks in enumerate(each):
            yield from self.entries_of(deployer, tasks)

    def entries_of(self, deployer, tasks):
        answers, made = iter(self.told["deployer", deployer]), []
        for task in tasks:
            # The second entry of a task is known once the answer to the first is.
            for entry in task.entries(made):
                answer = next(answers, None)
                if answer is None:
                    return
                made += [int(number) for number in MADE.findall(answer)]
                yield entry, answer


class Threads(AtDesk):
    def setUp(self):
        """Each word is known from the start, so that no answer depends on which is uploaded first."""
        super().setUp()
        files = {f"/{word}": word.encode() for word in WORDS}
        self.play("steps", entering(0, opening_of(files)), *(uploading(0, 1, f"/{word}", word) for word in WORDS))

    def run_to_the_end(self, each):
        return Answers("\n".join([*self.play("threads", *lines_of(each)).lines, ""]))

    def run_to_a_kill(self, each):
        with self.start("threads") as program:
            program.stdin.write("".join(f"{line}\n" for line in lines_of(each)))
            program.stdin.close()
            lines = list(itertools.islice(program.stdout, LINES_BEFORE_THE_KILL))
            program.kill()
            return Answers("".join(lines) + program.stdout.read())

    def entries(self):
        return [entry_of(entry) for entry in journal.read(self.read_journal())]

    def assert_receipts(self, answers, each, entries):
        """Each receipt is of the entry that was asked for, and of no other's; each other answer is one that may come. Answers the numbers of all receipts."""
        numbers = []
        for entry, answer in answers.entries(each):
            if made := MADE.fullmatch(answer):
                numbers.append(int(made[1]))
                self.assertEqual(entries[numbers[-1] - 1], entry)
            elif not REFUSED.fullmatch(answer):
                self.assertEqual(entry.kind, "publish")
                self.assertIn(answer, OTHERS)
        self.assertEqual(len(set(numbers)), len(numbers))
        return sorted(numbers)

    def assert_legal(self, answers, each, entries):
        """Each entry is accepted in its place; and each refusal is one over the log that it tells, for the first reason."""
        refused = collections.defaultdict(list)
        for entry, answer in answers.entries(each):
            if why := REFUSED.fullmatch(answer):
                refused[int(why[2])].append((entry, why[1]))
        model = LongModel()
        model.uploads = dict(CONTENT_OF)
        for number, entry in enumerate([*entries, None]):
            for other, reason in refused.pop(number, ()):
                with self.assertRaises(Refused) as caught:
                    model.enter(other)
                self.assertEqual(caught.exception.told["error"], reason)
            if entry:
                model.enter(entry)
        self.assertEqual(refused, {})

    def assert_looks(self, answers, most):
        """No reader sees less than before, or more than there is. Answers what each saw last."""
        looks = [[int(look.removeprefix("saw ")) for look in answers.told["reader", reader]] for reader in range(READERS)]
        for seen in looks:
            self.assertEqual(seen, sorted(set(seen)))
            self.assertLessEqual(max(seen, default=0), most)
        return [max(seen, default=0) for seen in looks]

    def test_work_at_once(self):
        each = scripts("at once", TASKS, PREPARED)
        answers = self.run_to_the_end(each)
        entries = self.entries()
        numbers = self.assert_receipts(answers, each, entries)
        self.assertEqual((answers.found, numbers), (PREPARED, list(range(PREPARED + 1, len(entries) + 1))))
        self.assertGreater(len(entries), TASKS // 3)
        self.assert_legal(answers, each, entries)
        self.assertEqual(self.assert_looks(answers, len(entries)), [len(entries)] * READERS)
        self.assertEqual((sum(answers.shares), answers.closed), (len(numbers), ["None of 7", f"Some({len(entries)})"]))

    def test_are_killed_and_go_on(self):
        first = scripts("before the kill", TASKS, PREPARED)
        before = self.run_to_a_kill(first)
        acknowledged = self.assert_receipts(before, first, self.entries())
        self.assertGreater(len(acknowledged), LINES_BEFORE_THE_KILL // 20)
        then = scripts("after the kill", TASKS // 10, acknowledged[-1])
        after = self.run_to_the_end(then)
        entries = self.entries()
        # Each deployer may have had one entry in hand, of which nothing was told.
        self.assertIn(after.found - PREPARED - len(acknowledged), range(DEPLOYERS + 1))
        self.assertEqual(self.assert_receipts(after, then, entries), list(range(after.found + 1, len(entries) + 1)))
        self.assertEqual(self.assert_receipts(before, first, entries[:after.found]), acknowledged)
        self.assert_legal(before, first, entries[:after.found])
        self.assert_legal(after, then, entries)
        self.assert_looks(before, after.found)
        self.assertEqual(self.assert_looks(after, len(entries)), [len(entries)] * READERS)
