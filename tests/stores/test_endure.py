"""bench/endure and bench/endure-serve for some seconds; that they find what is wrong; and the quick model that they have against the plain one."""

import os
import pathlib
import re
import subprocess
import tempfile
import unittest

from lib.client import ABC, HELLO, PROGRAM, SECONDS, TOP, Program
from lib.generated_histories import Generator
from lib.long_model import LongModel
from lib.many_clients import Shown
from lib.plain_history import Deploy, Entry
from lib.plain_model import Model

HISTORIES = 60
REQUESTS_OF_A_HISTORY = 120
# For how many minutes they go on, and for how many more where the machine is so slow that they have done too little by then.
LONGER = (0.08, 0.5, 3)
COUNTS = ("connections", "requests", "entries", "undos", "clashes", "kills", "wrong replies", "lost entries")


class Endure(Program):
    def endure(self, minutes, seed, *words, **environment):
        """Runs it in a temporary folder, and returns its status, its counts and the lines before them, and its words on standard error."""
        with tempfile.TemporaryDirectory(prefix="filehost-test-") as room:
            words = ["--minutes", str(minutes), "--seed", str(seed), "--folder", pathlib.Path(room) / "store", *words]
            ran = subprocess.run([TOP / "bench/endure", *words], env=os.environ | environment, capture_output=True, text=True, timeout=SECONDS)
        *lines, last = ran.stdout.splitlines()
        counts = {name: int(count.replace(",", "")) for count, name in re.findall(r"([\d,]+) ([a-z][a-z ]+)", last)}
        self.assertEqual(tuple(counts), COUNTS, ran.stderr)
        return ran.returncode, counts, lines, ran.stderr

    def test_finds_nothing_wrong(self):
        for minutes in LONGER:
            status, counts, lines, errors = self.endure(minutes, 1, "--program", PROGRAM)
            self.assertEqual((status, counts["wrong replies"], counts["lost entries"], errors), (0, 0, 0, ""))
            rows = [line.strip("| ").split(" | ") for line in lines if line.startswith("|")]
            if all(counts[name] for name in COUNTS[:-2]) and len(rows) > 3:
                break
        for name in COUNTS[:-2]:
            self.assertGreater(counts[name], 0, counts)
        self.assertGreater(len(rows), 3)
        self.assertEqual({len(row) for row in rows}, {15})
        self.assertEqual([int(cell.replace(",", "")) for cell in rows[-1][1:7]], [counts[name] for name in COUNTS[:-2]])

    def assert_finds(self, wrong, kind, counted):
        status, counts, _, errors = self.endure(LONGER[-1], 1, "--program", TOP / "tests/lib/wrong_program", WRONG=wrong)
        self.assertEqual(status, 1)
        self.assertEqual([name for name in COUNTS[-2:] if counts[name]], [counted])
        self.assertRegex(errors, rf"\Abench/endure: {kind}: .*; seed 1, connection \d+, request \d+ of it; the folder is \S+\n\Z")

    def test_finds_a_byte_that_is_wrong(self):
        self.assert_finds("byte", "wrong", "wrong replies")

    def test_finds_an_entry_that_is_lost(self):
        self.assert_finds("entry", "lost", "lost entries")


class EndureServe(Program):
    def endure(self, *words, **environment):
        """Runs it in a temporary folder, and returns its status, the cells of the last row of its table, and its words on standard error."""
        with tempfile.TemporaryDirectory(prefix="filehost-test-") as room:
            words = ["--life", "1.5", "--second", "1000", "--folder", pathlib.Path(room) / "store", *words]
            ran = subprocess.run([TOP / "bench/endure-serve", *words], env=os.environ | environment, capture_output=True, text=True, timeout=SECONDS)
        first, *_, last = [line.strip("| ").split(" | ") for line in ran.stdout.splitlines()]
        return ran.returncode, dict(zip(first, last)), ran.stderr

    def test_finds_nothing_wrong(self):
        for minutes in LONGER:
            status, cells, errors = self.endure("--minutes", str(minutes), "--program", PROGRAM)
            self.assertEqual((status, cells["Wrong replies"], cells["Lost entries"], errors), (0, "0", "0", ""))
            counts = [int(cells[name].replace(",", "")) for name in ("Lives", "Looks", "Entries", "Undos", "Hostile connections")]
            if min(counts) > 1:
                break
        self.assertGreater(min(counts), 1, cells)

    def test_finds_an_entry_that_is_lost(self):
        """In the life that begins with the journal from which it was taken, which is the second one unless the first made few entries."""
        status, cells, errors = self.endure("--minutes", str(LONGER[-1]), "--program", TOP / "tests/lib/wrong_program", WRONG="entry")
        self.assertEqual((status, cells["Wrong replies"], cells["Lost entries"]), (1, "0", "1"))
        self.assertGreater(int(cells["Lives"]), 1)
        self.assertRegex(errors, r"\Abench/endure-serve: lost: .*; seed 1; the folder is \S+\n\Z")


class Looks(unittest.TestCase):
    """What bench/endure-serve finds wrong of replies."""

    def setUp(self):
        """A log after which the file is, from its start to its end: not there, `hello`, `abc`, and `hello` again."""
        self.shown = Shown()
        deploys = [Entry("open", "one", (Deploy({"/a.txt": digest}, False, True),)) for digest in (HELLO, ABC)]
        publishes = [Entry("publish", "one", (number,)) for number in (1, 3)]
        self.shown.add([deploys[0], publishes[0], deploys[1], publishes[1], Entry("undo", "one", (4,))], [b"hello", b"abc"])

    def fault(self, *looks):
        return self.shown.fault_of([(connection, told, (404 if content is None else 200, content)) for connection, told, content in looks])

    def test_are_right_where_states_come_in_their_order(self):
        self.assertIsNone(self.fault((0, 0, None), (0, 0, b"hello"), (1, 0, None), (0, 2, b"abc"), (1, 0, b"abc"), (0, 0, b"hello"), (0, 5, b"hello")))

    def test_are_wrong_where_a_connection_goes_back(self):
        self.assertEqual(self.fault((0, 0, b"abc"), (1, 0, None), (0, 0, None)), "(404, None) is no state after 4 entries")

    def test_are_wrong_where_a_state_is_older_than_what_was_told(self):
        self.assertEqual(self.fault((0, 2, None)), "(404, None) is no state after 2 entries")
        self.assertEqual(self.fault((0, 5, b"abc")), "(200, b'abc') is no state after 5 entries")

    def test_are_wrong_where_no_state_was_so(self):
        self.assertEqual(self.fault((0, 0, b"hellp")), "(200, b'hellp') is no state after 0 entries")
        self.assertEqual(self.shown.fault_of([(0, 0, (503, b"hello"))]), "(503, b'hello') is no state after 0 entries")

    def test_need_entries_that_are_accepted(self):
        self.assertRaises(AssertionError, self.shown.add, [Entry("undo", "one", (4,))], [])


class Models(unittest.TestCase):
    def test_the_quick_model_answers_as_the_plain_one(self):
        for seed in range(HISTORIES):
            plain, quick = Model(), LongModel()
            for asked in Generator(seed, plain).requests(REQUESTS_OF_A_HISTORY):
                self.assertEqual(quick.answer(asked), plain.answer(asked), (seed, asked))
                if len(plain.entries) % 10 == 0:
                    quick, requests = quick.copy(), quick.requests
                    quick.requests = requests
            quick.compare()
            self.assertEqual((quick.state(), tuple(quick.live_changes())), (plain.state(), plain.live_changes()), seed)

    def test_the_comparison_of_the_models_fails_where_they_differ(self):
        quick = LongModel()
        for asked in Generator(1, quick).requests(REQUESTS_OF_A_HISTORY):
            quick.answer(asked)
        quick.compare()
        for spoil in (lambda: quick.live.pop(), lambda: quick.cells.popitem(), lambda: quick.effects.popitem()):
            spoilt, quick = quick, quick.copy()
            spoil()
            self.assertRaises(AssertionError, quick.compare)
            quick = spoilt
