"""A hundred copies of a store under load, most of them killed, by each way that operate/follow has; and how long a switch to a copy takes."""

import os
import shutil
import statistics
import sys
import unittest

from lib.client import TOP, digest_of
from lib.copied_stores import CopiedStores, Rounds, fake_ssh
from lib.stores import opening_of, write_store
import journal

ROUNDS = 100


class Hundred(CopiedStores):
    def go_through(self, seed):
        rounds = Rounds(self, seed)
        rounds.go(ROUNDS)
        entries = len(self.entries_of(self.copy))
        seconds = statistics.median(rounds.switches)
        print(f"\n{rounds.copied} whole copies, {rounds.kills} that were killed, {entries:,} entries; a start with the copy took {seconds:.2f} s", flush=True)
        self.assertGreater(rounds.kills, ROUNDS // 3)
        self.assertGreater(rounds.copied, ROUNDS // 5)

    def test_from_a_folder(self):
        self.go_through(1)

    def test_from_another_machine(self):
        self.prefix, self.words = "other:", ("--ssh", fake_ssh(self.room), "--command", f"{sys.executable} -B {TOP / 'operate/follow'}")
        self.go_through(2)

    def test_by_rsync(self):
        self.prefix, self.words = "other:", ("--ssh", fake_ssh(self.room), "--command", f"{sys.executable} -B {TOP / 'operate/follow'}", "--rsync")
        self.go_through(3)


class Switch(CopiedStores):
    def test_how_long_copies_and_a_switch_take(self):
        """Of a store of 100 MiB in 400 files and 2,000 entries."""
        contents = [os.urandom(262_144) for _ in range(400)]
        files = {f"/{number}.bin": content for number, content in enumerate(contents)}
        entries = [opening_of(files), ("publish", "one", 1)]
        for number in range(999):
            entries += [opening_of({"/now.bin": contents[number % 400]}, flags=("patch", "auto")), ("publish", "one", len(entries) + 1)]
        write_store(self.store, entries, *contents)
        first, second = self.assert_copied(), self.assert_copied()
        _, seconds = self.serve_store(self.copy)
        print(f"\nfirst copy: {first}second copy: {second}a start with the copy: {seconds:.2f} s", flush=True)
        self.assertIn("2,000 entries, 2,000 of them new", first)
        self.assertEqual(digest_of(journal.file_in(self.copy)), digest_of(journal.file_in(self.store)))
        shutil.rmtree(self.copy)


if __name__ == "__main__":
    unittest.main()
