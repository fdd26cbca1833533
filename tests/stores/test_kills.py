"""The program over a store is killed at any moment, and opened again: what was acknowledged is there.

A kill ends the program alone. What it wrote is then still in the system's memory, so that this shows no loss of power.
"""

import collections
import concurrent.futures
import pathlib
import tempfile
import time

from lib.client import Program
from lib.killed_program import Reach, Round

KILLS = 200
KILLS_A_FOLDER = 10
FOLDERS_AT_ONCE = 3


class Kills(Program):
    def kill_over_one_folder(self, seed, reach):
        with tempfile.TemporaryDirectory(prefix="filehost-test-") as room:
            killed = Round(self, pathlib.Path(room), seed, reach)
            for number in range(KILLS_A_FOLDER):
                try:
                    killed.kill_once()
                except AssertionError as error:
                    raise AssertionError(f"kill {number} of the folder of seed {seed}: {error}") from error
            killed.look_at_all()
            return killed.tally

    def tally(self):
        folders = range(KILLS // KILLS_A_FOLDER)
        with concurrent.futures.ThreadPoolExecutor(FOLDERS_AT_ONCE) as pool:
            return sum(pool.map(self.kill_over_one_folder, folders, [Reach()] * len(folders)), collections.Counter())

    def test_lose_nothing_that_was_acknowledged(self):
        begun = time.perf_counter()
        tally = self.tally()
        print(f"{', '.join(f'{count} {when}' for when, count in sorted(tally.items()))}, in {time.perf_counter() - begun:.0f} s")
        self.assertEqual(sum(tally[when] for when in ("while the store was opened", "after the reply", "within a request")), KILLS)
        self.assertGreater(tally["within a request"], KILLS // 10, tally)
