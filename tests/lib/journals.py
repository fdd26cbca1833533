"""Journals that `host_driver` opens, and what it says of them."""

import concurrent.futures
import itertools
import pathlib
import subprocess
import tempfile
import unittest

from lib.built_crates import BuiltCrate
from lib.client import SECONDS
import journal

CRATE = BuiltCrate("host_driver")
FILES_AT_ONCE = 4


def told(first, second=b""):
    """What the program says of two slots that it opens, and what they then are."""
    try:
        entries, after = journal.opened(first, second)
        return f"{len(entries)} entries", after
    except journal.BadHeader:
        return "BadHeader", (first, second)
    except journal.BadRecord as fault:
        return f"BadRecord {fault.args[0]}", (first, second)


class Journals(unittest.TestCase):
    """Journals in a folder of their own, which the program opens and writes."""

    @classmethod
    def setUpClass(cls):
        CRATE.build()

    def setUp(self):
        folder = tempfile.TemporaryDirectory()
        self.addCleanup(folder.cleanup)
        self.folder = pathlib.Path(folder.name).resolve()
        self.file = self.folder / "journal"

    def run_program(self, *words, **how):
        ran = subprocess.run([CRATE.program, "journal", *words], check=True, capture_output=True, text=True, timeout=SECONDS, **how)
        return ran.stdout.strip()

    def open(self, path=None):
        """What the program says of the file that it opens, after the time that it took."""
        return self.run_program("open", path or self.file, "1").partition(" ")[2]

    def opened(self, slots, number):
        """What the program says of slots with these bytes, and what they then are. Their folder has a number for its name, and no other program in it."""
        folder = self.folder / str(number)
        folder.mkdir(exist_ok=True)
        for name, slot in zip(journal.SLOTS, slots):
            (folder / name).write_bytes(slot)
        return self.open(folder / "journal"), journal.slots_in(folder)

    def assert_opened(self, rows):
        """Each row is the files of two slots, what the program must say of them, and what they must be then."""
        slots = [before for before, _, _ in rows]
        with concurrent.futures.ThreadPoolExecutor(FILES_AT_ONCE) as pool:
            for (before, answer, after), (said, found) in zip(rows, pool.map(self.opened, slots, itertools.count())):
                shown = " / ".join(slot[:1_000].hex() for slot in before)
                self.assertEqual(said, answer, shown)
                self.assertTrue(found == after, f"{shown} becomes {[slot[:1_000].hex() for slot in found]}")
