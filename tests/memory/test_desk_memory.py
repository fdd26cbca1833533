"""Something is asked of a desk again and again, over `desk_driver`, each time with another allocation refused: where there is no memory the seat's
count, what is shown and the bytes of the journal stay, and the same call makes the entry then. So it is with the opening of the desk. Where all allocations
are refused from a place on, each run ends.
"""

import os
import shutil
import subprocess

from lib.client import SECONDS
from lib.desks import AtDesk, Look, entering, uploading
from lib.refused_allocations import SOURCE
from lib.stores import opening_of
import journal

OPEN = opening_of({"/a.txt": b"hello"})
PUBLISH, REMOVE, UNDO_2 = ("publish", "one", 1), ("remove", "one", "/a.txt"), ("undo", "one", 2)
UPLOAD = uploading(0, 1, "/a.txt", "hello")
OPEN_TWO = opening_of({"/a.txt": b"hello", "/b.txt": b"abc"})
RENAME, REMOVE_B, UNDO_3 = ("rename", "one", "/a.txt", "/c.txt"), ("remove", "one", "/b.txt"), ("undo", "one", 3)
OPEN_FOLDERS = opening_of({"/e/x": b"hello", "/e/f/y": b"abc", "/k/z": b"abc"})
RENAME_E, RENAME_K = ("rename-folder", "one", "/e", "/g"), ("rename-folder", "one", "/k", "/l")
LACKING = ("OutOfMemory", "NotStored(OutOfMemory)")


class Memory(AtDesk):
    def setUp(self):
        super().setUp()
        self.library = self.new_folder() / "refuse_allocation.so"
        subprocess.run(["gcc", "-O1", "-shared", "-fPIC", "-o", self.library, SOURCE, "-ldl"], check=True, timeout=SECONDS)
        self.copy = self.new_folder() / "store"

    def run_refusing(self, place, *lines, **names):
        """The same in a copy of the folder. Answers how it ends, what is printed, the journal's bytes then, and how many allocations there were."""
        counted = self.library.with_name("allocations")
        shutil.copytree(self.folder, self.copy)
        names |= {"LD_PRELOAD": str(self.library), "REFUSED_PLACE": str(place), "ALLOCATIONS_FILE": str(counted)}
        status, printed, _ = self.run_lines("steps", lines, folder=self.copy, env=os.environ | names)
        found = journal.file_in(self.copy)
        shutil.rmtree(self.copy)
        return status, printed, found, int(counted.read_text())

    def assert_ends(self, status, printed, found, whole):
        """How a run may end, in which one thing is asked for twice: as the whole one, or as that one ends where memory ran out. Answers which."""
        before, after = self.read_journal(), self.after
        if status != 0:
            self.assertEqual(found, after if self.made in printed.answers else before)
            return "ended"
        self.assertEqual((found, printed.closed), (after, whole.closed))
        opened = [line for line in printed.lines if not line.endswith(" again")]
        if opened == whole.lines:
            return "opened again" if opened != printed.lines else "passed"
        self.assertIn(printed.answers[0], LACKING)
        self.assertEqual(printed.answers[1], self.made)
        self.assertEqual(printed.looks, [self.earlier, whole.looks[0]])
        return "asked again"

    def assert_made_once_there_is_memory(self, line, earlier, look):
        """`earlier` is what was seen before this line, `look` what is seen after it."""
        self.earlier, self.made = earlier, f"Made({len(look.words)})"
        status, whole, self.after, count = self.run_refusing(0, line, line)
        self.assertEqual((status, whole.answers[0], whole.looks[0]), (0, self.made, look))
        ends = []
        for place in range(1, count + 1):
            with self.subTest(place=place):
                status, printed, found, _ = self.run_refusing(place, line, line)
                ends.append(self.assert_ends(status, printed, found, whole))
        self.assertGreater(ends.count("asked again"), 10)
        self.assertGreater(ends.count("opened again"), 10)
        self.assert_journal_stays(line)

    def assert_journal_stays(self, line):
        """Where it is asked for once, and there is no memory, the journal has the bytes that it had."""
        before, lacking = self.read_journal(), 0
        _, _, _, count = self.run_refusing(0, line)
        for place in range(1, count + 1):
            status, printed, found, _ = self.run_refusing(place, line)
            if status == 0 and printed.answers[0] in LACKING:
                lacking += 1
                self.assertEqual((found, printed.looks, printed.closed[1]), (before, [self.earlier], f"Some({len(self.earlier.words)})"))
        self.assertGreater(lacking, 10)
        self.assert_ends_without_memory(line)

    def assert_ends_without_memory(self, line):
        """If there is no memory from a place on, each run ends, and the entry is told exactly if the journal has it: so nothing takes memory once it is put."""
        before, ends = self.read_journal(), set()
        _, _, _, count = self.run_refusing(0, line)
        for place in range(1, count + 1):
            with self.subTest(place=place):
                # The library may have no memory to tell how many allocations there were.
                status, printed, found, _ = self.run_refusing(place, line, REFUSED_FROM_THERE="1")
                self.assertGreaterEqual(status, 0)
                self.assertEqual(found, self.after if self.made in printed.answers else before)
                ends.add(found)
        self.assertEqual(ends, {before, self.after})

    def test_an_upload_publishes(self):
        self.play("steps", entering(0, OPEN))
        self.assert_made_once_there_is_memory(UPLOAD, Look.of(0, False, [OPEN]), Look.of(1, True, [OPEN, PUBLISH]))

    def test_a_change_is_made(self):
        self.play("steps", entering(0, OPEN), UPLOAD)
        self.assert_made_once_there_is_memory(entering(0, REMOVE), Look.of(0, True, [OPEN, PUBLISH]), Look.of(1, False, [OPEN, PUBLISH, REMOVE]))

    def test_an_undo_is_made(self):
        self.play("steps", entering(0, OPEN), UPLOAD)
        self.assert_made_once_there_is_memory(entering(0, UNDO_2), Look.of(0, True, [OPEN, PUBLISH]), Look.of(1, False, [OPEN, PUBLISH, UNDO_2]))

    def test_an_undo_of_a_change_is_made_after_which_others_were(self):
        before = [OPEN_TWO, PUBLISH, RENAME, REMOVE_B]
        uploads = [uploading(0, 1, "/a.txt", "hello"), uploading(0, 1, "/b.txt", "abc")]
        self.play("steps", entering(0, OPEN_TWO), *uploads, entering(0, RENAME), entering(0, REMOVE_B))
        self.assert_made_once_there_is_memory(entering(0, UNDO_3), Look.of(0, False, before), Look.of(1, True, [*before, UNDO_3]))

    def play_folders(self, *renamings):
        """Publishes files in folders, and renames some. Answers what was entered."""
        uploads = [uploading(0, 1, path, text) for path, text in (("/e/x", "hello"), ("/e/f/y", "abc"))]
        self.play("steps", entering(0, OPEN_FOLDERS), *uploads, *(entering(0, renaming) for renaming in renamings))
        return [OPEN_FOLDERS, PUBLISH, *renamings]

    def test_the_renaming_of_a_folder_is_made(self):
        before = self.play_folders(RENAME_K)
        self.assert_made_once_there_is_memory(entering(0, RENAME_E), Look.of(0, False, before), Look.of(1, False, [*before, RENAME_E]))

    def test_the_undo_of_the_renaming_of_a_folder_is_made_after_which_another_was_renamed(self):
        before = self.play_folders(RENAME_E, RENAME_K)
        self.assert_made_once_there_is_memory(entering(0, UNDO_3), Look.of(0, False, before), Look.of(1, False, [*before, UNDO_3]))
