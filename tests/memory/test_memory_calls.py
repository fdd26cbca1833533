"""tests/MEMORY.md against the code: each public call that may find no memory has a row, with tests that are there."""

import collections
import re
import unittest

from lib.public_calls import calls_that_may_lack_memory, lacking_types
from lib.repository import TOP, crates, read

CALL = re.compile(r"`(\w+(?:::\w+)?)`")


def tables():
    """The rows of each table of the page, by the heading above it."""
    found = collections.defaultdict(list)
    for part in read("tests", "MEMORY.md").split("\n## ")[1:]:
        title, *lines = part.splitlines()
        rows = [[cell.strip() for cell in line.strip("|").split(" | ")] for line in lines if line.startswith("|")]
        found[title] = rows[2:]
    return found


def files_of(cell):
    """The files of tests that a cell names."""
    for name in re.findall(r"`(test_\w+\.py)`", cell):
        yield from list(TOP.glob(f"tests/*/{name}")) or [TOP / "tests" / name]
    for part in re.split(r"[;,] (?=\w+_tests,)", f"; {cell}"):
        crate, _, names = part.removeprefix("; ").partition(", ")
        for name in re.findall(r"\b(\w+\.rt)\b", names if crate.endswith("_tests") else ""):
            yield TOP / "crates" / crate / "src" / "tests" / name


class Calls(unittest.TestCase):
    def test_that_may_find_no_memory_have_a_row(self):
        lacking = lacking_types()
        told = collections.defaultdict(set)
        for crate, calls, _ in tables()["Calls that may find no memory"]:
            told[crate.strip("`")].update(CALL.findall(calls))
        found = {crate: calls for crate in crates() if not crate.endswith(("_tests", "_driver")) and (calls := calls_that_may_lack_memory(crate, lacking))}
        self.assertGreater(sum(map(len, found.values())), 100)
        self.assertEqual(told, found)

    def test_are_made_by_tests_that_are_there(self):
        for title, rows in tables().items():
            for row in rows:
                with self.subTest(row=row[:2]):
                    files = list(files_of(row[-1]))
                    self.assertTrue(files or row[-1] == "the same")
                    self.assertEqual([str(file) for file in files if not file.is_file()], [])
                    for name in re.findall(r"`([A-Z]\w+)`", row[-1]):
                        self.assertTrue(any(f"class {name}(" in file.read_text() for file in files), f"there is no {name}")
