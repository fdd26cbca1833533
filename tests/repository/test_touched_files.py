"""What CONTRIBUTING.md says that a new thing touches, against the files that one of each touches that is there: a reason, a route and a command."""

import re
import unittest

from lib.repository import TOP

FILE = re.compile(r"\b(?:[a-z_]+/(?:src|specs|proofs)/(?:\w+/)*\w+\.(?:rt|antt)|docs/\w+\.md)\b")


def lists():
    """The lists of "What a new thing touches", by their titles: the number in the title, and the files of each item."""
    text = (TOP / "CONTRIBUTING.md").read_text()
    section = text.partition("\n## What a new thing touches\n")[2].partition("\n## ")[0]
    found = {}
    for part in section.split("\n### ")[1:]:
        title, count = re.fullmatch(r"(.*): (\d+) files", part.partition("\n")[0]).groups()
        items = re.findall(r"(?ms)^\d+\. .*?(?=^\d+\. |\n\n|\Z)", part)
        found[title] = (int(count), [FILE.findall(item) for item in items])
    return found


def files():
    """The files of the crates and the documents, by the names that CONTRIBUTING.md gives them. Crates that only measure or test are left out,
    and so are laws."""
    for crate in sorted((TOP / "crates").iterdir()):
        if crate.name.endswith(("_driver", "_tests")):
            continue
        for folder in ("src", "specs", "proofs"):
            for file in sorted((crate / folder).rglob("*")):
                if file.suffix in (".rt", ".antt") and file.name != "laws.rt":
                    yield str(file.relative_to(TOP / "crates")), file
    for file in sorted((TOP / "docs").glob("*.md")):
        yield str(file.relative_to(TOP)), file


def touching(words):
    """The files in which one of these words is."""
    return {name for name, file in files() if re.search(words, file.read_text())}


class TouchedFiles(unittest.TestCase):
    lists = lists()

    def named(self, title):
        return {name for item in self.lists[title][1] for name in item}

    def test_each_list_has_as_many_files_as_its_title_says(self):
        for title, (count, items) in self.lists.items():
            with self.subTest(title):
                self.assertEqual([len(item) for item in items], [1] * count)
                self.assertEqual(len(self.named(title)), count)

    def test_the_files_are_there(self):
        for title in self.lists:
            for name in self.named(title):
                with self.subTest(name):
                    self.assertTrue((TOP / name).exists() or (TOP / "crates" / name).exists())

    def test_a_reason(self):
        self.assertEqual(touching(r"\bPathTooLong\b"), self.named("To add a reason to refuse a change or an undo"))

    def test_a_route(self):
        self.assertEqual(touching(r"\bKeptFile\b|GET, HEAD \| the file at the path of that deploy"), self.named("To add a route"))

    def test_a_command(self):
        # What asks for it is a route, whose files come on top.
        route = self.named("To add a route")
        found = touching(r"\bRemoveAlias\b|\bfn remove_alias\b|\bthe removal of an alias \| site, alias\b")
        self.assertEqual(found - route, self.named("To add a command"))
