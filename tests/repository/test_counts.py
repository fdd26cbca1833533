"""scripts/counts; and the numbers in pages that a script makes or another page has, against these."""

import re
import subprocess
import unittest

from lib.repository import PAGES, TOP, crates, read


def printed(script, *words):
    """The lines that a script prints."""
    return subprocess.run([TOP / "scripts" / script, *words], capture_output=True, text=True, check=True, timeout=120).stdout.splitlines()


def table(*words):
    """The rows that scripts/counts prints, below its head, each as its cells; numbers without their commas."""
    return [[re.sub(r"(?<=\d),(?=\d{3})", "", cell) for cell in line.strip("| ").split(" | ")] for line in printed("counts", *words)[2:]]


def of_the_program():
    """The crates that the program needs."""
    found, waiting = set(), ["filehost"]
    while waiting:
        name = waiting.pop()
        if name in crates() and name not in found:
            found.add(name)
            waiting += crates()[name]
    return found


class Counts(unittest.TestCase):
    """scripts/counts."""

    def test_counts_crates_and_pages(self):
        counts = {what: count for what, count, _ in table()}
        self.assertEqual(counts["crates of the program"], str(len(of_the_program())))
        self.assertEqual(counts["crates in all"], str(len(list((TOP / "crates").glob("*/src")))))
        self.assertEqual(counts["lines of README.md"], str(read("README.md").count("\n")))
        self.assertEqual(counts["bytes of docs/"], str(sum(file.stat().st_size for file in (TOP / "docs").glob("**/*.*"))))
        self.assertEqual(counts["bytes of all pages"], str(sum(page.stat().st_size for page in PAGES)))

    def test_tells_of_each_page_its_size(self):
        self.assertEqual({name: (int(size), int(lines)) for name, size, lines in table("--pages")},
                         {str(page.relative_to(TOP)): (page.stat().st_size, page.read_text().count("\n")) for page in PAGES})

    def test_adds_up_the_clauses_of_the_crates(self):
        rows = [list(map(int, row[1:])) for row in table("--clauses")]
        counts = {what: int(count) for what, count, _ in table()}
        self.assertEqual([sum(column) for column in zip(*rows)], [
            counts["lines of clauses"], counts["lines of clauses over 100 columns"], counts["lines of clauses over 120 columns"],
        ])
        for lines, wide, wider in rows:
            self.assertTrue(lines >= wide >= wider)

    def test_names_what_two_crates_define(self):
        rows = table("--names")
        self.assertEqual({what: count for what, count, _ in table()}["names of definitions in two crates or more"], str(len(rows)))
        for name, of in rows:
            with self.subTest(name):
                found = re.findall(r"`(\w+)`", of)
                self.assertGreater(len(found), 1)
                for crate in found:
                    texts = [file.read_text() for file in (TOP / "crates" / crate / "specs").glob("**/*.antt")]
                    self.assertTrue(any(re.search(rf"(?m)^ *(?:\w+ )*{re.escape(name.strip('`'))} [^\n]*:", text) for text in texts))


class NumbersOfPages(unittest.TestCase):
    def test_of_chains_in_trust_are_those_that_the_script_counts(self):
        text = " ".join(read("docs", "TRUST.md").partition("## How long the theorem is")[2].partition("\n## ")[0].split()).replace(",", "")
        whole, lines = map(int, re.search(r"`run_solo` a reader needs (\d+) definitions of (\d+) lines", text).groups())
        undo, = re.search(r"takes (\d+) definitions \(`scripts/chain change_undo History::undo`\)", text).groups()
        step = re.search(r"`Guest::go_on` takes (\d+) of (\d+) lines", text).groups()
        self.assertEqual(printed("chain", "host_server", "run_solo")[-1], f"{whole} definitions, {lines} lines")
        self.assertTrue(printed("chain", "change_undo", "History::undo")[-1].startswith(f"{undo} definitions"))
        self.assertEqual(printed("chain", "shared_house", "Guest::go_on")[-1], f"{step[0]} definitions, {step[1]} lines")
        parts = re.findall(r"(\d+)(?: definitions)? \(`([A-Z]\w+(?: [A-Z]\w+)*)`\)", text)
        self.assertEqual(len(parts), 3)
        for count, names in parts:
            with self.subTest(names):
                rest = printed("chain", "host_server", "run_solo", "--without", *names.split())[-1]
                self.assertTrue(rest.startswith(f"{whole - int(count)} definitions"), rest)

    def test_of_wrong_bodies_in_trust_are_near_those_that_the_script_counts(self):
        told = int(re.search(r"Each of some ([\d,]+) edits", read("docs", "TRUST.md"))[1].replace(",", ""))
        counted = sum(map(int, re.findall(r"\d+", printed("wrong-bodies", "--counts")[-1])))
        self.assertLess(abs(told - counted), counted / 20)

    def test_of_comparisons_are_those_of_all_that_was_measured(self):
        there = read("bench", "COMPARED.md") + read("bench", "README.md") + read("bench", "HISTORY.md")
        numbers = set(re.findall(r"(?<![\w.,])\d[\d,]*\.?\d*(?= ms\b)|(?<=\| )\d[\d,]*(?= \|)", read("docs", "COMPARISON.md")))
        self.assertGreater(len(numbers), 10)
        for number in numbers:
            with self.subTest(number):
                self.assertTrue(re.search(rf"(?<![\d.,]){re.escape(number)}(?!\d)", there))

    def test_of_the_last_whole_run_are_those_of_the_history(self):
        shown = read("docs", "CHECKS.md").partition("**The last whole run**")[2].partition("\n\n")[0]
        there = read("bench", "HISTORY.md").partition("## The full check")[2].partition("\n## ")[0]
        numbers = re.findall(r"(?<![\w.,])\d[\d,]*\d", shown)
        self.assertGreater(len(numbers), 4)
        for number in set(numbers) - {"000"}:
            with self.subTest(number):
                self.assertIn(number, there)

    def test_of_the_seconds_of_tests_have_the_sum_that_is_told(self):
        seconds = sum(map(int, re.findall(r"(?m)^\| `test_\w+\.py` \| (\d+) \|", read("tests", "README.md"))))
        self.assertEqual(re.search(r"The sum is (\d+) minutes", read("tests", "README.md"))[1], str(round(seconds / 60)))
