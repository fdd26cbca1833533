"""What is promised, crates/NAME/PROMISES.md and docs/TRUST.md, against the code: the functions, the clauses and the wrong bodies that they name."""

import collections
import re
import subprocess
import unittest

from lib.public_calls import contract_at, public_functions
from lib.repository import TOP, code_of, crates, read

PAGES = {page.parent.name: page for page in sorted((TOP / "crates").glob("*/PROMISES.md"))}
EDIT = re.compile(r"(?<![\w-])`([a-z][a-z0-9]*(?:-[a-z0-9]+)+)`")


def edits(crate):
    return {file.stem for folder in ("must-fail", "wrong-bodies") for file in (TOP / "crates" / crate / folder).glob("*.edit")}


def rows(text):
    """The rows of the tables of promises in a page, which begin with a row `Promise`."""
    tables = re.findall(r"(?m)^\| Promise \|.*\n\|[-|]+\n((?:\|.*\n)+)", text)
    return [[cell.strip() for cell in line.strip("| ").split(" | ")] for table in tables for line in table.splitlines()]


def contracts_of(code):
    """The contract of each function in code, by its name; functions of one name have theirs together."""
    found = collections.defaultdict(str)
    for begin in re.finditer(r"\bfn (\w+)", code):
        found[begin[1]] += contract_at(code, begin.start())
    return found


class Promises(unittest.TestCase):
    def assert_is_stated(self, code, functions, clauses):
        """A row names functions and clauses that are there: each clause is one of these functions', or a ghost item or a method of a trait's. Where
        the row names a trait or a type, a clause of any function will do."""
        contracts = contracts_of(code)
        names = [name.rpartition("::")[2] for name in re.findall(r"`(\w[\w:]*)(?=[`<])", functions)]
        self.assertTrue(names and "clause" in clauses or "`" in clauses, "a row needs a function and a clause")
        for name in names:
            self.assertTrue(re.search(rf"\b{name}\b", code), f"there is no {name}")
        stated = "\n".join(contracts[name] for name in names if name in contracts) if set(names) <= set(contracts) else code
        for name in re.findall(r"`(\w+)`", clauses):
            if name == "ensures":
                self.assertTrue(re.search(r"\bensures \{", stated), "each clause has a name")
            else:
                is_there = re.search(rf"\bensures\*? {name} ", stated) or re.search(rf"\bghost {name}\b|\bfn {name}\b", code)
                self.assertTrue(is_there, f"there is no clause {name}")

    def test_each_row_names_functions_and_clauses_that_are_there(self):
        for crate, page in PAGES.items():
            code = code_of(crate)
            self.assertTrue(rows(page.read_text()), crate)
            for promise, functions, clauses in rows(page.read_text()):
                with self.subTest(crate=crate, promise=promise):
                    self.assertTrue(promise[0] != promise[0].lower() or not promise[0].isalpha())
                    self.assertEqual(promise[-1], ".")
                    self.assert_is_stated(code, functions, clauses)

    def test_each_clause_of_a_public_function_has_a_row(self):
        for crate, page in PAGES.items():
            cited = collections.defaultdict(str)
            for _, functions, clauses in rows(page.read_text()):
                for name in re.findall(r"`(\w[\w:]*)(?=[`<])", functions):
                    cited[name.rpartition("::")[2]] += f"{clauses}; "
            for owner, name, contract in public_functions(crate):
                clauses = cited[name] + cited[owner]
                for clause in re.findall(r"\bensures (\w*)", contract):
                    with self.subTest(crate=crate, function=f"{owner}::{name}", clause=clause):
                        self.assertTrue(f"`{clause or 'ensures'}`" in clauses or re.search(r"\bclauses?\b", clauses))

    def test_each_crate_with_wrong_bodies_has_a_page(self):
        self.assertEqual({crate for crate in crates() if edits(crate)}, set(PAGES))

    def test_wrong_bodies_that_are_named_are_there(self):
        for page in (*PAGES.values(), TOP / "docs" / "TRUST.md", TOP / "docs" / "CHECKS.md"):
            of = [page.parent.name] if page.parent.name in PAGES else crates()
            there = set().union(*map(edits, of))
            for name in set(EDIT.findall(page.read_text())) - {"try-wrong-bodies"}:
                with self.subTest(page=str(page.relative_to(TOP)), name=name):
                    self.assertIn(name, there)

    def test_each_page_says_how_its_wrong_bodies_are_listed(self):
        for crate, page in PAGES.items():
            with self.subTest(crate):
                self.assertIn(f"`scripts/wrong-bodies {crate}`", page.read_text())


class Trust(unittest.TestCase):
    """docs/TRUST.md."""

    text = read("docs", "TRUST.md")

    def test_has_ten_promises_that_are_stated(self):
        self.assertEqual(len(rows(self.text)), 10)
        for promise, crate, functions, clauses in rows(self.text):
            with self.subTest(promise):
                code = code_of(crate.strip("`"))
                Promises.assert_is_stated(self, code, functions, clauses)

    def test_names_crates_that_are_there(self):
        """Of each crate bench/HISTORY.md says which bugs were drawn in it."""
        drawn = read("bench", "HISTORY.md").partition("| Crate | Places |")[2].partition("\n\n")[0]
        named = re.findall(r"(?m)^\| `(\w+)` \|", drawn)
        self.assertGreater(len(named), 12)
        self.assertEqual(set(named) - set(crates()), set())


class WrongBodies(unittest.TestCase):
    """scripts/wrong-bodies."""

    def printed(self, *words):
        ran = subprocess.run([TOP / "scripts/wrong-bodies", *words], capture_output=True, text=True, check=True)
        return ran.stdout.splitlines()

    def test_lists_each_with_what_it_breaks(self):
        listed = [[cell.strip() for cell in line.strip("| ").split(" | ")] for line in self.printed()[2:]]
        self.assertEqual(sorted((row[0], row[2]) for row in listed), sorted((crate, name) for crate in crates() for name in edits(crate)))
        for crate, broken, name, files, _ in listed:
            with self.subTest(crate=crate, edit=name):
                for item in re.findall(r"`(?:\w+::)?(\w+)`", broken):
                    self.assertRegex(code_of(crate), rf"\b(fn|const|static) {item}\b")
                self.assertRegex(broken, r"^`")
                for file in files.split(", "):
                    self.assertTrue((TOP / "crates" / crate / file).is_file())

    def test_counts_them(self):
        counts = {row[0]: row[1:] for row in (line.strip("| ").split(" | ") for line in self.printed("--counts")[2:])}
        for crate in PAGES:
            tried, outside = (len(list((TOP / "crates" / crate / folder).glob("*.edit"))) for folder in ("must-fail", "wrong-bodies"))
            self.assertEqual(counts[crate], [str(tried), str(outside)])
        self.assertEqual(sum(map(int, counts["all"])), sum(len(edits(crate)) for crate in crates()))

    def test_tells_which_are_to_be_tried_again(self):
        self.assertEqual(self.printed("--untried"), re.findall(r"(?m)^(\w+)$", read("scripts", "untried-crates.txt")))
