"""What a reader of a contract has to read (scripts/chain): as much as scripts/chains.txt says, and what is defined there, by subject too."""

import pathlib
import re
import subprocess
import sys
import tempfile
import unittest

from lib.repository import TOP

sys.path.insert(0, str(TOP / "scripts"))
import definitions  # noqa: E402

LOWER = """\
-- what is counted
use Rattle.std.specs.Prelude.{ℕ, List, length}

-- not named by any
abbrev pub unread : ℕ
unread = 0

abbrev pub both : ℕ → ℕ
both n = n + more

-- named by the one before alone
unfoldable more : ℕ
more =
    1
"""
UPPER = """\
use Rattle.lower.specs.Counts.{both as twice}
use Rattle.lower.specs.Counts as counts

pub data Kind : Type 0 where
  Small : Kind
  Large : ℕ → Kind

pub record IsCounted (n : ℕ) : Type 0 where
  pub large : kind_of n ≡ Large n
  pub same : counts.both n ≡ twice n

abbrev pub kind_of : ℕ → Kind
kind_of n = record {
  kind = Small;
}
kind_of m = Small
"""
CODE = """\
ghost use Rattle.upper.specs.Kinds.{IsCounted};

/// No clause.
pub fn nothing() {}

impl Counter {
    pub fn count(&self) -> usize
        requires { IsCounted self.now }
        ensures { result ≡ 1 }
    {
        1
    }
}

pub fn count() -> usize
    ensures { result ≡ Rattle.lower.specs.Counts.unread }
{
    0
}

impl<K: Keeps<E>, E: Drop> Counts for Pair<K, E> {
    fn last(&self) -> usize
        ensures { result ≡ more }
    {
        1
    }
}
"""


class OfASmallRepository(unittest.TestCase):
    def setUp(self):
        folder = tempfile.TemporaryDirectory()
        self.addCleanup(folder.cleanup)
        self.top = pathlib.Path(folder.name)
        for name, text in {"lower/specs/Counts.antt": LOWER, "upper/specs/Kinds.antt": UPPER, "upper/src/counts.rt": CODE}.items():
            file = self.top / "crates" / name
            file.parent.mkdir(parents=True, exist_ok=True)
            file.write_text(text)

    def chain(self, function):
        return definitions.chain_of(self.top, *definitions.contract_of(self.top, "upper", function))

    def test_has_each_definition_once_in_the_order_of_reading(self):
        self.assertEqual(self.chain("Counter::count"), [
            ("upper/Kinds.antt", "IsCounted", 3),
            ("upper/Kinds.antt", "kind_of", 5),
            ("upper/Kinds.antt", "Kind", 3),
            ("lower/Counts.antt", "both", 2),
            ("lower/Counts.antt", "more", 3),
        ])

    def test_is_that_of_the_function_that_is_named(self):
        self.assertEqual(self.chain("count"), self.chain("Counter::count"))
        self.assertIsNotNone(definitions.contract_of(self.top, "upper", "Pair::last"))
        self.assertIsNone(definitions.contract_of(self.top, "upper", "Keeps::last"))
        self.assertIsNone(definitions.contract_of(self.top, "upper", "Counter::nothing"))
        self.assertIsNone(definitions.contract_of(self.top, "upper", "nothing"))
        self.assertIsNone(definitions.contract_of(self.top, "upper", "no_such_function"))

    def test_is_shorter_without_a_definition_and_what_only_that_names(self):
        contract = definitions.contract_of(self.top, "upper", "count")
        self.assertEqual([name for _, name, _ in definitions.chain_of(self.top, *contract, without=["both"])], ["IsCounted", "kind_of", "Kind"])

    def test_takes_names_that_are_written_in_full(self):
        text = "ensures { result ≡ Rattle.lower.specs.Counts.unread }"
        self.assertEqual(definitions.chain_of(self.top, text, {}, {}), [("lower/Counts.antt", "unread", 2)])


class OfThisRepository(unittest.TestCase):
    def rows(self):
        lines = (TOP / "scripts" / "chains.txt").read_text().splitlines()
        return [line.split() for line in lines if line and not line.startswith("#")]

    def test_is_as_long_as_is_written_down(self):
        for crate, function, *counts in self.rows():
            with self.subTest(function):
                printed = subprocess.run([TOP / "scripts/chain", crate, function], capture_output=True, text=True, timeout=60, check=True)
                *chain, total = printed.stdout.splitlines()
                self.assertEqual(total, f"{counts[0]} definitions, {counts[1]} lines")
                self.assertEqual(len(chain), int(counts[0]))

    def test_is_counted_by_subject(self):
        """Each definition is about one of the subjects, and these have all definitions and all lines."""
        printed = subprocess.run([TOP / "scripts/chain", "host_server", "run_solo", "--subjects"], capture_output=True, text=True, timeout=60, check=True)
        *rows, total = printed.stdout.splitlines()
        counts = [re.fullmatch(r"\| ([^|]+) \| (\d+) \| (\d+) \| [^|]+ \|", row).groups() for row in rows[2:]]
        subjects = re.findall(r"(?m)^(?!#)(.*?) \| ", (TOP / "scripts" / "chain-subjects.txt").read_text())
        self.assertEqual([subject for subject, *_ in counts], subjects)
        sums = [sum(int(row[column]) for row in counts) for column in (1, 2)]
        self.assertEqual(total, f"{sums[0]} definitions, {sums[1]} lines")

    def test_leads_the_program_down_to_what_each_command_means(self):
        printed = subprocess.run([TOP / "scripts/chain", "host_server", "run_solo"], capture_output=True, text=True, timeout=60, check=True)
        for definition in ("host_server/Solo.antt Runs ", "host_connection/Serving.antt Serves ", "site_change/Changes.antt meaning "):
            self.assertIn(definition, printed.stdout)

    def test_of_a_function_that_is_not_there_is_refused(self):
        refused = subprocess.run([TOP / "scripts/chain", "host_server", "no_such_function"], capture_output=True, text=True, timeout=60)
        self.assertEqual((refused.returncode, refused.stdout), (2, ""))
        self.assertEqual(refused.stderr, "chain: host_server has no function no_such_function with a contract\n")
