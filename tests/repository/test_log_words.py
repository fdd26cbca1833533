"""What is above change_log speaks of a log in the words of Logs.antt there, which know its base: no clause and no definition counts the entries of a
log, puts some after them, or numbers them from 1."""

import re
import unittest

from lib.repository import TOP

# A parameter `entries.now` is a slice, such as the paths of a listing.
LOG = r"(?:(?:\w+\.)*entries\b(?!\.now)|\b(?:log|before)(?:\.now)?\b)"
SPELT_OUT = {
    "counts the entries of a log": rf"\blength {LOG}",
    "puts entries after those of a log": rf"{LOG} *\+\+",
    "puts the entries of a log after others": r"\+\+ *(?:\w+\.)*entries\b",
    "numbers entries from 1": r"\benumerate_from 1\b",
}

# change_undo says what an entry means. A file of a journal has entries and no base. The log of a list is one of its pushes.
EXCEPTIONS = {"change_undo", "change_journal", "journal_stops", "seen_lists"}


def crates_above(name):
    """The crates that stand on this one, directly or not."""
    lines = (line.partition("#")[0].partition(":") for line in (TOP / "crates.txt").read_text().splitlines())
    uses = {crate.split()[0]: set(rest.split()) for crate, _, rest in lines if crate.strip()}
    above = {name}
    while more := {crate for crate, below in uses.items() if below & above} - above:
        above |= more
    return sorted(above - {name})


def clauses(file):
    """A file of code or of definitions, without its comments."""
    comment = "//" if file.suffix == ".rt" else "--"
    return "\n".join(line.partition(comment)[0] for line in file.read_text().splitlines())


def files(crate):
    for folder in ("src", "specs"):
        for ending in ("rt", "antt"):
            yield from sorted((TOP / "crates" / crate / folder).rglob(f"*.{ending}"))


class WordsOfLogs(unittest.TestCase):
    def test_no_crate_above_spells_a_log_out(self):
        above = [crate for crate in crates_above("change_log") if crate not in EXCEPTIONS]
        self.assertIn("host_server", above)
        for file in (file for crate in above for file in files(crate)):
            for what, pattern in SPELT_OUT.items():
                with self.subTest(f"{file.relative_to(TOP)} {what}"):
                    self.assertEqual([found[0] for found in re.finditer(pattern, clauses(file))], [])

    def test_each_way_to_spell_a_log_out_would_be_found(self):
        spelt_out = [
            "result ≡ length self.now.entries", "length log.now", "length before + 1",
            "old.entries ++ entry ∷ []", "before ++ entry ∷ after", "first ++ new.entries", "filter_map f (enumerate_from 1 host.entries)",
        ]
        for clause in spelt_out:
            with self.subTest(clause):
                self.assertTrue(any(re.search(pattern, clause) for pattern in SPELT_OUT.values()))
