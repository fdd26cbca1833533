"""The wrong bodies of the crates, most of which ./test doesn't try: each still fits the code, and no contract has changed since
they were tried."""

import pathlib
import re
import sys
import tempfile
import types
import unittest

from lib.repository import TOP
from lib.sandbox import Sandbox

sys.path.insert(0, str(TOP / "scripts"))
import contracts  # noqa: E402
import edit_trials  # noqa: E402
from source_words import Source  # noqa: E402

CRATES = sorted(folder for folder in (TOP / "crates").iterdir() if folder.is_dir())
FOLDERS = ("must-fail", "wrong-bodies")


def unfit(crate, edit):
    """The texts of an edit that are not there exactly once, after the pairs before them were applied."""
    texts, path, old, found = {}, None, None, []
    for line in edit.read_text().splitlines():
        key, _, text = line.partition(": ")
        if key == "file":
            path = crate / text.strip()
            texts.setdefault(path, path.read_text())
        elif key == "old":
            old = text
            found += [old] if texts[path].count(old) != 1 else []
        elif line.startswith("new:"):
            texts[path] = texts[path].replace(old, text)
    return found


class Edits(unittest.TestCase):
    def test_fit_the_code(self):
        edits = [(crate, edit) for crate in CRATES for folder in FOLDERS for edit in sorted((crate / folder).glob("*.edit"))]
        self.assertGreater(len(edits), 600)
        for crate, edit in edits:
            with self.subTest(edit=f"{crate.name}/{edit.name}"):
                self.assertEqual(unfit(crate, edit), [])

    def test_were_refused_by_the_contracts_that_are_there(self):
        # Those of a crate whose contracts have changed since are tried by scripts/try-wrong-bodies; until then a list names it.
        named = set(re.findall(r"(?m)^(\w+)$", (TOP / "scripts" / "untried-crates.txt").read_text()))
        tried = [crate for crate in CRATES if any((crate / "wrong-bodies").glob("*.edit"))]
        changed = {crate.name for crate in tried if contracts.kept(crate) != contracts.digest_of(crate)}
        self.assertEqual(changed, named, "run scripts/try-wrong-bodies, or name the crates in scripts/untried-crates.txt")


    def test_are_in_the_full_check_only_if_the_document_says_why(self):
        # The first edit of a crate that ./test tries costs everyone one more proof of that crate.
        told = (TOP / "CONTRIBUTING.md").read_text().partition("\n| Crate | In `./test` | Why |\n")[2].partition("\n\n")[0]
        rows = re.findall(r"(?m)^\| `(\w+)` \| (\d+) \| \w.* \|$", told)
        counts = {crate.name: len(list((crate / "must-fail").glob("*.edit"))) for crate in CRATES}
        wanted = {name: int(count) for name, count in rows}
        self.assertGreater(len(wanted), 1)
        self.assertEqual({name: count for name, count in counts.items() if count}, wanted, "put the edit into wrong-bodies, or say why not in CONTRIBUTING.md")


class Contracts(unittest.TestCase):
    """What the digest of a crate's contracts goes by."""

    code = """//! A crate.
pub fn at(&self, place: usize) -> Option<u8>
    requires { place < length self.now }
    ensures found { IfSome result (λ byte. { byte } ≡ 7) }
{
    self.bytes.get(place).copied()
}

impl Model for Bytes {
    ghost Value = { List ℕ };
    ghost use Rattle.std.specs.Prelude.{length};
}
"""

    def digest(self, code, definition="length"):
        with tempfile.TemporaryDirectory() as room:
            crate = pathlib.Path(room)
            for folder, name, text in (("src", "lib.rt", code), ("specs", "Lib.antt", definition)):
                (crate / folder).mkdir()
                (crate / folder / name).write_text(text)
            return contracts.digest_of(crate)

    def test_clauses_end_with_their_braces(self):
        self.assertEqual(contracts.clauses_of(self.code), [
            "requires { place < length self.now }", "ensures found { IfSome result (λ byte. { byte } ≡ 7) }",
            "ghost Value = { List ℕ }", "ghost use Rattle.std.specs.Prelude.{length}",
        ])

    def test_a_clause_or_a_definition_changes_it_and_a_body_does_not(self):
        digest = self.digest(self.code)
        self.assertEqual(digest, self.digest(self.code.replace("copied", "cloned").replace("A crate", "Bytes")))
        for old, new in (("place < length", "place ≤ length"), ("≡ 7", "≡ 8"), ("ensures found", "ensures none"), ("List ℕ", "ℕ")):
            self.assertNotEqual(digest, self.digest(self.code.replace(old, new)))
        self.assertNotEqual(digest, self.digest(self.code, "other"))

    def test_what_moves_is_said_as_before(self):
        said = contracts.sayings_of({"specs/Lib.antt": "-- one\nuse Rattle.std.specs.Prelude.{length}\nsize = length", "src/lib.rt": self.code})
        moved = contracts.sayings_of({"specs/Sizes.antt": "size = length\n", "src/bytes.rt": self.code.replace("ghost use Rattle.std", "ghost use std")})
        self.assertEqual(said, moved)
        self.assertEqual(sorted(said)[-1], "size = length")
        other = contracts.sayings_of({"specs/Lib.antt": "size = length", "src/lib.rt": self.code.replace("≡ 7", "≡ 8")})
        self.assertEqual([sum(one.values()) for one in (said - other, other - said)], [1, 1])


class Functions(unittest.TestCase):
    """Of which function a line of the prover is."""

    code = """impl From<AllocError> for Fault {
    fn from(_error: AllocError) -> Fault {
        Fault::OutOfMemory
    }
}

impl<E: Clone> From<Entry<E>> for Fault {
    fn from(_entry: Entry<E>) -> Fault {
        Fault::Device
    }
}

impl Fault {
    fn is_device(&self) -> bool {
        *self == Fault::Device
    }
}

fn from(fault: &impl Copy) -> &impl Copy {
    fault
}
"""

    def setUp(self):
        self.functions = Source("src/file/faults.rt", self.code).functions()

    def assert_of(self, is_of, *wanted):
        self.assertEqual([at for at, function in enumerate(self.functions) if is_of(function)], list(wanted))

    def test_an_impl_tells_those_of_one_name(self):
        self.assertEqual([one.owner for one in self.functions], ["FaultFromAllocError", "FaultFromEntry", r"\w+", ""])
        self.assertFalse(any(one.has_namesake for one in self.functions))
        for at, name in enumerate(("FaultFromAllocError::from", "FaultFromEntry::from", "Fault::is_device", "from")):
            self.assert_of(lambda one: one.is_unproved_by(f"fn few::file::faults::{name}: not proved", "few"), at)
            self.assert_of(lambda one: one.is_at(f"./proofs/file/faults/{name.replace('::', '/')}/Answers.antt:3:1: error: no"), at)
        self.assert_of(lambda one: one.is_unproved_by("fn few::file::faults::Fault::is_device::closure: not proved", "few"), 2)
        self.assert_of(lambda one: one.is_unproved_by("fn few::file::faults::from: proved", "few"))
        self.assert_of(lambda one: one.is_at("src/file/faults.rt:8:9: error: no"), 1)

    def test_two_of_one_impl_have_a_namesake(self):
        functions = Source("src/faults.rt", self.code + "impl Fault {\n    fn is_device(&self) -> u8 {\n        0\n    }\n}\n").functions()
        self.assertEqual([one.has_namesake for one in functions], [False, False, True, False, True])

    def test_the_root_file_has_no_module(self):
        [function] = Source("src/lib.rt", "fn words() -> u8 {\n    1\n}\n").functions()
        self.assertTrue(function.is_unproved_by("fn few::words: not proved", "few"))
        self.assertTrue(function.is_at("proofs/words/Proof.antt:1:1: error: no"))


class MadeUpProver:
    """Refuses each function whose sum isn't the number of its name, and reads no text with a question mark. An edit is an old and a new text."""

    code = "fn one() -> u8 {\n    1\n}\n\nfn two() -> u8 {\n    2\n}\n\nfn three() -> u8 {\n    3\n}\n"

    def __init__(self):
        self.checks = 0

    def read_edit(self, edit, _folder):
        return {"src/numbers.rt": self.code.replace(*edit)}, None

    def unread(self, _line, _texts):
        return False

    def checked(self, _crate, texts, _flags, _kept):
        self.checks += 1
        lines = texts["src/numbers.rt"].split("\n")
        said = [f"src/numbers.rt:{at}:5: error[no-name]: no such name" for at, line in enumerate(lines, 1) if "?" in line]
        if not said:
            sums = {name: sum(map(int, lines[at].split(" + "))) for name, at in (("one", 1), ("two", 5), ("three", 9))}
            wrong = [name for name, number in zip(sums, (1, 2, 3)) if sums[name] != number]
            said = [f"src/numbers.rt:{4 * list(sums).index(name) + 2}:5: error: the result isn't {name}" for name in wrong]
            said += [f"fn few::numbers::{name}: not proved" for name in wrong] + ["logic=not-proved" if wrong else "logic=proved"]
        return types.SimpleNamespace(stdout="\n".join(said) + "\n")


class Together(unittest.TestCase):
    """Several wrong bodies in one check, over a prover that is made up."""

    def setUp(self):
        room = tempfile.TemporaryDirectory()
        self.addCleanup(room.cleanup)
        self.prover, self.crate = MadeUpProver(), types.SimpleNamespace(name="few", folder=room.name)
        pathlib.Path(room.name, "src").mkdir()
        pathlib.Path(room.name, "src", "numbers.rt").write_text(self.prover.code)

    def tried(self, *edits):
        """Those of them that are refused in one check, and how many checks that took."""
        [together] = edit_trials.in_different_functions([edit_trials.Wrong(self.prover, self.crate, edit) for edit in edits])
        self.prover.checks = 0
        return set(edit_trials.refused_together(self.prover, self.crate, together, None)), self.prover.checks

    def test_each_is_refused_for_its_own_function(self):
        one, two, three, right = ("    1", "    4"), ("    2", "    2 + 4"), ("    3", "    5"), ("    2", "    1 + 1")
        self.assertEqual(self.tried(one, two, three), ({one, two, three}, 1))
        self.assertEqual(self.tried(one, right, three), ({one, three}, 1))
        self.assertEqual(self.tried(right, one), ({one}, 1))

    def test_one_that_does_not_compile_leaves_the_others(self):
        one, unread, three = ("    1", "    4"), ("    2", "    ?"), ("    3", "    5")
        self.assertEqual(self.tried(one, unread, three), ({one, three}, 2))
        self.assertEqual(self.tried(one, unread), (set(), 1))


# What the scripts ask of the toolchain, so that it refuses each edit but `right.edit`.
TOOLCHAIN = """
import pathlib, types

class Crate:
    def __init__(self, folder):
        self.name, self.folder = folder.name, str(folder)

    def is_built(self):
        return True

    def count(self, _pattern):
        return 1

rtlib = types.SimpleNamespace(guarded=lambda: [], crates_below=lambda top: [Crate(one) for one in pathlib.Path(top, "crates").iterdir()])
free = processors = lambda: 1
need = lambda _crate: 1

def read_edit(_edit, _folder):
    return {}, None

def must_fail(crate, edit, _flags, _kept=None):
    return not edit.endswith("/right.edit"), f"must-fail {crate.name}/{edit}"
"""


class Outside(unittest.TestCase):
    """The scripts over a crate of which ./test tries no wrong body, and which was never tried."""

    def setUp(self):
        modules = (f"scripts/{name}.py" for name in ("arguments", "contracts", "edit_trials", "source_words"))
        self.sandbox = Sandbox("scripts/try-wrong-bodies", "scripts/wrong-bodies", *modules)
        self.addCleanup(self.sandbox.close)
        self.sandbox.add_crates("few:\n")
        self.sandbox.write("HANDLES")
        self.sandbox.write("crates/few/wrong-bodies/wrong.edit", "file: src/lib.rt\nold: first\nnew: second\n")
        (self.sandbox.folder / "toolchain" / "rt").write_text(TOOLCHAIN)
        self.kept = self.sandbox.top / "crates/few/wrong-bodies/contracts.sha1"

    def call(self, *words):
        status, out, errors = self.sandbox.run(*words)
        self.assertEqual(errors, "")
        return status, out.splitlines()

    def tried(self):
        status, lines = self.call("scripts/try-wrong-bodies")
        return status, lines[-1]

    def untried(self):
        return self.call("scripts/wrong-bodies", "--untried")[1]

    def test_are_tried_until_each_is_refused_and_again_once_a_contract_changes(self):
        self.assertEqual(self.untried(), ["few"])
        right = self.sandbox.write("crates/few/wrong-bodies/right.edit", "file: src/lib.rt\nold: first\nnew: third\n")
        self.assertEqual((self.tried(), self.kept.exists()), ((1, "1 refused, 1 let through"), False))
        right.unlink()
        self.assertEqual((self.tried(), self.untried()), ((0, "1 refused, 0 let through"), []))
        self.sandbox.write("crates/few/specs/Lib.antt", "another definition")
        self.assertEqual(self.untried(), ["few"])

    def test_are_counted_and_listed(self):
        self.assertEqual(self.call("scripts/wrong-bodies", "--counts")[1][2:], ["| few | 0 | 1 |", "| all | 0 | 1 |"])
        self.assertEqual(self.call("scripts/wrong-bodies", "few")[1][2:], ["| few |  | wrong | src/lib.rt | try-wrong-bodies |"])
        self.assertEqual(self.call("scripts/wrong-bodies", "--tried")[1][2:], ["| few | 1 | never |"])
