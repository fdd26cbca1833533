"""Deployers and readers at a desk over a store in a folder, by `desk_driver`: what they are to do, and what is printed then."""

import collections
import pathlib
import subprocess
import tempfile
import unittest

from lib.built_crates import BuiltCrate
from lib.client import SECONDS
import journal

CRATE = BuiltCrate("desk_driver")
DEPLOYERS, READERS = 8, 8


def entering(deployer, entry):
    """The line by which a deployer asks for an entry, which is told as the reader of journals does."""
    return f"{deployer} {journal.encode(entry).hex()}"


def uploading(deployer, number, path, text, site="one"):
    """The line by which it uploads a text: to the deploy of this number, or to the one that its last entry opened."""
    return f"{deployer} {site} {number} {path} {text}"


def word_of(entry):
    """The word that the program prints for an entry."""
    kind, _, *values = entry
    if kind in ("undo", "publish"):
        return f"{kind}:{values[0]}"
    return kind if kind in ("open", "remove") else "other"


class Look(collections.namedtuple("Look", "share is_served words")):
    """What a deployer sees: how many entries it made, whether `hello` is served at `/a.txt`, and a word for each entry."""

    @classmethod
    def of(cls, share, is_served, entries):
        return cls(share, is_served, [word_of(entry) for entry in entries])

    @classmethod
    def read(cls, line):
        share, count, served, word, entries, *words = line.split(" ")
        if (share, served, entries) != ("share", "served", "entries"):
            raise ValueError(line)
        return cls(int(count), word == "true", words)


class Printed:
    """What the program prints."""

    def __init__(self, text):
        *self.lines, rest = text.split("\n")
        self.is_cut = bool(rest)
        self.told = collections.defaultdict(list)
        for line in self.lines:
            word, _, rest = line.partition(" ")
            if word in ("deployer", "reader"):
                number, _, answer = rest.partition(" ")
                self.told[word, int(number)].append(answer)

    def rows(self, word):
        """What is printed after this word, in order."""
        return [line.removeprefix(f"{word} ") for line in self.lines if line.startswith(f"{word} ")]

    @property
    def found(self):
        """How many entries were found."""
        return int(self.rows("found")[0])

    @property
    def answers(self):
        """What deployers were answered, in order."""
        return [row.partition(" ")[2] for row in self.rows("deployer")]

    @property
    def looks(self):
        return [Look.read(line) for line in self.lines if line.startswith("share") and "served" in line]

    @property
    def shares(self):
        """How many entries were made from each seat, by the end."""
        return [int(row) for row in self.rows("share") if row.isdigit()]

    @property
    def closed(self):
        """What a desk answers where it is closed with one seat missing, and then with all."""
        return self.rows("closed")


class AtDesk(unittest.TestCase):
    """A store in a folder of its own, and the desk over it."""

    @classmethod
    def setUpClass(cls):
        CRATE.build()

    def setUp(self):
        self.folder = self.new_folder()

    def new_folder(self):
        room = tempfile.TemporaryDirectory(prefix="filehost-test-")
        self.addCleanup(room.cleanup)
        return pathlib.Path(room.name)

    def write_journal(self, entries):
        (self.folder / "journal").write_bytes(journal.write(entries))

    def read_journal(self):
        return journal.file_in(self.folder)

    def start(self, stage, folder=None, **how):
        words = [CRATE.program, "desk", stage, folder or self.folder]
        return subprocess.Popen(words, stdin=subprocess.PIPE, stdout=subprocess.PIPE, stderr=subprocess.PIPE, text=True, **how)

    def run_lines(self, stage, lines, **how):
        """The status, what is printed, and the words on standard error."""
        with self.start(stage, **how) as program:
            try:
                out, errors = program.communicate("".join(f"{line}\n" for line in lines), timeout=SECONDS)
            except subprocess.TimeoutExpired:
                program.kill()
                raise
        return program.returncode, Printed(out), errors

    def play(self, stage, *lines):
        """What is printed of a run that ends well."""
        status, printed, errors = self.run_lines(stage, lines)
        self.assertEqual((status, errors, printed.is_cut), (0, "", False))
        return printed
