"""The words that a script is called with: `--help` prints what it does, and a word that it doesn't take ends it before it does anything."""

import argparse
import pathlib
import re

TOP = pathlib.Path(__file__).resolve().parent.parent


class Arguments(argparse.ArgumentParser):
    """A parser that tells a mistake in one line on standard error, with status 2."""

    def __init__(self, program, about):
        super().__init__(prog=program, description=about, formatter_class=argparse.RawDescriptionHelpFormatter)

    def error(self, message):
        self.exit(2, f"{self.prog}: {' '.join(message.split())}\n")

    def expect_crates(self, names):
        """Ends the script if one of these names isn't that of a crate in crates.txt."""
        for name in names:
            if name not in crates():
                self.error(f"there is no crate {name}")


def lines_of_crates(top=TOP):
    """The lines of a repository's crates.txt without their comments, by the names of the crates, in its order."""
    lines = (line.partition("#")[0].strip() for line in (top / "crates.txt").read_text().splitlines())
    return {re.split(r"[\s:]", line)[0]: line for line in lines if line}


def crates(top=TOP):
    """The names in a repository's crates.txt, in its order."""
    return list(lines_of_crates(top))


def used_by(name, top=TOP):
    """The crates that a crate needs of its repository, with those that each uses: each after these, and the crate itself at the end."""
    lines, found = lines_of_crates(top), {}

    def add(one):
        if one not in found:
            below = [used for used in re.split(r"[\s:,]+", lines[one])[1:] if used in lines]
            for used in below:
                add(used)
            found[one] = below

    add(name)
    return found
