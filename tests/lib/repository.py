"""The files of this repository, as the tests of its documents read them."""

import pathlib
import re

TOP = pathlib.Path(__file__).resolve().parents[2]
PAGES = sorted(page for pattern in ("*.md", "*/*.md", "crates/*/PROMISES.md") for page in TOP.glob(pattern))


def read(*path):
    """The text of a file, by the parts of its path from the top."""
    return TOP.joinpath(*path).read_text()


def crates():
    """The crates of crates.txt, each with what it stands on."""
    lines = (line.partition("#")[0].partition(":") for line in read("crates.txt").splitlines())
    return {name.strip(): set(rest.split()) for name, _, rest in lines if name.strip()}


def groups():
    """The headings of crates.txt, each with the crates below it."""
    parts = re.split(r"(?m)^# (\w.*)$", read("crates.txt"))[3:]
    return {title: re.findall(r"(?m)^(\w+):", lines) for title, lines in zip(parts[::2], parts[1::2])}


def code_of(crate):
    """All source files of a crate, one after another."""
    return "\n".join(file.read_text() for file in sorted((TOP / "crates" / crate / "src").rglob("*.rt")))
