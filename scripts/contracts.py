"""What a crate's wrong bodies are judged by, its definitions and the clauses in its code, as one SHA-1.

scripts/try-wrong-bodies keeps it once all wrong bodies of the crate were refused, and test_wrong_bodies.py fails where it has
changed since: a clause that says less might let one of them through. What a clause cites of the crates below is watched there.
"""

import collections
import hashlib
import re

# How a clause, or a ghost item of a trait or an impl, begins; it ends with the brace that closes its first one, or with its line.
BEGINS = re.compile(r"^[ \t]*(?:requires|ensures|decreases|ghost)\b", re.MULTILINE)
KEPT = "contracts.sha1"


def end_of(text, start):
    """Where the clause ends that begins there."""
    first, line = text.find("{", start), text.find("\n", start)
    if first < 0 or line < 0 or first > line:
        return line if line >= 0 else len(text)
    depth = 0
    for place in range(first, len(text)):
        depth += (text[place] == "{") - (text[place] == "}")
        if depth == 0:
            return place + 1
    return len(text)


def clauses_of(text):
    """The clauses and ghost items in a source, each in one line."""
    return [" ".join(text[found.start():end_of(text, found.start())].split()) for found in BEGINS.finditer(text)]


def sayings_of(files):
    """How often each line of a definition and each clause is in these files, given by their names: without comments, and without the lines
    that say in which file a word is."""
    found = collections.Counter()
    for name, text in files.items():
        if name.endswith(".antt"):
            lines = (line.strip() for line in text.splitlines())
            found.update(line for line in lines if line and not re.match(r"--|(pub )?(use|mod) ", line))
        elif name.endswith(".rt"):
            found.update(clause for clause in clauses_of(text) if not clause.startswith("ghost use "))
    return found


def digest_of(crate):
    """The SHA-1 of the definitions and the clauses of a crate, by their files."""
    digest = hashlib.sha1()
    for file in sorted((crate / "specs").rglob("*.antt")):
        digest.update(f"{file.relative_to(crate)}\n{file.read_text()}\n".encode())
    for file in sorted((crate / "src").rglob("*.rt")):
        digest.update("\n".join([str(file.relative_to(crate)), *clauses_of(file.read_text()), ""]).encode())
    return digest.hexdigest()


def kept(crate):
    """The one over which all wrong bodies of a crate were refused, or nothing."""
    file = crate / "wrong-bodies" / KEPT
    return file.read_text().strip() if file.exists() else ""


def keep(crate, digest):
    (crate / "wrong-bodies" / KEPT).write_text(f"{digest}\n")
