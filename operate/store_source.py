"""The store that operate/follow copies: a folder of this machine, or one that another machine gives over a pipe.

A store is read in this order: first both slots of the journal, to their ends, then the names of files, then files. Files are only added, each by a renaming, so all that the
journal needs is there by then.
"""

import contextlib
import hashlib
import pathlib
import re
import subprocess

import journal
from shown_text import shown

FILE = re.compile("[ct]-[0-9a-f]{40}")
# How many files are asked for before the first of them is read: their names have room in a pipe.
AHEAD = 500


class Fault(Exception):
    """Why a copy wasn't made, in a line. `passes` says that the next one may be."""

    def __init__(self, why, passes=True):
        super().__init__(why)
        self.passes = passes


def end_of_records(records):
    """Where the closed gate is that ends records, each behind its gate, and how many these are; None if there isn't a gate yet.

    A record that isn't there whole after its open gate is taken for one that isn't written yet.
    """
    if not records:
        return None
    gate, count = 0, 0
    while records[gate:gate + 1] == journal.OPEN:
        after = gate + 5 + int.from_bytes(records[gate + 1:gate + 5], "big")
        if len(records) <= after:
            break
        gate, count = after, count + 1
    return gate, count


def records_of(slots):
    """What follows the header of the slot that is read: records, each behind its gate, and the last gate. None if neither is in use."""
    place = journal.place_read(slots)
    if place is None:
        return b""
    return slots[place][len(journal.HEADERS[journal.generation_of(slots[place])]):]


class Folder:
    """A store in a folder."""

    def __init__(self, folder):
        self.folder = pathlib.Path(folder)

    def records_from(self, place):
        """The SHA-256 of the bytes of the journal's records before this place, and all that are from there on."""
        # A folder that isn't there is told as that.
        self.folder.stat()
        # As `cat` reads them: each slot to its end, however long it is by then.
        try:
            records = records_of(journal.slots_in(self.folder))
        except journal.BadHeader:
            raise Fault(f"{shown(self.folder)} has no journal that opens (BadHeader): operate/why says more") from None
        return hashlib.sha256(records[:place]).hexdigest(), records[place:]

    def names(self):
        return [file.name for file in self.folder.iterdir() if FILE.fullmatch(file.name)]

    def files(self, names):
        """The bytes of each of these files, or None if it isn't there."""
        for name in names:
            try:
                yield (self.folder / name).read_bytes()
            except FileNotFoundError:
                yield None

    def close(self):
        pass


def given(source, word, rest):
    """The answer to a line of a `Pipe`."""
    if word == "records" and rest.isdecimal():
        digest, came = source.records_from(int(rest))
        return f"{digest} {len(came)}\n".encode() + came
    if word == "names":
        names = source.names()
        return f"{len(names)}\n".encode() + "".join(f"{name}\n" for name in names).encode()
    if word == "file" and FILE.fullmatch(rest):
        content = next(source.files([rest]))
        return b"-\n" if content is None else b"%d\n" % len(content) + content
    return b"! it gives records, names and files of a store, and nothing else\n"


def give(folder, asked, out):
    """Answers what a `Pipe` asks, line by line, until nothing more comes."""
    for line in asked:
        word, _, rest = line.decode().strip().partition(" ")
        try:
            answer = given(Folder(folder), word, rest)
        except (OSError, Fault) as error:
            answer = f"! {error}\n".encode()
        out.write(answer)
        out.flush()


class Pipe:
    """A store of another machine, which a command there gives."""

    def __init__(self, command):
        self.started = subprocess.Popen(command, stdin=subprocess.PIPE, stdout=subprocess.PIPE)

    def ask(self, *lines):
        with contextlib.suppress(BrokenPipeError):
            self.started.stdin.write("".join(f"{line}\n" for line in lines).encode())
            self.started.stdin.flush()

    def line(self):
        line = self.started.stdout.readline()
        if not line.endswith(b"\n"):
            self.fail()
        if line.startswith(b"! "):
            raise Fault(line[2:-1].decode())
        return line[:-1].decode()

    def read(self, count):
        came = self.started.stdout.read(count)
        if len(came) < count:
            self.fail()
        return came

    def fail(self):
        raise Fault(f"the command that gives the store ended, with status {self.started.wait()}")

    def records_from(self, place):
        self.ask(f"records {place}")
        digest, _, length = self.line().partition(" ")
        return digest, self.read(int(length))

    def names(self):
        self.ask("names")
        return [name for name in [self.line() for _ in range(int(self.line()))] if FILE.fullmatch(name)]

    def files(self, names):
        for first in range(0, len(names), AHEAD):
            some = names[first:first + AHEAD]
            self.ask(*(f"file {name}" for name in some))
            for _ in some:
                length = self.line()
                yield None if length == "-" else self.read(int(length))

    def close(self):
        for pipe in (self.started.stdin, self.started.stdout):
            with contextlib.suppress(OSError):
                pipe.close()
        self.started.wait()
