"""The tables of the files of a store, as docs/STORAGE.md says them in "What is on a shelf"."""

PIECE, LARGEST_FILE = 65_536, 16_777_216
HEAD, NAME = 8, 20


class BadTable(Exception):
    """The bytes are the table of no file."""


def read(table):
    """The size of a file, and the digests of its pieces in order, each in hexadecimal digits."""
    size = int.from_bytes(table[:HEAD], "big")
    names = [table[at:at + NAME].hex() for at in range(HEAD, len(table), NAME)]
    if size > LARGEST_FILE or len(table) != HEAD + NAME * -(-size // PIECE):
        raise BadTable
    return size, names
