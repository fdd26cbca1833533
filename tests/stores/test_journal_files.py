"""Texts of entries and files of journals that are written by hand from docs/STORAGE.md, and such with a byte changed, added or cut: what
the program opens of each, and what the file then is. The reader in journal.py has to read the same of those that are written by hand.
"""

import random
import unittest

from lib.client import ABC, HELLO, digest_of
from lib.journals import Journals, told
import journal

NOTHING = digest_of(b"")

# The texts of entries.
TEXTS = [
    ("00 03 6f6e65 0000000000000005", ("undo", "one", 5)),
    ("01 03 6f6e65 00 00000000", ("open", "one", (), ())),
    ("01 03 6f6e65 01 00000000", ("open", "one", ("patch",), ())),
    ("01 03 6f6e65 02 00000000", ("open", "one", ("auto",), ())),
    ("01 03 6f6e65 03 00000001 0002 2f61 00", ("open", "one", ("patch", "auto"), (("/a", None),))),
    (
        f"01 03 6f6e65 00 00000002 0002 2f61 01 {HELLO} 0004 2f612f62 01 {ABC}",
        ("open", "one", (), (("/a", HELLO), ("/a/b", ABC))),
    ),
    (
        f"01 02 612d 01 00000002 0003 2fc3a9 01 {NOTHING} 0003 2fc3aa 00",
        ("open", "a-", ("patch",), (("/é", NOTHING), ("/ê", None))),
    ),
    ("02 01 39 00000000000f4240", ("publish", "9", 1_000_000)),
    ("03 03 6f6e65 0000000000000001", ("cancel", "one", 1)),
    ("04 03 6f6e65 04 6e657874 0000000000000100", ("alias", "one", "next", 256)),
    ("05 03 6f6e65 04 6e657874", ("no-alias", "one", "next")),
    ("06 03 6f6e65 0006 2f612e747874 0006 2f632e747874", ("rename", "one", "/a.txt", "/c.txt")),
    ("07 03 6f6e65 0006 2f612e747874", ("remove", "one", "/a.txt")),
    ("08 03 6f6e65 0000000000000002", ("restore", "one", 2)),
    ("09 03 6f6e65 0000000000010000", ("no-deploy", "one", 65_536)),
    ("0a 03 6f6e65 0005 2f646f6373 0003 2f6432", ("rename-folder", "one", "/docs", "/d2")),
]

# What is wrong with bytes that are the text of no entry.
NO_TEXTS = [
    ("no bytes", ""),
    ("a kind and no more", "03"),
    ("a kind that isn't there", "0b 03 6f6e65 0000000000000001"),
    ("the renaming of a folder with one path", "0a 03 6f6e65 0005 2f646f6373"),
    ("the renaming of a folder with three paths", "0a 03 6f6e65 0002 2f61 0002 2f62 0002 2f63"),
    ("a site without bytes", "03 00 0000000000000001"),
    ("a site in capitals", "03 01 41 0000000000000001"),
    ("a site that is cut", "03 04 6f6e65"),
    ("a site of 64 bytes", f"03 40 {'61' * 64} 0000000000000001"),
    ("the number 0", "03 03 6f6e65 0000000000000000"),
    ("a number above 1,000,000", "03 03 6f6e65 00000000000f4241"),
    ("a number whose highest byte is set", "03 03 6f6e65 0100000000000001"),
    ("a number that is cut", "03 03 6f6e65 00000000000001"),
    ("a number with a byte after it", "03 03 6f6e65 000000000000000100"),
    ("the change 0", "00 03 6f6e65 0000000000000000"),
    ("an alias without bytes", "05 03 6f6e65 00"),
    ("an alias of a space", "05 03 6f6e65 01 20"),
    ("a path without its slash", "07 03 6f6e65 0005 612e747874"),
    ("a path of its slash", "07 03 6f6e65 0001 2f"),
    ("an empty path", "07 03 6f6e65 0000"),
    ("a path with an empty segment", "07 03 6f6e65 0004 2f612f2f"),
    ("a path with a segment of two points", "07 03 6f6e65 0003 2f2e2e"),
    ("a path with a question mark", "07 03 6f6e65 0003 2f613f"),
    ("a path that is no UTF-8", "07 03 6f6e65 0002 2fff"),
    ("a path that is cut", "07 03 6f6e65 0006 2f612e7478"),
    ("a path with a byte after it", "07 03 6f6e65 0006 2f612e747874 00"),
    ("a renaming without its last byte", "06 03 6f6e65 0006 2f612e747874 0006 2f632e7478"),
    ("a renaming with a byte after it", "06 03 6f6e65 0006 2f612e747874 0006 2f632e747874 00"),
    ("flags of 4", "01 03 6f6e65 04 00000000"),
    ("flags of 255", "01 03 6f6e65 ff 00000000"),
    ("a count that is too low", "01 03 6f6e65 01 00000000 0002 2f61 00"),
    ("a count that is too high", "01 03 6f6e65 01 00000002 0002 2f61 00"),
    ("a count above 10,000", "01 03 6f6e65 01 00002711 0002 2f61 00"),
    ("the greatest count", "01 03 6f6e65 01 ffffffff 0002 2f61 00"),
    ("a removal outside a patch", "01 03 6f6e65 00 00000001 0002 2f61 00"),
    ("a mark of 2", "01 03 6f6e65 01 00000001 0002 2f61 02"),
    ("a digest that is cut", f"01 03 6f6e65 00 00000001 0002 2f61 01 {HELLO[:-2]}"),
    ("a path twice", "01 03 6f6e65 01 00000002 0002 2f61 00 0002 2f61 00"),
    ("paths that fall", "01 03 6f6e65 01 00000002 0002 2f62 00 0002 2f61 00"),
]

# The files of both slots, what is opened of them, and both after that; without these they stay. First come files of version 1, then those of
# version 2, and then which of two is read.
FILES = """\
 / | 0 entries |  / 0146484a524e4c02 0000000000000001 00
00 / | 0 entries | 00 / 0146484a524e4c02 0000000000000001 00
01 / | 0 entries | 01 / 0146484a524e4c02 0000000000000001 00
07 / | 0 entries | 07 / 0146484a524e4c02 0000000000000001 00
00 46484a / | 0 entries | 00 / 0146484a524e4c02 0000000000000001 00
00 46484a524e4c01 00 / | 0 entries | 00 / 0146484a524e4c02 0000000000000001 00
00 46484a524e4c01 01 0000000d 03036f6e650000000000000001 00 / | 0 entries | 00 / 0146484a524e4c02 0000000000000001 00
00 0000000000000000000000000000 / | 0 entries | 00 / 0146484a524e4c02 0000000000000001 00
0146484a524e4c01 00 / | 0 entries | 0146484a524e4c01 00 / 0146484a524e4c02 0000000000000001 00
0246484a524e4c01 00 / | 0 entries | 02 / 0146484a524e4c02 0000000000000001 00
ff46484a524e4c01 00 / | 0 entries | ff / 0146484a524e4c02 0000000000000001 00
0246484a524e4c01 01 / | 0 entries | 02 / 0146484a524e4c02 0000000000000001 00
0246484a524e4c01 02 / | 0 entries | 02 / 0146484a524e4c02 0000000000000001 00
0246484a524e4c01 00 00 / | 0 entries | 02 / 0146484a524e4c02 0000000000000001 00
0246484a524e4c01 / | 0 entries | 02 / 0146484a524e4c02 0000000000000001 00
0246 / | 0 entries | 02 / 0146484a524e4c02 0000000000000001 00
0246484a524e4c02 00 / | 0 entries | 02 / 0146484a524e4c02 0000000000000001 00
0246484a524e4d01 00 / | 0 entries | 02 / 0146484a524e4c02 0000000000000001 00
0146 / | BadHeader |
0146484a524e4c01 / | BadHeader |
0146484a524e4c02 00 / | BadHeader |
0146484a524e4c00 00 / | BadHeader |
0146484a524e4c02 01 0000000d 03036f6e650000000000000001 00 / | BadHeader |
0147484a524e4c01 00 / | BadHeader |
0146484a524e6c01 00 / | BadHeader |
2346484a524e4c01 01 0000000d 03036f6e650000000000000001 00 / | 0 entries | 23 / 0146484a524e4c02 0000000000000001 00
0146484a524e4c01 07 / | 0 entries | 0146484a524e4c01 07 / 0146484a524e4c02 0000000000000001 00
0146484a524e4c01 00 0000 / | 0 entries | 0146484a524e4c01 00 0000 / 0146484a524e4c02 0000000000000001 00
0146484a524e4c01 ff 0000 / | 0 entries | 0146484a524e4c01 ff 0000 / 0146484a524e4c02 0000000000000001 00
0146484a524e4c01 00 0000000d 03036f6e650000000000000001 00 / | 0 entries | 0146484a524e4c01 00 0000000d 03036f6e650000000000000001 00 / 0146484a524e4c02 0000000000000001 00
0146484a524e4c01 00 0000000d 03036f6e650000000000000001 01 / | 0 entries | 0146484a524e4c01 00 0000000d 03036f6e650000000000000001 01 / 0146484a524e4c02 0000000000000001 00
0146484a524e4c01 02 0000000d 03036f6e650000000000000001 00 / | 0 entries | 0146484a524e4c01 02 0000000d 03036f6e650000000000000001 00 / 0146484a524e4c02 0000000000000001 00
0146484a524e4c01 02 0000000d 03036f6e65000000 / | 0 entries | 0146484a524e4c01 02 0000000d 03036f6e65000000 / 0146484a524e4c02 0000000000000001 00
0146484a524e4c01 01 0000000d 03036f6e650000000000000001 00 / | 1 entries | 0146484a524e4c01 01 0000000d 03036f6e650000000000000001 00 / 0146484a524e4c02 0000000000000001 01 0000000d 03036f6e650000000000000001 00
0146484a524e4c01 01 0000000d 03036f6e650000000000000001 09 / | 1 entries | 0146484a524e4c01 01 0000000d 03036f6e650000000000000001 09 / 0146484a524e4c02 0000000000000001 01 0000000d 03036f6e650000000000000001 00
0146484a524e4c01 01 0000000d 03036f6e650000000000000001 00 01 / | 1 entries | 0146484a524e4c01 01 0000000d 03036f6e650000000000000001 00 01 / 0146484a524e4c02 0000000000000001 01 0000000d 03036f6e650000000000000001 00
0146484a524e4c01 01 / | BadRecord 1 |
0146484a524e4c01 01 0000000d 03036f6e650000000000000001 / | BadRecord 1 |
0146484a524e4c01 01 0000000c 03036f6e650000000000000001 00 / | BadRecord 1 |
0146484a524e4c01 01 0000000e 03036f6e650000000000000001 00 / | BadRecord 1 |
0146484a524e4c01 01 00000000 00 / | BadRecord 1 |
0146484a524e4c01 01 ffffffff 00 / | BadRecord 1 |
0146484a524e4c01 01 0000000d 03036f6e650000000000000000 00 / | BadRecord 1 |
0146484a524e4c01 01 0000000d 03036f6e6500000000000f4241 00 / | BadRecord 1 |
0146484a524e4c01 01 0000000d 03036f6e650000000000000001 01 / | BadRecord 2 |
0146484a524e4c01 01 00000011 0a036f6e6500052f646f637300032f6432 00 / | BadRecord 1 |
0146484a524e4c01 01 0000000d 03036f6e650000000000000001 01 00000011 0a036f6e6500052f646f637300032f6432 00 / | BadRecord 2 |
 / 0146484a524e4c01 01 00000011 0a036f6e6500052f646f637300032f6432 00 | BadRecord 1 |
0146484a524e4c02 0000000000000001 01 00000011 0a036f6e6500052f646f637300032f6432 00 / | 1 entries |
0146484a524e4c01 01 0000000d 03036f6e650000000000000001 01 00000001 00 00 / | BadRecord 2 |
0146484a524e4c02 0000000000000001 00 / | 0 entries |
0146484a524e4c02 0000000000000001 07 / | 0 entries | 0146484a524e4c02 0000000000000001 00 /
0146484a524e4c02 0000000000000001 00 0000 / | 0 entries | 0146484a524e4c02 0000000000000001 00 /
0146484a524e4c02 0000000000000001 ff 0000 / | 0 entries | 0146484a524e4c02 0000000000000001 00 /
0146484a524e4c02 0000000000000001 00 0000000d 03036f6e650000000000000001 00 / | 0 entries | 0146484a524e4c02 0000000000000001 00 /
0146484a524e4c02 0000000000000001 00 0000000d 03036f6e650000000000000001 01 / | 0 entries | 0146484a524e4c02 0000000000000001 00 /
0146484a524e4c02 0000000000000001 02 0000000d 03036f6e650000000000000001 00 / | 0 entries | 0146484a524e4c02 0000000000000001 00 /
0146484a524e4c02 0000000000000001 02 0000000d 03036f6e65000000 / | 0 entries | 0146484a524e4c02 0000000000000001 00 /
0146484a524e4c02 0000000000000001 01 0000000d 03036f6e650000000000000001 00 / | 1 entries |
0146484a524e4c02 0000000000000001 01 0000000d 03036f6e650000000000000001 09 / | 1 entries | 0146484a524e4c02 0000000000000001 01 0000000d 03036f6e650000000000000001 00 /
0146484a524e4c02 0000000000000001 01 0000000d 03036f6e650000000000000001 00 01 / | 1 entries | 0146484a524e4c02 0000000000000001 01 0000000d 03036f6e650000000000000001 00 /
 / 0146484a524e4c02 0000000000000001 01 | BadRecord 1 |
 / 0146484a524e4c02 0000000000000001 01 0000000d 03036f6e650000000000000001 | BadRecord 1 |
 / 0146484a524e4c02 0000000000000001 01 0000000c 03036f6e650000000000000001 00 | BadRecord 1 |
 / 0146484a524e4c02 0000000000000001 01 0000000e 03036f6e650000000000000001 00 | BadRecord 1 |
 / 0146484a524e4c02 0000000000000001 01 00000000 00 | BadRecord 1 |
 / 0146484a524e4c02 0000000000000001 01 ffffffff 00 | BadRecord 1 |
 / 0146484a524e4c02 0000000000000001 01 0000000d 03036f6e650000000000000000 00 | BadRecord 1 |
 / 0146484a524e4c02 0000000000000001 01 0000000d 03036f6e6500000000000f4241 00 | BadRecord 1 |
 / 0146484a524e4c02 0000000000000001 01 0000000d 03036f6e650000000000000001 01 | BadRecord 2 |
 / 0146484a524e4c02 0000000000000001 01 0000000d 03036f6e650000000000000001 01 00000001 00 00 | BadRecord 2 |
0146484a524e4c02 0000000000000001 / | BadHeader |
0146484a524e4c02 0000000000000000 00 / | BadHeader |
0146484a524e4c02 0000000000000002 00 / | BadHeader |
0146484a524e4c02 0100000000000001 00 / | BadHeader |
0146484a524e4c03 0000000000000002 00 / | BadHeader |
0146484a524e4c02 0000000000000001 00 / 0146484a524e4c02 0000000000000001 00 | BadHeader |
0146484a524e4c01 00 / 0146484a524e4c01 00 | BadHeader |
0146484a524e4c02 0000000000000001 00 / 0146 | BadHeader |
0146484a524e4c01 00 / 0100 | BadHeader |
0146484a524e4c01 01 0000000d 03036f6e650000000000000001 00 / 0146484a524e4c02 0000000000000001 00 | 0 entries |
0146484a524e4c02 0000000000000001 00 / 0146484a524e4c01 01 0000000d 03036f6e650000000000000001 00 | 0 entries |
0146484a524e4c01 01 / 0146484a524e4c02 0000000000000001 00 | 0 entries |
0146484a524e4c02 0000000000000001 00 / 00 46484a | 0 entries | 0146484a524e4c02 0000000000000001 00 / 00
07 46484a / 0146484a524e4c02 0000000000000001 00 | 0 entries | 07 / 0146484a524e4c02 0000000000000001 00
00 46484a / 0146484a524e4c01 00 | 0 entries | 0146484a524e4c02 0000000000000001 00 / 0146484a524e4c01 00
 / 00 46484a | 0 entries | / 0146484a524e4c02 0000000000000001 00"""

# Three equal entries in each version, and the places of the gates in the one and in the other.
OLD_THREE, THREE = (bytes.fromhex(header + "01 0000000d 03036f6e650000000000000001" * 3 + "00")
                    for header in ("0146484a524e4c01", "0146484a524e4c020000000000000001"))
OLD_GATES, GATES = (8, 26, 44, 62), (16, 34, 52, 70)

# The byte at the third of these gates in the older file, the least and the greatest number of bytes to which that is cut, what is opened of it, and
# how many of its bytes are kept, before a closed gate is put there; without a number it stays. Each place of the newer one is 8 bytes further on.
CUTS = [
    (0, 45, 63, "2 entries", 44),
    (7, 45, 63, "2 entries", 44),
    (1, 63, 63, "3 entries", 62),
    (1, 45, 62, "BadRecord 3", None),
    (1, 27, 44, "BadRecord 2", None),
    (1, 9, 26, "BadRecord 1", None),
    (1, 2, 8, "BadHeader", None),
]


def file_of(*texts):
    """The file whose entries have these texts."""
    return journal.HEADER + b"".join(map(journal.record, texts)) + journal.SHUT


def texts():
    return [(bytes.fromhex(digits), entry) for digits, entry in TEXTS]


def slots_of(text):
    """The bytes of two slots, whose digits have a slash between them."""
    return tuple(bytes.fromhex(digits) for digits in text.split("/"))


def files():
    """The rows of `FILES`."""
    for row in FILES.splitlines():
        before, answer, after = (part.strip() for part in row.split("|"))
        yield slots_of(before), answer, slots_of(after or before)


def with_byte(file, place, byte):
    return file[:place] + bytes([byte]) + file[place + 1:]


def cuts():
    """The files of `CUTS` in each version, in the first slot."""
    for byte, least, greatest, answer, kept in CUTS:
        for size in range(least, greatest + 1):
            old = with_byte(OLD_THREE, OLD_GATES[2], byte)[:size]
            new = with_byte(THREE, GATES[2], byte)[:size + 8]
            mended = b"" if kept is None else THREE[:kept + 8] + journal.SHUT
            yield (old, b""), answer, (old, mended)
            yield (new, b""), answer, (mended or new, b"")
    yield from (((THREE[:size], b""), "0 entries", (THREE[:size], journal.EMPTY)) for size in (0, 1))


def opened_alone(files):
    """The rows of files in the first slot, by the reader in journal.py."""
    return [((file, b""), *told(file)) for file in files]


def alone(answer, *files):
    """The rows of files in the first slot that are opened so, and stay as they are."""
    return [((file, b""), answer, (file, b"")) for file in files]


def changed(draw, text):
    """The text with a byte changed, added or cut."""
    place = draw.randrange(len(text))
    byte = bytes([draw.choice([0, 1, 255, draw.randrange(256)])])
    how = draw.randrange(6)
    if how == 0:
        return text[:place] + byte + text[place:]
    if how == 1:
        return text[:place] + text[place + 1:]
    return text[:place] + byte + text[place + 1:]


def is_text(text):
    try:
        journal.decode(text)
    except journal.BadEntry:
        return False
    return True


def texts_near(text):
    """The texts that differ from this one in one byte, and itself."""
    near = {with_byte(text, place, byte) for place in range(len(text)) for byte in range(256)}
    return sorted(filter(is_text, near))


def opening(count, size):
    """The text of an opening, in a site of 63 bytes, of `count` paths of `size` bytes each."""
    listed = (b"/" + b"a" * (size - 6) + b"%05d\x01" % number + b"\xff" * 20 for number in range(count))
    return b"\x01\x3f" + b"z" * 63 + b"\x02" + count.to_bytes(4, "big") + b"".join(size.to_bytes(2, "big") + path for path in listed)


class Reader(unittest.TestCase):
    """The reader and the writer in journal.py."""

    def test_texts(self):
        for text, entry in texts():
            with self.subTest(entry):
                self.assertEqual(journal.decode(text), entry)
                self.assertEqual(journal.encode(entry), text)

    def test_no_texts(self):
        for wrong, digits in NO_TEXTS:
            with self.subTest(wrong):
                self.assertRaises(journal.BadEntry, journal.decode, bytes.fromhex(digits))

    def test_files(self):
        for slots, answer, after in [*files(), *cuts()]:
            with self.subTest([slot.hex() for slot in slots]):
                self.assertEqual(told(*slots), (answer, after))

    def test_the_largest_entry(self):
        text = opening(10_000, 1_024)
        self.assertEqual(len(text), 10_470_070)
        word, site, flags, listing = entry = journal.decode(text)
        self.assertEqual((word, site, flags, len(listing)), ("open", "z" * 63, ("auto",), 10_000))
        self.assertEqual(listing[-1], ("/" + "a" * 1_018 + "09999", "ff" * 20))
        self.assertTrue(journal.encode(entry) == text)

    def test_a_changed_text_that_is_one_is_written_again(self):
        for text, _ in texts():
            for near in texts_near(text):
                self.assertEqual(journal.encode(journal.decode(near)), near)


class Texts(Journals):
    """What is opened of a file with one entry."""

    def test_each_kind_of_entry_has_its_text(self):
        self.assert_opened(alone("1 entries", *(file_of(text) for text, _ in texts())))

    def test_other_bytes_are_the_text_of_none(self):
        self.assert_opened(alone("BadRecord 1", *(file_of(bytes.fromhex(digits)) for _, digits in NO_TEXTS)))

    def test_all_texts_of_which_a_byte_is_changed(self):
        found = [texts_near(text) for text, _ in texts()]
        self.assert_opened([row for near in found for row in alone(f"{len(near)} entries", file_of(*near))])

    def test_texts_that_are_changed_by_chance(self):
        draw = random.Random(9)
        found = [file_of(changed(draw, text)) for text, _ in texts() for _ in range(150)]
        rows = opened_alone(found)
        self.assertEqual({answer for _, answer, _ in rows}, {"1 entries", "BadRecord 1"})
        self.assert_opened(rows)

    def test_the_largest_entry_and_larger_ones(self):
        largest = opening(10_000, 1_024)
        longer = journal.HEADER + journal.OPEN + (10_470_071).to_bytes(4, "big") + largest + b"\x00\x00"
        wrong = [longer, *(file_of(opening(*sizes)) for sizes in ((10_001, 1_024), (10_001, 7), (1, 1_025)))]
        self.assert_opened([*alone("1 entries", file_of(largest)), *alone("BadRecord 1", *wrong)])


class Openings(Journals):
    """What is opened of a file, and what it then is."""

    def test_each_file_is_opened_as_what_it_is(self):
        self.assert_opened(list(files()))

    def test_three_entries_are_cut(self):
        self.assert_opened(list(cuts()))

    def test_each_gate_may_be_another_byte_and_each_end_be_cut(self):
        found = {with_byte(file, gate, byte)[:size] for file, gates in ((OLD_THREE, OLD_GATES), (THREE, GATES)) for gate in (0, *gates)
                 for byte in (0, 1, 2, 7, 255) for size in range(len(file) + 1)}
        self.assert_opened(opened_alone(sorted(found)))
