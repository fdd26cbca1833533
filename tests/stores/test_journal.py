"""Journals in files: what the crates write is what docs/STORAGE.md says, and what is opened of a file; and which calls of the system a
put and an opening make.

The program is host_driver, which opens a journal at a path. The reader and the writer are in journal.py. Files that are written by
hand are in test_journal_files.py.
"""

import fcntl
import hashlib
import random
import unittest

from lib.file_traces import Traces
from lib.journals import Journals, told
import journal

CANCEL = ("cancel", "one", 2)


def numbered(number):
    """The entry that the program makes of a number."""
    site, n = f"site-{number}", number % 1_000_000 + 1
    one, other, named = (f"/{letter}/{number}.txt" for letter in "abc")
    is_patch = number % 4 == 1
    flags = ("patch",) * is_patch + ("auto",) * (number % 3 == 0)
    digest = None if is_patch else hashlib.sha1(named.encode()).hexdigest()
    kinds = [
        ("undo", site, n), ("open", site, flags, ((one, digest),)), ("publish", site, n), ("cancel", site, n),
        ("alias", site, "next", n), ("no-alias", site, "next"), ("rename", site, one, other), ("remove", site, one),
        ("restore", site, n), ("no-deploy", site, n), ("rename-folder", site, one, other),
    ]
    return kinds[number % len(kinds)]


ENTRIES = [numbered(number) for number in range(1, 201)]
# Those that a file of version 1 may have.
OLD_ENTRIES = [entry for entry in ENTRIES if entry[0] != "rename-folder"]
OPENING = ["fsync folder", "fdatasync journal", "fdatasync journal.2"]


def filled(name, file):
    """The calls that close a slot of at most a byte, write the rest of this file behind its gate, and show it."""
    sync = f"fdatasync {name}"
    return [f"pwrite {name} 0 00", sync, f"pwrite {name} 1 {file[1:].hex()}", sync, f"pwrite {name} 0 01", sync]


def changed(draw, file):
    """The file with some bytes changed, added or cut, more often at its gates and its end."""
    file = bytearray(file)
    gates = [0, 8, 16, len(file) - 1]
    for _ in range(draw.randrange(1, 3)):
        place = draw.choice([*gates, draw.randrange(len(file)), draw.randrange(len(file))]) if file else 0
        how = draw.randrange(4)
        if how == 0:
            file[place:place + 1] = bytes([draw.choice([0, 1, 2, 255, draw.randrange(256)])])
        elif how == 1:
            file[place:place] = draw.randbytes(draw.randrange(1, 4))
        elif how == 2:
            del file[place:]
        else:
            file += draw.randbytes(draw.randrange(1, 30))
    return bytes(file)


class Files(Journals):
    def test_writes_what_the_format_says(self):
        self.assertEqual(self.run_program("write", self.file, str(len(ENTRIES))), f"{len(ENTRIES)} entries")
        self.assertEqual(journal.read_in(self.folder), ENTRIES)
        self.assertEqual(journal.slots_in(self.folder), (b"", journal.write(ENTRIES)))

    def test_puts_after_what_is_there(self):
        file = journal.write(ENTRIES[:50])
        self.file.write_bytes(file + b"the end of an entry that was being put")
        self.run_program("put", self.file, "3")
        self.assertEqual(journal.slots_in(self.folder), (journal.write([*ENTRIES[:50], CANCEL, CANCEL, CANCEL]), b""))

    def test_brings_a_file_of_version_1_over_and_leaves_it_as_it_is(self):
        file = journal.write(OLD_ENTRIES, journal.OLD_HEADER) + b"the end of an entry that was being put"
        self.file.write_bytes(file)
        for entries in (OLD_ENTRIES, [*OLD_ENTRIES, CANCEL], [*OLD_ENTRIES, CANCEL, CANCEL]):
            self.assertEqual(self.open(), f"{len(entries)} entries")
            self.assertEqual(journal.slots_in(self.folder), (file, journal.write(entries)))
            self.run_program("put", self.file, "1")

    def test_opens_what_the_format_says(self):
        entry = journal.write([("cancel", "one", 1)])
        files = [journal.EMPTY, journal.write(ENTRIES), b"", *(entry[:size] for size in range(len(entry)))]
        self.assert_opened([((file, b""), *told(file)) for file in files])

    def test_opens_files_that_were_changed_by_chance(self):
        draw = random.Random(8)
        rows = []
        for _ in range(400):
            first = draw.randrange(len(ENTRIES))
            header = draw.choice(journal.HEADERS)
            file = changed(draw, journal.write(ENTRIES[first:first + draw.randrange(4)], header))
            beside = changed(draw, draw.choice([b"", journal.EMPTY, journal.write([], journal.OLD_HEADER)]))
            slots = draw.choice([(file, beside), (beside, file), (file, b"")])
            rows.append((slots, *told(*slots)))
        self.assert_opened(rows)

    def test_opens_the_most_records_and_no_more(self):
        most = 1_000_000
        record = journal.record(journal.encode(CANCEL))
        for records, answer in ((most, f"{most} entries"), (most + 1, f"BadRecord {most + 1}")):
            self.file.write_bytes(journal.HEADER + record * records + journal.SHUT)
            self.assertEqual(self.open(), answer)

    def test_leaves_a_file_that_another_process_has_open(self):
        for name, slot in zip(journal.SLOTS, (journal.EMPTY, b"")):
            (self.folder / name).write_bytes(slot)
        for name in journal.SLOTS:
            with (self.folder / name).open("rb") as file:
                fcntl.flock(file, fcntl.LOCK_EX)
                self.assertEqual(self.open(), "Device")
        self.assertEqual(self.open(), "0 entries")

    def test_tells_of_a_device_that_is_no_file(self):
        self.assertEqual(self.open(self.folder), "Device")
        self.assertEqual(self.open(self.folder / "nothing/journal"), "Device")


class Calls(Journals):
    """Which calls change or sync the file and its folder, in their order."""

    def setUp(self):
        super().setUp()
        self.traces = Traces(self.folder, self.folder)

    def trace(self, *words):
        lines = self.traces.of(lambda environment: self.run_program(*words, env=environment))
        return [line for line in lines if line.split(" ")[1] in (*journal.SLOTS, "folder")]

    def test_a_put_is_two_writes_each_with_a_sync(self):
        file = journal.write(ENTRIES[:7])
        self.file.write_bytes(file)
        body = journal.encode(CANCEL)
        gate = len(file) - 1
        record = (len(body).to_bytes(4, "big") + body + b"\x00").hex()
        put = [f"pwrite journal {gate + 1} {record}", "fdatasync journal", f"pwrite journal {gate} 01", "fdatasync journal"]
        self.assertEqual(self.trace("put", self.file, "1"), OPENING + put)

    def test_files_are_synced_with_their_folder_when_they_are_opened(self):
        self.assertEqual(self.trace("open", self.file, "1"), OPENING + filled("journal.2", journal.EMPTY))
        self.assertEqual(self.trace("open", self.file, "1"), OPENING)

    def test_a_file_is_brought_over_in_three_steps(self):
        self.file.write_bytes(journal.write(ENTRIES[:2], journal.OLD_HEADER))
        (self.folder / "journal.2").write_bytes(b"\x07what a stop left")
        cut = ["ftruncate journal.2 1", "fdatasync journal.2"]
        self.assertEqual(self.trace("open", self.file, "1"), OPENING + cut + filled("journal.2", journal.write(ENTRIES[:2])))

    def test_what_a_stop_left_is_shut_and_cut(self):
        file = journal.write(ENTRIES[:2])
        self.file.write_bytes(file[:-1] + b"\x07tail")
        gate = len(file) - 1
        mended = [f"pwrite journal {gate} 00", "fdatasync journal", f"ftruncate journal {gate + 1}", "fdatasync journal"]
        self.assertEqual(self.trace("open", self.file, "1"), OPENING + mended)

    def test_nothing_is_written_to_a_file_that_is_not_a_journal(self):
        for file in (b"\x01 file of another kind", journal.write(ENTRIES)[:100]):
            self.file.write_bytes(file)
            self.assertEqual(self.trace("open", self.file, "1"), OPENING)


class Reader(unittest.TestCase):
    """The reader and the writer themselves."""

    def test_the_documented_entry(self):
        body = bytes.fromhex("06 03 6f6e65 0006 2f612e747874 0006 2f632e747874")
        self.assertEqual(journal.decode(body), ("rename", "one", "/a.txt", "/c.txt"))
        self.assertEqual(journal.encode(("rename", "one", "/a.txt", "/c.txt")), body)
        for wrong in (body[:-1], body + b"\x00"):
            self.assertRaises(journal.BadEntry, journal.decode, wrong)

    def test_three_entries(self):
        for header, size, gates in ((journal.OLD_HEADER, 63, [8, 26, 44, 62]), (journal.HEADER, 71, [16, 34, 52, 70])):
            file = journal.write([("cancel", "one", 1)] * 3, header)
            self.assertEqual(len(file), size)
            self.assertEqual([file[gate] for gate in gates], [1, 1, 1, 0])
            self.assertEqual(len(journal.read(file[:gates[2]] + b"\x07" + file[gates[2] + 1:])), 2)
