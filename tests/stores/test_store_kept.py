"""What an opening would drop of a journal is kept: journals with a damaged byte, in either slot, and what stands behind a closed gate.

Each opening is compared with the plain reader of scripts/journal.py. If it drops more than one unfinished record may have left, the whole file has to be in
the folder under another name first, and one line on standard error says so.
"""

import concurrent.futures
import itertools
import os
import stat
import subprocess
import sys

from lib.client import SECONDS, TOP, run
from lib.served import HOST, free_ports
from lib.stores import Stored, files_of, kept_in, kept_lines, notices_of, opening_of, small_file_system, write_slots
import journal

FILES = {"/a.txt": b"hello", "/b.txt": b"abc"}
# Twenty entries of each kind that is accepted after those before it.
ENTRIES = [
    opening_of(FILES), ("publish", "one", 1), ("rename", "one", "/a.txt", "/c.txt"), ("undo", "one", 3), ("remove", "one", "/b.txt"), ("alias", "one", "now", 1),
    ("no-alias", "one", "now"), opening_of(FILES, flags=("patch",)), ("cancel", "one", 8), opening_of({"/d.txt": b"hello"}, flags=("patch", "auto")),
    ("publish", "one", 10), ("undo", "one", 11), opening_of({"/e.txt": b"abc"}), ("publish", "one", 13), ("no-deploy", "one", 13), ("restore", "one", 1),
    ("undo", "one", 16), ("undo", "one", 15), ("rename", "one", "/e.txt", "/x"), ("remove", "one", "/x"),
]
OLD = journal.write(ENTRIES, journal.OLD_HEADER)
NEW = journal.write(ENTRIES)
# Before the last three entries were put.
BEFORE = journal.write(ENTRIES[:-3], journal.OLD_HEADER)
# How a store may have its journal: the two slots, and which of them is damaged.
STORES = {
    "version 1": (OLD, None, 0), "version 1 in the second slot": (None, OLD, 1), "version 2": (None, NEW, 1), "version 2 in the first slot": (NEW, b"", 0),
    "version 2 beside an older file": (BEFORE, NEW, 1), "version 2 beside a cleared slot": (b"\0", NEW, 1),
}
# How many programs run at once.
AT_ONCE = 4
CANCEL = journal.record(journal.encode(("cancel", "one", 1)))
# The size of the longest record with the gate behind it, its length, and a length that no record has.
LONGEST = 4 + journal.LONGEST_BODY + 1
MOST, TOO_LONG = (size.to_bytes(4, "big") for size in (journal.LONGEST_BODY, journal.LONGEST_BODY + 1))
# How many of the damaged bytes of bodies make another lawful entry that is accepted, and how many there are: 119 are in digests of a deploy that was never
# published, 19 in paths, 5 in flags, and one in a kind.
LAWFUL = 144, 1_166


def places_of(file, part):
    """The offsets of a file's bytes of this part: `frame` for the header, the gates and the lengths, and `body`."""
    gate = len(journal.OLD_HEADER if file.startswith(journal.OLD_HEADER) else journal.HEADER)
    places = {"frame": [*range(gate)], "body": []}
    while gate < len(file):
        body = gate + 5, gate + 5 + int.from_bytes(file[gate + 1:gate + 5], "big")
        places["frame"] += range(gate, min(gate + 5, len(file)))
        if file[gate:gate + 1] != journal.OPEN:
            break
        places["body"] += range(*body)
        gate = body[1]
    return places[part]


def damaged(stores, part, ways):
    """Stores of which each byte of a part of the journal is changed in turn, in each of these ways."""
    for name in stores:
        *slots, place = STORES[name]
        for at in places_of(slots[place], part):
            for byte in sorted({way(slots[place][at]) for way in ways} - {slots[place][at]}):
                changed = list(slots)
                changed[place] = slots[place][:at] + bytes([byte]) + slots[place][at + 1:]
                yield f"{name}, byte {at} is {byte}", changed


def zero(_):
    return 0


def one(_):
    return 1


def flipped(byte):
    return byte ^ 0x81


class Kept(Stored):
    """Openings of a store with these slots."""

    def store(self, name, slots):
        folder = self.room / name
        folder.mkdir(exist_ok=True)
        for content in FILES.values():
            for file, data in files_of(content).items():
                (folder / file).write_bytes(data)
        write_slots(folder, *slots)
        return folder

    def assert_opens_as_the_reader_does(self, folder, slots):
        """The opening drops what the reader says, keeps the file of which it does, and says so; returns the entries, or why it was refused."""
        slots = tuple(slot or b"" for slot in slots)
        lines = notices_of(folder).decode()
        status, out, errors = run("solo", "--store", str(folder))
        self.assertEqual(out, b"")
        try:
            entries, after = journal.opened(*slots)
        except (journal.BadHeader, journal.BadRecord) as fault:
            why = " ".join([type(fault).__name__, *map(str, fault.args)])
            self.assertEqual((status, errors.decode(), journal.slots_in(folder), kept_in(folder)), (3, f"filehost: journal: {why}\n", slots, {}))
            return why
        lost = [slot for slot, loss in zip(slots, journal.dropped(*slots)) if loss]
        kept = {f"{journal.KEPT}{number}": slot for number, slot in enumerate(lost, 1)}
        self.assertEqual(lines.count("the opening drops"), len(kept))
        refusal = errors.decode().removeprefix(lines)
        self.assertEqual((errors.decode()[:len(lines)], journal.slots_in(folder), kept_in(folder)), (lines, after, kept))
        self.assertFalse((folder / "journal.kept.tmp").exists())
        self.assertEqual(status == 0, refusal == "", refusal)
        return refusal or entries


class Damaged(Kept):
    """Twenty entries, of which one byte is damaged."""

    def check(self, name, slots):
        """An opening of damaged slots: what came of the twenty entries."""
        folder = self.store(name, slots)
        came = self.assert_opens_as_the_reader_does(folder, slots)
        if isinstance(came, str):
            return "refused"
        if came == ENTRIES:
            return "all there"
        return "kept" if any(slot in kept_in(folder).values() for slot in slots if slot) else "lost"

    def outcomes(self, rows):
        with concurrent.futures.ThreadPoolExecutor(AT_ONCE) as pool:
            found = [(name, pool.submit(self.check, name, slots)) for name, slots in rows]
            return [(name, came.result()) for name, came in found]

    def test_each_byte_of_the_header_the_gates_and_the_lengths(self):
        for name in STORES:
            with self.subTest(name):
                outcomes = self.outcomes(damaged([name], "frame", (zero, one, flipped)))
                self.assertEqual([which for which, came in outcomes if came == "lost"], [])
                self.assertEqual({came for _, came in outcomes}, {"refused", "all there", "kept"})

    def test_each_byte_of_the_bodies(self):
        """The format has no checksum: a byte that makes another lawful entry isn't found. No other loses an entry in silence."""
        outcomes = self.outcomes(damaged(["version 2"], "body", (zero, one, flipped)))
        lost = [name for name, came in outcomes if came == "lost"]
        self.assertEqual({came for _, came in outcomes}, {"refused", "lost"})
        self.assertEqual((len(lost), len(outcomes)), LAWFUL)


class Behind(Kept):
    """What stands behind a closed gate, and in a slot that isn't in use."""

    def test_of_a_file_that_is_read(self):
        torn, other = CANCEL[1:-4], bytes(range(2, 22))
        behind = [
            b"", b"\0", b"\1", b"\0\0\0\0", bytes(5), bytes(300), b"\7" * 300, b"half of an entry", CANCEL[1:], CANCEL[1:] + b"\0", CANCEL[1:] + b"\1", torn, torn + b"\0",
            CANCEL[1:] + CANCEL, CANCEL[1:] + CANCEL + b"\0", CANCEL[1:] + b"\0" + CANCEL[1:] + b"\0", bytes(4) + b"\1", bytes(5) + CANCEL, other, b"\0\0\0\1" + other,
            bytes(LONGEST), bytes(LONGEST + 1), MOST + bytes(LONGEST - 5), MOST + bytes(LONGEST - 4), MOST + bytes(LONGEST - 3), TOO_LONG + bytes(LONGEST - 4),
        ]
        for number, (header, gate, rest) in enumerate(itertools.product(journal.HEADERS, (b"\0", b"\7"), behind)):
            with self.subTest(header=header, gate=gate, rest=rest[:40], size=len(rest)):
                file = journal.write(ENTRIES, header)[:-1] + gate + rest
                slots = (b"", file)
                self.assertEqual(self.assert_opens_as_the_reader_does(self.store(str(number), slots), slots), ENTRIES)

    def test_of_a_slot_that_is_not_in_use(self):
        files = [b"\0", b"\0F", b"\7" + bytes(16), b"\0" + journal.EMPTY[1:], b"\0" + journal.EMPTY[1:] + b"\0", bytes(18), b"a file of another kind", b"\0" + OLD[1:],
                 b"\0" + NEW[1:], b"\xff" + NEW[1:-1], b"\0" + journal.write([], journal.OLD_HEADER)[1:]]
        for number, (file, other, place) in enumerate(itertools.product(files, (None, b"\0", OLD, NEW, b"\0" + BEFORE[1:]), (0, 1))):
            with self.subTest(file=file[:20], size=len(file), other=other and other[:10], place=place):
                slots = (file, other) if place == 0 else (other, file)
                came = self.assert_opens_as_the_reader_does(self.store(str(number), slots), slots)
                self.assertEqual(came, ENTRIES if other in (OLD, NEW) else [])

    def test_is_left_where_the_opening_is_refused(self):
        """Then nothing is dropped, and nothing kept."""
        lost = b"\0" + NEW[1:]
        for number, bad in enumerate((b"\1F", OLD[:-1], NEW[:-1], OLD.replace(b"one", b"One", 1), journal.HEADER)):
            for slots in ((lost, bad), (bad, lost)):
                with self.subTest(bad=bad[:20], size=len(bad)):
                    self.assertIsInstance(self.assert_opens_as_the_reader_does(self.store(str(number), slots), slots), str)


class Copies(Kept):
    """How a file is kept."""

    def setUp(self):
        super().setUp()
        self.slots = (b"\0" + OLD[1:], b"")
        self.store("store", self.slots)

    def assert_kept(self, *names):
        line, = kept_lines(self.folder)
        self.assertIn(f" {journal.KEPT}{names[-1]} has all", line)
        self.assertEqual(run(*self.words), (0, b"", line.encode()))
        self.assertEqual(sorted(kept_in(self.folder)), sorted(f"{journal.KEPT}{name}" for name in names))

    def test_has_the_next_name_and_a_mode_for_its_owner_alone(self):
        for number in range(1, 12):
            self.assert_kept(*range(1, number + 1))
            self.assertEqual((self.folder / f"{journal.KEPT}{number}").read_bytes(), self.slots[0])
            self.assertEqual(stat.S_IMODE((self.folder / f"{journal.KEPT}{number}").stat().st_mode), 0o600)
            write_slots(self.folder, *self.slots)

    def test_takes_no_name_that_something_has(self):
        (self.folder / f"{journal.KEPT}1").mkdir()
        (self.folder / f"{journal.KEPT}2").symlink_to("nowhere")
        self.assert_kept(3)
        self.assertEqual(kept_in(self.folder), {f"{journal.KEPT}3": self.slots[0]})
        self.assertEqual(os.readlink(self.folder / f"{journal.KEPT}2"), "nowhere")

    def test_replaces_what_a_stop_left_of_another_copy(self):
        elsewhere = self.room / "elsewhere"
        elsewhere.write_bytes(b"stays")
        (self.folder / "journal.kept.tmp").symlink_to(elsewhere)
        self.assert_kept(1)
        self.assertEqual(elsewhere.read_bytes(), b"stays")
        self.assertFalse((self.folder / "journal.kept.tmp").is_symlink())

    def test_of_both_slots(self):
        self.slots = (b"\0" + OLD[1:], b"\7" + NEW[1:])
        write_slots(self.folder, *self.slots)
        self.assertEqual(self.assert_opens_as_the_reader_does(self.folder, self.slots), [])
        self.assertEqual(sorted(kept_in(self.folder).values()), sorted(self.slots))

    def assert_nothing_is_dropped(self):
        for command in (self.words, ("serve", "--listen", f"{HOST}:{free_ports()}", "--store", str(self.folder))):
            before = self.all_files()
            self.assertEqual(run(*command), (3, b"", b"filehost: journal: Device\n"))
            self.assertEqual(self.all_files(), before)

    def test_that_cannot_be_made_is_a_failure(self):
        (self.folder / "journal.kept.tmp").mkdir()
        self.assert_nothing_is_dropped()
        (self.folder / "journal.kept.tmp").rmdir()
        self.assert_kept(1)

    def test_on_a_full_disk_is_a_failure(self):
        disk = self.room / "disk"
        disk.mkdir()
        with small_file_system(disk, 262_144) as is_mounted:
            if not is_mounted:
                print("left out: no file system can be mounted here", file=sys.stderr)
                return
            self.use(disk)
            large = OLD[:-1] + b"\0" + CANCEL[1:] * 4_000
            write_slots(disk, large, b"")
            with (disk / "all").open("wb") as file:
                try:
                    file.write(bytes(10 ** 6))
                except OSError:
                    pass
            self.assert_nothing_is_dropped()
            self.assertEqual(sorted(self.all_files()), ["all", *journal.SLOTS])

    def show(self):
        command = [sys.executable, TOP / "scripts/show-store", self.folder / f"{journal.KEPT}1"]
        ran = subprocess.run(command, capture_output=True, text=True, timeout=SECONDS)
        return ran.returncode, ran.stdout.splitlines(), ran.stderr

    def test_is_shown_with_what_the_host_no_longer_has(self):
        for file, behind in ((b"\0" + OLD[1:], 20), (b"\0" + NEW[1:], 20), (OLD[:-1] + b"\0" + CANCEL[1:] + b"\0", 1), (NEW[:16] + b"\7" + NEW[17:], 20)):
            with self.subTest(file[:8], behind=behind):
                (self.folder / f"{journal.KEPT}1").write_bytes(file)
                status, lines, errors = self.show()
                whole = 20 + (behind == 1)
                self.assertEqual((status, errors), (0, ""))
                self.assertEqual(lines[0], f"journal.kept-1 has {len(file)} bytes and {whole} whole entries, {behind} of them behind a closed gate:")
                self.assertIn("2 publish one 1", lines)
                self.assertIn("20 remove one /x", lines)

    def test_has_all_again_once_its_gate_is_open(self):
        """As README.md says how an operator gets back what was dropped."""
        for file in (OLD, NEW):
            for place in (0, len(file) - len(NEW) + len(journal.write(ENTRIES[:1])) - 1, len(file) - len(NEW) + len(journal.write(ENTRIES[:-1])) - 1):
                with self.subTest(file[:8], place=place):
                    self.assertEqual(file[place:place + 1], journal.OPEN)
                    self.store("again", (file[:place] + b"\0" + file[place + 1:],))
                    self.use(self.room / "again")
                    status, _, errors = run(*self.words)
                    start, name = errors.decode().split(" from ")[1].split(" on, ")[0], errors.decode().split(": ")[3].split(" has ")[0]
                    self.assertEqual(status, 0)
                    kept = bytearray((self.folder / name).read_bytes())
                    kept[int(start) - 1] = 1
                    write_slots(self.folder, bytes(kept))
                    self.assertEqual(run(*self.words), (0, b"", b""))
                    self.assertEqual(journal.read_in(self.folder), ENTRIES)
