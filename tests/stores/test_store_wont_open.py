"""Stores that can't be opened: the status, the line on standard error, and which of several faults is told."""

import contextlib
import fcntl
import os
import pathlib
import shutil
import subprocess

from lib.client import ABC, HELLO, PROGRAM, Client, opened, opening, request, run, sent, upload, uploaded
from lib.stores import Stored, files_of, opening_of, write_slots
from lib.worked_runs import first_deployed, reading, serves, showing, stands
import journal

NOBODY = 65_534
CANCEL = ("cancel", "one", 1)
OPEN_A = opening_of({"/a.txt": b"hello"})
PUBLISH = ("publish", "one", 1)
RENAMING = ("rename-folder", "one", "/d", "/e")
DEPLOYED = [OPEN_A, PUBLISH]
OTHER = b"another file"


def table_of(content):
    return next(name for name in files_of(content) if name.startswith("t-"))


def piece_of(content):
    return next(name for name in files_of(content) if name.startswith("c-"))


def one_bit_changed(data, place=-1):
    return data[:place] + bytes([data[place] ^ 1]) + data[place + 1 or len(data):]


class Journals(Stored):
    def write_journal(self, file):
        self.write([])
        (self.folder / "journal").write_bytes(file)

    def test_three_entries_that_no_host_made(self):
        file = journal.write([CANCEL] * 3)
        self.assertEqual(len(file), 71)
        self.write_journal(file)
        self.assert_fails(3, "journal: NotLegal 1")

    def test_the_first_entry_that_is_not_accepted_is_told(self):
        for entries, number in [
            ([*DEPLOYED, PUBLISH], 3), ([*DEPLOYED, ("rename", "one", "/b", "/c")], 3), ([OPEN_A, CANCEL, CANCEL, CANCEL], 3),
            ([*DEPLOYED, ("undo", "one", 1)], 3), ([*DEPLOYED, ("undo", "two", 2)], 3), ([*DEPLOYED, ("undo", "one", 3)], 3),
            ([*DEPLOYED, ("alias", "one", "next", 2), CANCEL], 3), ([OPEN_A, ("publish", "two", 1)], 2), ([("undo", "one", 1)], 1),
            ([OPEN_A, ("undo", "one", 1), ("undo", "one", 2)], 3), ([OPEN_A, ("undo", "one", 1), PUBLISH], 3),
            ([("publish", "one", 2), OPEN_A], 1),
        ]:
            with self.subTest(entries=entries):
                self.write(entries, b"hello")
                self.assert_fails(3, f"journal: NotLegal {number}")

    def test_a_file_that_is_not_a_journal_is_left_as_it_is(self):
        for file in (b"\x01 file of another kind", *journal.HEADERS, b"\x01FHJRNL\x02\x00", b"\x01FHJRNL", b"\x01FHJRNL\x03\x01", b"\x01\x00"):
            with self.subTest(file=file):
                self.write_journal(file)
                self.assert_fails(3, "journal: BadHeader")

    def test_a_malformed_record_is_told_with_its_number(self):
        for header in journal.HEADERS:
            file, gate = journal.write([CANCEL] * 3, header), len(header)
            for cut, number in [(54, 3), (37, 3), (36, 2), (19, 2), (18, 1), (1, 1)]:
                with self.subTest(header=header, cut=cut):
                    self.write_journal(file[:gate + cut])
                    self.assert_fails(3, f"journal: BadRecord {number}")
            for place, number in [(gate + 23, 2), (gate + 5, 1), (gate + 42, 3)]:
                with self.subTest(header=header, place=place):
                    self.write_journal(file[:place] + b"\xff" + file[place + 1:])
                    self.assert_fails(3, f"journal: BadRecord {number}")


    def test_the_renaming_of_a_folder_is_malformed_in_version_1_alone(self):
        for entries, number in [([RENAMING], 1), ([*DEPLOYED, RENAMING, ("undo", "one", 3)], 3)]:
            with self.subTest(entries=entries):
                self.write(DEPLOYED, b"hello")
                write_slots(self.folder, journal.write(entries, journal.OLD_HEADER), b"")
                self.assertRaises(journal.BadRecord, journal.read_in, self.folder)
                self.assert_fails(3, f"journal: BadRecord {number}")

    def test_the_renaming_of_a_folder_opens_in_version_2(self):
        self.write([opening_of({"/d/a.txt": b"hello"}), PUBLISH, RENAMING], b"hello")
        self.assert_converses(serves("/e/a.txt", among=("/e/a.txt", "/d/a.txt")))


class Folders(Stored):
    """Folders in which no journal can be opened."""

    def test_a_folder_that_is_not_there(self):
        self.use(self.room / "nothing")
        self.assert_fails(3, "journal: Device")
        self.assertFalse(self.folder.exists())

    def test_a_folder_whose_name_is_empty(self):
        at_root = pathlib.Path("/journal").exists()
        self.words = ("solo", "--store", "")
        self.assert_fails(3, "journal: Device", cwd=self.folder)
        self.assertEqual(pathlib.Path("/journal").exists(), at_root)

    def test_a_file_in_place_of_the_folder(self):
        self.use(self.room / "file")
        self.folder.write_bytes(b"bytes")
        self.assert_fails(3, "journal: Device")
        self.assertEqual(self.folder.read_bytes(), b"bytes")

    def test_a_folder_in_place_of_a_slot(self):
        for name in journal.SLOTS:
            write_slots(self.folder, b"", b"")
            (self.folder / name).unlink()
            (self.folder / name).mkdir()
            self.assert_fails(3, "journal: Device")
            (self.folder / name).rmdir()

    def test_a_journal_that_another_process_has_open(self):
        client = Client(self)
        client.send(request("GET", "/s/one/a.txt"))
        client.receive(1)
        self.assert_fails(3, "journal: Device")
        client.program.kill()
        client.program.wait()
        self.assert_answers(b"", b"")

    def test_a_journal_under_a_lock(self):
        self.write(DEPLOYED, b"hello")
        for name in journal.SLOTS:
            with (self.folder / name).open("rb") as file:
                fcntl.flock(file, fcntl.LOCK_EX)
                self.assert_fails(3, "journal: Device")
        self.assert_converses(serves("/a.txt", among=("/a.txt",)))

    def call_as_anyone(self):
        """Lets a user who may not write everywhere call the program: this one, or another if this one is root."""
        for folder in (self.room, self.folder):
            folder.chmod(0o755)
        if os.geteuid() != 0:
            return {}
        # The repository may be in a folder that no other user can read.
        program = shutil.copy(PROGRAM, self.room / "filehost")
        program.chmod(0o755)
        return {"executable": program, "user": NOBODY, "group": NOBODY, "extra_groups": []}

    def test_a_folder_that_may_not_be_written(self):
        how = self.call_as_anyone()
        self.folder.chmod(0o555)
        self.addCleanup(self.folder.chmod, 0o755)
        self.assert_fails(3, "journal: Device", **how)

    def test_a_journal_that_may_not_be_written(self):
        how = self.call_as_anyone()
        for name in journal.SLOTS:
            self.write(DEPLOYED, b"hello")
            (self.folder / name).chmod(0o444)
            self.assert_fails(3, "journal: Device", **how)

    def test_a_read_only_mount(self):
        self.write(DEPLOYED, b"hello")
        with read_only(self.folder):
            self.assert_fails(3, "journal: Device")
        self.assert_converses(serves("/a.txt", among=("/a.txt",)))


@contextlib.contextmanager
def read_only(folder):
    """Mounts a folder over itself so that nothing is written there; if that isn't allowed, only its files are kept so."""
    mounted = subprocess.run(["mount", "--bind", "-o", "ro", folder, folder], capture_output=True).returncode == 0
    try:
        if not mounted:
            for name in journal.SLOTS:
                (folder / name).chmod(0o444)
        yield
    finally:
        if mounted:
            # lazily, since after a failed test a program may still have it open
            subprocess.run(["umount", "--lazy", folder], check=True)
        else:
            for name in journal.SLOTS:
                (folder / name).chmod(0o644)


class Blobs(Stored):
    """Files of a published deploy that a store lost."""

    # What was done to a file's table, and to its one piece, and how that is told.
    def faults(self, content):
        table, piece = files_of(content)[table_of(content)], content
        yield "no table", table_of(content), None, "MissingBlob"
        yield "no piece", piece_of(content), None, "DamagedBlob"
        for name, data in ((table_of(content), table), (piece_of(content), piece)):
            for place in (0, len(data) // 2, -1):
                yield "a bit", name, one_bit_changed(data, place), "DamagedBlob"
            for cut in (0, 1, len(data) - 1):
                yield "cut", name, data[:cut], "DamagedBlob"
            yield "longer", name, data + b"x", "DamagedBlob"
            yield "far longer", name, data.ljust(70_000, b"x"), "DamagedBlob"

    def damage(self, name, data):
        (self.folder / name).unlink()
        if data is not None:
            (self.folder / name).write_bytes(data)

    # Histories in which a Publish or a Restore of its site names the opening.
    named = {
        "published": DEPLOYED,
        "undone": [*DEPLOYED, ("undo", "one", 2)],
        "undone with its opening": [*DEPLOYED, ("undo", "one", 2), ("undo", "one", 1)],
        "restored": [OPEN_A, ("restore", "one", 1)],
        "removed": [*DEPLOYED, ("no-deploy", "one", 1)],
        "a patch": [opening_of({"/a.txt": b"hello"}, flags=("patch", "auto")), PUBLISH],
        "replaced": [*DEPLOYED, opening_of({"/b.txt": b"abc"}), ("publish", "one", 3)],
    }

    def test_a_file_of_a_published_deploy_has_to_be_there(self):
        for history, entries in self.named.items():
            for what, name, data, word in self.faults(b"hello"):
                with self.subTest(history=history, what=what, name=name[:1]):
                    self.write(entries, b"hello", b"abc")
                    self.damage(name, data)
                    self.assert_fails(4, f"blobs: {word} {HELLO}")

    def test_a_folder_in_place_of_a_file_is_damage(self):
        for name in files_of(b"hello"):
            self.write(DEPLOYED, b"hello")
            self.damage(name, None)
            (self.folder / name).mkdir()
            self.assert_fails(4, f"blobs: DamagedBlob {HELLO}")

    def test_a_file_of_several_pieces(self):
        content = bytes(65_536) + b"x" * 65_536 + b"y"
        digest = table_of(content)[2:]
        entries = [opening_of({"/a": content}), PUBLISH]
        for name in files_of(content):
            self.write(entries, content)
            (self.folder / name).unlink()
            self.assert_fails(4, f"blobs: {'Missing' if name[0] == 't' else 'Damaged'}Blob {digest}")

    def test_whole_pieces_of_another_file_are_damage(self):
        self.write(DEPLOYED, b"hello", OTHER)
        self.damage(table_of(b"hello"), files_of(OTHER)[table_of(OTHER)])
        self.assert_fails(4, f"blobs: DamagedBlob {HELLO}")

    def test_the_least_digest_is_told_of_several(self):
        self.write([opening_of({"/a.txt": b"hello", "/b.txt": b"abc"}), PUBLISH])
        self.assert_fails(4, f"blobs: MissingBlob {ABC}")

    # Histories that list the file, but publish no deploy which does.
    not_named = {
        "open": [OPEN_A],
        "cancelled": [OPEN_A, CANCEL],
        "its opening undone": [OPEN_A, ("undo", "one", 1)],
        "another published": [OPEN_A, opening_of({"/b.txt": b"abc"}), ("publish", "one", 2)],
    }

    def test_any_other_file_is_asked_for_again(self):
        for history, entries in self.not_named.items():
            for what, name, data, _ in self.faults(b"hello"):
                with self.subTest(history=history, what=what, name=name[:1]):
                    self.write(entries, b"hello", b"abc")
                    self.damage(name, data)
                    self.assert_is_asked_for(len(entries) + 1)

    def assert_is_asked_for(self, number):
        self.assert_converses([(opening({"/c.txt": HELLO}), opened(number, HELLO))])
        self.assert_converses([(upload(number, "c.txt", b"hello"), uploaded(b"hello", published=number + 1))])
        self.assert_converses([(reading("/s/one/c.txt"), sent(b"hello"))])

    def test_a_whole_file_that_no_publishing_names_is_known(self):
        for history, entries in self.not_named.items():
            with self.subTest(history=history):
                self.write(entries, b"hello", b"abc")
                number = len(entries) + 1
                self.assert_converses([(opening({"/c.txt": HELLO}), opened(number, published=number + 1))])

    def test_a_damaged_file_is_lacking_in_its_open_deploy(self):
        self.write([OPEN_A], b"hello")
        self.damage(piece_of(b"hello"), b"hellp")
        self.assert_converses([(showing(1), stands(1, "open", HELLO))])
        self.assert_converses([(upload(1, "a.txt", b"hello"), uploaded(b"hello", published=2))])


class Order(Stored):
    """Which of several faults is told."""

    def test_the_journal_goes_before_the_blobs(self):
        self.write([*DEPLOYED, CANCEL])
        file = journal.file_in(self.folder)
        (self.folder / "journal").write_bytes(file[:-1])
        self.assert_fails(3, "journal: BadRecord 3")
        (self.folder / "journal").write_bytes(file[:1] + b"G" + file[2:])
        self.assert_fails(3, "journal: BadHeader")

    def test_the_blobs_go_before_the_entries(self):
        self.write([*DEPLOYED, CANCEL])
        self.assert_fails(4, f"blobs: MissingBlob {HELLO}")
        self.write([CANCEL, OPEN_A, ("publish", "one", 2)])
        self.assert_fails(4, f"blobs: MissingBlob {HELLO}")

    def test_a_publishing_before_the_opening_names_it_too(self):
        self.write([("publish", "one", 2), OPEN_A])
        self.assert_fails(4, f"blobs: MissingBlob {HELLO}")

    def test_a_publishing_of_another_site_or_entry_does_not(self):
        for other in (("publish", "two", 1), ("restore", "two", 1), ("publish", "one", 2), ("no-deploy", "one", 1)):
            self.write([OPEN_A, other])
            self.assert_fails(3, "journal: NotLegal 2")

    def test_the_words_go_before_all(self):
        self.use(self.room / "nothing")
        status, out, errors = run(*self.words, "--unknown")
        self.assertEqual((status, out), (1, b""))
        self.assertIn(b"error: ", errors)


class Words(Stored):
    """The words that the program is called with."""

    def assert_says(self, words, *parts):
        status, out, errors = run(*words)
        self.assertEqual((status, out), (1, b""))
        for part in parts:
            self.assertIn(part, errors)
        self.assertEqual(self.all_files(), {})

    def test_name_one_folder(self):
        folder = str(self.folder)
        self.assert_says(["solo", "--store"], b"error: ", b"--store")
        self.assert_says(["solo", "--store", folder, "--store", folder], b"error: ", b"--store")
        self.assert_says(["solo", folder], b"error: ")
        self.assert_says(["--store", folder], b"error: ", b"--store")
        self.assert_says(["--store", folder, "solo"], b"error: ", b"--store")

    def test_are_text(self):
        bad = os.fsencode(self.folder) + b"\xff"
        for words in (["solo", "--store", bad], ["solo", b"--store=" + bad], ["solo", b"--store\xff", "x"]):
            self.assert_says(words)
        self.assertEqual(list(self.room.iterdir()), [self.folder])

    def test_may_be_joined_by_an_equals_sign(self):
        self.words = ("solo", f"--store={self.folder}")
        self.assert_converses(first_deployed("/a.txt"))
        self.assert_converses(serves("/a.txt", among=("/a.txt",)))

    def test_say_what_the_folder_has_to_be(self):
        for words in (["solo", "--help"], ["help", "solo"]):
            self.assert_says(words, b"--store <DIR>", b"folder", b"own")
