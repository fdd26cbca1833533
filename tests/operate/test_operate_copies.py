"""operate/follow: copies of a store that a host uses, copies that are killed, what isn't written to, and a store that another machine gives."""

import fcntl
import os
import signal
import subprocess
import sys
import time

from lib.client import TOP, digest_of
from lib.copied_stores import FOLLOW, CopiedStores, Rounds, fake_ssh
from lib.served import publish
from lib.stores import files_in, opening_of, write_slots, write_store
import journal

FILES = {"/a.txt": b"first", "/large.bin": bytes(range(256)) * 1_000}
ENTRIES = [opening_of(FILES), ("publish", "one", 1)]
# How many rounds of copies there are: operate/test has a hundred.
ROUNDS = 12


class Copies(CopiedStores):
    def assert_same(self):
        """The copy has the journal and the files of the store."""
        self.assertEqual(files_in(self.copy), files_in(self.store))
        self.assertEqual(journal.file_in(self.copy), journal.file_in(self.store))

    def test_have_what_was_told_before_they_began_also_if_some_are_killed(self):
        rounds = Rounds(self, 1)
        rounds.go(ROUNDS)
        self.assertGreater(rounds.kills, 0)
        self.assertGreater(rounds.copied, 1)
        self.assertGreater(len(rounds.switches), 0)

    def test_bring_only_what_is_new(self):
        write_store(self.store, ENTRIES, *FILES.values())
        self.assertIn(" 2 entries, 2 of them new; 5 new files", self.assert_copied())
        inodes = {file.name: file.stat().st_ino for file in self.copy.iterdir()}
        self.assertIn(" 2 entries, 0 of them new; 0 new files, 0 bytes", self.assert_copied())
        self.assertEqual({file.name: file.stat().st_ino for file in self.copy.iterdir()}, inodes)
        write_store(self.store, [*ENTRIES, ("undo", "one", 2)], *FILES.values(), b"one more")
        self.assertIn(" 3 entries, 1 of them new; 2 new files", self.assert_copied())
        self.assert_same()
        self.assertEqual({file.stat().st_mode & 0o777 for file in self.copy.iterdir()}, {0o600})

    def test_take_a_record_that_is_being_written_for_none(self):
        """Whatever of it is there when the journal is read."""
        text = journal.write([*ENTRIES, ("undo", "one", 2)])
        whole = len(journal.write(ENTRIES)) - 1
        for open_gate in (b"\0", b"\1"):
            for length in range(whole + 1, len(text)):
                write_store(self.store, ENTRIES, *FILES.values())
                (self.store / "journal").write_bytes(text[:whole] + open_gate + text[whole + 1:length])
                self.copy = self.room / f"copy-{open_gate[0]}-{length}"
                if (length - whole) % 9 == 1:
                    self.assert_copied()
                    self.assertEqual(journal.file_in(self.copy), journal.write(ENTRIES))
        (self.store / "journal").write_bytes(text)
        self.assert_copied()
        self.assertEqual(journal.file_in(self.copy), text)

    def test_are_not_made_of_a_store_that_has_lost_its_changes(self):
        """Such as one whose journal was removed, which then begins with an empty history."""
        write_store(self.store, ENTRIES, *FILES.values())
        self.assert_copied()
        for entries in ([], [opening_of({"/a.txt": b"first"}), *ENTRIES[1:]], ENTRIES[:1]):
            write_store(self.store, entries, *FILES.values())
            self.assert_refused("has changes that the store doesn't have")
        for slots in ((), (b"no journal",), (b"", b"\0" + journal.write(ENTRIES)[1:])):
            write_slots(self.store, *slots)
            self.assert_refused("has changes that the store doesn't have")
        for slots in ((journal.EMPTY[:-1],), (journal.EMPTY, journal.EMPTY)):
            write_slots(self.store, *slots)
            self.assert_refused("has no journal that opens (BadHeader)")

    def test_go_on_whichever_slot_the_store_has(self):
        """A store of version 1 is brought over meanwhile; the copy has version 2 from the start."""
        old, new = journal.write(ENTRIES, journal.OLD_HEADER), journal.write([*ENTRIES, ("undo", "one", 2)])
        write_store(self.store, [], *FILES.values())
        write_slots(self.store, old)
        self.assert_copied()
        for slots in ((old, journal.write(ENTRIES)), (old, new), (journal.EMPTY[:1], new), (new, b""), (new, old)):
            write_slots(self.store, *slots)
            self.assert_copied()
            self.assertEqual(journal.read_in(self.copy), journal.read_in(self.store))
            self.assertTrue(journal.file_in(self.copy).startswith(journal.HEADER))

    def test_go_on_with_a_copy_of_version_1(self):
        """One that the version before made. Its slot stays, and isn't read any more."""
        old = journal.write(ENTRIES, journal.OLD_HEADER)
        write_store(self.store, [*ENTRIES, ("undo", "one", 2)], *FILES.values())
        self.copy.mkdir()
        for slots in ((old,), (b"", old)):
            write_slots(self.copy, *slots)
            self.assertIn(" 3 entries, 1 of them new", self.assert_copied())
            self.assertEqual(journal.read_in(self.copy), journal.read_in(self.store))
            self.assertIn(old, journal.slots_in(self.copy))

    def test_are_not_written_to_while_a_program_has_them(self):
        write_store(self.store, ENTRIES, *FILES.values())
        self.assert_copied()
        write_store(self.store, [*ENTRIES, ("undo", "one", 2)])
        host = self.serve("--store", str(self.copy))
        self.assert_refused("a program has", "open")
        # Once it has changes of its own, they stay.
        publish(self.client(), {"/b.txt": b"of the copy"})
        self.end(host)
        self.assert_refused("has changes that the store doesn't have")
        # While it is copied, no program opens it.
        descriptor = os.open(self.copy, os.O_RDONLY)
        self.addCleanup(os.close, descriptor)
        fcntl.flock(descriptor, fcntl.LOCK_EX)
        self.assert_refused("a program has")

    def test_take_no_damaged_file(self):
        write_store(self.store, ENTRIES, *FILES.values())
        piece, table = f"c-{digest_of(FILES['/a.txt'])}", f"t-{digest_of(FILES['/a.txt'])}"
        for name, content in ((piece, b"other"), (piece, b""), (table, b"short")):
            before = (self.store / name).read_bytes()
            (self.store / name).write_bytes(content)
            self.assert_refused(f"{name} is damaged in the store")
            (self.store / name).write_bytes(before)
        self.assert_copied()
        # What a copy that was killed had begun is gone.
        self.assert_same()
        self.assertFalse((self.copy / ".follow").exists())

    def test_refuse_wrong_words(self):
        for words in ([], [self.store], [self.store, "other:/copy"], [self.store, self.store], [self.store, self.copy, "--every", "x"]):
            ran = subprocess.run([sys.executable, "-B", FOLLOW, *map(str, words)], capture_output=True, text=True)
            self.assertEqual((ran.returncode, ran.stdout, len(ran.stderr.splitlines())), (2, "", 1), ran.stderr)
        self.assert_refused("no/such/folder", words=["/no/such/folder", self.copy])
        self.assert_refused("the store has no journal yet")

    def test_go_on_every_so_often_until_the_copy_is_used(self):
        host = self.serve("--store", str(self.store))
        publish(self.client(), FILES)
        command = [sys.executable, "-B", FOLLOW, f"{self.prefix}{self.store}", str(self.copy), *map(str, self.words), "--every", "0.2"]
        started = subprocess.Popen(command, stdout=subprocess.PIPE, stderr=subprocess.PIPE, text=True)
        self.addCleanup(self.end, started)
        self.assertIn(" 2 entries, 2 of them new", started.stdout.readline())
        publish(self.client(), {"/a.txt": b"second"})
        while " 4 entries" not in started.stdout.readline():
            self.assertIsNone(started.poll())
        # A host that is gone for a while is no reason to end.
        self.end(host)
        self.store.rename(self.room / "elsewhere")
        self.assertIn("operate/follow: ", started.stderr.readline())
        (self.room / "elsewhere").rename(self.store)
        while " 4 entries" not in started.stdout.readline():
            self.assertIsNone(started.poll())
        # A copy may begin again just then.
        for _ in range(20):
            other = self.start("--store", str(self.copy))
            if other.stdout.readline():
                break
            self.end(other)
            time.sleep(0.05)
        self.assertEqual(started.wait(60), 1)
        self.assertIn("a program has", started.stderr.read())
        self.end(other, signal.SIGTERM)


class Given(Copies):
    """The same of a store that another machine gives over a pipe."""

    prefix = "other:"

    def setUp(self):
        super().setUp()
        self.words = ("--ssh", fake_ssh(self.room), "--command", f"{sys.executable} -B {TOP / 'operate/follow'}")
