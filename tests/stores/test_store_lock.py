"""Who may have a store open: one program at a time, also if its journal is removed or replaced. What is answered once another program removed, replaced, cut
or lengthened the journal of a running one, or moved its folder away. And how a journal is made: for its owner alone, and with a line if it was lost.
"""

import fcntl
import itertools
import os
import shutil
import stat

from lib.client import HELLO, PUBLISHED, done, opened, opening, refused, run, sent, upload
from lib.held_file import HeldFile
from lib.served import HOST, Served, free_ports
from lib.stores import Conversation, kept_in, kept_lines, opening_of, write_slots, write_store
from lib.worked_runs import LISTING, entry, reading, removing, renaming, undoing
import journal

DEVICE, BROKEN = refused("Device"), refused("Broken")
TAKEN = (3, b"", b"filehost: journal: Device\n")
LOST = b"filehost: the folder has files of a store and no journal: it begins with an empty history\n"
ENTRIES = [opening_of({"/a.txt": b"hello"}), ("publish", "one", 1)]
LISTED = done(changes=[{"entry": 1, "kind": "open", "live": True}, {"entry": 2, "kind": "publish", "live": True}])


def all_files(folder):
    """Each file in a folder, with its bytes."""
    return {file.name: file.read_bytes() for file in folder.iterdir()}


def slot_of(store):
    """The slot that is read."""
    return store / journal.SLOTS[journal.place_read(journal.slots_in(store))]


# What another program does to the slot that a running one has read.


def remove(slot):
    slot.unlink()


def replace(slot):
    """By a copy, as a restore or an editor does."""
    shutil.copy(slot, slot.parent / "copy")
    (slot.parent / "copy").rename(slot)


def replace_by_a_link(slot):
    """Which leads to a copy."""
    shutil.copy(slot, slot.parent / "copy")
    remove(slot)
    slot.symlink_to("copy")


def cut_all(slot):
    os.truncate(slot, 0)


def cut_one(slot):
    os.truncate(slot, slot.stat().st_size - 1)


def lengthen(slot):
    with slot.open("ab") as file:
        file.write(b"more")


CHANGES = (remove, replace, replace_by_a_link, cut_all, cut_one, lengthen)


class Runs(Served):
    """Runs of `solo` and of `serve` over a store in a folder."""

    def setUp(self):
        super().setUp()
        self.room = self.folder().resolve()
        self.store = self.room / "store"
        self.words = ("solo", "--store", str(self.store))

    def make(self, entries=(), *contents, place=0):
        """Makes the store anew, with its journal in this slot."""
        shutil.rmtree(self.store, ignore_errors=True)
        write_store(self.store, entries, *contents)
        slots = journal.slots_in(self.store)
        write_slots(self.store, *(slots if place == 0 else slots[::-1]))

    def begin(self, command, **how):
        """A running program of this command over the store, and how it is asked."""
        if command == "solo":
            talk = Conversation(self, **how)
            return talk.client.program, talk.ask
        started = self.serve("--store", str(self.store), **how)
        plug = self.plug()

        def ask(asked, wanted):
            plug.sendall(asked)
            self.assert_receives(plug, wanted)

        return started, ask

    def stop(self, started):
        started.kill()
        started.wait()

    def words_of(self, command):
        return self.words if command == "solo" else ("serve", "--listen", f"{HOST}:{free_ports()}", "--conns", "1", "--store", str(self.store))

    def assert_taken(self):
        """No other program can open the store, and none that tries changes a file there."""
        before = all_files(self.store)
        for command in ("solo", "serve"):
            self.assertEqual(run(*self.words_of(command)), TAKEN)
        self.assertEqual(all_files(self.store), before)


class Locks(Runs):
    def test_a_folder_belongs_to_the_program_that_has_it_open(self):
        for command in ("solo", "serve"):
            with self.subTest(command):
                self.make()
                started, ask = self.begin(command)
                for asked, wanted in PUBLISHED:
                    ask(asked, wanted)
                self.assert_taken()
                write_slots(self.store)
                self.assert_taken()
                self.assertEqual(journal.slots_in(self.store), (b"", b""))
                self.stop(started)
                self.assertEqual(run(*self.words), (0, b"", LOST))

    def test_a_folder_or_a_journal_under_another_lock_is_taken(self):
        for name in ("", *journal.SLOTS):
            with self.subTest(name):
                self.make(ENTRIES, b"hello")
                held = os.open(self.store / name, os.O_RDONLY)
                fcntl.flock(held, fcntl.LOCK_EX)
                self.assert_taken()
                os.close(held)
                self.assertEqual(run(*self.words, given=reading("/s/one/a.txt")), (0, sent(b"hello"), b""))

    def test_a_pipe_in_place_of_the_folder_holds_nobody(self):
        os.mkfifo(self.store)
        for command in ("solo", "serve"):
            self.assertEqual(run(*self.words_of(command)), TAKEN)


class Changed(Runs):
    """A journal that another program changes, while a program has it open."""

    def assert_fails(self, ask):
        """The change that comes next fails, and later ones aren't tried. Reads go on."""
        ask(renaming("/a.txt", "/b.txt"), DEVICE)
        for asked in (renaming("/a.txt", "/b.txt"), removing("/a.txt"), undoing(2), opening({"/a.txt": HELLO}), upload(1, "a.txt", b"hello")):
            ask(asked, BROKEN)
        ask(reading("/s/one/a.txt"), sent(b"hello"))
        ask(LISTING, LISTED)

    def test_fails_the_next_change_and_all_after_it(self):
        for command, place in itertools.product(("solo", "serve"), (0, 1)):
            for change in CHANGES:
                with self.subTest(command, place=place, change=change.__name__):
                    self.make(place=place)
                    started, ask = self.begin(command)
                    for asked, wanted in PUBLISHED:
                        ask(asked, wanted)
                    change(slot_of(self.store))
                    changed = all_files(self.store)
                    self.assert_taken()
                    self.assert_fails(ask)
                    self.assertEqual(all_files(self.store), changed)
                    self.stop(started)

    def test_what_was_acknowledged_is_in_the_journal_that_replaced_it(self):
        self.make()
        started, ask = self.begin("serve")
        for asked, wanted in PUBLISHED:
            ask(asked, wanted)
        replace(slot_of(self.store))
        self.assert_fails(ask)
        self.stop(started)
        self.assertEqual(journal.read_in(self.store), ENTRIES)
        started, ask = self.begin("serve")
        ask(renaming("/a.txt", "/b.txt"), entry(3))
        ask(reading("/s/one/b.txt"), sent(b"hello"))
        self.stop(started)

    def test_a_folder_that_is_moved_away_is_told_too(self):
        for command in ("solo", "serve"):
            for is_made_anew in (False, True):
                with self.subTest(command, is_made_anew=is_made_anew):
                    self.make()
                    started, ask = self.begin(command)
                    for asked, wanted in PUBLISHED:
                        ask(asked, wanted)
                    moved = self.store.rename(self.room / "moved")
                    if is_made_anew:
                        shutil.copytree(moved, self.store)
                    ask(renaming("/a.txt", "/b.txt"), DEVICE)
                    ask(renaming("/a.txt", "/b.txt"), BROKEN)
                    ask(LISTING, LISTED)
                    self.stop(started)
                    shutil.rmtree(moved)

    def test_is_told_if_it_happens_during_a_change(self):
        """The record is written, and not synced yet, when the file is cut, lengthened, removed or replaced."""
        for change, place in itertools.product(CHANGES, (0, 1)):
            with self.subTest(change=change.__name__, place=place):
                self.make(ENTRIES, b"hello", place=place)
                held = HeldFile(self.room, slot_of(self.store))
                held.open()
                started = self.serve("--store", str(self.store), environment=held.environment)
                held.close()
                plug = self.plug(renaming("/a.txt", "/b.txt"))
                held.wait("held")
                change(self.store / journal.SLOTS[place])
                held.open()
                self.assert_receives(plug, DEVICE)
                plug.sendall(removing("/a.txt"))
                self.assert_receives(plug, BROKEN)
                self.stop(started)
                held.close()


class Made(Runs):
    """How a journal is made."""

    def modes(self):
        return [stat.S_IMODE((self.store / name).stat().st_mode) for name in journal.SLOTS]

    def test_for_its_owner_alone(self):
        for command in ("solo", "serve"):
            with self.subTest(command):
                self.make()
                write_slots(self.store)
                started, ask = self.begin(command, umask=0)
                ask(opening({"/a.txt": HELLO}), opened(1, HELLO))
                self.stop(started)
                self.assertEqual(self.modes(), [0o600, 0o600])

    def test_and_left_with_the_mode_that_it_has(self):
        self.make(ENTRIES, b"hello")
        for name, mode in zip(journal.SLOTS, (0o640, 0o606)):
            (self.store / name).chmod(mode)
        self.assertEqual(run(*self.words), (0, b"", b""))
        self.assertEqual(self.modes(), [0o640, 0o606])


class Lost(Runs):
    """Folders without a journal."""

    def ended(self, command):
        """What a program over the store says on standard error, and its status once it was asked for something."""
        if command == "solo":
            status, _, said = run(*self.words, given=LISTING)
            return status, said
        started = self.serve("--store", str(self.store), "--conns", "1")
        self.plug(LISTING).close()
        return started.wait(), started.stderr.read()

    def test_files_without_a_journal_are_told_in_one_line(self):
        for command in ("solo", "serve"):
            for kind in ("c-", "t-", journal.KEPT):
                with self.subTest(command, kind=kind):
                    self.make([], b"hello")
                    (self.store / f"{journal.KEPT}1").write_bytes(b"kept")
                    for file in self.store.iterdir():
                        if not file.name.startswith(kind):
                            file.unlink()
                    self.assertEqual(self.ended(command), (0, LOST))
                    self.assertEqual(journal.file_in(self.store), journal.EMPTY)
                    self.assertEqual(self.ended(command), (0, b""))

    def test_slots_with_at_most_a_byte_are_no_journal(self):
        """Such as the one that a store doesn't use, where the other one wasn't restored. A slot with more may have had one, and is said to be dropped."""
        for first, second in itertools.product((None, b"", b"\0", b"\1"), repeat=2):
            with self.subTest(first=first, second=second):
                self.make([], b"hello")
                write_slots(self.store, first, second)
                self.assertEqual(self.ended("solo"), (0, LOST))
        write_slots(self.store, b"\0F")
        self.assertEqual(self.ended("solo"), (0, b""))

    def test_what_is_dropped_of_a_journal_is_told_in_one_line(self):
        for command in ("solo", "serve"):
            with self.subTest(command):
                self.make(ENTRIES, b"hello")
                damaged = journal.file_in(self.store).replace(b"\1", b"\0", 1)
                write_slots(self.store, damaged)
                line, = kept_lines(self.store)
                self.assertEqual(self.ended(command), (0, line.encode()))
                self.assertEqual(kept_in(self.store), {f"{journal.KEPT}1": damaged})
                self.assertEqual(self.ended(command), (0, b""))

    def test_nothing_is_told_of_other_folders(self):
        for command in ("solo", "serve"):
            for names in ((), ("c", "t", "x-1", "blob.tmp"), tuple(journal.SLOTS), (os.fsdecode(b"c\xff"),)):
                with self.subTest(command, names=names):
                    shutil.rmtree(self.store, ignore_errors=True)
                    self.store.mkdir()
                    for name in names:
                        (self.store / name).touch()
                    self.assertEqual(self.ended(command), (0, b""))

    def test_a_name_that_is_no_text_hides_no_file(self):
        self.make([], b"hello")
        write_slots(self.store)
        (self.store / os.fsdecode(b"\xff")).touch()
        self.assertEqual(self.ended("solo"), (0, LOST))

    def test_the_line_comes_before_that_of_a_failure(self):
        """Something that is not a file has the name of a slot, by a link to a place where nothing can be made."""
        for name in journal.SLOTS:
            self.make([], b"hello")
            write_slots(self.store)
            (self.store / name).symlink_to("nowhere/journal")
            for command in ("solo", "serve"):
                self.assertEqual(run(*self.words_of(command)), (3, b"", LOST + TAKEN[2]))
