"""operate/check-store and operate/why: stores that open and that don't, and ports that can't be listened on, each with the path and the system's error."""

import ctypes
import os
import pwd
import resource
import socket
import subprocess
import sys

from lib.client import PROGRAM, digest_of
from lib.copied_stores import CHECK, WHY, CopiedStores, call
from lib.served import HOST, free_ports, publish
from lib.stores import opening_of, small_file_system, write_slots, write_store
import journal

# Of Linux: prctl(2), capabilities(7).
PR_CAPBSET_DROP, CAP_DAC_OVERRIDE, CAP_DAC_READ_SEARCH = 24, 1, 2
FILES = {"/a.txt": b"first", "/large.bin": os.urandom(100_000)}
ENTRIES = [opening_of(FILES), ("publish", "one", 1), opening_of({"/b": b"never uploaded"}, "two", ("auto",))]
TABLE, PIECE = f"t-{digest_of(FILES['/a.txt'])}", f"c-{digest_of(FILES['/a.txt'])}"

MORE = "if the store still doesn't open, operate/check-store says what the program finds\n"


class Checks(CopiedStores):
    """operate/check-store."""

    def setUp(self):
        super().setUp()
        write_store(self.store, ENTRIES, *FILES.values())

    def check(self):
        return call(CHECK, self.store, "--program", PROGRAM)

    def assert_says_that_it_does_not_open(self, *parts):
        before = self.files_of(self.store)
        status, out, errors = self.check()
        self.assertEqual((status, out, len(errors.splitlines())), (1, "", 1), errors)
        for part in parts:
            self.assertIn(part, errors)
        self.assertEqual((self.files_of(self.store), sorted(file.name for file in self.store.iterdir())), (before, sorted(before)))

    def test_say_what_a_store_has(self):
        before = self.files_of(self.store)
        status, out, errors = self.check()
        self.assertEqual((status, errors), (0, ""))
        self.assertIn(" opens, in ", out)
        self.assertIn("3 entries of 1,000,000, 2 uploaded files in 3 pieces, 0.1 MiB\n", out)
        self.assertIn("site one: 2 entries, the last is 2 (1 open, 1 publish)\nsite two: 1 entries, the last is 3 (1 open)\n", out)
        self.assertIn(" GiB are free there", out)
        # The throw-away folder is gone.
        self.assertEqual((self.files_of(self.store), sorted(file.name for file in self.store.iterdir())), (before, sorted(before)))

    def test_do_not_disturb_a_host(self):
        write_slots(self.store)
        self.serve("--store", str(self.store))
        for number in range(5):
            publish(self.client(), {"/a.txt": b"number %d" % number})
            self.assertIn(f"{2 * number + 2} entries", self.assert_opens(self.store))

    def test_say_why_a_store_does_not_open(self):
        (self.store / PIECE).write_bytes(b"other")
        self.assert_says_that_it_does_not_open("status 4", f"blobs: DamagedBlob {TABLE[2:]}")
        (self.store / TABLE).unlink()
        self.assert_says_that_it_does_not_open("status 4", f"blobs: MissingBlob {TABLE[2:]}")
        for slots in ((journal.EMPTY[:-1],), (journal.EMPTY, journal.EMPTY)):
            write_slots(self.store, *slots)
            self.assert_says_that_it_does_not_open("has no journal that opens (BadHeader)")
        for slots in ((journal.write(ENTRIES[1:]),), (journal.EMPTY[:1], journal.write(ENTRIES[1:]))):
            write_slots(self.store, *slots)
            self.assert_says_that_it_does_not_open("status 3", "journal: NotLegal 1")
        for folder in ("/no/such/folder", str(self.store / TABLE)):
            status, out, errors = call(CHECK, folder, "--program", PROGRAM)
            self.assertEqual((status, out, len(errors.splitlines())), (1, "", 1), errors)
            self.assertIn(folder, errors)


class Reasons(CopiedStores):
    """operate/why."""

    def setUp(self):
        super().setUp()
        write_store(self.store, ENTRIES, *FILES.values())

    def assert_found(self, *parts, words=None, **how):
        """The script finds one thing in the way, in a line with these parts. The program doesn't start either."""
        status, out, errors = call(WHY, *(words or ("--store", self.store)), **how)
        self.assertEqual((status, errors, len(out.splitlines())), (1, "", 1), out)
        for part in parts:
            self.assertIn(str(part), out)
        store = ["--store", *words[words.index("--store") + 1:][:1]] if words and "--store" in words else [] if words else ["--store", self.store]
        if store:
            how.pop("cwd", None)
            started = subprocess.run([PROGRAM, "solo", *map(str, store)], stdin=subprocess.DEVNULL, capture_output=True, **how)
            self.assertIn(started.returncode, (3, 4), started.stderr)

    def assert_nothing(self, *words, **how):
        words = words or ("--store", self.store)
        self.assertEqual(call(WHY, *words, **how), (0, "nothing is in the way\n" + MORE * ("--store" in words), ""))

    def test_a_store_that_opens(self):
        self.assert_nothing()
        self.assert_nothing("--store", self.folder())

    def test_folders_that_are_not_there_and_files_in_their_place(self):
        self.assert_found(f"{self.room}/none: No such file or directory", words=["--store", self.room / "none/below/it"])
        self.assert_found(f"{self.store / TABLE}: it is a file, and no folder", words=["--store", self.store / TABLE / "x"])
        self.assert_found(f"{self.store / TABLE}: it is a file", words=["--store", self.store / TABLE])
        for name in journal.SLOTS:
            (self.store / name).rename(self.room / name)
            (self.store / name).mkdir()
            self.assert_found(f"{self.store / name}: it is no file")
            (self.store / name).rmdir()
            (self.room / name).rename(self.store / name)

    def test_a_folder_without_its_journal(self):
        """The program goes on there, with an empty history."""
        for slots in ((), (b"",), (b"no journal", b"\0")):
            write_slots(self.store, *slots)
            status, out, _ = call(WHY, "--store", self.store)
            self.assertEqual(status, 1)
            self.assertIn(f"{self.store}: it has files of a store and no journal: it would begin with an empty history", out)

    def test_another_program_that_has_it(self):
        host = self.serve("--store", str(self.store))
        self.assert_found(self.store, f"process {host.pid} ({PROGRAM} serve", "has it open")

    def test_no_permission(self):
        """Of a root without the right to pass over modes, to folders that belong to somebody else; or of a user to folders with no permission for anybody."""
        mine, how = os.geteuid() == 0, {}
        if mine:
            how["preexec_fn"] = lambda: [ctypes.CDLL(None).prctl(PR_CAPBSET_DROP, right, 0, 0, 0) for right in (CAP_DAC_OVERRIDE, CAP_DAC_READ_SEARCH)]
            for place in (self.room, self.store, *(self.store / name for name in journal.SLOTS)):
                os.chown(place, pwd.getpwnam("nobody").pw_uid, -1)
        else:
            self.addCleanup(os.chmod, self.room, 0o700)
        os.chmod(self.room, 0o755 if mine else 0o700)
        journal_file, second = (self.store / name for name in journal.SLOTS)
        for place, mode, words in (
            (self.store, 0o600, f"{self.store}: no permission to enter it: it belongs to"), (self.store, 0o311, f"{self.store}: no permission to read it"),
            (self.store, 0o555, f"{self.store}: no permission to write into it"), (self.store, 0o777, None),
            (journal_file, 0o200, f"{journal_file}: no permission to read it"), (journal_file, 0o444, f"{journal_file}: no permission to write it"),
            (journal_file, 0o666, None), (second, 0o444, f"{second}: no permission to write it"), (self.room, 0o600, f"{self.room}: no permission to enter it"),
        ):
            os.chmod(place, mode)
            if words:
                self.assert_found(words, f"has the mode {mode:04o}, and this is {pwd.getpwuid(os.geteuid()).pw_name}", **how)

    def test_root_is_told_who_else_has_the_store(self):
        if os.geteuid():
            print("left out: this isn't root", file=sys.stderr)
            return
        os.chown(self.store, pwd.getpwnam("nobody").pw_uid, -1)
        status, out, _ = call(WHY, "--store", self.store)
        self.assertEqual((status, out), (0, "nothing is in the way of root; the store belongs to nobody, so try again with sudo -u nobody\n" + MORE))

    def test_a_full_disk_and_one_that_is_only_read(self):
        disk = self.room / "disk"
        disk.mkdir()
        with small_file_system(disk, 65_536) as is_mounted:
            if not is_mounted:
                print("left out: no file system can be mounted here", file=sys.stderr)
                return
            (disk / "all").write_bytes(b"")
            with (disk / "all").open("wb") as file:
                try:
                    file.write(bytes(10 ** 6))
                except OSError:
                    pass
            status, out, _ = call(WHY, "--store", disk)
            self.assertEqual((status, out), (1, f"{disk}: No space left on device: 65,536 bytes are all used\n"))
            (disk / "all").unlink()
            subprocess.run(["mount", "-o", "remount,ro", disk], check=True)
            self.assert_found(f"{disk}: Read-only file system", words=["--store", disk])

    def test_journals_that_are_damaged(self):
        for content, parts in (
            (b"\1no journal", ("BadHeader", "first bytes are 01 6e 6f 20 6a")), (journal.EMPTY[:-1], ("BadHeader",)),
            (journal.write(ENTRIES)[:-40], ("record 3 is malformed", "its bytes end at", "2 records before byte")),
            (journal.EMPTY[:-1] + b"\1\0\0\0\1x\0", ("record 1 is malformed", "its text is that of no entry")),
        ):
            write_slots(self.store, content)
            self.assert_found(self.store / "journal", *parts)
            write_slots(self.store, journal.write(ENTRIES, journal.OLD_HEADER), content)
            self.assert_found(self.store / "journal.2", *parts)
        write_slots(self.store, journal.EMPTY, journal.EMPTY)
        self.assert_found(self.store, "have one generation (BadHeader)")

    def test_files_that_are_lost_or_damaged(self):
        """Each with where it is listed. Those of an open deploy needn't be there."""
        (self.store / PIECE).write_bytes(b"other")
        self.assert_found(self.store / PIECE, "its 5 bytes have another SHA-1", f"DamagedBlob {TABLE[2:]}: /a.txt of deploy 1 of the site one")
        (self.store / PIECE).unlink()
        self.assert_found(self.store / PIECE, "there is no such file", f"DamagedBlob {TABLE[2:]}")
        (self.store / TABLE).write_bytes(b"short")
        self.assert_found(self.store / TABLE, "it has 5 bytes, which are the table of no file")
        (self.store / TABLE).unlink()
        self.assert_found(self.store / TABLE, "there is no such file", f"MissingBlob {TABLE[2:]}: /a.txt of deploy 1 of the site one")

    def test_ports_that_are_taken_or_not_of_this_machine(self):
        port = free_ports()
        words = ["--listen", f"{HOST}:{port}", "--nodes", "2"]
        self.assert_nothing(*words)
        for place, use in ((1, "node 1 for clients"), (8, "node 0 for other nodes")):
            with socket.create_server((HOST, port + place)):
                self.assert_found(f"{HOST}:{port + place}, {use}: Address already in use: process {os.getpid()} (", words=words)
        status, out, _ = call(WHY, "--listen", "192.0.2.1:8080")
        self.assertEqual((status, len(out.splitlines())), (1, 2))
        self.assertIn("192.0.2.1:8080, node 0 for clients: Cannot assign requested address: this machine has no such address", out)

    def test_too_few_descriptors(self):
        how = {"preexec_fn": lambda: resource.setrlimit(resource.RLIMIT_NOFILE, (63, 63))}
        words = ["--listen", f"{HOST}:{free_ports()}", "--nodes", "2"]
        self.assert_found("the limit of descriptors (ulimit -H -n) is 63: 2 nodes need 64 at least", words=words, **how)
        self.assert_nothing(*words, "--workers", "1", **how)

    def test_wrong_words(self):
        for words in ([], ["--store"], ["--listen", "8080"], ["--listen", "127.0.0.1:0"], ["--listen", "127.0.0.1:8080", "--nodes", "9"],
                      ["--listen", "127.0.0.1:8080", "--workers", "9"], ["x"]):
            status, out, errors = call(WHY, *words)
            self.assertEqual((status, out, len(errors.splitlines())), (2, "", 1), errors)
