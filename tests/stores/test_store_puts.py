"""What the puts of uploads make in the folder of a store and, if they fail, leave there, as docs/STORAGE.md says in "A shelf in a folder": of `solo` and of
`serve`. And scripts/unused-pieces, which finds the pieces that failed uploads left.
"""

import contextlib
import random
import stat
import subprocess
import sys

from lib.client import SECONDS, TOP, digest_of, opened, opening, refused, request, sent, upload, uploaded
from lib.rows import OTHER
from lib.served import Served
from lib.stores import PIECE, Conversation, Stored, files_of, is_stored, limited, opening_of, pieces_of, small_file_system
from lib.worked_runs import showing, stands
import journal

DEVICE = refused("Device")
# The commands, each with the temporary name that its first put takes.
TEMPORARIES = {"solo": "blob.tmp", "serve": "blob-0.tmp"}
# Two pieces and a rest.
CONTENT = random.Random(1).randbytes(2 * PIECE + 7)


def opens(number, content):
    """The exchange that opens a deploy of this content, which the store lacks, as the entry of this number."""
    return opening({"/a": digest_of(content)}), opened(number, digest_of(content))


def puts(number, content):
    """The exchange that uploads and publishes it."""
    return upload(number, "a", content), uploaded(content, number + 1)


def fails(number, content):
    return upload(number, "a", content), DEVICE


def list_unused(folder):
    """What scripts/unused-pieces answers: its status, its lines, and what it says on standard error."""
    ran = subprocess.run([sys.executable, TOP / "scripts/unused-pieces", folder], capture_output=True, text=True, timeout=SECONDS)
    return ran.returncode, ran.stdout.splitlines(), ran.stderr


def mode_of(file):
    return stat.S_IMODE(file.stat().st_mode)


class Puts(Served):
    def begin(self, command):
        """An empty store, and the path at which the command's first put writes."""
        self.store = self.folder().resolve()
        return self.store / TEMPORARIES[command]

    def converse(self, command, *exchanges, **how):
        """A program over the store answers the request of each exchange with its reply."""
        if command == "solo":
            self.words = ("solo", "--store", str(self.store))
            talk = Conversation(self, **how)
            talk.ask_all(exchanges)
            talk.end()
            return
        started = self.serve("--store", str(self.store), **how)
        plug = self.plug()
        for asked, wanted in exchanges:
            plug.sendall(asked)
            self.assert_receives(plug, wanted)
        self.end(started)

    def shelf(self):
        """The files of the store but its journal."""
        return [file for file in self.store.iterdir() if file.name not in journal.SLOTS]

    def names(self):
        return {file.name for file in self.shelf()}

    def assert_stored(self, content):
        self.assertTrue(is_stored(self.store, content))
        self.assertEqual(self.names(), set(files_of(content)))


class Made(Puts):
    """What a put makes."""

    def test_are_for_their_owner_alone_and_umask_only_takes_away(self):
        for command in TEMPORARIES:
            for umask, mode in ((0, 0o600), (0o022, 0o600), (0o277, 0o400)):
                with self.subTest(command, umask=oct(umask)):
                    self.begin(command)
                    self.converse(command, opens(1, CONTENT), puts(1, CONTENT), umask=umask)
                    self.assert_stored(CONTENT)
                    self.assertEqual({mode_of(file) for file in self.shelf()}, {mode})

    def test_is_made_anew_where_a_stop_left_a_file(self):
        for command in TEMPORARIES:
            with self.subTest(command):
                temporary = self.begin(command)
                temporary.write_bytes(b"of a stop" * 10_000)
                temporary.chmod(0o644)
                with temporary.open("rb") as left:
                    self.converse(command, opens(1, CONTENT), puts(1, CONTENT))
                    self.assertEqual(left.read(), b"of a stop" * 10_000)
                self.assert_stored(CONTENT)
                self.assertEqual({mode_of(file) for file in self.shelf()}, {0o600})

    def test_follows_no_link(self):
        for command in TEMPORARIES:
            for is_there in (True, False):
                with self.subTest(command, is_there=is_there):
                    outside = self.folder() / "outside"
                    if is_there:
                        outside.write_bytes(b"mine")
                    self.begin(command).symlink_to(outside)
                    self.converse(command, opens(1, CONTENT), puts(1, CONTENT))
                    self.assertEqual(outside.exists() and outside.read_bytes(), is_there and b"mine")
                    self.assert_stored(CONTENT)
                    self.assertFalse(any(file.is_symlink() for file in self.shelf()))


class Failed(Puts):
    """What a put leaves that fails."""

    def test_over_a_folder_is_that_folder(self):
        for command in TEMPORARIES:
            with self.subTest(command):
                temporary = self.begin(command)
                temporary.mkdir()
                self.converse(command, opens(1, CONTENT), fails(1, CONTENT))
                self.assertEqual((self.shelf(), temporary.is_dir()), ([temporary], True))
                temporary.rmdir()
                self.converse(command, puts(1, CONTENT))
                self.assert_stored(CONTENT)

    def test_is_what_was_put_before(self):
        """A folder has the name of a piece or of the table, so the renaming fails. The files before it stay."""
        names = [*(f"c-{digest_of(piece)}" for piece in pieces_of(CONTENT)), f"t-{digest_of(CONTENT)}"]
        for command in TEMPORARIES:
            for place, name in enumerate(names):
                with self.subTest(command, place=place):
                    self.begin(command)
                    (self.store / "journal").write_bytes(journal.EMPTY)
                    (self.store / name).mkdir()
                    self.converse(command, opens(1, CONTENT), fails(1, CONTENT), fails(1, CONTENT))
                    self.assertEqual(self.names(), set(names[:place + 1]))
                    (self.store / name).rmdir()
                    self.converse(command, puts(1, CONTENT))
                    self.assert_stored(CONTENT)

    def test_is_replaced_by_the_next_put_where_it_was_damaged_meanwhile(self):
        """Its length tells nothing: the file of a piece is written again, whatever it has."""
        read = request("GET", "/s/one/a"), sent(CONTENT, kind=OTHER)
        for command in TEMPORARIES:
            for place, piece in enumerate(pieces_of(CONTENT)):
                with self.subTest(command, place=place):
                    self.begin(command)
                    (self.store / "journal").write_bytes(journal.EMPTY)
                    table = self.store / f"t-{digest_of(CONTENT)}"
                    table.mkdir()
                    self.converse(command, opens(1, CONTENT), fails(1, CONTENT))
                    (self.store / f"c-{digest_of(piece)}").write_bytes(bytes([piece[0] ^ 4]) + piece[1:])
                    table.rmdir()
                    self.converse(command, puts(1, CONTENT), read)
                    self.assert_stored(CONTENT)
                    self.converse(command, read)

    def test_of_other_bytes_than_are_listed_is_nothing(self):
        """Nothing of them is put before they are refused."""
        for command in TEMPORARIES:
            with self.subTest(command):
                self.begin(command)
                self.converse(command, opens(1, CONTENT), (upload(1, "a", CONTENT[:-1]), refused("WrongDigest")))
                self.assertEqual(self.shelf(), [])

    def test_at_a_limit_of_file_sizes_is_nothing(self):
        for command in TEMPORARIES:
            with self.subTest(command):
                self.begin(command)
                self.converse(command, opens(1, CONTENT), fails(1, CONTENT), fails(1, CONTENT), opens(2, b"few"), puts(2, b"few"), **limited(50_000))
                self.assert_stored(b"few")

    def test_at_a_full_disk_is_what_was_put_before(self):
        for command in TEMPORARIES:
            with self.subTest(command), contextlib.ExitStack() as stack:
                self.begin(command)
                if not stack.enter_context(small_file_system(self.store, 1 << 20)):
                    print("no file system can be mounted here, so no disk was filled", flush=True)
                    return
                content = random.Random(2).randbytes(2 << 20)
                self.converse(command, opens(1, content), fails(1, content), fails(1, content))
                pieces = self.names()
                self.assertGreater(len(pieces), 10)
                self.assertLess(pieces, set(files_of(content)))
                self.assertEqual(list_unused(self.store), (0, sorted(pieces), ""))
                self.remove_unused()
                self.assertEqual(self.shelf(), [])
                self.converse(command, opens(2, CONTENT), puts(2, CONTENT))
                self.assert_stored(CONTENT)

    def remove_unused(self):
        """Removes the unused pieces, by the command that docs/STORAGE.md shows."""
        command, = (line.strip() for line in (TOP / "docs/STORAGE.md").read_text().splitlines() if line.startswith("    scripts/unused-pieces DIR | "))
        subprocess.run(["bash", "-c", command.replace("DIR", f"'{self.store}'")], cwd=TOP, check=True, timeout=SECONDS)


class UnusedPieces(Stored):
    """scripts/unused-pieces over stores that no program wrote."""

    first, second = CONTENT, CONTENT[:PIECE] + b"another rest"

    def assert_refused(self, why):
        self.assertEqual(list_unused(self.folder), (1, [], f"unused-pieces: {why}\n"))

    def test_are_those_that_no_table_names(self):
        self.write([opening_of({"/a": self.first, "/b": self.second, "/c": b""})], self.first, self.second, b"")
        self.assertEqual(list_unused(self.folder), (0, [], ""))
        (self.folder / f"t-{digest_of(self.first)}").unlink()
        only = files_of(self.first).keys() - files_of(self.second).keys() - {f"t-{digest_of(self.first)}"}
        for name in (f"c-{digest_of(b'x')}.old", f"c-{digest_of(b'x').upper()}", "c-", "notes", "blob.tmp"):
            (self.folder / name).write_bytes(b"x")
        before = self.all_files()
        self.assertEqual(list_unused(self.folder), (0, sorted(only), ""))
        self.assertEqual(self.all_files(), before)

    def test_are_not_told_while_a_program_has_the_store_open(self):
        self.write([opening_of({"/a": self.first})])
        talk = Conversation(self)
        talk.ask(showing(1), stands(1, "open", digest_of(self.first)))
        self.assert_refused("a program has the store open")
        talk.end()
        self.assertEqual(list_unused(self.folder), (0, [], ""))

    def test_are_not_told_where_a_table_tells_nothing(self):
        self.write([opening_of({"/a": self.first})], self.first)
        name = f"t-{digest_of(self.first)}"
        table = self.folder / name
        whole = table.read_bytes()
        for damaged in (b"", whole[:-1], whole[:-20], whole + bytes(20), b"\x01" + whole[1:]):
            table.write_bytes(damaged)
            self.assert_refused(f"{name} is damaged")
        table.unlink()
        table.mkdir()
        self.assert_refused(f"{name} can't be read: Is a directory")

    def test_are_not_told_where_there_is_no_store(self):
        self.assert_refused(f"there is no journal in {self.folder}")
        self.use(self.room / "nothing\n")
        self.assert_refused(f"there is no journal in {self.room}/nothing\\n")
        self.folder.write_text("a file")
        self.assert_refused(f"{self.room}/nothing\\n can't be read: Not a directory")
