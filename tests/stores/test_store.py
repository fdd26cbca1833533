"""A store that is closed and opened again answers as it did before; and what its folder then has is what docs/STORAGE.md says."""

import random
import socket
import subprocess
import sys

from lib.client import (
    ABC, EXAMPLES, HELLO, LARGEST_FILE, PROGRAM, SECONDS, TOP, digest_of, messages, opened, opening, refused, request, run, sent,
    upload, uploaded,
)
from lib.generated_histories import Generator
from lib.plain_model import Model
from lib.stores import PIECE, Conversation, Stored, as_bytes, entry_of, files_in, files_of, is_stored, looks, refused_undos, write_slots
from lib.worked_runs import CHANGED, CHANGED_AGAIN, REFUSED, done, entry, first_deployed, reading, serves, showing, stands, undoing
import journal

HISTORIES = 24
OPENINGS = 4


class Closed(Stored):
    """Runs that are divided among several programs, one after another over the same folder."""

    def test_a_run_goes_on_where_it_was_closed(self):
        self.assert_converses(CHANGED)
        self.assert_converses(REFUSED + CHANGED_AGAIN)

    def test_a_run_goes_on_wherever_it_is_closed(self):
        for exchange in CHANGED + REFUSED + CHANGED_AGAIN:
            self.assert_converses([exchange])

    def test_its_files_are_those_of_the_format(self):
        self.assert_converses(CHANGED)
        wanted = journal.write([
            ("open", "one", ("auto",), (("/a.txt", HELLO), ("/b.txt", ABC))), ("publish", "one", 1),
            ("rename", "one", "/a.txt", "/c.txt"), ("remove", "one", "/b.txt"), ("undo", "one", 3),
        ])
        self.assertEqual(journal.file_in(self.folder), wanted)
        self.assertEqual(files_in(self.folder), files_of(b"hello") | files_of(b"abc"))

    def test_an_empty_folder_becomes_an_empty_journal(self):
        for _ in range(2):
            self.assert_answers(b"", b"")
            self.assertEqual(self.all_files(), {"journal": b"", "journal.2": journal.EMPTY})

    def test_nothing_is_written_by_what_is_refused_or_read(self):
        self.assert_converses(CHANGED)
        before = self.all_files()
        self.assert_converses([*REFUSED, *serves("/a.txt")])
        self.assertEqual(self.all_files(), before)

    def test_what_a_deploy_lacked_is_lacking_still(self):
        listed = {"/a.txt": HELLO, "/b.txt": ABC}
        self.assert_converses([(opening(listed), opened(1, ABC, HELLO)), (upload(1, "b.txt", b"abc"), uploaded(b"abc"))])
        self.assert_converses([(showing(1), stands(1, "open", HELLO)), (opening(listed, "two"), opened(2, HELLO))])
        self.assert_converses([(upload(1, "a.txt", b"hello"), uploaded(b"hello", published=3))])
        self.assert_converses([(showing(2), done(id="2", required=[], site="two", state="open")), *serves("/a.txt", among=("/a.txt",))])

    def test_what_was_uploaded_is_known_though_its_deploy_was_undone(self):
        self.assert_converses([*first_deployed("/a.txt"), (undoing(2), entry(3)), (undoing(1), entry(4))])
        self.assert_converses([(opening({"/b.txt": HELLO}), opened(5, published=6))])

    def test_files_of_all_sizes_are_there(self):
        sizes = (0, 1, PIECE - 1, PIECE, PIECE + 1, 3 * PIECE + 5, LARGEST_FILE)
        contents = {f"/{size}": random.Random(size).randbytes(size) for size in sizes}
        digests = {path: digest_of(content) for path, content in contents.items()}
        uploads = [(upload(1, path[1:], content), uploaded(content, 2 if path == f"/{LARGEST_FILE}" else None))
                   for path, content in contents.items()]
        self.assert_converses([(opening(digests), opened(1, *sorted(digests.values()))), *uploads])
        self.assert_converses([(reading(f"/s/one{path}"), sent(content, kind="application/octet-stream"))
                               for path, content in contents.items()])
        for content in contents.values():
            self.assertTrue(is_stored(self.folder, content))

    def test_without_a_store_nothing_is_kept(self):
        self.words = ("solo",)
        self.assert_converses(CHANGED)
        self.assert_converses(serves(among=("/a.txt", "/b.txt")))
        self.assertEqual(self.all_files(), {})


class Generated(Stored):
    """Histories that are drawn by chance, each divided among several programs."""

    def test_are_answered_as_by_the_plain_model_and_as_before(self):
        for seed in range(HISTORIES):
            with self.subTest(seed=seed):
                self.write([])
                self.run_history(seed)

    def run_history(self, seed):
        model = Model()
        generator = Generator(seed, model)
        for _ in range(OPENINGS):
            drawn = list(self.drawn(generator, generator.random.randrange(1, 25)))
            last = self.some(generator, looks(model), 40) + self.some(generator, refused_undos(model), 20)
            self.assert_answered(model, drawn + [(as_bytes(asked), model.answer(asked)) for asked in last])
            model.requests = 0
            self.assert_answered(model, [(as_bytes(asked), model.answer(asked)) for asked in last])
            model.requests = 0

    def drawn(self, generator, count):
        """Requests for what the model has by then, each with its reply."""
        for asked in generator.requests(count):
            yield as_bytes(asked), generator.model.answer(asked)

    def some(self, generator, requests, count):
        return generator.random.sample(requests, min(count, len(requests)))

    def assert_answered(self, model, exchanges):
        self.assert_converses(exchanges)
        self.assert_has(model.entries)
        for content in model.uploads.values():
            self.assertTrue(is_stored(self.folder, content))


class Written(Stored):
    """Stores that no program has written, after docs/STORAGE.md alone."""

    def test_a_store_is_opened_whoever_wrote_it(self):
        content = bytes(range(256)) * 600
        listing = ("open", "one", ("auto",), (("/a.txt", HELLO), ("/d", digest_of(content))))
        self.write([listing, ("publish", "one", 1), ("alias", "one", "next", 1), ("remove", "one", "/d")], b"hello", content)
        self.assert_converses([
            (reading("/a/one/next/d"), sent(content, kind="application/octet-stream")),
            (request("GET", "/a/one/next/d", "Range: bytes=65530-65540"), sent(
                content[65530:65541], "Content-Range: bytes 65530-65540/153600", kind="application/octet-stream", whole=content)),
            (reading("/s/one/d"), refused("NoSuchFile")),
            (undoing(4), entry(5)),
            (reading("/s/one/d"), sent(content, kind="application/octet-stream")),
        ])

    def test_a_file_that_the_store_has_and_no_entry_lists_is_not_known(self):
        self.write([], b"hello")
        self.assert_converses([(opening({"/a.txt": HELLO}), opened(1, HELLO))])

    def test_what_a_stop_left_after_the_last_gate_is_cut(self):
        self.write([("open", "one", (), (("/a.txt", HELLO),))], b"hello")
        whole = journal.file_in(self.folder)
        for last in (b"\x00", b"\x07"):
            (self.folder / "journal").write_bytes(whole[:-1] + last + b"half of an entry")
            self.assert_converses([(showing(1), stands(1, "open"))])
            self.assertEqual(journal.file_in(self.folder), whole)

    def test_nothing_else_in_the_folder_is_read_or_removed(self):
        self.write([("open", "one", ("auto",), (("/a.txt", HELLO),))])
        others = {"notes": b"mine", f"c-{HELLO}.old": b"x", f"t-{HELLO.upper()}": b"y"}
        for name, data in others.items():
            (self.folder / name).write_bytes(data)
        self.assert_converses([(upload(1, "a.txt", b"hello"), uploaded(b"hello", published=2))])
        self.assertEqual(files_in(self.folder), others | files_of(b"hello"))


class Copied(Stored):
    """Copies of a store that are made while the program changes it: the journal first, and then the other files."""

    MOVES = 90

    def copy_to(self, folder):
        folder.mkdir()
        write_slots(folder, *journal.slots_in(self.folder))
        for file in self.folder.iterdir():
            if file.name not in (*journal.SLOTS, "blob.tmp"):
                (folder / file.name).write_bytes(file.read_bytes())

    def requests(self):
        """Deploys with contents of their own, as many as a connection takes."""
        for number in range(1, self.MOVES, 2):
            content = b"%d" % number
            yield opening({"/a.txt": digest_of(content)}), upload(number // 2 * 2 + 1, "a.txt", content)

    def test_are_opened_with_what_was_there(self):
        copies = []
        with Conversation(self).client.program as program:
            for number, (opens, uploads) in enumerate(self.requests()):
                program.stdin.write(opens + uploads)
                if number % 4 == 0 and (self.folder / "journal").exists():
                    copies.append(self.room / f"copy-{number}")
                    self.copy_to(copies[-1])
            program.stdin.close()
            program.stdout.read()
        last = journal.read_in(self.folder)
        self.assertEqual(len(last), 2 * len(list(self.requests())))
        for copy in copies:
            self.use(copy)
            entries = journal.read_in(copy)
            self.assertEqual(entries, last[:len(entries)])
            self.assert_answers(b"", b"")
            self.assert_has([entry_of(entry) for entry in entries])


class Examples(Stored):
    """examples/after-restart.http, and scripts/show-store."""

    def test_go_on_after_a_restart(self):
        for name in ("take-back", "after-restart"):
            given, wanted = ((EXAMPLES / f"{name}.{ending}").read_bytes() for ending in ("http", "replies"))
            self.assert_answers(given, wanted)

    def test_deploy_a_folder_by_several_streams(self):
        site, streams = self.room / "site", self.room / "streams"
        site.mkdir()
        for number in range(150):
            (site / f"{number:03}.txt").write_text(str(number))
        subprocess.run([sys.executable, TOP / "examples/make-deploy", "--into", streams, site, "one"], check=True, timeout=SECONDS)
        self.assertEqual(len(list(streams.iterdir())), 2)
        for stream in sorted(streams.iterdir()):
            status, out, errors = run(*self.words, given=stream.read_bytes())
            self.assertEqual((status, {line[1] for line, _ in messages(out)}, errors), (0, {"200"}, b""))
        self.assert_converses([(request("GET", f"/s/one/{number}.txt"), sent(number.lstrip("0").encode())) for number in ("001", "149")])

    def test_are_answered_over_one_connection_after_another(self):
        command = [sys.executable, TOP / "examples/listen", "--port", "0", PROGRAM, *self.words]
        with subprocess.Popen(command, stdout=subprocess.PIPE) as listener:
            self.addCleanup(listener.kill)
            port = int(listener.stdout.readline().split()[-1])
            for name in ("take-back", "after-restart"):
                given, wanted = ((EXAMPLES / f"{name}.{ending}").read_bytes() for ending in ("http", "replies"))
                with socket.create_connection(("127.0.0.1", port), SECONDS) as client:
                    client.sendall(given)
                    client.shutdown(socket.SHUT_WR)
                    self.assertEqual(b"".join(iter(lambda: client.recv(65_536), b"")), wanted)
            listener.kill()

    def show(self):
        ran = subprocess.run([sys.executable, TOP / "scripts/show-store", self.folder], capture_output=True, text=True, timeout=SECONDS)
        return ran.returncode, ran.stdout.splitlines(), ran.stderr

    def test_show_what_is_in_a_store(self):
        self.write([("open", "one", ("patch",), (("/a.txt", HELLO), ("/b.txt", ABC), ("/c.txt", None))), ("undo", "one", 1)], b"hello", b"")
        (self.folder / f"c-{HELLO}").write_bytes(b"hellp")
        before = self.all_files()
        self.assertEqual(self.show(), (0, [
            "1 open one patch", f"    /a.txt {HELLO} damaged", f"    /b.txt {ABC} missing", "    /c.txt removed", "2 undo one 1",
            f"not listed: t-{digest_of(b'')} 0 bytes",
        ], ""))
        self.assertEqual(self.all_files(), before)
        (self.folder / "journal").write_bytes(b"\1none")
        self.assertEqual(self.show(), (1, [], "show-store: `journal` and `journal.2` are not the slots of a filehost journal\n"))

    def test_show_nothing_that_a_terminal_obeys(self):
        """Escapes are shown in place of the controls C0, DEL and C1, of marks that turn the direction of text, and of bytes that are no UTF-8."""
        paths = ("/\x01\x1b[31m", "/\x7f\x9b1m", "/\u00e9 \u4e16", "/\u202etxt")
        self.write([("open", "one", ("patch",), tuple((path, None) for path in paths)), ("rename", "one", "/\x1b]0;x\x07", "/b")])
        (self.folder / "t-\x1b[2J\udcff").write_bytes(b"")
        self.assertEqual(self.show(), (0, [
            "1 open one patch", r"    /\x01\x1b[31m removed", r"    /\x7f\x9b1m removed", "    /\u00e9 \u4e16 removed", r"    /\u202etxt removed",
            r"2 rename one /\x1b]0;x\x07 /b", r"not listed: t-\x1b[2J\udcff damaged",
        ], ""))
