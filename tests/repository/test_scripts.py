"""The words that each script is called with: --help says what it does, and a word that it doesn't take ends it before it does anything."""

import hashlib
import json
import os
import pathlib
import shutil
import signal
import socket
import subprocess
import sys
import tempfile
import time
import unittest
from urllib.parse import unquote

from lib.client import LARGEST_FILE, REQUESTS, content_length, cut_after
from lib.sandbox import TOP, Sandbox

# Scripts outside of scripts/, bench/ and operate/.
OTHERS = ("site", "test", "tests/run", "examples/listen", "examples/make-deploy")
OF_CRATES = ("scripts/draw-bugs --seed 1", "scripts/fail-allocations", "scripts/slow-proofs", "scripts/try-wrong-bodies", "scripts/wrong-bodies")


def scripts():
    files = (file for folder in ("scripts", "bench", "operate") for file in (TOP / folder).iterdir() if file.is_file() and os.access(file, os.X_OK))
    return [*OTHERS, *sorted(str(file.relative_to(TOP)) for file in files)]


class Words(unittest.TestCase):
    """What the scripts answer if no other command is there: none to prove, build, install or measure with."""

    def setUp(self):
        self.sandbox = Sandbox()
        self.addCleanup(self.sandbox.close)
        self.folder = self.sandbox.folder / "elsewhere"
        self.folder.mkdir()

    def call(self, script, *words):
        answer = self.sandbox.run(str(TOP / script), *words, at=self.folder, has_toolchain=False)
        self.assertEqual(list(self.folder.iterdir()), [])
        return answer

    def assert_refuses(self, script, *words):
        status, out, err = self.call(script, *words)
        self.assertEqual((status, out, len(err.splitlines())), (2, "", 1), err)
        return err

    def test_each_says_what_it_does(self):
        for script in scripts():
            with self.subTest(script):
                status, out, err = self.call(script, "--help")
                self.assertEqual((status, err), (0, ""))
                self.assertTrue(out.startswith("usage: "))
                self.assertIn(script.rpartition("/")[2], out.splitlines()[0])
                self.assertGreater(len(out.splitlines()), 2)

    def test_each_refuses_a_flag_that_it_does_not_have(self):
        for script in scripts():
            with self.subTest(script):
                self.assertTrue(self.assert_refuses(script, "--no-such-flag").startswith(script.removeprefix("scripts/").removeprefix("examples/") + ": "))

    def test_those_for_crates_refuse_a_name_that_no_crate_has(self):
        for words in OF_CRATES:
            for name in ("no_such_crate", "../crates/host_names", ""):
                with self.subTest(f"{words} {name}"):
                    self.assertIn(f"there is no crate {name}".strip(), self.assert_refuses(*words.split(), name))

    def test_those_without_words_take_none(self):
        measuring = ("bench/compare", "bench/endure", "bench/group", "bench/journal", "bench/run", "bench/serve", "bench/site", "bench/store")
        for script in ("test", "scripts/lines", "scripts/pack-site", "bench/install-groupcache", "bench/install-servers", "operate/install", *measuring):
            with self.subTest(script):
                self.assertIn("no_word", self.assert_refuses(script, "no_word"))


class ShownStores(unittest.TestCase):
    """scripts/show-store over stores that have nothing to show."""

    def show(self, folder):
        ran = subprocess.run([sys.executable, TOP / "scripts/show-store", folder], capture_output=True, text=True, timeout=60)
        return ran.returncode, ran.stdout, ran.stderr

    def test_says_that_a_store_is_empty(self):
        with tempfile.TemporaryDirectory() as folder:
            self.assertEqual(self.show(folder), (0, f"There is no journal in {folder}: nothing has been stored there yet.\n", ""))

    def test_says_that_there_is_no_such_folder(self):
        self.assertEqual(self.show("/no/such/folder"), (1, "", "show-store: there is no folder /no/such/folder\n"))


class Listening(unittest.TestCase):
    """examples/listen, over a command that answers the first line that it reads, and then reads to the end."""

    command = [sys.executable, "-c", "import sys; print(sys.stdin.readline().upper(), end='', flush=True); sys.stdin.read()"]

    def listen(self, *words):
        """Starts it on a port that is free, and returns that port."""
        command = [sys.executable, TOP / "examples/listen", "--port", "0", *words, *self.command]
        # If the tests were begun in the background, interrupts may be ignored.
        how = {"preexec_fn": lambda: signal.signal(signal.SIGINT, signal.SIG_DFL)}
        self.listener = subprocess.Popen(command, stdout=subprocess.PIPE, stderr=subprocess.PIPE, **how)
        for done in (self.listener.stdout.close, self.listener.stderr.close, self.listener.wait, self.listener.kill):
            self.addCleanup(done)
        return int(self.listener.stdout.readline().split()[-1])

    def begin(self, port, line):
        client = socket.create_connection(("127.0.0.1", port), timeout=60)
        self.addCleanup(client.close)
        client.sendall(line)
        return client

    def test_gives_each_connection_to_a_run_of_its_own_one_at_a_time(self):
        port = self.listen()
        first, second = self.begin(port, b"first\n"), self.begin(port, b"second\n")
        self.assertEqual(first.recv(100), b"FIRST\n")
        second.settimeout(0.5)
        self.assertRaises(TimeoutError, second.recv, 100)
        first.close()
        second.settimeout(60)
        self.assertEqual(second.recv(100), b"SECOND\n")
        second.shutdown(socket.SHUT_WR)
        self.assertEqual(second.recv(100), b"")

    def test_cuts_a_connection_that_lasts_too_long(self):
        port = self.listen("--seconds", "3")
        silent, next_one = self.begin(port, b""), self.begin(port, b"next\n")
        began = time.monotonic()
        self.assertEqual(silent.recv(100), b"")
        self.assertEqual(next_one.recv(100), b"NEXT\n")
        self.assertLess(time.monotonic() - began, 15)

    def test_ends_without_a_word_where_it_is_interrupted(self):
        self.listen()
        self.listener.send_signal(signal.SIGINT)
        self.assertEqual((self.listener.wait(20), self.listener.stderr.read()), (0, b""))

    def test_refuses_a_port_that_is_taken_and_a_command_that_is_not_there(self):
        port = self.listen()
        for words in (["--port", str(port), "true"], ["--port", "70000", "true"], ["/no/such/command"], []):
            with self.subTest(words):
                ran = subprocess.run([sys.executable, TOP / "examples/listen", *words], capture_output=True, timeout=60)
                self.assertEqual((ran.returncode, ran.stdout, len(ran.stderr.splitlines())), (2, b"", 1), ran.stderr)


class MadeDeploys(unittest.TestCase):
    """examples/make-deploy: what it publishes of a folder, what it refuses, and how it splits what a connection doesn't take."""

    def setUp(self):
        room = tempfile.TemporaryDirectory(prefix="filehost-test-")
        self.addCleanup(room.cleanup)
        self.room = pathlib.Path(room.name)
        self.folder = self.room / "site"
        self.folder.mkdir()

    def add(self, path, content=b"hello"):
        file = self.folder / path
        file.parent.mkdir(parents=True, exist_ok=True)
        file.write_bytes(content)
        return file

    def make(self, *words, site="one"):
        command = [sys.executable, TOP / "examples/make-deploy", *words, self.folder, site]
        ran = subprocess.run(command, capture_output=True, timeout=60)
        return ran.returncode, ran.stdout, ran.stderr.decode()

    def requests(self, stream):
        """The requests of a stream: of each its first line, but for the version, and its body."""
        ends = cut_after(stream, content_length)
        parts = [stream[start:end].partition(b"\r\n\r\n") for start, end in zip([0, *ends], ends)]
        return [(head.partition(b" HTTP/1.1\r\n")[0].decode(), body) for head, _, body in parts]

    def published(self, *streams):
        """The paths and contents that the streams deploy; each content is sent once and has the digest that is listed."""
        (_, listing), *uploads, (read, _) = [one for stream in streams for one in self.requests(stream)]
        digests = json.loads(listing)["files"]
        paths = [unquote(line.removeprefix("PUT /api/v1/deploys/1/files")) for line, _ in uploads]
        contents = {hashlib.sha1(content).hexdigest(): content for _, content in uploads}
        self.assertEqual([digests[path] for path in paths], list(contents))
        self.assertIn(unquote(read.removeprefix("GET /s/one")), digests)
        return {path: contents[digest] for path, digest in digests.items()}

    def assert_publishes(self, wanted, errors=""):
        status, out, err = self.make()
        self.assertEqual((status, err), (0, errors))
        self.assertEqual(self.published(out), wanted)

    def assert_refuses(self, *parts, words=(), site="one"):
        status, out, err = self.make(*words, site=site)
        self.assertEqual((status, out, len(err.splitlines())), (2, b"", 1), err)
        for part in ("make-deploy: ", *parts):
            self.assertIn(part, err)

    def test_publish_each_file_and_send_each_content_once(self):
        for path, content in (("a.txt", b"first"), ("b/a.txt", b"second"), ("b/z.txt", b"first"), ("50% ü.txt", b"")):
            self.add(path, content)
        self.assert_publishes({"/a.txt": b"first", "/b/a.txt": b"second", "/b/z.txt": b"first", "/50% ü.txt": b""})

    def test_leave_out_what_is_hidden_but_for_well_known(self):
        for path in (".git/config", ".env", "a/.secret", "a/.git/b/c", ".well-known/.hidden"):
            self.add(path)
        for path in (".well-known/security.txt", "a/b.txt", "a/c."):
            self.add(path)
        wanted = {"/.well-known/security.txt": b"hello", "/a/b.txt": b"hello", "/a/c.": b"hello"}
        self.assert_publishes(wanted, "make-deploy: left out 5: hidden names, links that lead elsewhere, and anything that is not a file\n")

    def test_leave_out_links_that_lead_elsewhere_and_anything_that_is_not_a_file(self):
        self.add("a.txt")
        self.add("b/c.txt", b"here")
        self.add(".hidden")
        (self.room / "secret").write_bytes(b"secret")
        (self.room / "site-2").mkdir()
        (self.room / "site-2" / "near").write_bytes(b"near")
        for name, target in (
            ("out", "../secret"), ("absolute", self.room / "secret"), ("near", "../site-2/near"), ("folder", ".."), ("inner", "b"),
            ("nowhere", "no-such-file"), ("round", "round"), ("hidden", ".hidden"), ("b/in", "../a.txt"),
        ):
            (self.folder / name).symlink_to(target)
        os.mkfifo(self.folder / "fifo")
        wanted = {"/a.txt": b"hello", "/b/c.txt": b"here", "/b/in": b"hello"}
        self.assert_publishes(wanted, "make-deploy: left out 10: hidden names, links that lead elsewhere, and anything that is not a file\n")

    def test_take_a_folder_that_is_a_link(self):
        self.add("a.txt")
        (self.room / "link").symlink_to("site")
        self.folder = self.room / "link"
        self.assert_publishes({"/a.txt": b"hello"})

    def test_refuse_a_file_that_is_too_large(self):
        self.add("z/large.bin", bytes(LARGEST_FILE))
        self.add("a.txt")
        self.assertEqual(self.make()[0], 0)
        self.add("z/large.bin", bytes(LARGEST_FILE + 1))
        self.assert_refuses("/z/large.bin", "16,777,216")

    def test_refuse_more_files_than_a_deploy_has(self):
        for number in range(10_000):
            self.add(f"{number}")
        self.assertEqual(self.make()[0], 0)
        self.add("one more")
        self.assert_refuses("10,001 files", "10,000")

    def test_refuse_a_list_of_files_that_is_too_long(self):
        folders = "/".join(["d" * 200] * 4)
        for number in range(4_000):
            self.add(f"{folders}/{number:0>200}", b"")
        self.assert_refuses("the list of the files", "4,194,304")

    def test_refuse_paths_that_no_site_has(self):
        for name, part in (("a#b", "#"), ("a?b", "?"), ("a\\b", "\\"), (os.fsdecode(b"a\xff"), "UTF-8"), ("a\n#", "#")):
            with self.subTest(name):
                file = self.add(name)
                self.assert_refuses(part)
                file.unlink()
        file = self.add(f"{'é' * 100}/{'é' * 100}/{'é' * 100}/{'é' * 100}/{'a' * 219}")
        self.assert_publishes({f"/{file.relative_to(self.folder)}": b"hello"})
        file.rename(file.with_name("a" * 220))
        self.assert_refuses("1025 bytes", "1,024")

    def test_refuse_names_numbers_and_folders_that_are_wrong(self):
        self.assert_refuses("no file")
        self.add("a.txt")
        for site in ("", "One", "a b", "a/b", "é", "a" * 64, "a\nb"):
            with self.subTest(site):
                self.assert_refuses("not the name of a site", site=site)
        for number in ("0", "-1", "1000001", "x"):
            with self.subTest(number):
                self.assert_refuses(number, words=[f"--deploy={number}"])
        self.folder = self.folder / "a.txt"
        self.assert_refuses("no folder")

    def test_split_what_a_connection_does_not_take(self):
        wanted = {f"/{number:03}.txt": str(number).encode() for number in range(REQUESTS - 1)}
        for path, content in wanted.items():
            self.add(path[1:], content)
        streams = self.room / "streams"
        self.assert_refuses("101 requests", "--into")
        for count, sizes in ((REQUESTS - 1, [100, 1]), (REQUESTS * 2 - 2, [100, 100]), (REQUESTS * 2 - 1, [100, 100, 1])):
            with self.subTest(count):
                wanted |= {f"/{number:03}.txt": str(number).encode() for number in range(count)}
                for path, content in wanted.items():
                    self.add(path[1:], content)
                self.assertEqual(self.make("--into", streams), (0, b"", ""))
                files = sorted(streams.iterdir())
                self.assertEqual([file.name for file in files], [f"{number:03}.http" for number in range(1, len(sizes) + 1)])
                self.assertEqual([len(self.requests(file.read_bytes())) for file in files], sizes)
                self.assertEqual(self.published(*(file.read_bytes() for file in files)), wanted)
                self.assert_refuses("not an empty folder", words=["--into", streams])
                shutil.rmtree(streams)
        self.add("z.txt", bytes(LARGEST_FILE + 1))
        self.assert_refuses("/z.txt", words=["--into", streams])
        self.assertFalse(streams.exists())

    def test_end_without_a_word_where_nobody_reads_them(self):
        self.add("a.bin", bytes(1 << 20))
        read, write = os.pipe()
        os.close(read)
        with os.fdopen(write, "wb") as nobody:
            command = [sys.executable, TOP / "examples/make-deploy", self.folder, "one"]
            ran = subprocess.run(command, stdout=nobody, stderr=subprocess.PIPE, timeout=60)
        self.assertEqual((ran.returncode, ran.stderr), (-signal.SIGPIPE, b""))
