"""Clients that are not this project's own, over the sockets of `filehost serve`: curl, wget, aria2c and Python's http.client.

What is expected follows from docs/HTTP.md and docs/WIRE.md.
"""

import random
import re
import signal
import subprocess
import time

from lib.client import (
    HELLO, LARGEST_FILE, PATIENCE, REQUESTS, SECONDS, closing, digest_of, done, opened, opening, refused, sent, to_head, uploaded,
)
from lib.over_tcp import ARIA, CURL, WAITING, WGET, assert_exchanges, downloaded, needs_aria, needs_curl, needs_wget
from lib.range_replies import part, parts
from lib.served import HOST, Served, ask, publish
from lib.wire import BODY_TOO_LARGE, END, INTERIM

LARGE = "/s/one/large"
CONTENT = random.Random(1).randbytes(LARGEST_FILE)
DEPLOYS = "/api/v1/sites/one/deploys"
# How fast a download goes that is cut in its midst, in bytes a second, and when that is. So it takes long enough to be cut on a machine that is slow, too.
SLOWLY, SOME = "2M", 2 ** 20


def listing(files):
    """The body that opens a deploy of these files, given by their digests."""
    return opening(files).partition(END)[2].decode()


class Client(Served):
    """A client of nodes over a store."""

    def begin(self, content=CONTENT, **how):
        self.room, self.store = self.folder(), self.folder()
        self.started = self.serve("--store", str(self.store), **how)
        if content is not None:
            publish(self.client(), {"/large": content})

    def url(self, target=LARGE, node=0):
        return f"http://{HOST}:{self.port + node}{target}"

    def file(self, content):
        """A file with this content."""
        file = self.room / "given"
        file.write_bytes(content)
        return str(file)

    def serve_again(self):
        """Kills the program, and starts it again over its store, at the same port."""
        self.end(self.started)
        self.started = self.serve("--store", str(self.store), port=self.port)

    def assert_downloads(self, *words, target=LARGE, wanted=CONTENT, status=0):
        """The client ends with this status, and its file then has these bytes."""
        ended, content = downloaded(self.room, self.url(target), words)
        self.assertEqual((ended, len(content)), (status, len(wanted)))
        self.assertEqual(digest_of(content), digest_of(wanted))

    def begin_download(self, *words):
        """Starts a client, and waits until it has some of the content."""
        client = subprocess.Popen([*words, self.url()], cwd=self.room)
        self.addCleanup(client.wait)
        self.addCleanup(client.kill)
        file, until = self.room / "file", time.monotonic() + PATIENCE
        while not (file.exists() and file.stat().st_size > SOME):
            self.assertLess(time.monotonic(), until)
            self.assertIsNone(client.poll())
            time.sleep(0.01)
        return client

    def break_off_download(self, *words):
        """Starts a client, and kills it when it has some of the content."""
        client = self.begin_download(*words)
        client.kill()
        client.wait()

    def assert_has_a_part(self):
        """The client's file has the first bytes of the content, and not all."""
        content = (self.room / "file").read_bytes()
        self.assertTrue(SOME <= len(content) < len(CONTENT), len(content))
        self.assertTrue(CONTENT.startswith(content))


@needs_curl
class Curl(Client):
    def curl(self, *words):
        """What curl prints."""
        ran = subprocess.run(["curl", "--disable", "--silent", "--show-error", "--noproxy", "*", *words], capture_output=True, timeout=SECONDS)
        self.assertEqual((ran.returncode, ran.stderr), (0, b""))
        return ran.stdout

    def test_makes_several_requests_in_one_connection(self):
        self.begin(None)
        answers = ("--write-out", "|%{http_code} %{num_connects}\n")
        upload = self.url("/api/v1/deploys/1/files/a.txt")
        said = self.curl(
            *answers, "--data", listing({"/a.txt": HELLO}), self.url(DEPLOYS), "--next", *answers, "--request", "PUT", "--data", "hello", upload,
            "--next", *answers, *[self.url("/s/one/a.txt")] * 20, "--next", *answers, "--head", self.url("/s/one/a.txt"), "--next", *answers,
            self.url("/s/one/b.txt"), "--next", *answers, "--request", "DELETE", self.url("/api/v1/sites/one/files/a.txt"),
        ).decode()
        wanted = [opened(1, HELLO), uploaded(b"hello", 2), *[sent(b"hello")] * 20, None, refused("NoSuchFile"), done(entry=3)]
        bodies = [reply.partition(END)[2].decode() if reply else to_head(sent(b"hello")).decode() for reply in wanted]
        codes = ["200"] * 23 + ["404", "200"]
        self.assertEqual(said, "".join(f"{body}|{code} {int(place == 0)}\n" for place, (body, code) in enumerate(zip(bodies, codes))))

    def test_opens_another_connection_after_a_hundred_requests(self):
        self.begin(b"hello")
        said = self.curl("--write-out", "%{num_connects}", *[self.url()] * (REQUESTS + 5))
        self.assertEqual(said, b"".join(b"hello%d" % (place % REQUESTS == 0) for place in range(REQUESTS + 5)))

    def test_is_told_to_send_large_uploads(self):
        for size in (2 ** 20, LARGEST_FILE):
            with self.subTest(size):
                self.begin(None, nodes=2)
                content = CONTENT[:size]
                self.curl("--data", listing({"/large": digest_of(content)}), self.url(DEPLOYS))
                said = self.curl(*WAITING, "--header", "Expect: 100-continue", "--upload-file", self.file(content), "--write-out", "|%{size_upload}",
                                 self.url("/api/v1/deploys/1/files/large", node=1))
                self.assertEqual(said, INTERIM + uploaded(content, 2) + b"|%d" % size)
                self.assert_downloads(*CURL, wanted=content)

    def test_sees_that_an_upload_is_too_large_and_sends_nothing_of_it(self):
        self.begin(b"hello")
        said = self.curl(*WAITING, "--header", "Expect: 100-continue", "--upload-file", self.file(bytes(LARGEST_FILE + 1)), "--write-out", "|%{size_upload}",
                         self.url("/api/v1/deploys/1/files/large"))
        self.assertEqual(said, BODY_TOO_LARGE + b"|0")
        self.assert_downloads(*CURL, wanted=b"hello")

    def test_asks_for_ranges(self):
        self.begin(nodes=2)
        for node in (0, 1):
            for value, wanted in [
                ("65535-131072", part(CONTENT, 65_535, 131_072)), ("-5", part(CONTENT, LARGEST_FILE - 5, LARGEST_FILE - 1)),
                ("0-4,65530-65540,-5", parts(CONTENT, (0, 4), (65_530, 65_540), (LARGEST_FILE - 5, LARGEST_FILE - 1))),
                ("16777215-", part(CONTENT, LARGEST_FILE - 1, LARGEST_FILE - 1)),
            ]:
                with self.subTest(value, node=node):
                    self.assertEqual(self.curl("--include", "--range", value, self.url(node=node)), wanted)

    def test_resumes_what_it_was_stopped_in(self):
        self.begin()
        self.break_off_download(*CURL, "--limit-rate", SLOWLY)
        self.assert_has_a_part()
        self.assert_downloads(*CURL, "--continue-at", "-")

    def test_resumes_after_the_program_was_killed_and_started_again(self):
        self.begin()
        client = self.begin_download(*CURL, "--limit-rate", SLOWLY)
        self.serve_again()
        # Its input ended too early, or was reset.
        self.assertIn(client.wait(PATIENCE), (18, 56))
        self.assert_has_a_part()
        self.assert_downloads(*CURL, "--continue-at", "-")

    def test_resumes_what_was_replaced_only_under_its_tag(self):
        self.begin()
        self.break_off_download(*CURL, "--limit-rate", SLOWLY)
        publish(self.client(), {"/large": CONTENT[::-1]})
        resuming = (*CURL, "--continue-at", "-", "--header", f'If-Range: "{digest_of(CONTENT)}"')
        self.assertEqual(downloaded(self.room, self.url(), resuming)[0], 33)
        self.assert_downloads(*resuming, target="/d/one/1/large")


@needs_wget
class Wget(Client):
    def test_downloads_all(self):
        self.begin(nodes=2)
        self.assert_downloads(*WGET, "--tries", "1")

    def test_resumes_what_it_was_stopped_in(self):
        self.begin()
        self.break_off_download(*WGET, "--limit-rate", SLOWLY)
        self.assert_has_a_part()
        self.assert_downloads(*WGET, "--tries", "1", "--continue")

    def test_goes_on_by_itself_once_the_program_is_started_again(self):
        self.begin()
        client = self.begin_download(*WGET, "--limit-rate", SLOWLY, "--tries", "50", "--retry-connrefused", "--waitretry", "1")
        self.serve_again()
        self.assertEqual(client.wait(SECONDS), 0)
        self.assertEqual(digest_of((self.room / "file").read_bytes()), digest_of(CONTENT))


@needs_aria
class Aria(Client):
    """aria2c with eight connections over pieces of one file."""

    words = (*ARIA, "--max-connection-per-server", "8", "--split", "8", "--min-split-size", "1M")

    def test_downloads_pieces_over_eight_connections(self):
        self.begin()
        self.assert_downloads(*self.words, "--log", "told", "--log-level", "info")
        told = (self.room / "told").read_text()
        # A connection that is done early takes a part of another one's piece.
        self.assertGreaterEqual(told.count(f"Connecting to {HOST}:{self.port}\n"), 8)
        self.assertGreaterEqual({int(first) for first in re.findall(r"(?m)^Range: bytes=(\d+)-", told)}, set(range(2 ** 21, LARGEST_FILE, 2 ** 21)))
        self.assertEqual(set(re.findall(r"(?m)^HTTP/1\.1 (.*)$", told)), {"200 OK", "206 Partial Content"})

    def test_resumes_what_it_was_stopped_in(self):
        self.begin()
        client = self.begin_download(*self.words, "--max-overall-download-limit", SLOWLY)
        client.send_signal(signal.SIGINT)
        client.wait(PATIENCE)
        self.assertTrue((self.room / "file.aria2").exists())
        self.assert_downloads(*self.words, "--continue")
        self.assertFalse((self.room / "file.aria2").exists())


class StandardLibrary(Client):
    """Python's http.client."""

    def test_makes_a_hundred_requests_in_one_connection(self):
        self.begin(None)
        connection = self.client()
        assert_exchanges(self, connection, opened(1, HELLO), "POST", DEPLOYS, listing({"/a.txt": HELLO}))
        socket = connection.sock
        assert_exchanges(self, connection, uploaded(b"hello", 2), "PUT", "/api/v1/deploys/1/files/a.txt", b"hello", {"Expect": "100-continue"})
        for _ in range(REQUESTS - 5):
            assert_exchanges(self, connection, sent(b"hello"), "GET", "/s/one/a.txt")
        assert_exchanges(self, connection, part(b"hello", 1, 3, "text/plain; charset=utf-8"), "GET", "/s/one/a.txt", None, {"Range": "bytes=1-3"})
        assert_exchanges(self, connection, to_head(sent(b"hello")), "HEAD", "/s/one/a.txt")
        self.assertIs(connection.sock, socket)
        assert_exchanges(self, connection, closing(refused("NoSuchFile")), "GET", "/s/one/b.txt")

    def test_uploads_and_downloads_large_files_in_one_connection(self):
        self.begin()
        connection = self.client()
        self.assertEqual(ask(connection, "GET", LARGE), (200, CONTENT))
        self.assertEqual(publish(connection, {"/large": CONTENT[::-1]}), 4)
        self.assertEqual(ask(connection, "GET", LARGE), (200, CONTENT[::-1]))

    def test_reads_why_a_body_is_refused(self):
        """Of a body that is sent without waiting the server takes nothing, and the reply comes all the same."""
        self.begin(b"hello")
        connection = self.client()
        assert_exchanges(self, connection, BODY_TOO_LARGE, "PUT", "/api/v1/deploys/1/files/a.txt", None, {"Content-Length": str(LARGEST_FILE + 1)})
