"""The program from outside: what it prints and how it ends, for whole connections, cut ones and wrong words.

What is expected follows from docs/HTTP.md and docs/DECISIONS.md.
"""

import hashlib
import json
import os
import pathlib
import subprocess
import sys
import tempfile

from lib.client import (
    CRATE, EXAMPLES, HELLO, LARGEST_FILE, PROGRAM, REQUESTS, SECONDS, Program, content_length, cut_after, messages, opening, reply,
    request, run, told,
)
from lib.over_tcp import OverTcp, needs_curl

OUTPUT_FAULT = b"filehost: output fault\n"


class FirstRun(Program):
    """The five requests of examples/first-run.http."""

    given = (EXAMPLES / "first-run.http").read_bytes()
    wanted = (EXAMPLES / "first-run.replies").read_bytes()

    def test_is_answered_byte_for_byte(self):
        self.assert_answers(self.given, self.wanted)

    def test_is_the_run_that_the_full_check_makes(self):
        stored = [(CRATE / name).read_bytes() for name in ("args", "stdin", "stdout")]
        self.assertEqual(stored, [b"solo\n", self.given, self.wanted])

    def test_is_answered_alike_in_whatever_pieces_it_arrives(self):
        for size in (1, 7, 64):
            with self.subTest(size=size):
                pipes = {"stdin": subprocess.PIPE, "stdout": subprocess.PIPE, "bufsize": 0}
                program = subprocess.Popen([PROGRAM, "solo"], **pipes)
                for start in range(0, len(self.given), size):
                    program.stdin.write(self.given[start:start + size])
                out, _ = program.communicate(timeout=SECONDS)
                self.assertEqual((program.returncode, out), (0, self.wanted))

    def test_is_answered_as_far_as_it_is_whole_wherever_it_is_cut(self):
        requests = cut_after(self.given, content_length)
        replies = [0, *cut_after(self.wanted, content_length)]
        self.assertEqual((len(requests), len(replies)), (5, 6))
        for length in range(len(self.given) + 1):
            whole = sum(end <= length for end in requests)
            self.assert_answers(self.given[:length], self.wanted[:replies[whole]], f"cut after {length} bytes")

    def test_is_an_output_fault_where_nobody_reads_the_replies(self):
        read, write = os.pipe()
        os.close(read)
        with os.fdopen(write, "wb") as nobody:
            self.assertEqual(run("solo", given=self.given, stdout=nobody), (2, None, OUTPUT_FAULT))

    def test_is_an_output_fault_where_the_output_is_full(self):
        with open("/dev/full", "wb") as full:
            self.assertEqual(run("solo", given=self.given, stdout=full), (2, None, OUTPUT_FAULT))


class SmallSite(Program):
    """The folder examples/small-site and the requests that deploy it."""

    folder = EXAMPLES / "small-site"
    stream = EXAMPLES / "small-site.http"

    def deploy(self, *words):
        ran = subprocess.run([sys.executable, EXAMPLES / "make-deploy", *words], capture_output=True, timeout=SECONDS)
        return ran.returncode, ran.stdout

    def test_has_the_requests_that_make_deploy_writes(self):
        self.assertEqual(self.deploy(self.folder, "small"), (0, self.stream.read_bytes()))

    def test_goes_live_with_its_last_content_and_serves_its_page(self):
        paths = ["img/dot.svg", "index.html", "news/first day.txt", "news/latest.txt", "style.css"]
        contents = list(dict.fromkeys((self.folder / path).read_bytes() for path in paths))
        digests = [hashlib.sha1(content).hexdigest() for content in contents]
        wanted = [told("200 OK", {"id": "1", "published": None, "required": sorted(digests)})]
        for digest in digests:
            wanted.append(told("200 OK", {"published": 2 if digest == digests[-1] else None, "sha": digest}))
        fields = [f'ETag: "{digests[1]}"', "Accept-Ranges: bytes"]
        wanted.append(reply("200 OK", "text/html; charset=utf-8", contents[1], *fields))
        self.assert_answers(self.stream.read_bytes(), b"".join(wanted))

    def test_is_read_at_each_of_its_paths(self):
        reads = {
            "/": "index.html",
            "/news/first%20day.txt": "news/first day.txt",
            "/news/latest.txt": "news/latest.txt",
            "/img/dot.svg": "img/dot.svg",
            "/style.css": "style.css",
        }
        given = self.stream.read_bytes() + b"".join(request("GET", f"/s/small{path}") for path in reads)
        status, out, _ = run("solo", given=given)
        ends = cut_after(out, content_length)
        bodies = [out[start:end].partition(b"\r\n\r\n")[2] for start, end in zip(ends, ends[1:])]
        contents = [(self.folder / path).read_bytes() for path in reads.values()]
        self.assertEqual((status, bodies[-len(reads):]), (0, contents))

    def test_can_be_deployed_under_another_number_and_name(self):
        status, stream = self.deploy(self.folder, "other", "--deploy", "27")
        renamed = self.stream.read_bytes().replace(b"/deploys/1/", b"/deploys/27/").replace(b"/small", b"/other")
        self.assertEqual((status, stream), (0, renamed))

    def test_is_refused_by_make_deploy_if_there_is_nothing_or_too_much(self):
        with tempfile.TemporaryDirectory() as folder:
            self.assertEqual(self.deploy(folder, "small"), (2, b""))
            for number in range(REQUESTS - 2):
                pathlib.Path(folder, f"{number}.txt").write_text(str(number))
            self.assertEqual(self.deploy(folder, "small")[0], 0)
            pathlib.Path(folder, "one more.txt").write_text("one more")
            self.assertEqual(self.deploy(folder, "small"), (2, b""))


class TwoVersions(Program):
    """The requests of examples/two-versions.http."""

    given = (EXAMPLES / "two-versions.http").read_bytes()
    wanted = (EXAMPLES / "two-versions.replies").read_bytes()

    def test_are_switched_and_taken_back_byte_for_byte(self):
        self.assert_answers(self.given, self.wanted)


class TakeBack(Program):
    """The requests of examples/take-back.http, which README.md shows."""

    given = (EXAMPLES / "take-back.http").read_bytes()
    wanted = (EXAMPLES / "take-back.replies").read_bytes()

    def test_undoes_a_renaming_and_keeps_a_later_page_byte_for_byte(self):
        self.assert_answers(self.given, self.wanted)


class Connections(Program):
    """Where a connection ends, and what is too large."""

    missing = {"error": "NoSuchFile"}

    def test_ends_with_its_hundredth_request(self):
        last = told("404 Not Found", self.missing, "Connection: close")
        wanted = told("404 Not Found", self.missing) * (REQUESTS - 1) + last
        self.assert_answers(request("GET", "/s/one/a.txt") * (REQUESTS + 5), wanted)

    def test_ends_where_the_client_asks_for_it(self):
        given = request("GET", "/s/one/a.txt", "Connection: close") + request("GET", "/s/one/a.txt")
        self.assert_answers(given, told("404 Not Found", self.missing, "Connection: close"))

    def test_is_empty_where_nothing_is_asked(self):
        self.assert_answers(b"", b"")

    def test_refuses_an_upload_that_is_too_large(self):
        opened = told("200 OK", {"id": "1", "published": None, "required": [HELLO]})
        refused = told("413 Payload Too Large", {"error": "BodyTooLarge"}, "Connection: close")
        for length in (LARGEST_FILE + 1, 17_000_000):
            with self.subTest(length=length):
                upload = request("PUT", "/api/v1/deploys/1/files/a.txt", body=bytes(length))
                self.assert_answers(opening({"/a.txt": HELLO}) + upload, opened + refused)

    def test_takes_an_upload_of_the_largest_size(self):
        content = bytes(LARGEST_FILE)
        digest = hashlib.sha1(content).hexdigest()
        given = opening({"/a": digest}) + request("PUT", "/api/v1/deploys/1/files/a", body=content)
        opened = told("200 OK", {"id": "1", "published": None, "required": [digest]})
        self.assert_answers(given, opened + told("200 OK", {"published": 2, "sha": digest}))


class Words(Program):
    """The words that the program is called with."""

    def assert_says(self, words, *parts):
        """It ends with status 1, and says this on standard error alone."""
        status, out, err = run(*words)
        self.assertEqual((status, out), (1, b""))
        for part in parts:
            self.assertIn(part, err.decode())

    def test_show_the_help_where_it_is_asked_for_or_nothing_is(self):
        for words in ([], ["--help"], ["-h"], ["help"]):
            with self.subTest(words):
                self.assert_says(words, "immutable file host", "Usage: filehost", "solo",
                                 "filehost solo < examples/first-run.http")

    def test_show_the_help_of_a_command(self):
        for words in (["solo", "--help"], ["help", "solo"]):
            with self.subTest(words):
                self.assert_says(words, "Usage: filehost solo", "standard input", "standard output")

    def test_show_the_version(self):
        self.assert_says(["--version"], "filehost ")

    def test_are_refused_where_they_name_nothing(self):
        self.assert_says(["unknown"], "error: ", "'unknown'")
        self.assert_says(["solo", "extra"], "error: ", "'extra'")
        self.assert_says(["--port"], "error: ", "'--port'")
        self.assert_says(["solo", "--port=80"], "error: ", "'--port'")

    def test_are_refused_where_they_are_no_text(self):
        status, out, err = run(b"\xff")
        self.assertEqual((status, out), (1, b""))
        self.assertNotEqual(err, b"")


@needs_curl
class WithCurl(OverTcp):
    """A client that is not this project's own, over TCP."""

    def test_deploys_reads_a_range_and_undoes(self):
        listing = json.dumps({"files": {"/a.txt": HELLO}})
        said = self.converse(
            ("/api/v1/sites/one/deploys", "--data-binary", listing),
            ("/api/v1/deploys/1/files/a.txt", "--request", "PUT", "--data-binary", "hello"),
            ("/s/one/a.txt",),
            ("/s/one/a.txt", "--range", "1-3"),
            ("/s/one/a.txt", "--head", "--output", "/dev/null"),
            ("/api/v1/sites/one/undo", "--data-binary", '{"change":2}'),
            ("/s/one/a.txt",),
        )
        self.assertEqual(said.splitlines(), [
            f'{{"id":"1","published":null,"required":["{HELLO}"]}} 200',
            f'{{"published":2,"sha":"{HELLO}"}} 200',
            "hello 200",
            "ell 206",
            " 200",
            '{"entry":3} 200',
            '{"error":"NoSuchFile"} 404',
        ])

    def test_patches_a_site_and_is_told_what_needs_a_change(self):
        listing = json.dumps({"files": {"/a.txt": HELLO}})
        patch = json.dumps({"files": {"/a.txt": None, "/b.txt": HELLO}, "patch": True})
        said = self.converse(
            ("/api/v1/sites/one/deploys", "--data-binary", listing),
            ("/api/v1/deploys/1/files/a.txt", "--request", "PUT", "--data-binary", "hello"),
            ("/api/v1/sites/one/deploys", "--data-binary", patch),
            ("/s/one/a.txt",),
            ("/s/one/b.txt",),
            ("/api/v1/sites/one/undo", "--data-binary", '{"change":2}'),
            ("/api/v1/sites/one/undo", "--data-binary", '{"change":4}'),
            ("/s/one/a.txt",),
        )
        self.assertEqual(said.splitlines()[2:], [
            '{"id":"3","published":4,"required":[]} 200',
            '{"error":"NoSuchFile"} 404',
            "hello 200",
            '{"cell":"live /a.txt","change":4,"error":"Clash"} 409',
            '{"entry":5} 200',
            "hello 200",
        ])

    def test_switches_versions_and_takes_a_change_back(self):
        requests = [(target, "--request", method, *["--data-binary", body] * bool(body))
                    for (method, target, _), body in messages(TwoVersions.given)]
        wanted = [f"{body} {status}\n" for (_, status, *_), body in messages(TwoVersions.wanted)]
        self.assertEqual(self.converse(*requests), "".join(wanted))

    def test_uploads_and_reads_a_large_file(self):
        content = bytes(range(256)) * 4096
        digest = hashlib.sha1(content).hexdigest()
        with tempfile.TemporaryDirectory() as folder:
            sent, got = pathlib.Path(folder, "sent"), pathlib.Path(folder, "got")
            sent.write_bytes(content)
            said = self.converse(
                ("/api/v1/sites/one/deploys", "--data-binary", json.dumps({"files": {"/large": digest}})),
                ("/api/v1/deploys/1/files/large", "--upload-file", str(sent)),
                ("/s/one/large", "--output", str(got)),
            )
            self.assertEqual(said.splitlines()[1:], [f'{{"published":2,"sha":"{digest}"}} 200', " 200"])
            self.assertEqual(got.read_bytes(), content)
