"""What the client `site` prints: progress on a terminal and elsewhere, -q, JSON, and sizes and times as people read them."""

import io
import os
import re
import subprocess
import sys
import time
import unittest
from unittest import mock

from lib.faulty_front import PASS, Front
from lib.site_runs import SITE, SiteRuns

from filehost_client import progress

SLOW = 0.05


class Shown(SiteRuns):
    def setUp(self):
        super().setUp()
        self.start_host()
        self.write({f"/{number}": os.urandom(2_000) for number in range(200)})
        front = Front(self.port, lambda method, target, count: time.sleep(SLOW if method == "PUT" else 0) or PASS)
        self.addCleanup(front.end)
        self.address = f"http://127.0.0.1:{front.port}"

    def test_on_a_terminal_one_line_is_drawn_again_and_again(self):
        began = time.monotonic()
        started, terminal = self.begin_on_terminal("push", self.place)
        shown = self.shown_until(terminal, b"at the end")
        out, _ = started.communicate(timeout=60)
        seconds = time.monotonic() - began
        self.assertEqual(started.returncode, 0)
        self.assertIn(b"200 files sent", out)
        lines = [line for line in shown.decode().split("\r") if line.startswith("uploading")]
        # 25 turns of eight uploads take a second at least.
        self.assertGreater(len(lines), 3)
        self.assertLessEqual(len(lines), seconds * 10 + 1)
        for line in lines:
            self.assertRegex(line, r"^uploading: [\d,]+ of 200 files, [\d.]+ k?B of 400 kB, [\d.]+ k?B/s(, \d+ s left)?\x1b\[K")
        self.assertTrue(any("left" in line for line in lines))
        counts = [int(re.search(r"\d+", line)[0]) for line in lines]
        self.assertEqual(counts, sorted(counts))
        self.assertNotIn("\n", shown.decode())
        self.assertTrue(shown.endswith(b"\r\x1b[K"))

    def test_a_pipe_gets_no_line_of_it(self):
        status, out, errors = self.site("push", self.place)
        self.assertEqual((status, errors), (0, ""))
        self.assertEqual(len(out.splitlines()), 3)
        self.assertNotIn("\r", out)

    def test_quiet_says_nothing_but_errors_and_what_was_asked_for(self):
        (self.place / ".hidden").write_bytes(b"")
        started, terminal = self.begin_on_terminal("push", "-q", self.place)
        self.assertEqual(started.communicate(timeout=60)[0], b"")
        self.assertEqual((started.returncode, self.shown_until(terminal, b"anything", 0.2)), (0, b""))
        self.assertEqual(len(self.assert_done("log", "-q").splitlines()), 2)
        self.assertEqual(self.site("undo", "-q", 2), (0, "", ""))
        self.assert_fails(1, "AlreadyUndone", words=["undo", "-q", 2])

    def test_json_is_one_object_with_the_same_members_each_time(self):
        members = {
            "command", "status", "site", "address", "deploy", "change", "draft", "dry_run", "alias", "new", "changed", "removed", "unchanged", "sent_files",
            "sent_bytes", "left_out", "stays", "paths",
        }
        for words in (["push", "--dry-run"], ["push"], ["push"], ["deploy"], ["preview"], ["push", "--draft"]):
            told = self.told(*words, self.place)
            self.assertEqual(set(told), members, words)
        told = self.told("undo", 99, status=1)
        self.assertEqual((set(told), told["error"]), ({"command", "status", "error", "message"}, "NoSuchChange"))
        self.assertEqual(set(self.told("status", self.place)), {
            "command", "status", "site", "address", "answers", "last", "new", "changed", "gone", "unchanged", "paths",
        })

    def test_a_reader_that_goes_away_ends_it_quietly(self):
        self.assert_done("push", self.place)
        read, write = os.pipe()
        os.close(read)
        with os.fdopen(write, "wb") as nobody:
            ran = subprocess.run([*SITE, "log"], stdout=nobody, stderr=subprocess.PIPE, timeout=60, env=self.environment())
        self.assertEqual((ran.returncode, ran.stderr), (141, b""))


class Elsewhere(unittest.TestCase):
    """Where no terminal is, a line comes now and then."""

    def test_a_line_comes_each_ten_seconds_at_most(self):
        self.assertEqual(progress.LINE_SECONDS, 10)
        stream = io.StringIO()
        with mock.patch.object(progress, "LINE_SECONDS", 0.05):
            shown = progress.Progress(stream)
            shown.begin("uploading", 3, 3_000)
            for _ in range(3):
                time.sleep(0.12)
                shown.add(1_000)
                shown.file_done()
            shown.end()
        lines = stream.getvalue().splitlines()
        self.assertIn(len(lines), range(1, 9))
        for line in lines:
            self.assertRegex(line, r"^uploading: \d of 3 files, [\d.]+ k?B of 3\.0 kB, ")

    def test_nothing_comes_before_the_first_ten_seconds_or_if_it_is_quiet(self):
        for is_quiet in (False, True):
            stream = io.StringIO()
            shown = progress.Progress(stream, is_quiet)
            shown.begin("hashing", 1, 10)
            time.sleep(0.3)
            shown.end()
            self.assertEqual(stream.getvalue(), "")

    def test_sizes_and_times_are_as_people_read_them(self):
        for size, text in ((0, "0 B"), (1, "1 B"), (999, "999 B"), (1_000, "1.0 kB"), (1_250, "1.2 kB"), (99_949, "99.9 kB"), (100_000, "100 kB"),
                           (999_499, "999 kB"), (999_500, "1.0 MB"), (16_777_216, "16.8 MB"), (3_000_000_000, "3.0 GB"), (10 ** 16, "10,000 TB")):
            self.assertEqual(progress.size_of(size), text)
        for seconds, text in ((0, "0 s"), (0.4, "0 s"), (59.4, "59 s"), (59.6, "1 min 0 s"), (200, "3 min 20 s"), (3_599.7, "1 h 0 min"), (7_500, "2 h 5 min")):
            self.assertEqual(progress.time_of(seconds), text)

    def test_a_closed_standard_error_is_no_fault(self):
        ran = subprocess.run(["sh", "-c", '"$@" 2>&-', "sh", sys.executable, "-S", SITE[2], "undo", "x"], capture_output=True, timeout=60)
        self.assertEqual((ran.returncode, ran.stdout), (2, b""))
