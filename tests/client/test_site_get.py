"""The client `site` reads files: downloads that are cut and go on, also in another run, and never have bytes of two versions."""

import glob
import os
import pathlib

from lib.client import digest_of
from lib.faulty_front import PASS, Front, answer
from lib.served import publish
from lib.site_runs import SiteRuns, when

SIZE = 3_000_000


class Downloads(SiteRuns):
    def setUp(self):
        super().setUp()
        self.start_host()
        self.old, self.new = os.urandom(SIZE), os.urandom(SIZE)
        publish(self.client(), {"/big": self.old})
        self.target = self.room / "big"

    def stand_before(self, judge):
        front = Front(self.port, judge)
        self.addCleanup(front.end)
        self.address = f"http://127.0.0.1:{front.port}"
        return front

    def parts(self):
        return glob.glob(f"{self.target}.part-*")

    def assert_got(self, content):
        self.assertEqual(digest_of(self.target.read_bytes()), digest_of(content))
        self.assertEqual(self.parts(), [])

    def cut(self, lengths, between=None):
        """A judge that hands on this many bytes of each of the first replies; between them something may be done."""
        left = list(lengths)

        def judge(method, target, count):
            if not left:
                return PASS
            if len(left) < len(lengths) and between:
                between()
            return left.pop(0)

        return judge

    def test_goes_on_where_it_was_cut(self):
        for words in ((), ("--deploy", "1")):
            with self.subTest(words=words):
                front = self.stand_before(self.cut([1_000_000, 500_000, 100, 0, 1_200_000]))
                told = self.told("get", "big", "-o", self.target, *words)
                self.assertEqual((told["digest"], told["bytes"]), (digest_of(self.old), SIZE))
                self.assert_got(self.old)
                self.assertEqual(len(front.asked), 6)

    def test_begins_anew_where_the_file_was_replaced_meanwhile(self):
        self.stand_before(self.cut([2_000_000, 1_000_000], lambda: publish(self.client(), {"/big": self.new})))
        self.assert_done("get", "/big", "-o", self.target)
        self.assert_got(self.new)

    def test_goes_on_under_the_number_of_a_deploy_though_the_file_was_replaced(self):
        front = self.stand_before(self.cut([2_000_000, 800_000], lambda: publish(self.client(), {"/big": self.new})))
        self.assert_done("get", "/big", "-o", self.target, "--deploy", "1")
        self.assert_got(self.old)
        self.assertEqual(len(front.asked), 3)

    def test_standard_output_never_gets_bytes_of_two_versions(self):
        self.stand_before(self.cut([2_000_000, 0]))
        started = self.begin("get", "/big")
        out, _ = started.communicate(timeout=60)
        self.assertEqual((started.returncode, digest_of(out)), (0, digest_of(self.old)))
        self.stand_before(self.cut([2_000_000, 0], lambda: publish(self.client(), {"/big": self.new})))
        started = self.begin("get", "/big")
        out, errors = started.communicate(timeout=60)
        self.assertEqual(started.returncode, 1)
        self.assertIn(b"the file was replaced while it was read", errors)
        self.assertTrue(self.old.startswith(out))

    def killed(self):
        """Leaves a part of the file, by a run that is killed."""
        self.stand_before(lambda method, target, count: 1_500_000 if count == 1 else answer("503 Service Unavailable"))
        client = self.begin("get", "/big", "-o", self.target)
        # The rest of what came is written by then.
        self.assertTrue(when(lambda: self.parts() and os.path.getsize(self.parts()[0]) > 1_000_000))
        client.kill()
        client.wait(60)
        self.assertFalse(self.target.exists())
        return os.path.getsize(self.parts()[0])

    def test_another_run_resumes_what_is_there(self):
        size = self.killed()
        front = self.stand_before(lambda method, target, count: PASS)
        self.assert_done("get", "/big", "-o", self.target, "--resume")
        self.assert_got(self.old)
        self.assertIn(f'\r\nRange: bytes={size}-\r\nIf-Range: "{digest_of(self.old)}"\r\n', front.heads[0])

    def test_another_run_does_not_resume_another_version(self):
        self.killed()
        publish(self.client(), {"/big": self.new})
        self.stand_before(lambda method, target, count: PASS)
        self.assert_done("get", "/big", "-o", self.target, "--resume")
        self.assert_got(self.new)

    def test_a_part_that_is_whole_already_is_taken_as_it_is(self):
        self.target.with_name(f"big.part-{digest_of(self.old)}").write_bytes(self.old)
        self.assert_done("get", "/big", "-o", self.target, "--resume")
        self.assert_got(self.old)

    def test_a_damaged_part_is_not_taken_for_the_file(self):
        part = pathlib.Path(f"{self.target}.part-{digest_of(self.old)}")
        part.write_bytes(b"x" * 1_000_000)
        self.assert_fails(3, "other bytes than its tag says", words=["get", "/big", "-o", self.target, "--resume"])
        self.assertFalse(self.target.exists())
        self.assertEqual(self.parts(), [])
        self.assert_done("get", "/big", "-o", self.target, "--resume")
        self.assert_got(self.old)

    def test_a_proxy_that_damages_bytes_is_noticed(self):
        body = self.old[:-1] + bytes([self.old[-1] ^ 1])
        reply = answer("200 OK", body, "application/octet-stream", f'ETag: "{digest_of(self.old)}"')
        self.stand_before(lambda method, target, count: reply)
        self.assert_fails(3, "other bytes than its tag says", words=["get", "/big", "-o", self.target])
        self.assertFalse(self.target.exists())

    def test_a_part_from_another_place_than_was_asked_for_is_refused(self):
        reply = answer("206 Partial Content", self.old[5:], "application/octet-stream", f'ETag: "{digest_of(self.old)}"',
                       f"Content-Range: bytes 5-{SIZE - 1}/{SIZE}")
        self.stand_before(lambda method, target, count: 1_000_000 if count == 1 else reply)
        status, _, errors = self.site("get", "/big", "-o", self.target)
        self.assertEqual(status, 3)
        self.assertIn("other bytes than were asked for", errors)
        self.assertFalse(self.target.exists())

    def test_an_empty_file_is_read_too(self):
        publish(self.client(), {"/big": b""})
        self.assert_done("get", "/big", "-o", self.target)
        self.assert_got(b"")
