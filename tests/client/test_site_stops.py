"""The client `site` where something stops: the host is killed and started again, the client is killed or interrupted, a file changes, a disk is full."""

import os
import resource
import signal
import threading
import time

from lib.faulty_front import PASS, Front
from lib.site_runs import SiteRuns, kinds, when

FILES = 120
MOMENTS = 10


def contents(mark, count=FILES):
    return {f"/{number:03}.txt": f"{mark} {number}".encode() for number in range(count)}


class Stops(SiteRuns):
    def stand_before(self, judge=None):
        front = Front(self.port, judge)
        self.addCleanup(front.end)
        self.address = f"http://127.0.0.1:{front.port}"
        return front

    def uploaded(self):
        """How many files the store has whole."""
        return sum(name.startswith("t-") for name in os.listdir(self.store))


class HostStops(Stops):
    def test_a_deploy_goes_on_over_a_host_that_is_killed_and_started_again(self):
        host = self.start_host()
        self.stand_before(lambda method, target, count: time.sleep(0.02 if method == "PUT" else 0) or PASS)
        for number, words in enumerate((["push"], ["deploy"])):
            with self.subTest(words=words):
                files = contents(f"again {number}")
                self.write(files)
                before = self.uploaded()
                client = self.begin(*words, self.place)
                self.assertTrue(when(lambda: self.uploaded() >= before + FILES // 3))
                self.end(host)
                self.assertIsNone(client.poll())
                time.sleep(0.3)
                host = self.serve("--store", str(self.store), nodes=2, port=self.port)
                status, out, errors = self.ended(client)
                self.assertEqual(status, 0, errors)
                self.assertIn(f"; {FILES} files sent", out)
                self.assertIn("doesn't answer", errors)
                self.assert_serves(files)
                self.assertEqual(kinds(self.changes()), ["open", "publish"] * (number + 1))

    def test_a_host_that_stays_away_ends_it_with_the_command_to_go_on(self):
        host = self.start_host()
        self.stand_before(lambda method, target, count: time.sleep(0.02 if method == "PUT" else 0) or PASS)
        files = contents("away")
        self.write(files)
        client = self.begin("push", self.place, "--retry", "1.5", "--user", "ann:secret")
        self.assertTrue(when(lambda: self.uploaded() >= FILES // 3))
        self.end(host)
        status, _, errors = self.ended(client)
        self.assertEqual(status, 3, errors)
        self.assertIn("can't be reached", errors)
        self.assertIn(f"Go on: site push {self.place} --retry 1.5\n", errors)
        self.serve("--store", str(self.store), nodes=2, port=self.port)
        there = self.uploaded()
        told = self.told("push", self.place)
        self.assertEqual(told["sent_files"], FILES - there)
        self.assert_serves(files)

    def test_a_full_disk_is_told_and_the_same_command_goes_on_later(self):
        def limit():
            signal.signal(signal.SIGXFSZ, signal.SIG_IGN)
            resource.setrlimit(resource.RLIMIT_FSIZE, (4_000, 4_000))

        host = self.start_host(preexec_fn=limit)
        self.write({"/small": b"small", "/large": os.urandom(60_000)})
        status, _, errors = self.site("push", self.place, "--retry", "1")
        self.assertEqual(status, 3, errors)
        self.assertIn("the host's disk failed, or is full (Device), tried again for 1 s", errors)
        self.end(host)
        self.serve("--store", str(self.store), nodes=2, port=self.port)
        self.assertEqual(self.told("push", self.place)["sent_files"], 1)
        self.assert_serves({"/small": b"small", "/large": (self.place / "large").read_bytes()})

    def test_a_journal_that_is_full_leaves_the_outcome_open(self):
        def limit():
            signal.signal(signal.SIGXFSZ, signal.SIG_IGN)
            resource.setrlimit(resource.RLIMIT_FSIZE, (300, 300))

        self.start_host(preexec_fn=limit)
        self.write({"/a": b"a"})
        self.assert_done("push", self.place)
        self.write(contents("more", 20))
        self.assert_fails(3, "can't say whether this was done", "Once it was started again, look: site log", words=["push", self.place])
        self.assert_fails(3, "takes no changes until it is started again (Broken)", words=["rm", "/a", "--retry", "0"])


class ClientStops(Stops):
    def test_killed_at_ten_moments_it_goes_on_and_sends_nothing_twice(self):
        self.start_host()
        # How many requests are in hand at once.
        jobs = 4
        front = self.stand_before(lambda method, target, count: time.sleep(0.01 if method == "PUT" else 0) or PASS)
        killed = named = 0
        for moment in range(MOMENTS):
            with self.subTest(moment=moment):
                files = contents(f"moment {moment}")
                self.write(files)
                begun, before = len(front.asked), self.uploaded()
                client = self.begin("push", self.place, "--jobs", str(jobs))
                if moment == 0:
                    # Before the deploy is opened.
                    self.assertTrue(when(lambda: len(front.asked) > begun))
                else:
                    self.assertTrue(when(lambda: self.uploaded() >= before + moment * FILES // (MOMENTS + 1)))
                client.kill()
                killed += client.wait(60) == -signal.SIGKILL
                status, _, errors = self.site("push", self.place, "--jobs", str(jobs))
                self.assertEqual(status, 0, errors)
                named += "is open, perhaps by an earlier run" in errors
                self.assert_serves(files)
                sent = [target for method, target in front.asked[begun:] if method == "PUT"]
                self.assertLessEqual(len(sent), FILES + jobs)
                self.assertEqual(self.uploaded(), before + FILES)
        self.assertEqual(killed, MOMENTS)
        # No deploy is left open, but for one that was opened just as the client was killed, which is named then.
        told = self.changes()
        self.assertEqual(kinds(told).count("open"), kinds(told).count("publish") + kinds(told).count("cancel") + named)
        self.assertLessEqual(named, 1)
        self.assertGreater(kinds(told).count("cancel"), MOMENTS // 2)

    def interrupted(self, name, status, *words):
        self.start_host()
        self.stand_before(lambda method, target, count: time.sleep(0.05 if method == "PUT" else 0) or PASS)
        self.write(contents("interrupted"))
        client = self.begin(*words, self.place)
        self.assertTrue(when(lambda: self.uploaded() >= 10))
        began = time.monotonic()
        client.send_signal(name)
        ended, out, errors = self.ended(client)
        self.assertEqual((ended, out, errors), (status, "", "site: cancelled deploy 1: the site is as before\n"))
        self.assertLess(time.monotonic() - began, 60)
        self.assertEqual(kinds(self.changes()), ["open", "cancel"])
        self.assert_done(*words, self.place)
        self.assert_serves(contents("interrupted"))

    def test_ctrl_c_cancels_the_open_deploy_and_says_so(self):
        self.interrupted(signal.SIGINT, 130, "push")

    def test_a_signal_to_terminate_does_so_too(self):
        self.interrupted(signal.SIGTERM, 143, "deploy")

    def test_ctrl_c_while_the_opening_is_answered_cancels_it(self):
        """The host has opened the deploy, and its reply is still on the way."""
        self.start_host()
        opened, interrupted = threading.Event(), threading.Event()

        def before_reply(method, target):
            if method == "POST" and target.endswith("/deploys"):
                opened.set()
                interrupted.wait(20)

        self.stand_before().before_reply = before_reply
        self.write(contents("opening"))
        client = self.begin("push", self.place)
        self.assertTrue(opened.wait(60))
        client.send_signal(signal.SIGINT)
        ended, _, errors = self.ended(client)
        interrupted.set()
        self.assertEqual((ended, errors), (130, "site: cancelled deploy 1: the site is as before\n"))
        self.assertEqual(kinds(self.changes()), ["open", "cancel"])

    def test_ctrl_c_before_anything_was_sent_says_nothing(self):
        self.start_host()
        self.write({"/a": b"a", "/b": b"b"})
        self.assert_done("push", self.place)
        (self.place / "b").unlink()
        client, terminal = self.begin_on_terminal("push", self.place)
        self.shown_until(terminal, b"[y/N]")
        client.send_signal(signal.SIGINT)
        self.assertEqual(client.wait(60), 130)
        self.assertEqual(kinds(self.changes()), ["open", "publish"])


class FilesChange(Stops):
    def change_after(self, change, words=("push",)):
        """Runs the client, and makes a change of a file once the deploy is opened and before that file is sent."""
        self.start_host()
        done = []

        def judge(method, target, count):
            if method == "POST" and target.endswith("/deploys") and not done:
                done.append(change())
            return PASS

        self.stand_before(judge)
        return self.site(*words, self.place)

    def assert_refused(self, ended, part):
        status, out, errors = ended
        self.assertEqual((status, out), (1, ""), errors)
        self.assertIn(part, errors)
        self.assertIn("site: cancelled deploy 1: the site is as before", errors)
        self.assertEqual(kinds(self.changes()), ["open", "cancel"])
        self.assert_serves({"/a": None, "/b": None})

    def test_a_file_with_other_bytes_is_refused_by_name(self):
        self.write({"/a": b"a" * 100, "/b": b"b"})
        ended = self.change_after(lambda: (self.place / "a").write_bytes(b"A" * 100))
        self.assert_refused(ended, "site: /a was changed while it was being deployed (WrongDigest)")
        self.assert_done("push", self.place)
        self.assert_serves({"/a": b"A" * 100, "/b": b"b"})

    def test_a_file_that_becomes_shorter_is_refused_by_name(self):
        self.write({"/a": bytes(300_000), "/b": b"b"})
        self.assert_refused(self.change_after(lambda: os.truncate(self.place / "a", 200_000), ("deploy",)), "/a was changed")

    def test_a_file_that_grows_is_refused_by_name_or_sent_as_it_was(self):
        """The bytes that were hashed are still at its front."""
        self.write({"/a": b"a", "/b": b"b"})

        def grow():
            with open(self.place / "a", "ab") as file:
                file.write(b"more")

        status, _, errors = self.change_after(grow)
        self.assertEqual(status, 0, errors)
        self.assert_serves({"/a": b"a", "/b": b"b"})
        self.assertEqual(self.told("push", self.place)["changed"], 1)
        self.assert_serves({"/a": b"amore"})

    def test_a_file_that_is_removed_is_refused_by_name(self):
        self.write({"/a": b"a", "/b": b"b"})
        self.assert_refused(self.change_after(lambda: (self.place / "a").unlink()), "/a was removed while it was being deployed")
