"""dist/: the program that ./filehost runs at once, where the sources are those that it was built from."""

import hashlib
import shutil
import subprocess
import time
import unittest

from lib.client import PROGRAM, TOP, Program
from lib.sandbox import LAUNCHER, Sandbox
from lib.served import HOST, Served, ask, free_ports

CRATES = "filehost: low thiserror  # the program\nother: low\nlow:\n"
BUILD = "build: ci low filehost"
RELEASED, ITS_SUM, ITS_SOURCES = ("dist/filehost", "dist/filehost.sha256", "dist/sources.sha256")
OWN_STATUS = 7


def digest(file):
    return hashlib.sha256(file.read_bytes()).hexdigest()


class Release(Served, Program):
    """In a small repository, whose program is the real one."""

    def setUp(self):
        super().setUp()
        self.sandbox = Sandbox(*LAUNCHER, "scripts/release")
        self.addCleanup(self.sandbox.close)
        self.top = self.sandbox.top
        self.out = self.top / "crates/filehost/out"
        self.sandbox.add_crates(CRATES)
        self.sandbox.let_time_pass()

    def release(self, **how):
        return self.sandbox.run(str(self.top / "scripts/release"), **how)

    def call(self, *words, **how):
        return self.sandbox.run(str(self.top / "filehost"), *words, **how)

    def put_release(self):
        self.sandbox.put_program(PROGRAM)
        self.assertEqual(self.release()[0], 0)
        shutil.rmtree(self.out)
        self.sandbox.let_time_pass()

    def set_tool(self, name, text):
        (self.sandbox.tools / name).unlink()
        (self.sandbox.tools / name).write_text(f"#!/usr/bin/env bash\n{text}\n")
        (self.sandbox.tools / name).chmod(0o755)

    def assert_runs_at_once(self):
        """Without the toolchain it answers the first run, to the byte, in under two seconds, and says nothing else."""
        requests, replies = ((TOP / "examples" / name).read_bytes() for name in ("first-run.http", "first-run.replies"))
        began = time.monotonic()
        answer = self.call("solo", given=requests, has_toolchain=False)
        self.assertLess(time.monotonic() - began, 2)
        self.assertEqual(answer, (0, replies.decode(), ""))

    def assert_refused(self, answer, *words):
        status, out, err = answer
        self.assertEqual((status, out, len(err.splitlines())), (1, "", 1), err)
        for word in ("filehost: ", *words):
            self.assertIn(word, err)

    def test_writes_the_program_its_sum_and_those_of_its_sources(self):
        self.sandbox.put_program(PROGRAM)
        status, _, err = self.release()
        self.assertEqual((status, err), (0, f"filehost: dist/filehost is {digest(PROGRAM)}, of 4 sources\n"))
        self.assertEqual((self.top / RELEASED).read_bytes(), PROGRAM.read_bytes())
        self.assertEqual((self.top / ITS_SUM).read_text(), f"{digest(PROGRAM)}\n")
        files = [f"crates/{name}" for name in ("filehost/src/main.rt", "low/proofs/Lib.antt", "low/specs/Lib.antt", "low/src/lib.rt")]
        sums = "".join(f"{digest(self.top / file)}  {file}\n" for file in files)
        self.assertEqual((self.top / ITS_SOURCES).read_text(), f"# low: \n# filehost: low thiserror\n{sums}")
        self.assertEqual(sorted(file.name for file in (self.top / "dist").iterdir()), ["filehost", "filehost.sha256", "sources.sha256"])

    def test_releases_nothing_but_a_program_that_was_proved_from_these_sources(self):
        self.assert_refused(self.release(), "nothing is released", "isn't built from these sources")
        self.sandbox.put_program(PROGRAM)
        (self.out / "filehost").write_bytes(PROGRAM.read_bytes() + b"x")
        self.assert_refused(self.release(), "nothing is released", "isn't what")
        self.sandbox.put_program(PROGRAM)
        self.sandbox.write("crates/low/src/lib.rt", "second")
        self.assert_refused(self.release(), "nothing is released", "isn't built from these sources")
        self.assertFalse((self.top / "dist").exists())

    def test_releases_no_program_that_needs_another_c_library_than_is_said(self):
        self.sandbox.put_program(PROGRAM)
        shared = self.top / "scripts/program_sources.sh"
        text = shared.read_text()
        self.assertIn("least_libc=2.34\n", text)
        shared.write_text(text.replace("least_libc=2.34\n", "least_libc=2.33\n"))
        self.assert_refused(self.release(), "nothing is released", "GLIBC_2.34")

    def test_runs_at_once_without_the_toolchain(self):
        self.put_release()
        self.assert_runs_at_once()
        # The second time it knows that the sources have their sums.
        self.assert_runs_at_once()
        self.assertEqual(self.sandbox.calls(), [])
        self.assertEqual(self.call("--version", has_toolchain=False), (1, "", "filehost 0.1.0\n"))

    def test_serves_at_once_without_the_toolchain(self):
        self.put_release()
        self.port = free_ports()
        words = [str(self.top / "filehost"), "serve", "--listen", f"{HOST}:{self.port}"]
        began = time.monotonic()
        how = {"env": self.sandbox.environment(has_toolchain=False), "stdout": subprocess.PIPE, "stderr": subprocess.PIPE}
        started = subprocess.Popen(words, **how)
        self.addCleanup(self.end, started)
        self.assertEqual(started.stdout.readline().decode(), f"node 0 listening on {HOST}:{self.port}\n")
        self.assertLess(time.monotonic() - began, 2)
        self.assertEqual(ask(self.client(), "GET", "/s/one/a.txt"), (404, b'{"error":"NoSuchFile"}'))

    def test_runs_at_once_where_nothing_can_be_written(self):
        self.put_release()
        self.out.write_text("a file in place of the folder")
        self.assert_runs_at_once()
        self.assertEqual(self.out.read_text(), "a file in place of the folder")

    def test_runs_what_this_checkout_built_where_that_is_newer(self):
        self.put_release()
        self.sandbox.write("crates/low/src/lib.rt", "second")
        self.assertEqual(self.call("solo")[0], OWN_STATUS)
        self.assertEqual(self.sandbox.calls(), [BUILD])
        self.assertEqual(self.call("solo", has_toolchain=False)[0], OWN_STATUS)

    def test_builds_where_a_source_was_changed_added_or_removed(self):
        changes = {
            "changed": lambda: self.sandbox.write("crates/low/src/lib.rt", "second"),
            "added": lambda: self.sandbox.write("crates/low/src/more.rt", "more"),
            "removed": lambda: (self.top / "crates/low/specs/Lib.antt").unlink(),
            "its crate uses another": lambda: self.sandbox.write("crates.txt", CRATES.replace("low:\n", "low: sha1\n")),
        }
        for what, change in changes.items():
            for is_known in (False, True):
                with self.subTest(what, is_known=is_known):
                    self.sandbox.add_crates(CRATES)
                    (self.top / "crates/low/src/more.rt").unlink(missing_ok=True)
                    self.put_release()
                    if is_known:
                        self.assert_runs_at_once()
                    change()
                    self.assertEqual(self.call("solo")[0], OWN_STATUS)
                    self.assertEqual(self.sandbox.calls(), [BUILD])

    def test_takes_a_sum_that_differs_for_a_changed_source(self):
        for is_known in (False, True):
            with self.subTest(is_known=is_known):
                self.put_release()
                if is_known:
                    self.assert_runs_at_once()
                sums = (self.top / ITS_SOURCES).read_text()
                self.sandbox.write(ITS_SOURCES, sums.replace(digest(self.top / "crates/low/src/lib.rt"), "0" * 64))
                self.assertEqual(self.call("solo")[0], OWN_STATUS)
                self.assertEqual(self.sandbox.calls(), [BUILD])

    def test_goes_back_to_dist_where_the_sources_are_those_again(self):
        self.put_release()
        self.sandbox.write("crates/low/src/lib.rt", "second")
        self.call("solo")
        self.sandbox.let_time_pass()
        self.sandbox.write("crates/low/src/lib.rt", "first")
        self.assert_runs_at_once()

    def test_ignores_what_the_program_is_not_made_of(self):
        self.put_release()
        self.sandbox.write("crates.txt", CRATES.replace("other: low", "other: low sha1").replace("# the program", "# another remark"))
        for path in ("crates/other/src/lib.rt", "crates/low/must-fail/wrong.edit", "docs/CHECKS.md"):
            self.sandbox.write(path, "other")
        self.assert_runs_at_once()

    def test_does_not_run_another_program_than_the_one_that_was_released(self):
        spoils = {
            "another program": lambda: (self.top / RELEASED).write_bytes((self.top / RELEASED).read_bytes()[:-1]),
            "another sum": lambda: (self.top / ITS_SUM).write_text("0" * 64 + "\n"),
            "no sum": lambda: (self.top / ITS_SUM).unlink(),
        }
        for what, spoil in spoils.items():
            for is_known in (False, True):
                with self.subTest(what, is_known=is_known):
                    self.put_release()
                    if is_known:
                        self.assert_runs_at_once()
                    spoil()
                    self.assert_refused(self.call("solo"), "dist/filehost isn't run", "SHA-256", "scripts/build")
        self.assertEqual(self.sandbox.calls(), [])

    def test_builds_and_says_why_where_the_program_cannot_run(self):
        self.put_release()
        uname, getconf = ((self.sandbox.tools / name).resolve() for name in ("uname", "getconf"))
        cases = (
            ("echo aarch64", f'exec {getconf} "$@"', "dist/filehost is for x86_64, and this machine is aarch64"),
            (f'exec {uname} "$@"', "echo glibc 2.33", "dist/filehost needs the GNU C library 2.34, and this machine has 2.33"),
            (f'exec {uname} "$@"', "exit 1", "dist/filehost needs the GNU C library 2.34, and this machine has none"),
        )
        for machine, libc, why in cases:
            with self.subTest(why):
                self.set_tool("uname", machine)
                self.set_tool("getconf", libc)
                status, _, err = self.call("solo")
                self.assertEqual((status, err.splitlines()[0]), (OWN_STATUS, f"filehost: {why}: so the program is built here"))
                self.assertEqual(self.sandbox.calls(), [BUILD])
                shutil.rmtree(self.out)
        self.set_tool("getconf", "echo glibc 2.100")
        self.assert_runs_at_once()

    def test_builds_whatever_dist_has_where_that_is_asked_for(self):
        self.put_release()
        status, out, _ = self.sandbox.run(str(self.top / "scripts/build"))
        self.assertEqual((status, out, self.sandbox.calls()), (0, "", [BUILD]))
        status, out, err = self.sandbox.run(str(self.top / "scripts/build"))
        self.assertEqual((status, out, err, self.sandbox.calls()), (0, "", "", []))
        self.assertEqual(self.call("solo")[0], OWN_STATUS)


class Current(unittest.TestCase):
    """The program in dist/ of this repository."""

    def test_dist_is_what_the_full_check_built_where_it_is_of_these_sources(self):
        script = 'root=$1; shopt -s nullglob; source "$root/scripts/program_sources.sh"; list_sources'
        sums = subprocess.run(["bash", "-c", script, "bash", TOP], capture_output=True, text=True, check=True).stdout
        self.assertEqual((TOP / ITS_SUM).read_text(), f"{digest(TOP / RELEASED)}\n")
        if sums != (TOP / ITS_SOURCES).read_text():
            print("dist/filehost is older than the sources, so it isn't compared with what was built from them", flush=True)
            return
        self.assertEqual(digest(TOP / "crates/filehost/out/filehost"), digest(TOP / RELEASED))
