"""The launcher ./filehost: it builds what has to be built, once, and then is the program."""

import contextlib
import os
import pty
import re
import signal
import subprocess
import time
import unittest

from lib.client import HELP, PATIENCE
from lib.sandbox import LAUNCHER, TOP, Sandbox

CRATES = """\
# name: what it stands on
filehost: upper thiserror   # the program
other: low
upper: middle low
low: sha1
middle: low
"""
# What is proved, in the copy that the build makes: the crates that the program uses, lowest first.
IN_ORDER = ["build: ci low middle upper filehost"]
# Two crates that don't stand on each other, and one that stands on both.
SIDE_BY_SIDE = "filehost: upper\nupper: left right\nleft: low\nright: low\nlow:\n"
OWN_STATUS = 7


class Launcher(unittest.TestCase):
    def setUp(self):
        self.sandbox = Sandbox(*LAUNCHER)
        self.addCleanup(self.sandbox.close)
        self.launcher = str(self.sandbox.top / "filehost")

    def call(self, *words, **how):
        return self.sandbox.run(self.launcher, *words, **how)

    def set_processors(self, count):
        nproc = self.sandbox.tools / "nproc"
        nproc.unlink()
        nproc.write_text(f"#!/usr/bin/env bash\necho {count}\n")
        nproc.chmod(0o755)

    def hold(self):
        """A file for which the proof of a crate waits, until it is let go."""
        self.held = self.sandbox.folder / "held"
        self.held.touch()
        return str(self.held)

    def let_go(self):
        self.held.unlink(missing_ok=True)

    def read_until(self, pipe, words):
        """What comes of a pipe, up to the end of the line that has these words."""
        lines = []
        while (line := pipe.readline()) and words not in line:
            lines.append(line)
        return b"".join([*lines, line])

    def add_built_program(self):
        self.sandbox.add_crates(CRATES)
        self.assertEqual(self.call()[0], OWN_STATUS)
        self.sandbox.calls()
        self.sandbox.let_time_pass()

    def assert_refuses(self, answer, *words):
        """It ended with status 1 and wrote one line, on standard error, that has these words."""
        status, out, err = answer
        self.assertEqual((status, out), (1, ""))
        self.assertEqual(len(err.splitlines()), 1, err)
        self.assertTrue(err.startswith("filehost: "), err)
        for word in words:
            self.assertIn(word, err)

    def test_tells_help_and_the_version_before_anything_is_built(self):
        self.sandbox.add_crates(CRATES)
        for text, calls in HELP.items():
            told = (TOP / "docs" / "help" / text).read_text()
            self.sandbox.write(f"docs/help/{text}", told)
            for words in calls:
                with self.subTest(words):
                    self.assertEqual(self.call(*words.split(), has_toolchain=False), (1, "", told))
        self.assertEqual(self.sandbox.calls(), [])

    def test_builds_where_other_words_come_with_those_for_help(self):
        self.add_built_program()
        for words in (["--help", ""], ["solo --help"], ["solo", "--help", "--store"], ["help", "help"], ["--versions"]):
            with self.subTest(words):
                self.sandbox.write("crates/low/src/lib.rt", str(words))
                status, out, _ = self.call(*words)
                self.assertEqual((status, out.partition(" in ")[0]), (OWN_STATUS, "".join(f"<{word}>" for word in words)))
                self.assertEqual(self.sandbox.calls(), IN_ORDER)
                self.sandbox.let_time_pass()

    def test_lets_a_built_program_tell_its_help_itself(self):
        self.add_built_program()
        self.assertEqual(self.call("--help")[:2], (OWN_STATUS, f"<--help> in {self.sandbox.top}\n"))

    def test_says_that_there_is_no_program_yet(self):
        self.sandbox.write("crates.txt", "# name: what it stands on\n")
        self.assert_refuses(self.call(), "no program", "crates/filehost")
        self.assertEqual(self.sandbox.calls(), [])

    def test_says_that_the_toolchain_is_missing(self):
        self.sandbox.add_crates(CRATES)
        self.assert_refuses(self.call(has_toolchain=False), "toolchain is missing", "rt on PATH")

    def test_says_which_command_is_missing_for_a_build(self):
        self.sandbox.add_crates(CRATES)
        for command in ("python3", "find", "flock"):
            with self.subTest(command):
                (self.sandbox.tools / command).rename(self.sandbox.folder / command)
                self.assert_refuses(self.call(), f"{command} is missing")
                (self.sandbox.folder / command).rename(self.sandbox.tools / command)
        self.assertEqual(self.sandbox.calls(), [])

    def test_says_that_the_program_is_not_listed(self):
        self.sandbox.add_crates(CRATES)
        self.sandbox.write("crates.txt", "low:\n")
        self.assert_refuses(self.call(), "crates.txt", "filehost")

    def test_proves_the_crates_that_the_program_uses_lowest_first(self):
        self.sandbox.add_crates(CRATES)
        self.call()
        self.assertEqual(self.sandbox.calls(), IN_ORDER)

    def test_proves_a_copy_of_the_crates_without_their_wrong_bodies(self):
        self.sandbox.add_crates(CRATES)
        for path in ("HANDLES", "crates/low/must-fail/wrong.edit", "crates/filehost/stdin", "crates/low/src/below/more.rt", "examples/wrong.rt"):
            self.sandbox.write(path, "text")
        building = self.start(HOLD_OF_low=self.hold())
        copy = self.sandbox.top / "crates/filehost/out/build"
        self.wait_for(building, self.sandbox.folder / "calls.began.low")
        files = {str(path.relative_to(copy)) for path in copy.rglob("*") if path.is_file()}
        self.let_go()
        building.communicate(timeout=60)
        shapes = [f"crates/{name}/{part}" for name in ("low", "middle", "upper") for part in ("src/lib.rt", "specs/Lib.antt", "proofs/Lib.antt")]
        more = ["HANDLES", "crates.txt", "crates/filehost/src/main.rt", "crates/filehost/stdin", "crates/low/src/below/more.rt"]
        self.assertEqual(files, {*shapes, *more})
        self.assertFalse(copy.exists())

    def test_prints_a_line_a_crate_where_nobody_looks_at_a_terminal(self):
        self.sandbox.add_crates(CRATES)
        self.sandbox.write("scripts/build-seconds.txt", "# crate, ..\nlow 10 5\nmiddle 20 9\nupper 30 7\nfilehost 40 8\nother 99 99\n")
        _, out, err = self.call()
        self.assertNotIn("proved", out)
        share = {"low": 10, "middle": 30, "upper": 60, "filehost": 100}
        told = [f"[{place}/4, 0 min, {part} % done] {crate} is proved, in 0 s of a processor" for place, (crate, part) in enumerate(share.items(), 1)]
        self.assertEqual(err.splitlines()[1:], [*told, "filehost: built in 0 minutes, with 0 minutes of a processor"])
        self.assertNotIn("\r", err)

    def test_says_which_crates_were_proved_before(self):
        self.sandbox.add_crates("filehost: low\nlow:\n")
        told = [line.partition("] ")[2] for line in self.call(KEPT="low")[2].splitlines()[1:3]]
        self.assertEqual(told, ["low was proved here before", "filehost is proved, in 0 s of a processor"])
        # What such a build takes is not what one from nothing takes.
        self.assertFalse((self.sandbox.top / "crates/filehost/out/build-seconds.txt").exists())

    def test_says_at_its_start_how_long_a_build_takes(self):
        """That is 1.15 times what its longest chain of crates lasts, or all its work on this number of processors."""
        self.sandbox.add_crates(SIDE_BY_SIDE)
        seconds = {"low": (600, 600), "left": (1200, 1200), "right": (1200, 1200), "upper": (600, 600), "filehost": (600, 600)}
        self.sandbox.write("scripts/build-seconds.txt", "".join(f"{name} {work} {time}\n" for name, (work, time) in seconds.items()))
        for processors, minutes in ((1, 81), (2, 58), (4, 58)):
            self.set_processors(processors)
            self.sandbox.write("crates/low/src/lib.rt", str(processors))
            with self.subTest(processors):
                first = self.call()[2].splitlines()[0]
                about = f"takes about 71 minutes of a processor, and {minutes} min on {processors} processors"
                self.assertIn(f"each of its 5 crates is proved first, which from nothing {about}", first)
            self.sandbox.let_time_pass()

    def test_tells_how_much_of_a_processor_each_crate_took(self):
        self.sandbox.add_crates(SIDE_BY_SIDE)
        building = self.start(TURNS_OF_left="1000000", HOLD_OF_left=self.hold(), SECONDS_OF_left="1.5")
        self.wait_for(building, self.sandbox.folder / "calls.began.left")
        self.let_go()
        err = building.communicate(timeout=60)[1].decode()
        took = dict(re.findall(r"(?m)\] (\w+) is proved, in (\d+) s of a processor$", err))
        self.assertGreater(int(took.pop("left")), 0)
        self.assertEqual(took, dict.fromkeys(("low", "right", "upper", "filehost"), "0"))
        rows = (self.sandbox.top / "crates/filehost/out/build-seconds.txt").read_text().splitlines()
        self.assertEqual(rows[0], (TOP / "scripts" / "build-seconds.txt").read_text().splitlines()[0])
        self.assertEqual([row.split()[0] for row in rows[1:]], ["filehost", "upper", "left", "right", "low"])
        for row in rows[1:]:
            self.assertRegex(row, r"^\w+ \d+ \d+$")

    def test_shows_on_a_terminal_how_far_a_build_is(self):
        self.sandbox.add_crates("filehost: low\nlow:\n")
        self.sandbox.write("scripts/build-seconds.txt", "low 80 5\nfilehost 20 5\n")
        near, far = pty.openpty()
        building = self.start(stdout=subprocess.DEVNULL, stderr=far, HOLD_OF_low=self.hold(), SECONDS_OF_filehost="1.5", SECONDS_TO_PROGRESS="0.2")
        os.close(far)
        shown, until = b"", time.monotonic() + PATIENCE
        # The terminal ends with an error once nobody has it open.
        with contextlib.suppress(OSError):
            while piece := os.read(near, 4096):
                shown += piece
                if b"proving low" in shown or time.monotonic() > until:
                    self.let_go()
        os.close(near)
        self.assertEqual(building.wait(), OWN_STATUS)
        lines = shown.decode().split("\r\x1b[K")
        self.assertIn("[0/2, 0 min, 0 % done] proving low", lines)
        self.assertIn("[1/2, 0 min, 80 % done] low is proved, in 0 s of a processor\r\n", lines)
        self.assertIn("[1/2, 0 min, 80 % done] proving filehost", lines)
        self.assertEqual(lines[-1], "filehost: built in 0 minutes, with 0 minutes of a processor\r\n")

    def test_stops_the_prover_where_it_is_stopped(self):
        self.sandbox.add_crates(CRATES)
        for number in (signal.SIGTERM, signal.SIGINT):
            with self.subTest(number):
                building = self.start(SECONDS_OF_low="50", start_new_session=True, preexec_fn=lambda: signal.signal(signal.SIGINT, signal.SIG_DFL))
                self.wait_for(building, self.sandbox.folder / "calls.began.low")
                began = time.monotonic()
                os.killpg(building.pid, number)
                building.communicate(timeout=60)
                self.assertLess(time.monotonic() - began, 20)
                (self.sandbox.folder / "calls.began.low").unlink()
                (self.sandbox.folder / "calls.busy.build").rmdir()

    def test_gives_the_program_its_arguments_input_and_status(self):
        self.sandbox.add_crates(CRATES)
        words = ["solo", "--store", "a folder", "", "*", "two\nlines", "--"]
        shown = "".join(f"<{word}>" for word in words) + f" in {self.sandbox.folder}\n"
        for what in ("a call that builds", "a later call"):
            with self.subTest(what):
                status, out, _ = self.call(*words, at=self.sandbox.folder, given=b"GET / \r\n\0end")
                self.assertEqual((status, out), (OWN_STATUS, shown + "GET / \r\n\0end"))

    def test_starts_at_once_where_nothing_has_changed(self):
        self.add_built_program()
        status, _, err = self.call(has_toolchain=False)
        self.assertEqual((status, err), (OWN_STATUS, ""))

    def test_works_through_symbolic_links_from_any_folder(self):
        self.sandbox.add_crates(CRATES)
        elsewhere = self.sandbox.folder / "else where"
        elsewhere.mkdir()
        (elsewhere / "to it").symlink_to("../repository/filehost")
        (elsewhere / "serve").symlink_to("to it")
        self.launcher = "./serve"
        status, out, _ = self.call("solo", at=elsewhere)
        self.assertEqual((status, out), (OWN_STATUS, f"<solo> in {elsewhere}\n"))
        self.assertEqual(self.sandbox.calls(), IN_ORDER)

    def test_builds_again_where_a_source_is_newer(self):
        self.sandbox.add_crates(CRATES)
        for path in ("crates.txt", "crates/low/src/lib.rt", "crates/upper/specs/Lib.antt",
                     "crates/middle/proofs/send/Answers.antt", "crates/filehost/src/main.rt"):
            with self.subTest(path):
                self.add_built_program()
                self.sandbox.write(path, CRATES if path == "crates.txt" else "second")
                self.assertEqual(self.call()[0], OWN_STATUS)
                self.assertEqual(self.sandbox.calls(), IN_ORDER)

    def test_builds_again_where_a_source_was_removed(self):
        self.sandbox.add_crates(CRATES)
        source = self.sandbox.write("crates/low/src/names.rt")
        self.add_built_program()
        source.unlink()
        self.assertEqual(self.call()[0], OWN_STATUS)
        self.assertEqual(self.sandbox.calls(), IN_ORDER)

    def test_builds_nothing_where_other_files_are_newer(self):
        self.add_built_program()
        for path in ("README.md", "docs/CHECKS.md", "crates/low/PROMISES.md", "crates/low/must-fail/wrong.edit", "crates/other/src/lib.rt"):
            self.sandbox.write(path)
        self.call()
        self.assertEqual(self.sandbox.calls(), [])

    def test_builds_again_what_was_edited_during_the_build(self):
        self.sandbox.add_crates(CRATES)
        self.sandbox.let_time_pass()
        edited = self.sandbox.top / "crates/low/src/lib.rt"
        self.call(EDIT_MEANWHILE=str(edited), SECONDS_A_CRATE="0.1")
        self.sandbox.calls()
        self.call()
        self.assertEqual(self.sandbox.calls(), IN_ORDER)

    def test_says_where_a_build_failed_and_runs_no_older_program(self):
        for crate in ("low", "filehost"):
            with self.subTest(crate):
                log = self.sandbox.top / "crates/filehost/out/build.log"
                self.add_built_program()
                broken = self.sandbox.write(f"crates/{crate}/src/broken")
                for what in ("the first call", "the next call"):
                    status, out, err = self.call()
                    self.assertEqual((status, out), (1, ""), what)
                    self.assertEqual(err.splitlines()[-1], f"filehost: the build failed at {crate}: see {log}")
                    self.assertIn(f"an open goal of {crate}", log.read_text())
                broken.unlink()
                self.assertEqual(self.call()[0], OWN_STATUS)

    def test_builds_again_after_a_build_that_was_cut_off(self):
        made = self.sandbox.top / "crates/filehost/out/build/crates/filehost/out/filehost"
        busy = self.sandbox.folder / "calls.busy.build"
        for moment, cut_at, why in (
            ("in its first crate", busy, {"SECONDS_A_CRATE": "60"}),
            ("with the program made", made, {"SECONDS_AFTER_BUILD": "60"}),
        ):
            with self.subTest(moment):
                self.add_built_program()
                self.sandbox.write("crates/low/src/lib.rt", moment)
                self.cut_off(cut_at, why)
                if busy.exists():
                    busy.rmdir()
                self.sandbox.calls()
                self.assertEqual(self.call()[0], OWN_STATUS)
                self.assertEqual(self.sandbox.calls(), IN_ORDER)

    def cut_off(self, file, why):
        """Starts a build, and kills it with all that it started as soon as the file is there."""
        building = self.start(stdout=subprocess.DEVNULL, stderr=subprocess.DEVNULL, start_new_session=True, **why)
        while building.poll() is None and not file.exists():
            time.sleep(0.01)
        os.killpg(building.pid, signal.SIGKILL)
        building.wait()

    def start(self, *words, stdout=subprocess.PIPE, stderr=subprocess.PIPE, start_new_session=False, preexec_fn=None, **more):
        how = {"stdin": subprocess.DEVNULL, "stdout": stdout, "stderr": stderr, "start_new_session": start_new_session, "preexec_fn": preexec_fn}
        return subprocess.Popen([self.launcher, *words], env=self.sandbox.environment(**more), **how)

    def wait_for(self, building, file):
        while not file.exists():
            self.assertIsNone(building.poll())
            time.sleep(0.01)

    def test_lets_the_program_take_its_place(self):
        self.add_built_program()
        program = self.start("pid")
        out, _ = program.communicate(timeout=60)
        self.assertEqual(out.decode(), str(program.pid))

    def test_builds_once_for_two_calls_at_once(self):
        self.sandbox.add_crates(CRATES)
        first = self.start("solo", HOLD_OF_low=self.hold())
        self.wait_for(first, self.sandbox.folder / "calls.began.low")
        second = self.start("solo")
        waits = self.read_until(second.stderr, b"another call is building")
        self.assertIn(b"another call is building", waits)
        self.let_go()
        said = [caller.communicate(timeout=60) for caller in (first, second)]
        self.assertEqual([caller.returncode for caller in (first, second)], [OWN_STATUS] * 2)
        self.assertEqual([out.startswith(b"<solo> in ") for out, _ in said], [True] * 2)
        self.assertEqual(self.sandbox.calls(), IN_ORDER)
        self.assertNotIn(b"another call is building", said[0][1])
