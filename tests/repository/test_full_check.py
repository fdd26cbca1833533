"""The full check ./test and the runner tests/run: nothing that failed is counted as passed, and all is counted."""

import os
import runpy
import shutil
import signal
import subprocess
import sys
import time
import unittest

from lib.repository import TOP
from lib.sandbox import LAUNCHER, Sandbox

PARTS = """\
import os, sys
print("the end-to-end tests")
print(os.environ["RUN_SAYS"])
sys.exit(int(os.environ["RUN_STATUS"]))
"""

FAKE_APT_GET = """#!/usr/bin/env bash
printf 'apt-get %s\\n' "$1" >>"$CALLS"
[[ $1 == install ]] || exit 0
for package in "${@:4}"; do
  [[ ! -e $STORE/$package ]] || cp "$STORE/$package" "${0%/*}/${package/%aria2/aria2c}"
done
"""


class FullCheck(unittest.TestCase):
    def setUp(self):
        self.sandbox = Sandbox("test", ".ci/run", *LAUNCHER)
        self.addCleanup(self.sandbox.close)
        self.sandbox.write("tests/run", PARTS)

    def launch(self):
        """Calls the launcher, and returns what it called of the toolchain."""
        self.sandbox.run(str(self.sandbox.top / "filehost"))
        return self.sandbox.calls()

    def check(self, ci="3 passed, 0 failed", ci_status=0, run="2 passed, 0 failed", run_status=0, command="test", **how):
        """Runs ./test over parts that say and answer this, and returns its status and its lines."""
        how.update(CI_SAYS=f"every proof\n{ci}\n", CI_STATUS=str(ci_status))
        how.update(RUN_SAYS=run, RUN_STATUS=str(run_status))
        status, out, _ = self.sandbox.run(str(self.sandbox.top / command), **how)
        return status, out.splitlines()

    def assert_ends(self, answer, status, last):
        self.assertEqual((answer[0], answer[1][-1]), (status, last))

    def test_counts_both_parts_and_shows_what_they_print(self):
        status, lines = self.check()
        shown = ["every proof", "3 passed, 0 failed", "the end-to-end tests", "2 passed, 0 failed", "5 passed, 0 failed"]
        self.assertEqual((status, lines), (0, shown))

    def test_fails_where_a_part_counts_failures(self):
        self.assert_ends(self.check(ci="3 passed, 2 failed", ci_status=1), 1, "5 passed, 2 failed")
        self.assert_ends(self.check(run="1 passed, 1 failed", run_status=1), 1, "4 passed, 1 failed")
        self.assert_ends(self.check(ci="3 passed, 2 failed"), 1, "5 passed, 2 failed")

    def test_fails_where_a_part_prints_no_count(self):
        self.assert_ends(self.check(ci="killed", ci_status=137), 1, "2 passed, 1 failed")
        self.assert_ends(self.check(ci="all is well"), 1, "2 passed, 1 failed")
        self.assert_ends(self.check(run="Traceback", run_status=1), 1, "3 passed, 1 failed")

    def test_fails_where_a_part_ends_badly_after_its_count(self):
        self.assert_ends(self.check(ci_status=1), 1, "5 passed, 1 failed")
        self.assert_ends(self.check(run_status=1), 1, "5 passed, 1 failed")

    def test_fails_where_nothing_ran(self):
        self.assert_ends(self.check(ci="0 passed, 0 failed", run="0 passed, 0 failed"), 1, "0 passed, 0 failed")

    def test_leaves_the_program_that_it_proved(self):
        self.sandbox.add_crates("low:\nfilehost: low\n")
        self.sandbox.let_time_pass()
        self.check()
        self.sandbox.calls()
        self.assertEqual(self.launch(), [])

    def test_leaves_what_was_edited_meanwhile_to_be_built(self):
        self.sandbox.add_crates("low:\nfilehost: low\n")
        self.sandbox.let_time_pass()
        self.check(EDIT_MEANWHILE=str(self.sandbox.top / "crates/low/src/lib.rt"), SECONDS_A_CRATE="0.1")
        self.sandbox.calls()
        self.assertEqual(self.launch(), ["build: ci low filehost"])

    def test_says_first_what_it_will_do_and_then_how_long_each_part_took(self):
        self.sandbox.add_crates("low:\nfilehost: low\n")
        self.sandbox.write("crates/low/src/lib.rt", "first\nsecond\n")
        self.sandbox.write("crates/low/must-fail/wrong.edit")
        environment = {"CI_SAYS": "1 passed, 0 failed\n", "CI_STATUS": "0", "RUN_SAYS": "1 passed, 0 failed", "RUN_STATUS": "0"}
        _, _, err = self.sandbox.run(str(self.sandbox.top / "test"), **environment)
        lines = err.splitlines()
        self.assertIn("rt ci proves 2 lines, with their tests, and tries 1 must-fail edits", lines[0])
        self.assertIn("tests/run", lines[1])
        self.assertEqual(lines[2:], ["test: rt ci took 0 minutes", "test: python3 tests/run -j 2 took 0 minutes"])

    def test_builds_the_program_for_the_tests_where_rt_ci_left_none(self):
        self.sandbox.add_crates("low:\nfilehost: low\n")
        answer = self.check(ci="1 passed, 1 failed", ci_status=1, NO_PROGRAM="yes")
        self.assert_ends(answer, 1, "3 passed, 1 failed")
        self.assertEqual(self.sandbox.calls(), ["repository: ci low filehost", "build: ci low filehost"])

    def test_ends_at_once_with_all_that_it_started_where_it_is_stopped(self):
        self.sandbox.add_crates("filehost:\n")
        for number in (signal.SIGINT, signal.SIGTERM):
            with self.subTest(number):
                environment = self.sandbox.environment(SECONDS_A_CRATE="50", CI_SAYS="", CI_STATUS="0", TMPDIR=str(self.sandbox.folder))
                how = {"stdin": subprocess.DEVNULL, "stdout": subprocess.PIPE, "stderr": subprocess.PIPE, "start_new_session": True}
                # If the tests were begun in the background, interrupts may be ignored, which no trap of a shell can change.
                how["preexec_fn"] = lambda: signal.signal(signal.SIGINT, signal.SIG_DFL)
                check = subprocess.Popen([str(self.sandbox.top / "test")], env=environment, **how)
                while check.poll() is None and not self.sandbox.calls():
                    time.sleep(0.01)
                began = time.monotonic()
                os.killpg(check.pid, number)
                # The pipes end with the last process that has them.
                _, err = check.communicate(timeout=40)
                self.assertLess(time.monotonic() - began, 20)
                # What is stopped may have begun a line of its own.
                self.assertEqual(check.returncode, 130)
                self.assertTrue(err.endswith(b"test: stopped\n"), err)
                self.assertEqual(list(self.sandbox.folder.glob("tmp.*")), [])

    def test_says_that_the_toolchain_is_missing(self):
        self.assert_ends(self.check(has_toolchain=False), 1, "0 passed, 1 failed")

    def test_installs_what_the_tests_need_where_it_is_missing(self):
        tools = self.sandbox.tools
        self.sandbox.write("store/python3", f'#!/usr/bin/env bash\nexec {sys.executable} "$@"\n', 0o755)
        for name in ("curl", "wget", "aria2", "gcc", "shellcheck"):
            self.sandbox.write(f"store/{name}", "#!/usr/bin/env bash\n", 0o755)
        for name, text in (("apt-get", FAKE_APT_GET), ("sudo", '#!/usr/bin/env bash\nexec "$@"\n')):
            (tools / name).write_text(text)
            (tools / name).chmod(0o755)
        everything = ["python3", "curl", "wget", "aria2c", "gcc", "shellcheck"]
        for missing in (*([command] for command in everything), everything):
            with self.subTest(missing):
                for command in missing:
                    (tools / command).unlink()
                self.assert_ends(self.check(STORE=str(self.sandbox.top / "store")), 0, "5 passed, 0 failed")
                self.assertEqual(self.sandbox.calls(), ["apt-get update", "apt-get install", "repository: ci"])
                self.assert_ends(self.check(), 0, "5 passed, 0 failed")
                self.assertEqual(self.sandbox.calls(), ["repository: ci"])

    def test_says_in_one_line_what_cannot_be_installed(self):
        tools = self.sandbox.tools
        for command in ("curl", "wget", "aria2c", "gcc", "python3"):
            (tools / command).unlink()
        for there, why in ((), "apt-get"), (("apt-get",), "sudo"):
            if os.geteuid() == 0 and why == "sudo":
                continue
            with self.subTest(why):
                for name in there:
                    (tools / name).symlink_to(shutil.which("true"))
                environment = {"CI_SAYS": "1 passed, 0 failed\n", "CI_STATUS": "0"}
                status, out, err = self.sandbox.run(str(self.sandbox.top / "test"), **environment)
                self.assertEqual((status, out, len(err.splitlines())), (1, "0 passed, 1 failed\n", 1), err)
                for word in ("python3 curl wget aria2c gcc", why):
                    self.assertIn(word, err)

    def test_fails_where_what_the_tests_need_cannot_be_installed(self):
        for name in ("apt-get", "sudo"):
            (self.sandbox.tools / name).symlink_to(shutil.which("true"))
        for command in ("curl", "wget", "aria2c", "gcc", "python3"):
            with self.subTest(command):
                (self.sandbox.tools / command).unlink()
                self.assert_ends(self.check(), 1, "0 passed, 1 failed")
                self.assertEqual(self.sandbox.calls(), [])

    def test_goes_on_without_shellcheck_if_it_cannot_be_installed(self):
        (self.sandbox.tools / "shellcheck").unlink()
        self.assert_ends(self.check(), 0, "5 passed, 0 failed")
        for name in ("apt-get", "sudo"):
            (self.sandbox.tools / name).symlink_to(shutil.which("true"))
        self.assert_ends(self.check(), 0, "5 passed, 0 failed")

    def test_has_its_own_program_tested_whatever_the_variable_names(self):
        self.sandbox.write("tests/run", 'import os\nprint(os.environ.get("FILEHOST_PROGRAM", "its own"))\nprint("1 passed, 0 failed")\n')
        self.assertEqual(self.check(FILEHOST_PROGRAM="another")[1][-3:], ["its own", "1 passed, 0 failed", "4 passed, 0 failed"])

    def test_works_from_any_folder_and_as_the_merge_check(self):
        for command in ("test", ".ci/run"):
            with self.subTest(command):
                self.assert_ends(self.check(command=command, at=self.sandbox.folder), 0, "5 passed, 0 failed")
                self.assertEqual(self.sandbox.calls(), ["repository: ci"])


class Runner(unittest.TestCase):
    def setUp(self):
        self.sandbox = Sandbox("tests/run", "scripts/arguments.py", "scripts/chosen_program.py")
        self.addCleanup(self.sandbox.close)

    def assert_counts(self, body, status, last):
        if body is not None:
            text = f"import unittest\nclass It(unittest.TestCase):\n    def test_first(self): pass\n{body}"
            self.sandbox.write("tests/its/test_it.py", text)
        answer = self.sandbox.run("python3", "tests/run")
        self.assertEqual((answer[0], answer[1].splitlines()[-1]), (status, last))

    def test_counts_what_passed_and_what_did_not(self):
        self.assert_counts("", 0, "1 passed, 0 failed")
        self.assert_counts("    def test_second(self): self.fail()\n", 1, "1 passed, 1 failed")
        self.assert_counts("    def test_second(self): raise OSError\n", 1, "1 passed, 1 failed")

    def test_counts_a_skipped_test_as_failed(self):
        self.assert_counts("    def test_second(self): self.skipTest('later')\n", 1, "1 passed, 1 failed")

    def test_counts_a_file_that_cannot_be_read_as_failed(self):
        self.assert_counts("import no_such_module\n", 1, "0 passed, 1 failed")

    def test_fails_if_there_is_no_test(self):
        self.assert_counts(None, 1, "0 passed, 0 failed")

    def add_three_files(self):
        for name, body in (("one", "pass"), ("two", "self.fail()")):
            text = f"import time, unittest\nclass It(unittest.TestCase):\n    def test_{name}(self):\n        time.sleep(0.2)\n        {body}\n"
            self.sandbox.write(f"tests/{name}s/test_{name}.py", text)
        self.sandbox.write("tests/other/test_three.py", "import no_such_module\n")

    def call(self, *words):
        status, out, _ = self.sandbox.run("python3", "tests/run", *words)
        return status, out.splitlines()

    def test_lists_the_tests_and_runs_none(self):
        self.add_three_files()
        unread = "unittest.loader._FailedTest.test_three"
        self.assertEqual(self.call("--list"), (0, ["test_one.It.test_one", unread, "test_two.It.test_two"]))
        self.assertEqual(self.call("--list", "nothing"), (0, [unread]))

    def test_takes_the_tests_of_one_file_from_its_folder(self):
        self.add_three_files()
        for words in (("--file", "test_two"), ("--file", "test_two.py"), ("-j", "2", "--file", "test_two")):
            with self.subTest(words):
                self.assertEqual(self.call(*words)[1][-1], "0 passed, 1 failed")

    def test_refuses_two_files_of_one_name(self):
        self.add_three_files()
        self.sandbox.write("tests/other/test_one.py", "import unittest\nclass It(unittest.TestCase):\n    def test_one(self): pass\n")
        self.assertNotEqual(self.call()[0], 0)

    def test_runs_several_files_at_once_and_counts_the_same(self):
        self.add_three_files()
        alone, beside = (self.call(*words) for words in ((), ("-j", "3")))
        self.assertEqual((alone[0], alone[1][-1]), (1, "1 passed, 2 failed"))
        self.assertEqual((beside[0], beside[1][-1]), (1, "1 passed, 2 failed"))
        self.assertIn("test_one (test_one.It.test_one) ... ok", beside[1])
        # A file that can't be read belongs to each choice of tests, since nobody knows what it has.
        self.assertEqual(self.call("-j", "2", "test_one")[1][-1], "1 passed, 1 failed")

    def test_counts_a_file_that_ends_its_process_as_failed(self):
        self.add_three_files()
        self.sandbox.write("tests/ones/test_four.py", "import os, unittest\nclass It(unittest.TestCase):\n    def test_four(self): os._exit(0)\n")
        status, lines = self.call("-j", "2")
        self.assertEqual((status, lines[-1]), (1, "1 passed, 3 failed"))
        self.assertIn("test_four ended with status 0 and counted no failure", lines)

    def test_runs_files_alone_that_have_limits_of_time(self):
        """Each begins once all others have ended, though more could run at once."""
        names = sorted(runpy.run_path(str(TOP / "tests/run"))["ALONE"])
        self.assertGreater(len(names), 4)
        for name in names:
            self.assertEqual(len(list(TOP.glob(f"tests/*/{name}.py"))), 1, name)
        # It takes half a second, in which the mark that it is at work is there. Those that run alone find no mark.
        body = "open(MARK, 'x').close()\n        time.sleep(0.5)\n        os.remove(MARK)"
        mark = str(self.sandbox.folder / "at-work")
        text = f"import os, time, unittest\nMARK = {mark!r}\nclass It(unittest.TestCase):\n    def test_it(self):\n        {body}\n"
        for name in ("test_slow", names[0], names[1]):
            self.sandbox.write(f"tests/slow/{name}.py", text)
        self.assertEqual(self.call("-j", "3")[1][-1], "3 passed, 0 failed")

    def test_tells_how_long_each_file_took(self):
        self.add_three_files()
        for words in ((), ("-j", "2")):
            with self.subTest(words):
                _, lines = self.call("--durations", *words)
                told = [line.split() for line in lines if line.endswith(("s  test_one", "s  test_two", "s  test_three"))]
                self.assertEqual({name for *_, name in told}, {"test_one", "test_two", "test_three"})
                seconds = [float(line[0]) for line in told]
                self.assertEqual(seconds, sorted(seconds, reverse=True))
                self.assertGreaterEqual(seconds[1], 0.2)
