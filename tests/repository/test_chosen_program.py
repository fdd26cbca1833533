"""The variable FILEHOST_PROGRAM: tests/run and the scripts of bench/ use the program that it names, and say so once."""

import os
import pathlib
import subprocess
import sys
import tempfile
import unittest

from lib.sandbox import TOP, Sandbox

PROGRAM = """#!/usr/bin/env bash
printf '%s\\n' "$0 $*" >>"${CALLED:-/dev/null}"
printf '%s was called\\n' "${0##*/}"
"""
TEST = r"""
import subprocess, unittest
from chosen_program import PROGRAM
class It(unittest.TestCase):
    def test_it(self): print("\n" + subprocess.run([PROGRAM, "solo"], cwd="/", capture_output=True, text=True).stdout)
"""
# They start the program, and have a word for it.
MEASURING = sorted(str(file.relative_to(TOP)) for file in (TOP / "bench").iterdir() if file.is_file() and "add_program(" in file.read_text())


class Runner(unittest.TestCase):
    """tests/run over two files of one test each, which print what the program says."""

    def setUp(self):
        self.sandbox = Sandbox("tests/run", "scripts/arguments.py", "scripts/chosen_program.py")
        self.addCleanup(self.sandbox.close)
        for name in ("one", "two"):
            self.sandbox.write(f"tests/{name}s/test_{name}.py", TEST)
        self.sandbox.write("crates/filehost/out/filehost", PROGRAM, 0o755)
        self.other = self.sandbox.write("programs/other", PROGRAM, 0o755)

    def said(self, *words, **environment):
        """The lines that name a program, and the last one."""
        status, out, _ = self.sandbox.run("python3", "tests/run", *words, **environment)
        self.assertEqual(status, 0, out)
        lines = out.splitlines()
        return [*(line for line in lines if "program" in line or line.endswith("was called")), lines[-1]]

    def test_uses_the_built_program_and_says_nothing(self):
        for words in ((), ("-j", "2")):
            with self.subTest(words):
                self.assertEqual(self.said(*words), ["filehost was called"] * 2 + ["2 passed, 0 failed"])

    def test_uses_the_named_program_and_says_so_once(self):
        told = f"tests/run: the program is {self.other} (FILEHOST_PROGRAM)"
        for words in ((), ("-j", "2")):
            for named in (str(self.other), "programs/other"):
                with self.subTest(words=words, named=named):
                    self.assertEqual(self.said(*words, FILEHOST_PROGRAM=named), [told, "other was called", "other was called", "2 passed, 0 failed"])

    def test_says_nothing_in_a_list(self):
        out = self.sandbox.run("python3", "tests/run", "--list", FILEHOST_PROGRAM="programs/other")[1]
        self.assertEqual(out.splitlines(), ["test_one.It.test_it", "test_two.It.test_it"])


class Scripts(unittest.TestCase):
    """The scripts themselves, and what they share."""

    def setUp(self):
        room = tempfile.TemporaryDirectory(prefix="filehost-test-")
        self.addCleanup(room.cleanup)
        self.room = pathlib.Path(room.name).resolve()
        self.called = self.room / "called"
        self.other = self.add("other", PROGRAM, 0o755)

    def add(self, name, text, mode):
        file = self.room / name
        file.write_text(text)
        file.chmod(mode)
        return file

    def run_script(self, *command, **environment):
        how = {"cwd": self.room, "env": os.environ | {"CALLED": str(self.called)} | environment}
        ran = subprocess.run([*command], capture_output=True, text=True, timeout=60, **how)
        return ran.returncode, ran.stdout, ran.stderr

    def test_refuse_what_is_no_executable_file(self):
        self.assertGreater(len(MEASURING), 5)
        unfit = {str(self.room): self.room, "nothing": self.room / "nothing", "text": self.add("text", "no program", 0o644), "": self.room}
        for script in ("tests/run", "scripts/load-in-browser", *MEASURING):
            words = ("--file", "test_chosen_program", "no_such_test") if script == "tests/run" else ()
            for named, path in unfit.items():
                with self.subTest(script=script, named=named):
                    told = f"{script.removeprefix('scripts/')}: FILEHOST_PROGRAM names no executable file: {path}\n"
                    self.assertEqual(self.run_script(TOP / script, *words, FILEHOST_PROGRAM=named), (2, "", told))

    def test_measure_the_named_program_and_say_so_once(self):
        """It answers wrongly, which ends them."""
        for script in ("bench/endure", "bench/endure-serve"):
            with self.subTest(script):
                status, out, errors = self.run_script(TOP / script, "--minutes", "0.01", "--folder", script.partition("/")[2], FILEHOST_PROGRAM="other")
                self.assertEqual((status, out.splitlines()[0]), (1, f"{script}: the program is {self.other} (FILEHOST_PROGRAM)"), errors)
                self.assertEqual((out + errors).count("FILEHOST_PROGRAM"), 1)
                self.assertTrue(self.called.read_text().startswith(f"{self.other} s"))
                self.called.unlink()

    def test_take_the_program_of_their_word_and_say_nothing(self):
        words = ("--minutes", "0.01", "--folder", "store", "--program", self.other)
        status, out, errors = self.run_script(TOP / "bench/endure", *words, FILEHOST_PROGRAM="nothing")
        self.assertEqual((status, (out + errors).count("FILEHOST_PROGRAM")), (1, 0), errors)
        self.assertTrue(self.called.read_text().startswith(f"{self.other} solo"))

    def test_have_one_program_with_the_tests(self):
        told = "from lib.client import PROGRAM, TOP, run; print(run('one', 'word')[1].decode(), PROGRAM, PROGRAM == TOP / 'crates/filehost/out/filehost')"
        command = [sys.executable, "-c", f"import sys; sys.path.insert(0, {str(TOP / 'tests')!r}); sys.dont_write_bytecode = True; {told}"]
        self.assertEqual(self.run_script(*command, FILEHOST_PROGRAM="other"), (0, f"other was called\n {self.other} False\n", ""))
        self.assertEqual(self.called.read_text(), f"{self.other} one word\n")
