"""scripts/quick-build, over a toolchain that is made up: its module is a shell script, and a program is that script without the calls of checks."""

import contextlib
import os
import pathlib
import shutil
import signal
import subprocess
import time
import unittest

from lib.sandbox import LAUNCHER, Sandbox

# It calls the clang next to it as `rt try` does, with the module in the folder that it works in.
RT = """#!/usr/bin/env bash
crate=$PWD
mkdir -p "$TMPDIR/rt-try"
cat src/main.rt >"$TMPDIR/rt-try/module.bc"
cd "$TMPDIR/rt-try"
printf '%s\\n' "$crate: $*" >>"$CALLS"
if [[ ${HELD:-} == rt ]]; then
  echo $$ >"$CALLS.held"
  sleep 50
fi
if grep broken module.bc; then
  exit 2
fi
exec "${0%/bin/*}/toolchain/bin/clang" -fsanitize=address module.bc
"""
# What it compiles is the word before -o.
CLANG = """#!/usr/bin/env bash
[[ $* != *fsanitize* ]] || { echo "the module was given to the toolchain's own clang"; exit 3; }
if [[ ${HELD:-} == clang ]]; then
  echo $$ >"$CALLS.held"
  sleep 50
fi
while [[ $2 != -o ]]; do shift; done
cp "$1" "$3"
"""
LINK = """#!/usr/bin/env bash
while [[ $1 != -o ]]; do shift; done
cat "$3" >"$2"
chmod +x "$2"
"""
MODULE = """#!/usr/bin/env bash
  call void @llvm.trap() ; ends the program
  call void @"rattle-llvm-checks::index"(i64 1)
[[ $1 == solo ]] || echo "an unproved program"
[[ -z ${CALLS:-} ]] || exit "${PROGRAM_STATUS:-0}"
attributes() { :; }
"""


class QuickBuild(unittest.TestCase):
    def setUp(self):
        self.sandbox = Sandbox("scripts/quick-build", *LAUNCHER)
        self.addCleanup(self.sandbox.close)
        (self.sandbox.tools / "ln").symlink_to(shutil.which("ln"))
        self.out = self.sandbox.top / "crates/filehost/out"
        self.program = self.out / "filehost-unproved"
        self.log = self.out / "quick-build.log"
        self.room = self.sandbox.folder / "room"
        self.room.mkdir()
        self.sandbox.add_crates("filehost:\n")
        self.sandbox.write("crates/filehost/src/main.rt", MODULE)

    def use_toolchain(self):
        """Puts the made-up toolchain in the place of the other one."""
        kit = self.sandbox.top.parent / "kit"
        for name, text in (("bin/rt", RT), ("bin/rtlib.py", ""), ("bin/rattle-link", LINK), ("toolchain/bin/clang", CLANG)):
            (kit / name).parent.mkdir(parents=True, exist_ok=True)
            (kit / name).write_text(text)
            (kit / name).chmod(0o755)
        found = self.sandbox.folder / "toolchain/rt"
        found.unlink()
        found.symlink_to(kit / "bin/rt")

    def environment(self, **more):
        return {"TMPDIR": str(self.room), **more}

    def build(self, *words, **environment):
        """Its status and what it wrote. It leaves nothing in the folder for temporary files."""
        answer = self.sandbox.run(str(self.sandbox.top / "scripts/quick-build"), *words, at=self.sandbox.folder, **self.environment(**environment))
        self.assertEqual(list(self.room.iterdir()), [])
        return answer

    def assert_refuses(self, told, *words):
        status, out, errors = self.build(*words)
        self.assertEqual((status, out, len(errors.splitlines())), (2, "", 1), errors)
        self.assertIn(told, errors)

    def assert_fails(self, told, **environment):
        """In one line, and what an earlier call has built stays."""
        self.sandbox.write("crates/filehost/out/filehost-unproved", "an earlier one")
        self.assertEqual(self.build(**environment), (1, "", f"quick-build: {told}: see {self.log}\n"))
        self.assertEqual(self.program.read_text(), "an earlier one")

    def test_builds_a_program_without_checks(self):
        self.use_toolchain()
        for words, program in (((), self.program), (("some folder/other",), self.sandbox.folder / "some folder/other")):
            with self.subTest(words):
                status, out, errors = self.build(*words)
                self.assertEqual((status, errors), (0, ""), self.log.read_text() if self.log.exists() else errors)
                self.assertRegex(out, rf"\Aquick-build: {program} is built in \d+ s, and nothing of it is proved\n\Z")
                self.assertEqual(subprocess.run([program], capture_output=True, text=True, timeout=60).stdout, "an unproved program\n")
                self.assertEqual(self.sandbox.calls(), [f"{self.sandbox.top}/crates/filehost: try -- --version"])

    def test_takes_one_word_that_is_the_place_of_an_unproved_program(self):
        self.use_toolchain()
        top = self.sandbox.top
        for words, told in (
            (("one", "two"), "one word"), (("",), "''"), (("--flag",), "--flag"), ((str(self.room),), "is a folder"),
            ((str(self.out / "filehost"),), "proved"), ((str(self.out / "../out/filehost"),), "proved"), ((str(top / "dist/filehost"),), "proved"),
            ((str(top / "dist/x86_64/other"),), "proved"),
        ):
            with self.subTest(words):
                self.assert_refuses(told, *words)
        self.assertEqual((self.sandbox.calls(), self.out.exists()), ([], False))

    def test_says_where_it_is_told_why_code_does_not_compile(self):
        self.use_toolchain()
        self.sandbox.write("crates/filehost/src/main.rt", "a broken line\n")
        self.assert_fails("the code doesn't compile")
        self.assertIn("a broken line", self.log.read_text())

    def test_leaves_no_program_that_does_not_run(self):
        self.use_toolchain()
        self.assert_fails("no program can be made of what was compiled", PROGRAM_STATUS="3")

    def test_says_that_the_toolchain_is_missing(self):
        (self.sandbox.folder / "toolchain/rt").unlink()
        status, out, errors = self.build()
        self.assertEqual((status, out, len(errors.splitlines())), (1, "", 1), errors)
        self.assertIn("no command rt", errors)

    def assert_ends(self, process):
        """Whoever takes it over when its parent has ended may let it wait before it is gone."""
        until = time.monotonic() + 20
        with contextlib.suppress(FileNotFoundError, ProcessLookupError):
            while ") Z " not in pathlib.Path(f"/proc/{process}/stat").read_text():
                self.assertLess(time.monotonic(), until, "it goes on")
                time.sleep(0.01)

    def test_ends_at_once_with_the_toolchain_where_it_is_stopped(self):
        self.use_toolchain()
        held = self.sandbox.folder / "calls.held"
        for number, name in ((signal.SIGINT, "rt"), (signal.SIGTERM, "rt"), (signal.SIGINT, "clang"), (signal.SIGTERM, "clang")):
            with self.subTest(number=number, name=name):
                held.write_text("")
                how = {"stdin": subprocess.DEVNULL, "stdout": subprocess.PIPE, "stderr": subprocess.PIPE, "start_new_session": True}
                how["preexec_fn"] = lambda: signal.signal(signal.SIGINT, signal.SIG_DFL)
                environment = self.sandbox.environment(**self.environment(HELD=name))
                build = subprocess.Popen([str(self.sandbox.top / "scripts/quick-build")], env=environment, **how)
                while build.poll() is None and not held.read_text():
                    time.sleep(0.01)
                os.kill(build.pid, number)
                out, errors = build.communicate(timeout=40)
                self.assert_ends(int(held.read_text()))
                self.assertEqual((build.returncode, out, errors, list(self.room.iterdir()), self.program.exists()), (130, b"", b"", [], False))

    def test_is_no_build_for_the_launcher(self):
        self.sandbox.write("crates/filehost/out/filehost-unproved", "#!/usr/bin/env bash\necho unproved\n", 0o755)
        status, out, _ = self.sandbox.run(str(self.sandbox.top / "filehost"), "word")
        self.assertEqual((status, out.partition(" ")[0], self.sandbox.calls()), (7, "<word>", ["build: ci filehost"]))
