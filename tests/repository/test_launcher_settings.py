"""What the launcher ./filehost sets for the program that it becomes: memory, descriptors and signals.

The program is a stand-in that tells what it finds. The real one is started so by lib/launched.py.
"""

import resource
import signal
import subprocess
import unittest

from lib.client import HEAP
from lib.sandbox import LAUNCHER, Sandbox

OWN_STATUS = 7


class Set(unittest.TestCase):
    """A small repository whose program is built."""

    def setUp(self):
        self.sandbox = Sandbox(*LAUNCHER)
        self.addCleanup(self.sandbox.close)
        self.launcher = str(self.sandbox.top / "filehost")
        self.sandbox.add_crates("filehost: low\nlow:\n")
        self.assertEqual(self.call()[0], OWN_STATUS)
        self.sandbox.let_time_pass()

    def call(self, *words, **how):
        return self.sandbox.run(self.launcher, *words, **how)

    def start(self, *words, **how):
        pipes = dict.fromkeys(("stdin", "stdout", "stderr"), subprocess.PIPE)
        return subprocess.Popen([self.launcher, *words], env=self.sandbox.environment(), **pipes, **how)

    def test_lets_freed_memory_go_back_to_the_system(self):
        """Unless it is told otherwise."""
        threshold, own = HEAP.values()
        fast, cached = own.split(":")
        self.assertEqual(self.call("heap")[1], f"{threshold} {own}")
        self.assertEqual(self.call("heap", MALLOC_MMAP_THRESHOLD_="131072")[1], f"131072 {own}")
        for given, wanted in (
            ("", own),
            ("glibc.malloc.arena_max=1", f"glibc.malloc.arena_max=1:{own}"),
            ("glibc.malloc.mxfast=64", f"glibc.malloc.mxfast=64:{cached}"),
            ("glibc.malloc.tcache_count=7", f"glibc.malloc.tcache_count=7:{fast}"),
            ("glibc.malloc.tcache_count=7:glibc.malloc.mxfast=64", "glibc.malloc.tcache_count=7:glibc.malloc.mxfast=64"),
            # Another name that only ends or begins as one of these.
            ("x.glibc.malloc.mxfast=1:glibc.malloc.tcache_counts=2", f"x.glibc.malloc.mxfast=1:glibc.malloc.tcache_counts=2:{own}"),
        ):
            with self.subTest(given):
                self.assertEqual(self.call("heap", GLIBC_TUNABLES=given)[1], f"{threshold} {wanted}")

    def test_gives_the_program_as_many_descriptors_as_the_system_allows(self):
        program = self.start("descriptors", preexec_fn=lambda: resource.setrlimit(resource.RLIMIT_NOFILE, (40, 200)))
        self.assertEqual(program.communicate(timeout=60), (b"200 of 200", b""))

    def signals(self, *words, **how):
        """The signals that the program blocks, and those that it ignores, of the three that the launcher speaks of."""
        status, out, err = self.call(*words, "signals", **how)
        self.assertEqual((status, err), (0, ""))
        return [{number for number in (signal.SIGTERM, signal.SIGINT, signal.SIGXFSZ) if int(line, 16) & 1 << (number - 1)} for line in out.splitlines()]

    def test_lets_a_write_past_a_limit_of_file_sizes_fail(self):
        """The signal of such a write, which would end the program, is ignored."""
        for words in ((), ("solo",), ("serve",)):
            self.assertIn(signal.SIGXFSZ, self.signals(*words)[1])

    def test_lets_signals_that_would_end_a_server_wait(self):
        """`serve` sees them, and ends by itself. They still end `solo`."""
        self.assertEqual(self.signals("serve")[0], {signal.SIGTERM, signal.SIGINT})
        for words in ((), ("solo",), ("solo", "serve")):
            self.assertEqual(self.signals(*words)[0], set())

    def test_gives_a_server_its_words_and_its_process(self):
        words = ["serve", "--store", "a=b", "", "*", "two\nlines", "--"]
        status, out, err = self.call(*words, given=b"end")
        self.assertEqual((status, out, err), (OWN_STATUS, "".join(f"<{word}>" for word in words) + f" in {self.sandbox.top}\nend", ""))
        program = self.start("serve", "pid")
        self.assertEqual(program.communicate(timeout=60)[0].decode(), str(program.pid))

    def test_serves_from_a_folder_whose_name_has_an_equals_sign(self):
        """The command that blocks the signals takes such a word for something else."""
        top = self.sandbox.folder / "a=b"
        self.sandbox.top.rename(top)
        self.launcher = str(top / "filehost")
        self.assertEqual(self.signals("serve", at=top)[0], {signal.SIGTERM, signal.SIGINT})
        self.assertEqual(self.call("serve", "c=d", at=top)[1], f"<serve><c=d> in {top}\n")

    def test_serves_where_no_command_can_block_signals(self):
        (self.sandbox.tools / "env").unlink()
        self.assertEqual(self.signals("serve")[0], set())
        self.sandbox.write("../tools/env", "#!/bin/sh\necho 'env: unrecognized option' >&2\nexit 125\n", 0o755)
        self.assertEqual(self.signals("serve")[0], set())
