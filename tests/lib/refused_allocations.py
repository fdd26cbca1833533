"""Runs of the program in which one allocation is refused, by a library in C before its allocator."""

import os
import pathlib
import subprocess
import tempfile

from lib.client import EXAMPLES, HERE, PROGRAM, SECONDS, Program, content_length, cut_after

SOURCE = HERE / "refuse_allocation.c"
NO_MEMORY = b"filehost: out of memory\n"
GIVEN = (EXAMPLES / "first-run.http").read_bytes()


def pieces(stream):
    """The messages of a stream, one by one."""
    ends = [0, *cut_after(stream, content_length)]
    return [stream[start:end] for start, end in zip(ends, ends[1:])]


class Refusing(Program):
    """Runs of the program with one of its allocations refused."""

    def setUp(self):
        super().setUp()
        folder = tempfile.TemporaryDirectory()
        self.addCleanup(folder.cleanup)
        self.library = pathlib.Path(folder.name) / "refuse_allocation.so"
        subprocess.run(["gcc", "-O1", "-shared", "-fPIC", "-o", self.library, SOURCE, "-ldl"], check=True, timeout=SECONDS)

    def run_refusing(self, place, given=GIVEN):
        """The status, output and words on standard error if this allocation is refused; how many there were."""
        told_in = self.library.with_name("allocations")
        told_in.unlink(missing_ok=True)
        names = {"LD_PRELOAD": str(self.library), "REFUSED_PLACE": str(place), "ALLOCATIONS_FILE": str(told_in)}
        ran = subprocess.run([PROGRAM, *self.words], input=given, capture_output=True, timeout=SECONDS, env=os.environ | names)
        return (ran.returncode, ran.stdout, ran.stderr), int(told_in.read_text())
