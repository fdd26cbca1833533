"""A program that serves as ./filehost starts it: with the signals, the descriptors and the memory that the launcher sets."""

import resource

from lib.client import PROGRAM
from lib.sandbox import LAUNCHER, Sandbox
from lib.served import Served


def limited_to(descriptors):
    """Gives a program so many descriptors, which the launcher can't raise."""
    return {"preexec_fn": lambda: resource.setrlimit(resource.RLIMIT_NOFILE, (descriptors, descriptors))}


class Launched(Served):
    """Tests of the program as the launcher starts it. It is the launcher of a small repository, in which the program that is tested is the one that was built;
    so this goes for any program that FILEHOST_PROGRAM names."""

    # The launcher adds it.
    heap = {}

    @classmethod
    def setUpClass(cls):
        super().setUpClass()
        sandbox = Sandbox(*LAUNCHER)
        cls.addClassCleanup(sandbox.close)
        sandbox.add_crates("filehost: low\nlow:\n")
        sandbox.let_time_pass()
        sandbox.put_program(PROGRAM)
        cls.command = (str(sandbox.top / "filehost"),)
