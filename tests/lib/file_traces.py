"""Which calls change, sync or rename files in a program, in their order, as a library in C tells them (trace_files.c)."""

import subprocess

from lib.client import HERE, SECONDS

SOURCE = HERE / "trace_files.c"


class Traces:
    """The traces of programs whose files are in a folder. The library and what it tells are in another one."""

    def __init__(self, room, folder):
        self.folder = folder
        self.library = room / "trace_files.so"
        self.told_in = room / "calls"
        subprocess.run(["gcc", "-O1", "-shared", "-fPIC", "-o", self.library, SOURCE, "-ldl"], check=True, timeout=SECONDS)

    def of(self, run, stop=0):
        """The calls that were told while `run` ran a program with this environment. Each file has its name in the folder alone. With a number the program is
        killed in place of the call of that number."""
        self.told_in.unlink(missing_ok=True)
        run({"LD_PRELOAD": str(self.library), "TRACE_FILE": str(self.told_in), "STOP_AT": str(stop)})
        told = self.told_in.read_text()
        return told.replace(f" {self.folder}/", " ").replace(f" {self.folder}\n", " folder\n").splitlines()
