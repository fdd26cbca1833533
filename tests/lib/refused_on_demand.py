"""Allocations that are refused to a program which goes on, from one moment to another, by a library in C before its allocator (refuse_on_demand.c)."""

import mmap
import struct
import subprocess

from lib.client import HERE, SECONDS

SOURCE = HERE / "refuse_on_demand.c"
COUNT, REFUSED, FIRST, LAST, APART = range(5)
SIZE = 8
# A last place that no program comes to.
FOR_GOOD = (1 << 63) - 1


def built_in(room):
    """The library, built in this folder."""
    library = room / "refuse_on_demand.so"
    if not library.exists():
        subprocess.run(["gcc", "-O1", "-shared", "-fPIC", "-o", library, SOURCE, "-ldl"], check=True, timeout=SECONDS)
    return library


class Refusals:
    """What one program is refused. It is started with this environment."""

    def __init__(self, library, file):
        file.write_bytes(bytes(5 * SIZE))
        with file.open("r+b") as shared:
            self.shared = mmap.mmap(shared.fileno(), 5 * SIZE)
        self.library = library
        self.environment = {"LD_PRELOAD": str(library), "REFUSALS_FILE": str(file)}

    def _read(self, at):
        return struct.unpack_from("=Q", self.shared, at * SIZE)[0]

    def _write(self, at, number):
        struct.pack_into("=Q", self.shared, at * SIZE, number)

    def refuse(self, first, last=None, apart=1):
        """Refuses the allocation at this place, counted from now on, or those from there to the last place, as far apart as is said."""
        self.stop()
        for at, number in ((COUNT, 0), (REFUSED, 0), (LAST, last or first), (APART, apart), (FIRST, first)):
            self._write(at, number)

    def count(self):
        """Begins to count, and refuses none."""
        self.refuse(0)

    def stop(self):
        self._write(FIRST, 0)

    @property
    def counted(self):
        """How many allocations there were since the count began."""
        return self._read(COUNT)

    @property
    def refused(self):
        """How many of them were refused."""
        return self._read(REFUSED)
