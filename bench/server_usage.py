"""What the processes of a server use: the time of processors, and memory."""

import contextlib
import os
import pathlib
import re

from tables import check

TICKS = os.sysconf("SC_CLK_TCK")


def processes_of(server):
    """The folders in /proc of a server's processes, which are those of the session that its command leads; and of each the fields of its `stat`, from the
    state on (proc(5))."""
    found = {}
    for folder in pathlib.Path("/proc").glob("[1-9]*"):
        # A process may end meanwhile.
        with contextlib.suppress(OSError):
            fields = (folder / "stat").read_text().rpartition(")")[2].split()
            if int(fields[3]) == server.process.pid:
                found[folder] = fields
    check(found, f"{server.title} has no process")
    return found


def processor_seconds(server):
    """The time that a server's processes have taken in user and in system mode, with that of their children that have ended."""
    return sum(int(ticks) for fields in processes_of(server).values() for ticks in fields[11:15]) / TICKS


def memory_of_all(server):
    """The bytes that a server's processes have in memory. What they share counts once (Pss)."""
    told = ((folder / "smaps_rollup").read_text() for folder in processes_of(server))
    return 1024 * sum(int(re.search(r"(?m)^Pss: +(\d+) kB$", text)[1]) for text in told)
