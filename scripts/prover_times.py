"""What processes of the prover take: seconds of a processor and memory, by crate and kind of work, as seen in /proc."""

import collections
import os
import pathlib
import tempfile

TICKS = os.sysconf("SC_CLK_TCK")


def read(process, name):
    try:
        return pathlib.Path("/proc", process, name).read_bytes()
    except OSError:
        return b""


class Looks:
    """What was seen of the processes below one of them. What a process takes after the last look at it isn't seen.

    A crate's work is of a kind: "code", "tests" or "edits". Other work is of the crate None and the kind None.
    """

    def __init__(self, root):
        self.known = {str(root): (None, None)}
        self.seconds = {}
        self.memory = collections.Counter()
        # The crates and kinds of work that were under way at the last look.
        self.running = set()

    def look(self):
        parents = {}
        for process in filter(str.isdigit, os.listdir("/proc")):
            stat = read(process, "stat").rpartition(b") ")[2].split()
            if stat:
                parents[process] = stat[1].decode()
                if process in self.known:
                    self.seconds[process] = (int(stat[11]) + int(stat[12])) / TICKS
        for process in sorted(parents, key=int):
            if parents[process] in self.known:
                # A process that has only just begun may still become another program.
                self.known[process] = self.work_of(process) or self.known.get(process) or self.known[parents[process]]
        self.running = {self.known[process] for process in parents if process in self.known} - {(None, None)}

    def work_of(self, process):
        """The crate and the kind of work of a call of the prover."""
        words = read(process, "cmdline").decode(errors="replace").split("\0")
        if "--crate-name" not in words:
            return None
        crate = words[words.index("--crate-name") + 1]
        size = [line.split()[1] for line in read(process, "status").decode().splitlines() if line.startswith("VmHWM:")]
        self.memory[crate] = max(self.memory[crate], *map(int, size), 0)
        try:
            is_edit = os.readlink(f"/proc/{process}/cwd").startswith(f"{tempfile.gettempdir()}/rt-edit-")
        except OSError:
            return None
        return crate, "edits" if is_edit else "tests" if "--test" in words else "code"

    def took(self):
        """The seconds of a processor by crate and kind."""
        sums = collections.Counter()
        for process, seconds in self.seconds.items():
            sums[self.known[process]] += seconds
        return sums
