"""How long the machine, and not the program, held up what a client measures.

A limit of time is for what the program does. On a busy machine its threads and those of a client are ready to go on and wait for a processor: the system
counts that time for each thread, as the second number of its file `schedstat`. A machine that stands still for a while lets no sleep end in time. And if it
is itself a guest of another one, that one may take a processor away from a thread that runs: the system counts that for each processor (`/proc/stat`).
"""

import contextlib
import functools
import os
import threading
import time

# How long a sleep is that should end in time, in seconds.
SLEEP = 0.01


class Sleeper:
    """Sleeps again and again, and counts how much longer that took than it should have."""

    def __init__(self):
        self.ended, self.due = 0, time.monotonic() + SLEEP
        threading.Thread(target=self.go, daemon=True).start()

    def go(self):
        while True:
            self.due = time.monotonic() + SLEEP
            time.sleep(SLEEP)
            self.ended += time.monotonic() - self.due

    def overrun(self):
        """That of the sleeps that have ended, and of the one that should have."""
        return self.ended + max(0, time.monotonic() - self.due)


def stolen():
    """How long each processor was taken away by the machine beneath this one, in seconds."""
    with open("/proc/stat", encoding="ascii") as file:
        rows = [line.split() for line in file]
    return {name: int(numbers[7]) / os.sysconf("SC_CLK_TCK") for name, *numbers in rows if name.startswith("cpu") and name != "cpu"}


def most_since(earlier, now):
    """The greatest growth of any of these counts. One that wasn't there counts from nothing."""
    return max((count - earlier.get(name, 0) for name, count in now.items()), default=0)


# The one of this process.
sleeper = functools.cache(Sleeper)


def waits(pid):
    """How long each thread of a process has waited for a processor, in seconds. It is left out if it has ended, or the system doesn't tell."""
    found = {}
    with contextlib.suppress(OSError):
        for thread in os.listdir(f"/proc/{pid}/task"):
            with contextlib.suppress(OSError), open(f"/proc/{pid}/task/{thread}/schedstat", encoding="ascii") as file:
                found[thread] = int(file.read().split()[1]) / 1e9
    return found


class Stalls:
    """Watches a program and this process."""

    def __init__(self, pid):
        self.processes = (pid, "self")
        sleeper()

    def mark(self):
        """What `since` is to count from."""
        return sleeper().overrun(), [stolen(), *(waits(process) for process in self.processes)]

    def since(self, mark):
        """How many seconds were lost since then: by the processor and by the thread of the program that lost most, by the one here, and by sleeps."""
        (before, earlier), (overrun, later) = mark, self.mark()
        return overrun - before + sum(map(most_since, earlier, later))
