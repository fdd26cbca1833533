"""What a GET of a small file takes of `filehost serve`: instructions, calls of the system, and waits for locks.

Each is counted in two runs that differ in the number of requests alone, so what a start takes isn't in it. A connection has 99 requests, of which each follows
the reply to the one before.
"""

import os
import pathlib
import re
import shutil
import signal
import sys
import threading

from lib.client import PATIENCE, PROGRAM
from lib.served import FILE, HOST, Served, publish

CONTENT = b"x" * 64
FEW, MANY = 200, 1_400
# How many requests a connection has at most.
MOST = 99
# What a request takes, as it was counted, and by how much it may be more.
AGAIN, ANEW, CALLS = 7_460, 22_630, 3.1
MARGIN = 1.1
# How often a request may wait for a lock, with clients of all workers at once.
WAITS, CLIENTS = 0.1, 8


def is_there(tool):
    """Whether a tool is installed. Where it isn't, the test says so and passes."""
    found = shutil.which(tool) is not None
    if not found:
        print(f"{tool} isn't installed: nothing was counted", file=sys.stderr)
    return found


class Costs(Served):
    def run_under(self, tool, *words, workers):
        """Starts a program under a tool, which writes what it counts into a file."""
        counted = self.folder() / "counted"
        self.command = (tool, *(word.format(counted) for word in words), PROGRAM)
        self.started = self.serve("--workers", str(workers))
        publish(self.client(), {"/a.txt": CONTENT})
        return counted

    def said_by(self, counted):
        """Ends the program, and gives what was counted. A tool may have started it as another process."""
        others = pathlib.Path(f"/proc/{self.started.pid}/task/{self.started.pid}/children").read_text().split()
        os.kill(int((others or [self.started.pid])[0]), signal.SIGTERM)
        self.started.wait(PATIENCE)
        self.end(self.started)
        return counted.read_text()

    def ask_often(self, count, fields=""):
        """Makes so many requests, with these fields, in which {} is the number of the request."""
        for first in range(0, count, MOST):
            plug = self.plug()
            for number in range(first, min(first + MOST, count)):
                plug.sendall(f"GET {FILE} HTTP/1.1\r\nHost: {HOST}\r\n{fields.format(number)}\r\n".encode())
                came = b""
                while not came.endswith(b"\r\n\r\n" + CONTENT):
                    came += (more := plug.recv(65_536))
                    self.assertTrue(more, came)
            plug.close()

    def instructions(self, count, fields):
        counted = self.run_under("valgrind", "--tool=callgrind", "--callgrind-out-file={}", workers=1)
        self.ask_often(count, fields)
        return int(re.search(r"(?m)^(?:totals|summary): (\d+)", self.said_by(counted))[1])

    def calls(self, work, workers):
        """How often each call of the system was made."""
        counted = self.run_under("strace", "-f", "-c", "-o", "{}", workers=workers)
        work()
        # A row has the share of time, the seconds, those of a call, the calls, the errors if there are any, and the name.
        rows = re.findall(r"(?m)^ *[\d.]+ +[\d.]+ +\d+ +(\d+) +(?:\d+ +)?(\w+)$", self.said_by(counted))
        return {name: int(calls) for calls, name in rows if name != "total"}

    def assert_takes(self, wanted, few, many):
        took = (many - few) / (MANY - FEW)
        self.assertLess(took, wanted * MARGIN)
        # Otherwise something else was counted.
        self.assertGreater(took, wanted / 2)

    def test_instructions(self):
        """Of a head that came before, whose reply its worker kept, and of one that never came."""
        if is_there("valgrind"):
            for wanted, fields in ((AGAIN, ""), (ANEW, "X-Number: {}\r\n")):
                with self.subTest(fields):
                    self.assert_takes(wanted, self.instructions(FEW, fields), self.instructions(MANY, fields))

    def test_calls_of_the_system(self):
        """A wait, a read and a write, and what a connection takes."""
        if is_there("strace"):
            few, many = (self.calls(lambda: self.ask_often(count), 1) for count in (FEW, MANY))
            self.assert_takes(CALLS, sum(few.values()), sum(many.values()))

    def test_waits_for_locks(self):
        """Workers that answer at once hardly wait for each other."""
        if not is_there("strace"):
            return

        def ask_at_once():
            threads = [threading.Thread(target=self.ask_often, args=(MANY // CLIENTS,)) for _ in range(CLIENTS)]
            for thread in threads:
                thread.start()
            for thread in threads:
                thread.join()

        waits = self.calls(ask_at_once, 2).get("futex", 0) - self.calls(lambda: None, 2).get("futex", 0)
        self.assertLess(waits / MANY, WAITS)
