"""What filehost.service forbids, against what the program does as the unit starts it: each call of the system, memory that is written and run, and sockets."""

import contextlib
import http.client
import os
import pathlib
import re
import signal
import subprocess
import tempfile
import time
import unittest

from stand import HOST, SECONDS, TOP, Host, started_words
from lib.served import ask, publish

UNIT = (TOP / "operate/filehost.service").read_text()


def calls_of(name):
    """The calls of a group of systemd's, and of those groups that it has."""
    told = subprocess.run(["systemd-analyze", "syscall-filter", name], capture_output=True, text=True, check=True, timeout=SECONDS).stdout
    lines = [line.strip() for line in told.splitlines()[1:]]
    names = [line for line in lines if line and not line.startswith("#")]
    return {call for line in names for call in (calls_of(line) if line.startswith("@") else {line})}


class Unit(unittest.TestCase):
    def traced(self, room):
        """The calls that the program makes, from its start over deploys and reads at both nodes to its end by SIGTERM."""
        with contextlib.ExitStack() as stack:
            host = Host(stack, room)
            words = ["strace", "-f", "-qq", "-o", room / "trace", *started_words(host.launcher, host.port, host.store)]
            started = subprocess.Popen(words, stdout=subprocess.PIPE)
            stack.callback(started.stdout.close)
            for node in range(2):
                self.assertIn(f"node {node} listening", started.stdout.readline().decode())
            first, second = (stack.enter_context(contextlib.closing(http.client.HTTPConnection(HOST, host.port + node))) for node in range(2))
            content = os.urandom(300_000)
            publish(first, {"/a.bin": content, "/b.txt": b"small"})
            self.assertEqual(ask(second, "GET", "/s/one/a.bin"), (200, content))
            ask(second, "POST", "/api/v1/sites/one/undo", '{"change":2}')
            # Each second the program looks through its connections.
            time.sleep(1.5)
            children = pathlib.Path(f"/proc/{started.pid}/task/{started.pid}/children").read_text().split()
            os.kill(int(children[0]), signal.SIGTERM)
            self.assertEqual(started.wait(SECONDS), 0)
        return (room / "trace").read_text(errors="replace")

    def test_allows_what_the_program_does(self):
        with tempfile.TemporaryDirectory() as folder:
            trace = self.traced(pathlib.Path(folder))
        allowed = set()
        for names in re.findall(r"(?m)^SystemCallFilter=(.*)$", UNIT):
            named = {call for name in names.lstrip("~").split() for call in calls_of(name)}
            allowed = allowed - named if names.startswith("~") else allowed | named
        used = set(re.findall(r"(?m)^\d+ +(?:<\.\.\. )?(\w+)(?:\(| resumed)", trace))
        print(f"\n{len(used)} calls are used, and {len(allowed)} allowed", flush=True)
        self.assertGreater(len(used), 40)
        self.assertEqual(used - allowed, set())
        self.assertEqual(re.findall(r"(?:mmap|mprotect)\(.*PROT_WRITE\|PROT_EXEC", trace), [])
        families = set(re.search(r"(?m)^RestrictAddressFamilies=(.*)$", UNIT)[1].split())
        self.assertLessEqual(set(re.findall(r"\bsocket\((\w+)", trace)), families)


if __name__ == "__main__":
    unittest.main()
