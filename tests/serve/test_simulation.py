"""Simulated nodes, over `worker_driver`: in a million drawn events nothing is seen that docs/WIRE.md excludes, and a run tells what it came to."""

import re
import subprocess
import unittest

from lib.built_crates import BuiltCrate

CRATE = BuiltCrate("worker_driver")
# Runs of 300 events, in two programs at once; their seeds begin after those of ./test.
FIRST = 10_001
RUNS = 3_334
EVENTS = 300
PROGRAMS_AT_ONCE = 2
SECONDS = 900


def began(first, runs):
    """A program that makes these runs."""
    program = subprocess.Popen([CRATE.program], stdin=subprocess.PIPE, stdout=subprocess.PIPE, text=True)
    program.stdin.write(f"{first} {runs} {EVENTS} tell\n")
    program.stdin.close()
    return program


class Simulation(unittest.TestCase):
    """Nodes over drawn sockets."""

    @classmethod
    def setUpClass(cls):
        CRATE.build()

    def test_a_million_events_show_no_fault(self):
        runs = RUNS // PROGRAMS_AT_ONCE
        firsts = [FIRST + runs * number for number in range(PROGRAMS_AT_ONCE)]
        programs = [began(first, runs) for first in firsts]
        for first, program in zip(firsts, programs, strict=True):
            with program:
                said = program.stdout.read()
                self.assertEqual(program.wait(timeout=SECONDS), 0)
            self.assertIn(f"{runs} of {runs} runs of {EVENTS} events, from seed {first} on, show no fault\n", said)
            # Each thing happens that may.
            self.assertEqual([number for number in re.findall(r"[a-z] (\d+)(?:,|$)", said, re.MULTILINE) if int(number) == 0], [])
