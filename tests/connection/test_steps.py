"""Connections in steps, over `host_driver`: streams come in pieces, and each read and each write would have to wait first. They are answered as they are
at once, byte for byte."""

import concurrent.futures
import random
import subprocess
import unittest

from lib.built_crates import BuiltCrate
from lib.changed_streams import BASES, changed_streams
from lib.client import EXAMPLES, SECONDS

CRATE = BuiltCrate("host_driver")
PROGRAMS_AT_ONCE = 4
# How many bytes a write takes.
FEW = (1, 7, 1_000)
MANY = 1_000_000


def answered(lines):
    """What is written for each of these lines."""
    ran = subprocess.run([CRATE.program, "steps"], input="".join(f"{line}\n" for line in lines), check=True, capture_output=True, text=True, timeout=SECONDS)
    return [bytes.fromhex(line) for line in ran.stdout.splitlines()]


def at_once(stream, cuts=()):
    """In pieces, if it is cut."""
    return " ".join([",".join(map(str, sorted(cuts))), stream.hex()]).strip()


def in_steps(stream, cuts, most):
    return f"{','.join(map(str, sorted(cuts)))} {most} {stream.hex()}"


def differing(streams, seed):
    """The streams that are answered otherwise in two pieces, with writes of some length, than at once."""
    draw = random.Random(seed)
    steps = [in_steps(stream, [draw.randrange(len(stream) + 1)], draw.choice((*FEW, MANY))) for stream in streams]
    return [line for line, wanted, got in zip(steps, answered(map(at_once, streams)), answered(steps), strict=True) if wanted != got]


def hear(seed):
    """The changed streams of a seed that are answered otherwise in steps."""
    return differing([stream for stream, _ in changed_streams(seed) if stream], seed)


class Steps(unittest.TestCase):
    """Streams in pieces."""

    @classmethod
    def setUpClass(cls):
        CRATE.build()
        cls.stream = (EXAMPLES / "first-run.http").read_bytes()
        cls.replies = (EXAMPLES / "first-run.replies").read_bytes()

    def assert_answered(self, lines):
        self.assertEqual({line for line, got in zip(lines, answered(lines), strict=True) if got != self.replies}, set())

    def test_a_stream_in_each_two_pieces(self):
        cuts = range(len(self.stream) + 1)
        self.assert_answered([at_once(self.stream), *(in_steps(self.stream, [cut], MANY) for cut in cuts), *(at_once(self.stream, [cut]) for cut in cuts)])

    def test_a_stream_in_three_pieces(self):
        draw = random.Random("three pieces")
        self.assert_answered([in_steps(self.stream, draw.choices(range(len(self.stream) + 1), k=2), MANY) for _ in range(10_000)])

    def test_a_stream_whose_writes_take_few_bytes(self):
        self.assert_answered([in_steps(self.stream, [cut], most) for most in FEW for cut in range(0, len(self.stream) + 1, 7)])

    def test_a_stream_that_comes_byte_by_byte(self):
        self.assert_answered([in_steps(self.stream, range(1, len(self.stream)), most) for most in (*FEW, MANY, "all")])

    def test_streams_that_are_changed(self):
        with concurrent.futures.ProcessPoolExecutor(PROGRAMS_AT_ONCE) as pool:
            differing_lines = [line for lines in pool.map(hear, range(BASES)) for line in lines]
        self.assertEqual(differing_lines, [])
