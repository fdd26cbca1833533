"""Streams that are changed by chance: requests before the change are answered as without it, and the program ends well.

The replies are those of the plain model.
"""

import collections
import concurrent.futures
import itertools
import os
import re

from lib.changed_streams import BASES, CHANGES, changed_streams, exchanges
from lib.client import Program, content_length, run
from lib.wire import INTERIM

PROGRAMS_AT_ONCE = 4

HEAD = re.compile(rb"HTTP/1\.1 [1-5][0-9]{2} [A-Z][A-Za-z ]+\r\n(?:[A-Z][A-Za-z-]+: [^\r\n]+\r\n)*\r\n")


# What is answered.


def are_replies(rest, may_lack_bodies):
    """Whether these are whole replies, or heads alone to HEAD, with interim replies, and no reply after one that closes."""
    while rest:
        head = HEAD.match(rest)
        if head is None:
            return False
        rest, length = rest[head.end():], content_length(head[0])
        if not (may_lack_bodies and (not rest or rest.startswith(b"HTTP/1.1 "))):
            if len(rest) < length:
                return False
            rest = rest[length:]
        if b"\r\nConnection: close\r\n" in head[0] and rest:
            return False
    return True


def hear(seed):
    """Changes the stream of a seed again and again: what was met, how often, and the first fault if there is one."""
    talk, tally = exchanges(seed), collections.Counter()
    stream = b"".join(asked for asked, _ in talk)
    ends = list(itertools.accumulate(len(asked) for asked, _ in talk))
    for given, names in changed_streams(seed):
        same = len(os.path.commonprefix([stream, given]))
        front = b"".join(wanted for end, (_, wanted) in zip(ends, talk) if end <= same)
        status, out, errors = run("solo", given=given)
        rest = out[len(front):]
        if (status, errors) != (0, b"") or not out.startswith(front) or not are_replies(rest, b"HEAD" in given):
            return tally, f"seed {seed}, {names}: {given[:5_000]}\nwanted:\n{front}\ngot:\n{status}, {out}, {errors}"
        tally.update(names)
        tally.update(name.decode() for name in re.findall(rb'\{"error":"(\w+)"\}', rest))
        tally["requests before the change"] += sum(end <= same for end in ends)
        tally["interim replies before the change"] += front.count(INTERIM)
    return tally, None


class Hostile(Program):
    """Changes of streams. Each is sent to a new program."""

    faults = ("BadHead", "LengthBad", "CodingRefused", "BodyTooLarge", "HeadTooLarge")

    def assert_hears(self, seeds, least):
        """All goes well with these seeds, and each of these was met at least so often."""
        with concurrent.futures.ProcessPoolExecutor(PROGRAMS_AT_ONCE) as pool:
            tallies, faults = zip(*pool.map(hear, seeds))
        for fault in filter(None, faults):
            self.fail(fault)
        tally = sum(tallies, collections.Counter())
        rare = {name: tally[name] for name, number in least.items() if tally[name] < number}
        self.assertEqual(rare, {}, f"met in all: {sorted(tally.items())}")

    def test_streams_are_answered_up_to_their_change(self):
        self.assert_hears(range(0, BASES, 2), {
            **dict.fromkeys((change.__name__ for change in CHANGES), 500), **dict.fromkeys(self.faults, 50),
            "requests before the change": 10_000,
        })

    def test_streams_are_answered_up_to_their_change_where_interim_replies_are_expected(self):
        self.assert_hears(range(1, BASES, 2), {
            **dict.fromkeys((change.__name__ for change in CHANGES), 500), **dict.fromkeys(self.faults, 50),
            "requests before the change": 10_000, "interim replies before the change": 5_000,
        })
