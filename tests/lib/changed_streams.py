"""Streams of requests that are changed by chance."""

import random
import re

from lib.client import closing, request
from lib.generated_histories import Generator, Run
from lib.wire import END, INTERIM, expecting, in_old_version

BASES = 100
STREAMS_OF_A_BASE = 100

LENGTH = re.compile(rb"Content-Length: ([0-9]+)")


# Exchanges of a request that is served, and its reply.


def exchanges(seed):
    """Those of odd seeds are in both versions, and some expect interim replies."""
    made, draw = Run(), random.Random(seed)
    made.ask(Generator(seed, made.model).requests(draw.randrange(4, 24)))
    parts = [request(asked.method, asked.target, *asked.fields, body=asked.body) for asked in made.requests]
    talk = list(zip(parts, made.wanted))
    if seed % 2:
        *others, (asked, wanted) = talk
        talk = [with_expectation(*exchange, draw) for exchange in others]
        talk.append((in_old_version(expecting(asked)), closing(wanted)))
    return [(in_some_form(asked, draw), wanted) for asked, wanted in talk]


def with_expectation(asked, wanted, draw):
    """Mostly the exchange with an interim reply, in which a length is told."""
    if draw.random() < 0.3:
        return asked, wanted
    return expecting(asked), INTERIM * bool(LENGTH.search(asked)) + wanted


def in_some_form(asked, draw):
    """The request, perhaps in other words that say the same."""
    head, end, body = asked.partition(END)
    return draw.choice([
        asked, b"\r\n\n" + asked, (head + end).replace(b"\r\n", b"\n") + body,
        head.replace(b"\r\n", b"\r\nHost: x\r\nAccept: */*\r\n", 1) + end + body,
    ])


# Changes of a stream, which has a byte at least. The other stream is one of other requests.


def flip_bits(stream, other, draw):
    changed = bytearray(stream)
    for place in draw.choices(range(len(stream)), k=draw.choice((1, 1, 2, 8))):
        changed[place] ^= 1 << draw.randrange(8)
    return bytes(changed)


def double_a_line(stream, other, draw):
    """A line comes several times: perhaps so often that a head is too large."""
    lines = stream.splitlines(keepends=True)
    place = draw.randrange(len(lines))
    return b"".join([*lines[:place], *[lines[place]] * draw.choice((2, 2, 2, 3, 70, 600)), *lines[place + 1:]])


def change_a_length(stream, other, draw):
    found = draw.choice(list(LENGTH.finditer(stream)) or [None])
    if found is None:
        return stream
    field, length = found[0], int(found[1])
    others = (length + 1, max(length - 1, 0), 0, length * 10, length + 4_194_304, 16_777_217, 2 ** 64 - 1, 2 ** 64)
    field = draw.choice([
        *(b"Content-Length: %d" % other for other in others), field.replace(b" ", b" +"), field.replace(b" ", b" 00"),
        field + b", " + found[1], field + b"\r\n" + field, field[:-len(found[1])], field + b"x",
        field.replace(b":", b" :"), field.replace(b" ", b"\r\n "), field + b"\r\nTransfer-Encoding: chunked",
        b"Transfer-Encoding: chunked",
    ])
    return stream[:found.start()] + field + stream[found.end():]


def cut(stream, other, draw):
    """The end is missing, or something before it."""
    first, last = sorted(draw.choices(range(len(stream) + 1), k=2))
    return stream[:first] + stream[last:] * draw.randrange(2)


def join(stream, other, draw):
    """The other stream, or a piece of it, comes in at some place or after the end."""
    place = draw.choice((draw.randrange(len(stream)), len(stream)))
    piece = other[draw.randrange(len(other)):]
    return stream[:place] + draw.choice((other, piece, piece[:50])) + stream[draw.choice((place, len(stream))):]


CHANGES = (flip_bits, double_a_line, change_a_length, cut, join)


def changed(stream, other, draw):
    """The stream after one to three changes, and the names of these."""
    names = []
    for change in draw.choices(CHANGES, k=draw.choice((1, 1, 1, 2, 3))):
        stream = change(stream, other, draw) if stream else other
        names.append(change.__name__)
    return stream, names


def changed_streams(seed):
    """The streams of a seed, and the names of the changes of each."""
    draw = random.Random(f"changes of {seed}")
    stream, other = (b"".join(asked for asked, _ in exchanges(each)) for each in (seed, seed + BASES))
    for _ in range(STREAMS_OF_A_BASE):
        yield changed(stream, other, draw)
