"""The loads of bench/serve: what is asked for, by how many connections and which client, and what came of it."""

import re
import subprocess
import typing

from discarding import ask_all, request_for
from range_answers import fault_of, parts_of
from servers import HOST, PATIENCE, find
from tables import check, random_bytes

SMALL, LARGE, RANGED = "/4k", "/1m", "/ranged"
FILES = {SMALL: random_bytes("small", 4 << 10), LARGE: random_bytes("large", 1 << 20), RANGED: random_bytes("large", 1 << 20)}
# Many files of 4 KiB, which are read in turn.
MANY = {f"/4k-{number}": random_bytes(f"small {number}", 4 << 10) for number in range(1_000)}
THREADS = 2
UNITS = {"us": 1e-6, "ms": 1e-3, "s": 1, "m": 60, "h": 3600}
SIZES = {"": 1, "K": 1 << 10, "M": 1 << 20, "G": 1 << 30, "T": 1 << 40}
SAID = re.compile(r"""
    \s 99% \s+ (?P<late>[\d.]+) (?P<unit>us|ms|s|m|h) \s .*
    \s (?P<count>\d+) \s requests \s in \s .* , \s (?P<read>[\d.]+) (?P<size>[KMGT]?)B \s read \s .*
    Requests/sec: \s+ (?P<rate>[\d.]+)""", re.X | re.S)


def ranges(*firsts):
    """A Range of 64 KiB from each of these positions on."""
    return (("Range", "bytes=" + ",".join(f"{first}-{first + 65_535}" for first in firsts)),)


class Load(typing.NamedTuple):
    title: str
    # What is asked for, in turn; wrk asks for the first alone.
    paths: tuple
    connections: int
    # The rate that is wanted of filehost, for one of nginx.
    wanted: float | None = None
    fields: tuple = ()
    is_discarded: bool = False
    # How many system calls a request may take of filehost.
    calls: float | None = None


LOADS = (
    Load("4 KiB, 1 connection", (SMALL,), 1),
    Load("4 KiB, 16 connections", (SMALL,), 16, 1.5),
    Load("4 KiB, 16 connections, discarded", (SMALL,), 16, 1.6, (), True, 2.5),
    Load("4 KiB, 64 connections", (SMALL,), 64, 1.35),
    Load("1,000 files of 4 KiB, discarded", (*MANY,), 16, 1.4, (), True),
    Load("4 KiB, a connection a request", (SMALL,), 16, 0.93, (("Connection", "close"),)),
    Load("a range of 64 KiB, discarded", (RANGED,), 16, 1.2, ranges(300_000), True),
    Load("four ranges of 64 KiB, discarded", (RANGED,), 16, 1.1, ranges(100_000, 350_000, 600_000, 850_000), True, 7),
    Load("1 MiB, discarded", (LARGE,), 16, 0.77, (), True, 7.5),
)


class Outcome(typing.NamedTuple):
    """The requests that were answered, how many a second, and the seconds within which 99 of 100 were."""

    count: int
    rate: float
    late: float


def checked_length(server, load):
    """The length of the bodies with which a server answers a load's requests. Each reply must be the right one."""
    # A server ends a connection on which nothing came for long; this request makes a new one.
    server.reader.connection.close()
    value, lengths = dict(load.fields).get("Range"), set()
    for path in load.paths:
        content = (FILES | MANY)[path]
        status, fields, body = server.get(path, *load.fields)
        is_right = status == 206 and fault_of(parts_of(fields, body), content, value) is None if value else status == 200 and body == content
        check(is_right, f"{server.title} answers with {status} and {len(body):,} bytes: {load.title}")
        lengths.add(len(body))
    check(len(lengths) == 1, f"{server.title} answers with bodies of {lengths} bytes: {load.title}")
    return lengths.pop()


def run_wrk(server, load, length, seconds):
    """The outcome of a load that wrk makes. A fault of one request, or bodies of another length, end the run."""
    words = ["-t", min(THREADS, load.connections), "-c", load.connections, "-d", f"{seconds}s", "--timeout", f"{PATIENCE}s", "--latency"]
    words += [word for field in load.fields for word in ("-H", ": ".join(field))]
    command = [find("wrk"), *map(str, words), f"http://{HOST}:{server.port}{server.target(load.paths[0])}"]
    ran = subprocess.run(command, capture_output=True, text=True, timeout=seconds + 2 * PATIENCE)
    said = SAID.search(ran.stdout)
    is_well = said and ran.returncode == 0 and "Socket errors" not in ran.stdout and "Non-2xx" not in ran.stdout
    check(is_well, f"wrk says of {server.title}, {load.title}: {' '.join((ran.stdout + ran.stderr).split())}")
    count, read = int(said["count"]), float(said["read"]) * SIZES[said["size"]]
    # What was read also has heads, and what came of the last reply of each connection.
    is_right = 0.98 * length * count < read < 1.2 * length * (count + load.connections)
    check(count > 0 and is_right, f"{server.title} sent {read:,.0f} bytes for {count:,} requests, {load.title}")
    return Outcome(count, float(said["rate"]), float(said["late"]) * UNITS[said["unit"]])


def discard(client, server, load, length, seconds):
    """The outcome of a load whose bodies are discarded. Bodies of another length end the run."""
    requests = [request_for(server.target(path), load.fields) for path in load.paths]
    told = ask_all(client, server.port, requests, load.connections, seconds, THREADS)
    check(told.bodies == length * told.replies, f"{server.title} sent bodies of {told.bodies:,} bytes for {told.replies:,} requests, {load.title}")
    return Outcome(told.replies, told.replies / told.seconds, told.late)
