"""The client of bench/serve that lets the kernel discard the bodies of replies (discard.c): it is built, and makes a load."""

import re
import subprocess
import typing

from servers import HOST, PATIENCE, TOP, find
from tables import check

SOURCE = TOP / "bench" / "discard.c"
SAID = re.compile(r"replies (\d+) bodies (\d+) connections (\d+) seconds (\S+) p50 (\S+) p99 (\S+)\n")


class Discarded(typing.NamedTuple):
    """What the client counted: replies, the bytes of their bodies, and connections; for how many seconds; and those within which half of the replies came,
    and 99 of 100."""

    replies: int
    bodies: int
    connections: int
    seconds: float
    half: float
    late: float


def request_for(target, fields=()):
    return "\r\n".join([f"GET {target} HTTP/1.1", f"Host: {HOST}", *(": ".join(field) for field in fields), "", ""]).encode()


def build(folder):
    """The client, which is built in this folder."""
    client = folder / "discard"
    subprocess.run([find("gcc"), "-O2", "-pthread", "-o", client, SOURCE], check=True, timeout=10 * PATIENCE)
    return client


def ask_all(client, port, requests, connections, seconds, threads=2):
    """What comes of these requests, which are made in turn over so many connections. Any fault ends the run."""
    words = [client, port, min(threads, connections), connections, seconds]
    ran = subprocess.run([*map(str, words)], input=b"".join(requests), capture_output=True, timeout=seconds + 3 * PATIENCE)
    said = SAID.fullmatch(ran.stdout.decode())
    check(ran.returncode == 0 and said, ran.stderr.decode().strip() or f"the client that discards says {ran.stdout}")
    return Discarded(*map(int, said.groups()[:3]), *map(float, said.groups()[3:]))
