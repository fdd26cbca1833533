"""How many system calls a request takes of filehost, as strace counts them."""

import collections
import contextlib
import re

from loads import FILES, checked_length, discard
from servers import find
from tables import check
from worker_servers import ServedHost

SECONDS = 1


def count_calls(program, folder, work):
    """How often the program makes each system call from its start to its end, and what came of this work with it meanwhile."""
    counted = folder.with_suffix(".calls")
    with contextlib.ExitStack() as stack:
        # The calls of all threads, in a table in this file.
        server = ServedHost(stack, "filehost", folder, program, [find("strace"), "-f", "-c", "-o", counted])
        server.put_all(FILES)
        outcome = work(server)
    # A row has the share of time, the seconds, those of a call, the calls, the errors if there are any, and the name.
    rows = re.findall(r"(?m)^ *[\d.]+ +[\d.]+ +\d+ +(\d+) +(?:\d+ +)?(\w+)$", counted.read_text())
    return collections.Counter({name: int(calls) for calls, name in rows if name != "total"}), outcome


def calls_a_request(program, folder, client, load):
    """What a request of a load adds to these, of each call, the most frequent first. They have their share of the connections."""
    idle, _ = count_calls(program, folder / "traced-idle", lambda _: None)
    busy, outcome = count_calls(
        program, folder / "traced-busy", lambda server: discard(client, server, load, checked_length(server, load), SECONDS)
    )
    check(idle and busy, "strace counts no system calls")
    return {name: (calls - idle[name]) / outcome.count for name, calls in busy.most_common()}
