"""Runs of bench/compare and bench/serve, which start servers. Whatever ends a run, a fault, a signal or its time limit, ends all that it started too."""

import contextlib
import http.client
import os
import pathlib
import signal
import subprocess
import sys
import tempfile

from servers import PATH, TOP, Failure

ENDS = (signal.SIGINT, signal.SIGTERM, signal.SIGALRM)


def add_guards(parser):
    """Adds the words that `run_guarded` takes."""
    parser.add_argument("--folder", type=pathlib.Path, default=TOP / "bench", help="where the stores and folders are written and removed")
    parser.add_argument("--limit", type=int, default=1_200, help="the seconds after which it gives up")


def give_up(name, _):
    raise Failure("the time limit is over" if name == signal.SIGALRM else f"ended by {signal.Signals(name).name}")


@contextlib.contextmanager
def ended_at_last():
    """The stack of what is started."""
    with contextlib.ExitStack() as stack:
        try:
            yield stack
        finally:
            # What was started is ended below, and a second interrupt doesn't keep that from its end.
            for name in ENDS:
                signal.signal(name, signal.SIG_IGN)


def run_guarded(parser, words, work):
    """Calls this work with a stack for what it starts and with a folder, which is removed at the end. A fault is told in one line."""
    for name in ENDS:
        signal.signal(name, give_up)
    signal.alarm(words.limit)
    os.environ["PATH"] = PATH
    try:
        with tempfile.TemporaryDirectory(dir=words.folder, prefix=f"{pathlib.Path(parser.prog).name}-") as room, ended_at_last() as stack:
            work(stack, pathlib.Path(room))
    except (Failure, OSError, http.client.HTTPException, subprocess.SubprocessError) as fault:
        sys.exit(f"{parser.prog}: {fault or type(fault).__name__}")
