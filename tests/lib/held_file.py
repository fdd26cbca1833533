"""Reads and syncs of one file of a store, each held by a library in C (hold_file.c) until it is let go."""

import subprocess
import time

from lib.client import HERE, PATIENCE, SECONDS

SOURCE = HERE / "hold_file.c"
# After so many seconds a call that is still held goes on, so that a program which waits for it comes to an end. No test holds one for so long.
LONGEST_HOLD = 60


class HeldFile:
    """The file. The library, what lets calls go and what was told are in a folder of their own. Until calls are let go, this many are held at most, if that
    is said."""

    def __init__(self, room, file, most=None):
        self.library, self.release, self.told_in = (room / name for name in ("hold_file.so", "release", "told"))
        subprocess.run(["gcc", "-O1", "-shared", "-fPIC", "-o", self.library, SOURCE, "-ldl"], check=True, timeout=SECONDS)
        self.environment = {
            "LD_PRELOAD": str(self.library), "HELD_FILE": str(file), "RELEASE_FILE": str(self.release), "TOLD_FILE": str(self.told_in),
            "HELD_SECONDS": str(LONGEST_HOLD), **({} if most is None else {"HELD_MOST": str(most)}),
        }

    def told(self):
        """What was told of the file, in order: `opened`, and for each call `held`, and then `went on` or `gave up`."""
        return self.told_in.read_text().splitlines() if self.told_in.exists() else []

    def wait(self, *lines):
        """Waits until exactly these lines were told."""
        until = time.monotonic() + PATIENCE
        while self.told() != list(lines):
            assert time.monotonic() < until, f"{self.told()} was told, and not {lines}"
            time.sleep(0.002)

    def open(self):
        """Lets the calls go on that are held, and those that come."""
        self.release.touch()

    def close(self):
        """Holds calls again, and forgets what was told. No call is held then."""
        for file in (self.release, self.told_in):
            file.unlink(missing_ok=True)
