"""Programs of crates that only tests and measurements run."""

import fcntl
import subprocess

from lib.client import TOP


class BuiltCrate:
    """The program of a crate, which is proved and built if needed."""

    def __init__(self, name):
        self.folder = TOP / "crates" / name
        self.program = self.folder / "out" / name

    def is_built(self):
        """Whether the program is there, and no older than the code of any crate."""
        if not self.program.exists():
            return False
        sources = (file for folder in ("src", "specs", "proofs") for file in TOP.glob(f"crates/*/{folder}/**/*") if file.is_file())
        return self.program.stat().st_mtime >= max(file.stat().st_mtime for file in sources)

    def build(self):
        """Proves and builds the program, and has it list what it does. A program that is built already keeps its time, so the time is set here."""
        # Files of tests that run at once may want the same program.
        with (self.folder / "src/main.rt").open() as lock:
            fcntl.flock(lock, fcntl.LOCK_EX)
            if not self.is_built():
                subprocess.run(["rt", "run", "--", "list"], cwd=self.folder, stdin=subprocess.DEVNULL, capture_output=True, check=True)
                self.program.touch()
