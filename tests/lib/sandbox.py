"""A small repository in a temporary folder, for tests of the scripts at the top of this one.

Its crates hold no code, and the toolchain is a stand-in, `fake_rt`, so that a build takes no time.
"""

import hashlib
import os
import pathlib
import shutil
import subprocess
import sys
import tempfile

TOP = pathlib.Path(__file__).resolve().parents[2]
FAKE_RT = pathlib.Path(__file__).resolve().parent / "fake_rt"

# What the scripts may call besides rt. A PATH of these alone has no toolchain on it, wherever that is installed.
TOOLS = ("bash cat chmod cp cut dirname env find flock getconf grep head mkdir mktemp mv nproc readlink rm rmdir sed sha256sum sleep sort tail tee touch true"
         " uname wc xargs").split()
# The launcher, and what it calls to build.
LAUNCHER = "filehost scripts/program_sources.sh scripts/build scripts/prove_program.py scripts/prover_times.py scripts/arguments.py".split()


class Sandbox:
    """The repository, its PATH with the stand-in for rt, and what that was called for."""

    def __init__(self, *scripts):
        self.room = tempfile.TemporaryDirectory(prefix="filehost-test-")
        self.folder = pathlib.Path(self.room.name).resolve()
        self.top = self.folder / "repository"
        self.calls_file = self.folder / "calls"
        # How many lines of it were told.
        self.told = 0
        (self.top / "crates").mkdir(parents=True)
        for script in scripts:
            (self.top / script).parent.mkdir(exist_ok=True)
            shutil.copy(TOP / script, self.top / script)
        self.tools = self.folder / "tools"
        self.tools.mkdir()
        for tool in TOOLS:
            (self.tools / tool).symlink_to(shutil.which(tool))
        (self.tools / "python3").symlink_to(sys.executable)
        # That they are there is all that the scripts ask of them.
        for tool in ("curl", "wget", "aria2c", "gcc", "shellcheck"):
            (self.tools / tool).symlink_to(shutil.which("true"))
        (self.folder / "toolchain").mkdir()
        shutil.copy(FAKE_RT, self.folder / "toolchain" / "rt")

    def close(self):
        self.room.cleanup()

    def write(self, path, text="", mode=0o644):
        """Writes a file of the repository, and returns its place."""
        file = self.top / path
        file.parent.mkdir(parents=True, exist_ok=True)
        file.write_text(text)
        file.chmod(mode)
        return file

    def add_crates(self, listing):
        """Writes crates.txt, a source for each crate that it lists and, for each but the program, a definition and a proof."""
        self.write("crates.txt", listing)
        for line in listing.splitlines():
            name = line.partition("#")[0].partition(":")[0].strip()
            if name:
                if name == "filehost":
                    self.write("crates/filehost/src/main.rt", "first")
                    continue
                self.write(f"crates/{name}/src/lib.rt", "first")
                self.write(f"crates/{name}/specs/Lib.antt")
                self.write(f"crates/{name}/proofs/Lib.antt")

    def put_program(self, program):
        """Does what a build does, but for the proofs: this program is there, and known as proved."""
        out = self.top / "crates/filehost/out"
        out.mkdir(exist_ok=True)
        shutil.copy(program, out / "filehost")
        (out / "proved.sha256").write_text(f"{hashlib.sha256(program.read_bytes()).hexdigest()}\n")

    def let_time_pass(self):
        """Makes all that is there older, in the order that it has, so that what is written next is newer."""
        for path in [self.top, *self.top.rglob("*")]:
            told = path.stat()
            os.utime(path, ns=(told.st_atime_ns, told.st_mtime_ns - 10_000_000_000))

    def environment(self, has_toolchain=True, **more):
        path = [str(self.folder / "toolchain")] * has_toolchain + [str(self.tools)]
        return {"PATH": ":".join(path), "CALLS": str(self.calls_file), **more}

    def run(self, *words, at=None, given=b"", has_toolchain=True, **more):
        """Runs a command to its end, and returns its status and what it wrote, as text."""
        environment = self.environment(has_toolchain, **more)
        ran = subprocess.run(words, cwd=at or self.top, input=given, env=environment, capture_output=True, timeout=60)
        return ran.returncode, ran.stdout.decode(), ran.stderr.decode()

    def calls(self):
        """The calls of rt since this was last asked, each as `CRATE: WORDS`. A call that is only half noted counts the next time."""
        if not self.calls_file.exists():
            return []
        lines = self.calls_file.read_text().splitlines(keepends=True)[self.told:]
        whole = [line.removesuffix("\n") for line in lines if line.endswith("\n")]
        self.told += len(whole)
        return whole
