"""Proves the crates of the program by `rt ci`, and builds it: the part of scripts/build that takes time.

`rt ci` runs over a copy of those crates, without their wrong bodies. It takes from this machine what it proved there before, for ./test too, and
./test takes what it proves now.
"""

import hashlib
import os
import pathlib
import re
import shutil
import signal
import subprocess
import sys
import threading
import time

sys.dont_write_bytecode = True

from arguments import crates, lines_of_crates, used_by  # noqa: E402
from prover_times import Looks  # noqa: E402

TOP = pathlib.Path(__file__).resolve().parent.parent
OUT = TOP / "crates/filehost/out"
PROGRAM = OUT / "filehost"
# Is there while a build runs, and after one that failed. Its time is the build's start.
UNFINISHED = OUT / "build.unfinished"
LOG = OUT / "build.log"
# The copy over which `rt ci` runs.
COPY = OUT / "build"
MADE = COPY / "crates/filehost/out/filehost"
# How many seconds of a processor the proof of each crate takes, and how many pass meanwhile: as measured, and as this build finds them.
MEASURED = TOP / "scripts/build-seconds.txt"
FOUND = OUT / "build-seconds.txt"
HEAD = "# crate, seconds of a processor that its proof took, seconds that passed meanwhile\n"
SOURCES = ("src", "specs", "proofs")
# What `rt ci` runs a program with, and compares its answer with.
RUNS = ("args", "stdin", "stdout", "status", "data")
SECONDS_BETWEEN_LOOKS = 0.5
# The SHA-256 of the program that was proved last, by a build or by ./test: scripts/release takes no other.
PROVED = OUT / "proved.sha256"
# Clears the line of a terminal on which progress is shown.
CLEAR = "\r\x1b[K" if sys.stderr.isatty() else ""


def tell(line):
    print(f"{CLEAR}{line}", file=sys.stderr, flush=True)


class Forecast:
    """What the proofs are expected to take: seconds of a processor and seconds by the clock, for each crate of the program.

    A crate that wasn't measured is judged by its lines.
    """

    def __init__(self, used):
        rows = [line.split() for line in MEASURED.read_text().splitlines() if not line.startswith("#")] if MEASURED.exists() else []
        measured = {name: (int(work), int(lasts)) for name, work, lasts in rows}
        self.seconds = {name: measured.get(name) or (self.judged(name),) * 2 for name in used}
        self.work = max(1, sum(work for work, _ in self.seconds.values()))
        ends = {}
        for name, below in used.items():
            ends[name] = self.seconds[name][1] + max((ends[one] for one in below), default=0)
        # How long the longest chain of crates lasts that wait for one another.
        self.longest = max(ends.values())

    @staticmethod
    def judged(name):
        files = [file for part in SOURCES for file in (TOP / "crates" / name / part).rglob("*.*")]
        return 20 + sum(file.read_bytes().count(b"\n") for file in files) // 20

    def told(self, processors):
        """At best a build waits for its longest chain of crates, or keeps all processors busy; it takes up to 1.15 times as long."""
        most = max(self.longest, self.work // processors)
        return (f"about {1 + self.work // 60} minutes of a processor, and {1 + most * 115 // 6000} min on {processors} processors"
                " that do nothing else")


class Progress:
    """Which crates are proved and which are being proved, with what that took."""

    def __init__(self, names, forecast, looks):
        self.names, self.forecast, self.looks = names, forecast, looks
        self.began = time.monotonic()
        self.done = []
        # When each crate was first seen at work.
        self.starts = {}
        self.found = {}
        # The prover's lines are read by one thread, and the processes looked at by another.
        self.lock = threading.Lock()

    def look(self):
        with self.lock:
            self.looks.look()
            for name, _ in self.looks.running:
                self.starts.setdefault(name, time.monotonic())

    def under_way(self):
        return sorted({name for name, _ in self.looks.running if name in self.names and name not in self.done})

    def share(self):
        """How much of the work is done, in percent. A crate counts by what it was measured to take, and one under way by what it took so far."""
        took = self.looks.took()
        done = sum(self.forecast.seconds[name][0] for name in self.done)
        done += sum(min(took[name, "code"], 0.9 * self.forecast.seconds[name][0]) for name in self.under_way())
        return int(100 * done / self.forecast.work)

    def told(self):
        minutes = int((time.monotonic() - self.began) / 60)
        return f"[{len(self.done)}/{len(self.names)}, {minutes} min, {self.share()} % done]"

    def show(self):
        """Shows on a terminal how far the build is."""
        with self.lock:
            line = f"{self.told()} proving {', '.join(self.under_way()) or '..'}"
        print(f"{CLEAR}{line[:79]}", end="", file=sys.stderr, flush=True)

    def note(self, line):
        """Takes a line of the prover, and tells of a crate that is proved. Returns the name of one that isn't, if the line says so."""
        if failed := re.match(r"rt: (\w+) NOT PROVED", line):
            return failed[1]
        ended = re.match(r"rt: (\w+) (proved$|is kept: )", line)
        if ended and ended[1] in self.names and ended[1] not in self.done:
            with self.lock:
                self.end(ended[1], ended[2] == "proved")
        return None

    def end(self, name, is_new):
        self.looks.look()
        took = self.looks.took()[name, "code"]
        self.done.append(name)
        if is_new:
            self.found[name] = round(took), round(time.monotonic() - self.starts.get(name, time.monotonic()))
        tell(f"{self.told()} {name} " + (f"is proved, in {took:.0f} s of a processor" if is_new else "was proved here before"))

    def keep(self):
        """Keeps what this build found, in the form of what was measured, unless some crates were proved before."""
        if len(self.found) == len(self.names):
            rows = (f"{name} {work} {lasted}\n" for name, (work, lasted) in ((name, self.found[name]) for name in crates() if name in self.found))
            FOUND.write_text(HEAD + "".join(rows))


def copy_sources(used):
    """Makes a repository of these crates alone, without their wrong bodies."""
    shutil.rmtree(COPY, ignore_errors=True)
    # `rt ci` wants to be at the top of a repository.
    (COPY / ".git").mkdir(parents=True)
    lines = lines_of_crates()
    (COPY / "crates.txt").write_text("".join(f"{lines[name]}\n" for name in used))
    if (TOP / "HANDLES").exists():
        shutil.copy2(TOP / "HANDLES", COPY)
    for name in used:
        (COPY / "crates" / name).mkdir(parents=True)
        for part in (*SOURCES, *RUNS):
            source, to = TOP / "crates" / name / part, COPY / "crates" / name / part
            if source.is_dir():
                shutil.copytree(source, to)
            elif source.exists():
                shutil.copy2(source, to)


def look_on(progress, is_over):
    """Looks at the prover's processes until it is over, and shows on a terminal how far they are."""
    between = float(os.environ.get("SECONDS_TO_PROGRESS", "2"))
    shown = None
    while not is_over.wait(min(between, SECONDS_BETWEEN_LOOKS)):
        progress.look()
        if CLEAR and (shown is None or time.monotonic() - shown >= between):
            shown = time.monotonic()
            progress.show()


def follow(progress, prover, log):
    """Follows the prover to its end, and returns the name of the crate that it didn't prove, if there is one."""
    failed, is_over = None, threading.Event()
    watcher = threading.Thread(target=look_on, args=(progress, is_over))
    watcher.start()
    try:
        for line in prover.stdout:
            log.write(line)
            log.flush()
            failed = failed or progress.note(line)
        prover.wait()
    finally:
        # It ends with all that it started itself.
        if prover.poll() is None:
            prover.terminate()
            prover.wait()
        is_over.set()
        watcher.join()
    return failed


def prove(progress_of):
    """Runs the prover, and returns what it took. It says where it failed, and returns nothing then."""
    # The lock of scripts/build, which this process has, is held until the prover ends too.
    how = {"cwd": COPY, "stdin": subprocess.DEVNULL, "stdout": subprocess.PIPE, "stderr": subprocess.STDOUT, "close_fds": False}
    with open(LOG, "w") as log, subprocess.Popen(["rt", "ci"], text=True, errors="replace", **how) as prover:
        progress = progress_of(Looks(prover.pid))
        failed = follow(progress, prover, log)
    if failed or prover.returncode or not os.access(MADE, os.X_OK):
        tell(f"filehost: the build failed{f' at {failed}' if failed else ''}: see {LOG}")
        return None
    return progress


def main():
    used = used_by("filehost")
    OUT.mkdir(parents=True, exist_ok=True)
    UNFINISHED.touch()
    began = UNFINISHED.stat()
    forecast, processors = Forecast(used), int(subprocess.check_output(["nproc"]))
    tell(f"filehost: building the program; each of its {len(used)} crates is proved first, which from nothing takes {forecast.told(processors)},"
         " and longer on busy ones")
    PROGRAM.unlink(missing_ok=True)
    copy_sources(used)
    progress = prove(lambda looks: Progress(list(used), forecast, looks))
    if progress is None:
        return 1
    # As old as the build's start: a file that was edited while it ran is newer, and is built next time.
    os.utime(MADE, ns=(began.st_atime_ns, began.st_mtime_ns))
    PROVED.write_text(f"{hashlib.sha256(MADE.read_bytes()).hexdigest()}\n")
    os.replace(MADE, PROGRAM)
    progress.keep()
    shutil.rmtree(COPY, ignore_errors=True)
    UNFINISHED.unlink()
    minutes, work = (time.monotonic() - progress.began) / 60, sum(progress.looks.took().values()) / 60
    tell(f"filehost: built in {minutes:.0f} minutes, with {work:.0f} minutes of a processor")
    return 0


def stop(number, _):
    sys.exit(128 + number)


if __name__ == "__main__":
    signal.signal(signal.SIGTERM, stop)
    signal.signal(signal.SIGINT, stop)
    sys.exit(main())
