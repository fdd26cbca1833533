"""What `filehost serve` tells its operator on standard error: a line for what fails, at most one a second of a kind, and nothing else.

What is expected follows from docs/WIRE.md. The kinds that need a crowd or another program are where those are: descriptors in test_serve_limits.py.
"""

import calendar
import contextlib
import json
import os
import re
import resource
import select
import subprocess
import time

from lib.client import HERE, LARGEST_FILE, PATIENCE, SECONDS, digest_of
from lib.crowds import WHOLE
from lib.launched import Launched
from lib.served import FILE, ask, publish
from lib.stalls import Stalls
from lib.stores import opening_of, write_store

LINE = re.compile(r"filehost: (\d{4}-\d\d-\d\dT\d\d:\d\d:\d\dZ) (\w+): (.+?)(?: \((\d+) more\))?")
STAMP = "%Y-%m-%dT%H:%M:%SZ"
# A line comes within so many seconds after what it tells.
SOON = 2
# How many seconds the program has to end in.
DRAIN = 10


class Told(Launched):
    """A program whose lines are read."""

    def begin(self, *words, **how):
        self.started = self.serve(*words, second=WHOLE, **how)
        self.stalls, self.came = Stalls(self.started.pid), b""
        os.set_blocking(self.started.stderr.fileno(), False)

    def read_lines(self):
        """The lines that have come: of each its time, its kind, its text, and how many more there were."""
        self.came += self.started.stderr.read() or b""
        lines = self.came.decode().splitlines(keepends=True)
        found = []
        for line in lines:
            match = LINE.fullmatch(line.removesuffix("\n"))
            self.assertTrue(match and line.endswith("\n"), line)
            stamp, kind, text, more = match.groups()
            found.append((stamp, kind, text, int(more or 0)))
        return found

    def wait_for(self, kind):
        """Lines of this kind come soon, and no others. Answers them."""
        mark, began = self.stalls.mark(), time.monotonic()
        while not (found := self.read_lines()):
            self.assertLess(time.monotonic() - began, SOON + self.stalls.since(mark))
            select.select([self.started.stderr], [], [], 0.05)
        self.assertEqual({line[1] for line in found}, {kind})
        return found

    def begin_over(self, count, **how):
        """Begins over a store with so many files of one piece each, which can't be read since: each is a link to itself. Answers their targets and files."""
        self.store, contents = self.folder().resolve() / "store", {f"/{number}": b"content %d" % number for number in range(count)}
        write_store(self.store, [opening_of(contents, "two"), ("publish", "two", 1)], *contents.values())
        self.begin("--store", str(self.store), **how)
        files = {f"/s/two{path}": self.store / f"c-{digest_of(content)}" for path, content in contents.items()}
        for file in files.values():
            file.unlink()
            file.symlink_to(file)
        return files

    def begin_with(self, slot):
        """Begins over a store whose journal is in this slot: a new store has it in the second. Answers the file."""
        if slot == "journal":
            self.begin_over(1)
        else:
            self.store = self.folder().resolve() / "store"
            self.store.mkdir()
            self.begin("--store", str(self.store))
            publish(self.client(), {"/a.txt": b"hello"}, "two")
        return self.store / slot

    def replace(self, file):
        """The journal gets a new file with its bytes."""
        file.rename(self.store / "old")
        file.write_bytes((self.store / "old").read_bytes())

    def leave_no_room(self, file):
        """A limit of file sizes acts as a full disk."""
        size = file.stat().st_size + 2
        resource.prlimit(self.started.pid, resource.RLIMIT_FSIZE, (size, size))

    def assert_fails(self):
        """The next change fails, and those after it."""
        for wanted in (b'{"error":"Device"}', b'{"error":"Broken"}', b'{"error":"Broken"}'):
            self.assertEqual(ask(self.client(), "POST", "/api/v1/sites/two/undo", '{"change":2}'), (503, wanted))

    def test_a_file_that_cannot_be_read(self):
        (target, file), = self.begin_over(1).items()
        self.assertEqual(ask(self.client(), "GET", target), (503, b'{"error":"Device"}'))
        (stamp, _, text, more), = self.wait_for("device")
        self.assertEqual((text, more), (f"{file}: the device or the system failed", 0))
        self.assertLess(abs(time.time() - calendar.timegm(time.strptime(stamp, STAMP))), PATIENCE)

    def test_a_file_that_cannot_be_written(self):
        content = bytes(10_000)
        breaks = {
            "its name is a folder's": lambda: (self.store / f"c-{digest_of(content)}").mkdir(),
            "there is no room": lambda: resource.prlimit(self.started.pid, resource.RLIMIT_FSIZE, (5_000, 5_000)),
        }
        for case, break_it in breaks.items():
            with self.subTest(case):
                self.begin_over(1)
                listing = json.dumps({"files": {"/a.txt": digest_of(content)}})
                status, told = ask(self.client(), "POST", "/api/v1/sites/one/deploys", listing)
                self.assertEqual(status, 200, told)
                break_it()
                target = "/api/v1/deploys/3/files/a.txt"
                self.assertEqual(ask(self.client(), "PUT", target, content), (503, b'{"error":"Device"}'))
                self.assertIn(str(self.store), self.wait_for("device")[0][2])

    def test_each_fault_of_a_journal_in_each_of_its_slots(self):
        faults = (
            (self.replace, "the journal was removed or replaced: another file has its name"),
            (lambda file: file.rename(self.store / "old"), "the journal was removed or replaced: it isn't there"),
            (lambda file: file.write_bytes(file.read_bytes() + b"more"), "another program made the journal shorter or longer"),
            (lambda file: file.write_bytes(file.read_bytes()[:-1]), "another program made the journal shorter or longer"),
            (self.leave_no_room, "a write of the journal failed"),
        )
        for slot in ("journal", "journal.2"):
            for breaks, text in faults:
                with self.subTest(slot=slot, text=text):
                    breaks(self.begin_with(slot))
                    self.assert_fails()
                    (_, _, told, more), = self.wait_for("journal")
                    self.assertEqual((told if told == text else told.partition(": ")[0], more), (text, 0))

    def test_a_day_and_a_month_of_one_digit(self):
        """A date has two of each. A library says that it is the fifth of January 2027."""
        library = self.folder() / "fixed_date.so"
        subprocess.run(["gcc", "-O1", "-shared", "-fPIC", "-o", library, HERE / "fixed_date.c", "-ldl"], check=True, timeout=SECONDS)
        files = self.begin_over(1, environment={"LD_PRELOAD": str(library), "FIXED_DATE": str(calendar.timegm((2027, 1, 5, 6, 7, 8)))})
        self.assertEqual(ask(self.client(), "GET", next(iter(files))), (503, b'{"error":"Device"}'))
        self.assertEqual(self.wait_for("device")[0][0], "2027-01-05T06:07:08Z")

    def test_bodies_that_wait_for_room(self):
        self.begin()
        for _ in range(6):
            plug = self.plug(f"PUT /api/v1/deploys/1/files/large HTTP/1.1\r\nContent-Length: {LARGEST_FILE}\r\n\r\n".encode())
            plug.settimeout(0.3)
            with contextlib.suppress(TimeoutError):
                plug.sendall(bytes(LARGEST_FILE - 1))
        self.assertIn("bodies wait", self.wait_for("bodies")[0][2])

    def test_a_kind_has_a_line_a_second_at_most(self):
        """It tells how many more there were; another kind has lines of its own."""
        files, client, failed, began = self.begin_over(20), self.client(), 0, time.monotonic()
        while time.monotonic() - began < 3:
            target = list(files)[failed % len(files)]
            self.assertEqual(ask(client, "GET", target), (503, b'{"error":"Device"}'))
            failed += 1
            if failed % 90 == 0:
                client = self.client()
            time.sleep(0.01)
        self.replace(self.store / "journal")
        self.assert_fails()
        time.sleep(SOON)
        lines = self.read_lines()
        device = [(text.partition(": ")[0], more) for _, kind, text, more in lines if kind == "device"]
        self.assertEqual(len(lines) - len(device), 1)
        # Within three seconds, and one after them.
        self.assertIn(len(device), (2, 3, 4, 5))
        self.assertLessEqual({file for file, _ in device}, set(map(str, files.values())))
        # One that comes just as a line is written may be lost.
        told = sum(1 + more for _, more in device)
        self.assertLessEqual(told, failed)
        self.assertGreater(told, failed * 0.9)

    def test_where_nobody_reads_the_lines_the_program_goes_on_and_ends(self):
        files = self.begin_over(20)
        publish(self.client(), {"/a.txt": b"hello"})
        # An end of its own, which doesn't block.
        pipe = os.open(f"/proc/{self.started.pid}/fd/2", os.O_WRONLY | os.O_NONBLOCK)
        self.addCleanup(os.close, pipe)
        with contextlib.suppress(BlockingIOError):
            while True:
                os.write(pipe, bytes(4_096))
        client = self.client()
        for target in files:
            self.assertEqual(ask(client, "GET", target)[0], 503)
            self.assertEqual(ask(client, "GET", FILE), (200, b"hello"))
            time.sleep(0.1)
        self.started.terminate()
        mark, began = self.stalls.mark(), time.monotonic()
        self.assertEqual(self.started.wait(DRAIN), 0)
        self.assertLess(time.monotonic() - began, DRAIN / 2 + self.stalls.since(mark))
