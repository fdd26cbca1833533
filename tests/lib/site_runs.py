"""Runs of the client `site` against a program that serves, each with records and a cache of the test's own."""

import json
import os
import pathlib
import pty
import select
import signal
import subprocess
import sys
import threading

from lib.client import TOP, digest_of
from lib.served import HOST, Served, ask

sys.path.append(str(TOP / "client"))

# Without the packages of the system: the client needs none.
SITE = [sys.executable, "-S", str(TOP / "site")]
# How many seconds a run may take on the slowest machine.
SECONDS = 120


class SiteRuns(Served):
    """Tests of the client. `self.place` is the folder that is deployed, to the site `one`."""

    def setUp(self):
        self.room = self.folder()
        self.place = self.room / "web"
        self.place.mkdir()
        self.address = None

    def start_host(self, *words, nodes=2, **how):
        """Starts a program that serves, over a store, and lets the client find it."""
        self.store = self.room / "store"
        self.store.mkdir(exist_ok=True)
        started = self.serve("--store", str(self.store), *words, nodes=nodes, **how)
        self.address = f"http://{HOST}:{self.port}"
        return started

    def write(self, files):
        """Writes these files into the folder."""
        for path, content in files.items():
            file = self.place / path.lstrip("/")
            file.parent.mkdir(parents=True, exist_ok=True)
            file.write_bytes(content)
            # As if it was written long ago, so that its digest may be kept.
            os.utime(file, (1_000_000_000, 1_000_000_000))

    def environment(self, **more):
        kept = {name: value for name, value in os.environ.items() if not name.startswith(("SITE_", "XDG_", "NETRC"))}
        return {**kept, "HOME": str(self.room), "SITE_HOST": self.address or "", "SITE_NAME": "one", **more}

    def begin(self, *words, **how):
        """Starts the client, whose end is waited for with `ended`."""
        # If the tests were begun in the background, interrupts may be ignored.
        settings = {
            "stdin": subprocess.DEVNULL, "stdout": subprocess.PIPE, "stderr": subprocess.PIPE, "env": self.environment(**how.pop("variables", {})),
            "cwd": self.room, "preexec_fn": lambda: signal.signal(signal.SIGINT, signal.SIG_DFL), **how,
        }
        started = subprocess.Popen([*SITE, *map(str, words)], **settings)
        self.addCleanup(self.stop, started)
        return started

    def stop(self, started):
        if started.poll() is None:
            started.kill()
        started.wait()
        for pipe in filter(None, (started.stdout, started.stderr)):
            pipe.close()

    def ended(self, started):
        """The status of a run, its output, and its lines on standard error."""
        out, errors = started.communicate(timeout=SECONDS)
        return started.returncode, out.decode(), errors.decode()

    def begin_on_terminal(self, *words, **how):
        """Starts the client with a terminal as its input and for its errors. Returns the run and the other end of the terminal."""
        ours, theirs = pty.openpty()
        self.addCleanup(os.close, ours)
        started = self.begin(*words, stdin=theirs, stderr=theirs, **how)
        os.close(theirs)
        return started, ours

    def shown_until(self, terminal, part, seconds=60):
        """What a terminal shows until it has this part, or until nobody writes to it any more."""
        shown = b""
        while part not in shown and select.select([terminal], [], [], seconds)[0]:
            try:
                shown += os.read(terminal, 10_000)
            except OSError:
                break
        return shown

    def site(self, *words, **how):
        return self.ended(self.begin(*words, **how))

    def told(self, *words, status=0, **how):
        """What a run tells as JSON."""
        ended, out, errors = self.site(*words, "--json", **how)
        self.assertEqual(ended, status, errors)
        self.assertEqual(len(out.splitlines()), 1, out)
        members = json.loads(out)
        self.assertEqual((members["status"], members["command"]), (status, words[0]))
        return members

    def assert_done(self, *words, **how):
        """A run ends well; returns its output."""
        status, out, errors = self.site(*words, **how)
        self.assertEqual(status, 0, errors)
        return out

    def assert_fails(self, status, *parts, words, **how):
        """A run ends with this status and one line on standard error that has these parts; returns that line."""
        ended, _, errors = self.site(*words, **how)
        self.assertEqual((ended, len(errors.splitlines())), (status, 1), errors)
        self.assertTrue(errors.startswith("site: "), errors)
        for part in parts:
            self.assertIn(part, errors)
        return errors

    def get(self, target, node=1):
        """The status and the body of a read at another node than the client's."""
        return ask(self.client(node), "GET", target)

    def changes(self, site="one", node=1):
        return json.loads(ask(self.client(node), "GET", f"/api/v1/sites/{site}/changes")[1])["changes"]

    def assert_serves(self, files, site="one"):
        """The site serves exactly these bytes at these paths; None means that there is no file."""
        for path, content in files.items():
            status, body = self.get(f"/s/{site}{path}")
            if content is None:
                self.assertEqual(status, 404, path)
            else:
                self.assertEqual((status, digest_of(body)), (200, digest_of(content)), path)


def kinds(changes):
    return [change["kind"] for change in changes]


def when(condition, seconds=60):
    """Waits until a condition holds, and returns whether it does."""
    ended = threading.Event()
    for _ in range(seconds * 100):
        if condition():
            return True
        ended.wait(0.01)
    return False


def files_of(folder):
    """The files in a folder, by their paths on a site."""
    return {f"/{file.relative_to(folder)}": file.read_bytes() for file in sorted(pathlib.Path(folder).rglob("*")) if file.is_file()}
