"""The program over a store as ./filehost starts it, under limits that the system sets: the launcher of a small repository, and the real program."""

import subprocess

from lib.client import PROGRAM, SECONDS, digest_of, opened, opening, refused, upload, uploaded
from lib.sandbox import LAUNCHER, Sandbox
from lib.served import HOST, Served, free_ports
from lib.stores import files_of

# The limit of `ulimit -f 32` is 32,768 bytes.
LARGE, SMALL = bytes(60_000), b"few bytes"
EXCHANGES = [
    (opening({"/a": digest_of(LARGE)}), opened(1, digest_of(LARGE))),
    (upload(1, "a", LARGE), refused("Device")),
    (upload(1, "a", LARGE), refused("Device")),
    (opening({"/a": digest_of(SMALL)}), opened(2, digest_of(SMALL))),
    (upload(2, "a", SMALL), uploaded(SMALL, 3)),
]


class FileSizes(Served):
    """A limit of file sizes is a failure of the device. Without the launcher the signal of a write past it ends the program."""

    def setUp(self):
        self.sandbox = Sandbox(*LAUNCHER)
        self.addCleanup(self.sandbox.close)
        self.sandbox.add_crates("filehost: low\nlow:\n")
        self.sandbox.let_time_pass()
        self.sandbox.put_program(PROGRAM)
        self.store = self.folder().resolve()

    def start(self, *words):
        """Starts the launcher under the limit."""
        command = ["bash", "-c", 'ulimit -f 32; exec "$@"', "bash", str(self.sandbox.top / "filehost"), *words, "--store", str(self.store)]
        pipes = dict.fromkeys(("stdin", "stdout", "stderr"), subprocess.PIPE)
        started = subprocess.Popen(command, env=self.sandbox.environment(has_toolchain=False), **pipes)
        self.addCleanup(started.stdin.close)
        self.addCleanup(self.end, started)
        return started

    def assert_small_is_stored(self):
        self.assertEqual({file.name for file in self.store.iterdir()}, {"journal", "journal.2", *files_of(SMALL)})

    def test_of_solo(self):
        given, wanted = (b"".join(part) for part in zip(*EXCHANGES))
        started = self.start("solo")
        self.assertEqual(started.communicate(given, timeout=SECONDS), (wanted, b""))
        self.assertEqual(started.returncode, 0)
        self.assert_small_is_stored()

    def test_of_serve(self):
        self.port = free_ports()
        started = self.start("serve", "--listen", f"{HOST}:{self.port}")
        self.assertEqual(started.stdout.readline().decode(), f"node 0 listening on {HOST}:{self.port}\n")
        plug = self.plug()
        for asked, wanted in EXCHANGES:
            plug.sendall(asked)
            self.assert_receives(plug, wanted)
        self.assertIsNone(started.poll())
        self.assert_small_is_stored()
