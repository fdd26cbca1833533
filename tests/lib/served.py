"""A program that serves over TCP, and clients of it."""

import contextlib
import http.client
import json
import os
import pathlib
import select
import signal
import socket
import subprocess
import tempfile
import time
import unittest

from lib.client import HEAP, PATIENCE, PROGRAM, SECONDS, digest_of

HOST = "127.0.0.1"
FILE = "/s/one/a.txt"
# The ports of eight nodes and of their peers.
PORTS = 16
# What keeps the ports that this process has, by the first of them.
KEPT = {}


def keep_from_others(first):
    """Whether these ports are this process's, as long as it goes on. Other tests may run at once, and look for ports too."""
    mark = socket.socket(socket.AF_UNIX)
    try:
        # A name that isn't in the file system, and goes with the process.
        mark.bind(f"\0filehost-test-ports-{first}")
    except OSError:
        mark.close()
        return False
    KEPT[first] = mark
    return True


def free_ports(count=PORTS):
    """The first of so many ports in a row on which nobody listens, below those that the system gives to connections."""
    start = os.getpid() * 37 % 20_000
    for first in range(10_000 + start - start % count, 32_000, count):
        if first not in KEPT and not keep_from_others(first):
            continue
        with contextlib.ExitStack() as held:
            try:
                for port in range(first, first + count):
                    held.enter_context(socket.create_server((HOST, port)))
            except OSError:
                continue
            return first
    raise AssertionError("no ports are free")


def ports_of_several(programs):
    """The first of the ports of each of so many programs that are started at once."""
    with contextlib.ExitStack() as held:
        firsts = []
        for _ in range(programs):
            firsts.append(free_ports())
            # So the next look finds others.
            held.enter_context(socket.create_server((HOST, firsts[-1])))
        return firsts


@contextlib.contextmanager
def told_at(**where):
    """Ends a test at the first place at which it fails, and tells where. Where a program hangs, each other place would take long, too."""
    try:
        yield
    except Exception as error:
        raise AssertionError(f"{where}: {error}") from error


class Served(unittest.TestCase):
    """Tests of a program that serves."""

    # What starts the program, and what the launcher would add to its environment.
    command, heap = (PROGRAM,), HEAP

    def folder(self):
        folder = tempfile.TemporaryDirectory()
        self.addCleanup(folder.cleanup)
        return pathlib.Path(folder.name)

    def start(self, *words, nodes=1, port=None, second=None, environment=None, **how):
        """Starts a program, whose first node has the port `self.port`."""
        self.port = port or free_ports()
        environment = os.environ | self.heap | (environment or {})
        if second is not None:
            environment["FILEHOST_DEADLINE_SECOND"] = str(second)
        words = ["serve", "--listen", f"{HOST}:{self.port}", "--nodes", str(nodes), *words]
        started = subprocess.Popen([*self.command, *words], stdout=subprocess.PIPE, stderr=subprocess.PIPE, env=environment, **how)
        self.addCleanup(self.end, started)
        return started

    def serve(self, *words, nodes=1, **how):
        """Starts a program, and waits until its nodes listen."""
        started = self.start(*words, nodes=nodes, **how)
        for node in range(nodes):
            self.assertEqual(started.stdout.readline().decode(), f"node {node} listening on {HOST}:{self.port + node}\n")
        return started

    def end(self, started, by=signal.SIGKILL):
        """Ends a program that was started here, and returns its status."""
        if started.poll() is None:
            started.send_signal(by)
        status = started.wait(SECONDS)
        started.stdout.close()
        started.stderr.close()
        return status

    def processor_time(self, started):
        """How many seconds of a processor a program took so far."""
        fields = pathlib.Path(f"/proc/{started.pid}/stat").read_text().rpartition(")")[2].split()
        return sum(map(int, fields[11:13])) / os.sysconf("SC_CLK_TCK")

    def client(self, node=0):
        """A connection to a node, that is kept alive."""
        client = http.client.HTTPConnection(HOST, self.port + node, timeout=PATIENCE)
        self.addCleanup(client.close)
        return client

    def plug(self, given=b"", node=0):
        """A bare connection to a node, over which these bytes were sent."""
        plug = socket.create_connection((HOST, self.port + node), timeout=PATIENCE)
        self.addCleanup(plug.close)
        plug.sendall(given)
        return plug

    def received(self, plug, count):
        """So many bytes of what comes over a bare connection, or fewer if it ends before."""
        came = b""
        while len(came) < count and (more := plug.recv(count - len(came))):
            came += more
        return came

    def assert_receives(self, plug, wanted):
        """These bytes come next over a bare connection."""
        self.assertEqual(self.received(plug, len(wanted)), wanted)

    def assert_silent(self, plug, seconds=0.2):
        """Nothing comes over a bare connection for so long, not even its end."""
        self.assertEqual(select.select([plug], [], [], seconds)[0], [])


def sockets_of(started):
    """How many sockets a program has."""
    folder, count = f"/proc/{started.pid}/fd", 0
    for descriptor in os.listdir(folder):
        with contextlib.suppress(FileNotFoundError):
            count += os.readlink(f"{folder}/{descriptor}").startswith("socket:")
    return count


def ask(client, method, target, body=None, **fields):
    """The status and the body of a reply."""
    client.request(method, target, body=body, headers={name.replace("_", "-"): value for name, value in fields.items()})
    reply = client.getresponse()
    return reply.status, reply.read()


def publish(client, files, site="one"):
    """Deploys these files, and returns the number of the entry that published them."""
    listed = {path: digest_of(content) for path, content in files.items()}
    status, told = ask(client, "POST", f"/api/v1/sites/{site}/deploys", json.dumps({"files": listed}))
    assert status == 200, told
    told = json.loads(told)
    published = told["published"]
    for path, content in files.items():
        if digest_of(content) in told["required"]:
            status, answer = ask(client, "PUT", f"/api/v1/deploys/{told['id']}/files{path}", content)
            assert status == 200, answer
            published = json.loads(answer)["published"] or published
    return published


def seconds_until_closed(plug, most):
    """How long a connection stays open, with what comes over it thrown away; `most` if it is longer."""
    began = time.monotonic()
    plug.settimeout(most)
    with contextlib.suppress(ConnectionError, TimeoutError):
        while plug.recv(65_536):
            plug.settimeout(max(0.01, began + most - time.monotonic()))
    return time.monotonic() - began
