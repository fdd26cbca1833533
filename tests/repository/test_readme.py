"""README.md, and what other pages show of first steps: each command is run, in order, and each reply that is shown is what the program answers.

The commands run in a copy of the sources with the executable that is there. The toolchain is a stand-in, so that nothing is proved or built.
"""

import os
import pathlib
import re
import shutil
import signal
import socket
import subprocess
import tempfile

from lib.client import PROGRAM, SECONDS, TOP, Program, content_length, cut_after
from lib.repository import read
from lib.sandbox import FAKE_RT
from lib.served import free_ports

# The commands of the system with which an indented line may begin. Others are files of the repository.
OF_THE_SYSTEM = ("cat", "cd", "cp", "curl", "for", "git", "mkdir", "printf", "python3", "tar", "wget")
# Those that say something on standard error alone, and end with 1.
TELLING = ("./filehost", "./filehost --help", "./filehost solo --help", "./filehost serve --help", "./filehost --version")
PORT = "8080"
# What a reader puts in the place of these words. DIR is a folder of this name.
OWN_WORDS = {"FOLDER": "examples/small-site", "SITE": "small"}
TESTS = "print('the tests')\nprint('2 passed, 0 failed')\n"


def left_out(folder, names):
    """What of a folder is no source: what git, rt and Python keep, and the stores that the pages make at the top."""
    return {".git", "out", "__pycache__"} | ({"store", "site-store", "my-site", "DIR"} if pathlib.Path(folder) == TOP else set())


def is_command(words, others=()):
    """Whether a text begins with a command of the repository, or with one of these others."""
    first = words.partition(" ")[0]
    return first in others or "/" in first and (TOP / first).is_file() and os.access(TOP / first, os.X_OK)


def commands(text):
    """The commands of a page in their order: those that are indented and, if they are new, those in backquotes."""
    found = []
    for line, quoted in re.findall(r"(?m)^    (\S.*)$|`([^`\n]+)`", text):
        if is_command(line, OF_THE_SYSTEM) or is_command(quoted) and quoted not in found:
            found.append(line or quoted)
    return found


def messages(stream):
    """The messages of a stream, one by one, with plain ends of lines."""
    ends = cut_after(stream, content_length)
    return [stream[start:end].decode().replace("\r\n", "\n") for start, end in zip([0, *ends], ends)]


def exchanges(text):
    """The requests that a page shows, each in a line: its method, its target, the columns after it, and the status and reply in the line below."""
    lines = text.splitlines()
    for line, below in zip(lines, [*lines[1:], ""]):
        if found := re.match(r"    (GET|HEAD|POST|PUT|DELETE) +(\S+)(?: {2,}(.*))?$", line):
            more = re.match(r" {8,}(\d{3}) (\{.*\})$", below)
            yield found[1], found[2], re.split(r" {2,}", found[3] or ""), more


def is_shown_as(shown, body):
    """Whether a body is the shown text, in which two points mean any text."""
    return re.fullmatch(".*".join(map(re.escape, shown.split(".."))), body.strip(), re.DOTALL) is not None


def section(title, *path):
    """A section of a page."""
    found = read(*path).partition(f"\n## {title}\n")[2].partition("\n## ")[0]
    assert found, title
    return found


class Readme(Program):
    """The first run and a request by hand are in examples/README.md, a store in a folder in docs/OPERATING.md, and a deploy by curl in docs/HTTP.md."""

    first_run = section("The first run", "examples", "README.md")
    by_curl = section("What to write in a client", "docs", "HTTP.md")
    text = "\n".join([read("README.md"), first_run, section("Keep a host in a folder", "docs", "OPERATING.md")])

    def setUp(self):
        super().setUp()
        room = tempfile.TemporaryDirectory(prefix="filehost-test-")
        self.addCleanup(room.cleanup)
        self.room = pathlib.Path(room.name).resolve()
        self.top = self.room / "copy"
        shutil.copytree(TOP, self.top, ignore=left_out, symlinks=True)
        (self.top / "crates/filehost/out").mkdir()
        shutil.copy(PROGRAM, self.top / "crates/filehost/out/filehost")
        # So what ./test runs after `rt ci` takes no time, and doesn't run this test again.
        (self.top / "tests/run").write_text(TESTS)
        (self.top / "DIR").mkdir()
        (self.room / "toolchain").mkdir()
        shutil.copy(FAKE_RT, self.room / "toolchain" / "rt")
        self.port = str(free_ports())

    def start(self, command):
        """Begins a command in a process group that is ended with the test, however that ends."""
        words = command
        for word, meant in {**OWN_WORDS, PORT: self.port}.items():
            words = re.sub(rf"\b{word}\b", meant, words)
        environment = {
            **os.environ, "PATH": f"{self.room / 'toolchain'}:{os.environ['PATH']}", "CALLS": str(self.room / "calls"), "NO_PROGRAM": "yes",
            "CI_SAYS": "3 passed, 0 failed\n", "CI_STATUS": "0", "TMPDIR": str(self.room), "XDG_STATE_HOME": str(self.room / "state"),
            "XDG_CACHE_HOME": str(self.room / "cache"),
        }
        pipes = dict.fromkeys(("stdout", "stderr"), subprocess.PIPE)
        started = subprocess.Popen(["bash", "-c", words], cwd=self.top, stdin=subprocess.DEVNULL, env=environment, start_new_session=True, **pipes)
        self.addCleanup(self.end, started)
        return started

    def end(self, started):
        """Ends the rest of a command, and waits for it."""
        try:
            os.killpg(started.pid, signal.SIGKILL)
        except ProcessLookupError:
            pass
        started.wait()
        started.stdout.close()
        started.stderr.close()

    def run_to_its_end(self, command):
        """What a command that ends writes. It leaves no process."""
        started = self.start(command)
        out, errors = started.communicate(timeout=SECONDS)
        self.assertRaises(ProcessLookupError, os.killpg, started.pid, 0)
        if command in TELLING:
            self.assertEqual((started.returncode, out), (1, b""), command)
            self.assertNotEqual(errors, b"")
        else:
            self.assertEqual((started.returncode, b"error" in errors), (0, False), (command, errors))
        return out

    def listen(self, command):
        """What a client is sent by a command that listens, which is then interrupted."""
        started = self.start(command)
        self.assertIn(self.port.encode(), started.stdout.readline())
        with socket.create_connection(("127.0.0.1", int(self.port)), timeout=SECONDS) as client:
            client.sendall(b"GET /s/one/ HTTP/1.1\n\n")
            client.shutdown(socket.SHUT_WR)
            told = b"".join(iter(lambda: client.recv(65_536), b""))
        os.killpg(started.pid, signal.SIGTERM)
        started.wait(SECONDS)
        return told

    def test_shows_a_script_that_listens(self):
        """examples/README.md shows it, and it gives its client what the program gives by itself."""
        command, = re.findall(r"(?m)^    (examples/listen --port .*)$", read("examples", "README.md"))
        command = command.replace("STORE", "DIR")
        self.run_to_its_end("./filehost solo --store DIR < examples/take-back.http")
        self.assertEqual(self.listen(command), self.run_to_its_end("printf 'GET /s/one/ HTTP/1.1\\n\\n' | ./filehost solo --store DIR"))

    def test_shows_a_deploy_by_curl(self):
        """docs/HTTP.md shows it, over an empty host."""
        self.assertIn(self.port.encode(), self.start(f"./filehost serve --listen 127.0.0.1:{PORT}").stdout.readline())
        shown = re.findall(r"(?m)^    (curl .*)\n    (.*)$", self.by_curl)
        self.assertEqual(len(shown), 3)
        for command, answer in shown:
            self.assertEqual(self.run_to_its_end(command).decode(), answer)

    def lines_below(self, command):
        """The lines that a page shows below each showing of a command, up to an empty one or another command."""
        for found in re.finditer(rf"(?m)^    {re.escape(command)}\n((?:    .*\n)*)", self.text):
            lines = [line.strip() for line in found[1].splitlines()]
            count = next((place for place, line in enumerate(lines) if is_command(line, OF_THE_SYSTEM)), len(lines))
            yield lines[:count]

    def assert_told(self, command, out, shown):
        """The client tells what one showing of a command tells, but for the seconds and the port."""
        told = re.sub(r"in [\d.]+ s$", "in 0.1 s", out.decode().replace(self.port, PORT), flags=re.M)
        self.assertEqual(told.splitlines(), shown, command)

    def answered(self, command):
        """What a page shows below a command, in a line of its own."""
        return re.search(rf"(?m)^    {re.escape(command)}\n    (.*)$", self.text)[1]

    def test_shows_commands_that_do_what_it_says(self):
        """In order, so each over what those before it left. If an example has a file of replies, the program answers these."""
        there = sorted(path.name for path in TOP.iterdir())
        shown = commands(self.text)
        self.assertGreater(len(shown), 12)
        below = {command: self.lines_below(command) for command in shown}
        for command in shown:
            with self.subTest(command):
                if "filehost serve --listen" in command:
                    self.assertIn(self.port.encode(), self.start(command).stdout.readline())
                    continue
                out = self.run_to_its_end(command)
                if "/site " in command:
                    self.assert_told(command, out, next(below[command]))
                elif command.startswith("curl"):
                    self.assertEqual(out.decode(), self.answered(command))
                elif found := re.search(r"< (examples/[\w-]+)\.http$", command):
                    self.assertEqual(out, (TOP / f"{found[1]}.replies").read_bytes())
                elif command.startswith("examples/make-deploy"):
                    self.assertEqual(out, (TOP / "examples/small-site.http").read_bytes())
                elif command == "./test":
                    self.assertEqual(out.splitlines()[-1], b"5 passed, 0 failed")
                elif command.startswith("printf") and "filehost" in command:
                    self.assertTrue(out.startswith(b"HTTP/1.1 200 OK\r\n"), out)
        # Nothing was built, and nothing is left outside of the copy.
        self.assertEqual({" ".join(call.split()[:2]) for call in (self.room / "calls").read_text().splitlines()}, {"copy: ci"})
        self.assertEqual(sorted(path.name for path in TOP.iterdir()), there)

    def test_shows_the_first_run_as_the_program_answers_it(self):
        told = messages(self.run_to_its_end("./filehost solo < examples/first-run.http"))
        shown = "\n\n".join(message.rstrip("\n") for message in told)
        self.assertIn(re.sub(r"(?m)^(?=.)", "    ", shown) + "\n", self.text)
        self.assertEqual(len(re.findall(r"(?m)^ +HTTP/1\.1 \d{3} ", self.first_run)), len(told))

    def test_shows_an_undo_as_the_program_answers_it(self):
        asked = messages((TOP / "examples/take-back.http").read_bytes())
        told = messages(self.run_to_its_end("./filehost solo < examples/take-back.http"))
        left, count = list(zip(asked, told)), 0
        for method, target, columns, more in exchanges(self.text):
            with self.subTest(f"{method} {target} {columns}"):
                first = f"{method} {target} HTTP/1.1"
                while left and left[0][0].partition("\n")[0] != first:
                    del left[0]
                self.assertTrue(left, "no such request is in examples/take-back.http after those before")
                (head, _, body), (status, _, reply) = (message.partition("\n\n") for message in left.pop(0))
                if method in ("POST", "PUT"):
                    self.assertTrue(is_shown_as(columns[0], body), body)
                    columns = columns[1:]
                if columns:
                    self.assertTrue(is_shown_as(columns[0], reply), reply)
                    self.assertIn(" 200 ", status.partition("\n")[0])
                    count += 1
                if more:
                    self.assertIn(f" {more[1]} ", status.partition("\n")[0])
                    self.assertTrue(is_shown_as(more[2], reply), reply)
                    count += 1
        self.assertGreater(count, 6)
