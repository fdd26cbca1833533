"""What a client of the program says and reads: requests and replies as bytes, and runs of the program over them."""

import fcntl
import hashlib
import json
import pathlib
import re
import struct
import subprocess
import termios
import threading
import time
import unittest

from chosen_program import PROGRAM

HERE = pathlib.Path(__file__).resolve().parent
TOP = HERE.parent.parent
CRATE = TOP / "crates/filehost"
# What the launcher adds to the environment of the program.
HEAP = {"MALLOC_MMAP_THRESHOLD_": "65536", "GLIBC_TUNABLES": "glibc.malloc.mxfast=0:glibc.malloc.tcache_count=0"}
EXAMPLES = TOP / "examples"

REQUESTS = 100
LARGEST_FILE = 16_777_216
HELLO = hashlib.sha1(b"hello").hexdigest()
ABC = hashlib.sha1(b"abc").hexdigest()
# How many seconds a run may take, and a single answer. What comes sooner costs no time, so these limits are for the slowest machine.
SECONDS = 600
PATIENCE = 60

# The phrases of the status codes that replies have (RFC 9110, section 15).
PHRASES = {
    400: "Bad Request",
    404: "Not Found",
    405: "Method Not Allowed",
    409: "Conflict",
    413: "Payload Too Large",
    416: "Range Not Satisfiable",
    422: "Unprocessable Entity",
    431: "Request Header Fields Too Large",
    501: "Not Implemented",
    503: "Service Unavailable",
    507: "Insufficient Storage",
}


def section(document, title):
    """What a document says under a title, up to the next one."""
    return (TOP / "docs" / document).read_text().partition(f"\n## {title}\n")[2].partition("\n## ")[0]


def documented_reasons():
    """The names by which docs/CHANGES.md says that changes and undos are refused."""
    by_command = [row.split("|")[2] for row in section("CHANGES.md", "Changes").splitlines() if row.startswith("| ")]
    of_undos = re.findall(r"(?m)^\| (\w+)", section("CHANGES.md", "Histories"))
    return set(re.findall(r"\b(?:[A-Z][a-z]*){2,}\b|\bClash\b", " ".join(by_command + of_undos)))


def documented_statuses():
    """The status line's code and phrase for each name of a refusal, by the tables in docs/HTTP.md."""
    rows = re.findall(r"(?m)^\| ([\w`, ]+) \| (\d+) \|", section("HTTP.md", "Refusals"))
    code_of = {name: code for names, code in rows for name in names.split(", ")}
    not_there, other = code_of.pop("begins with `NoSuch`"), code_of.pop("any other")
    for name in documented_reasons() - code_of.keys():
        code_of[name] = not_there if name.startswith("NoSuch") else other
    return {name: f"{code} {PHRASES[int(code)]}" for name, code in code_of.items()}


STATUS_OF = documented_statuses()


# The texts in docs/help, and the words that ask for each.
HELP = {
    "filehost.txt": ("--help", "-h", "help"),
    "solo.txt": ("solo --help", "solo -h", "help solo"),
    "serve.txt": ("serve --help", "serve -h", "help serve"),
    "version.txt": ("--version", "-V"),
}


def run(*words, given=b"", **how):
    """Runs the program to its end, and returns its status, its output and what it wrote on standard error."""
    how = {"stdout": subprocess.PIPE, "stderr": subprocess.PIPE, "timeout": SECONDS, **how}
    ran = subprocess.run([PROGRAM, *words], input=given, **how)
    return ran.returncode, ran.stdout, ran.stderr


def request(method, target, *fields, body=None):
    """A request, as bytes."""
    lengths = [] if body is None else [f"Content-Length: {len(body)}"]
    return "\r\n".join([f"{method} {target} HTTP/1.1", *fields, *lengths, "", ""]).encode() + (body or b"")


def reply(status, kind, body, *fields):
    """A reply, as bytes; the fields are those after Content-Length."""
    head = [f"HTTP/1.1 {status}", f"Content-Type: {kind}", f"Content-Length: {len(body)}", *fields, "", ""]
    return "\r\n".join(head).encode() + body


def told(status, value, *fields):
    """A reply in JSON: compact, its members in the order of their bytes."""
    return reply(status, "application/json", json.dumps(value, separators=(",", ":"), sort_keys=True).encode(), *fields)


def done(**members):
    """The reply to a request that is carried out, in JSON."""
    return told("200 OK", members)


def refused(name, *fields, **members):
    """The reply that refuses a request for this reason."""
    return told(STATUS_OF[name], {"error": name, **members}, *fields)


def sent(content, *fields, kind="text/plain; charset=utf-8", whole=None):
    """The reply with a file, or with a part of the whole file that is given."""
    status, tag = ("200 OK", content) if whole is None else ("206 Partial Content", whole)
    return reply(status, kind, content, f'ETag: "{digest_of(tag)}"', "Accept-Ranges: bytes", *fields)


def to_head(message):
    """The reply without its body, as HEAD gets it."""
    return message.partition(b"\r\n\r\n")[0] + b"\r\n\r\n"


def closing(message):
    """The request or the reply with `Connection: close` after its other fields."""
    return message.replace(b"\r\n\r\n", b"\r\nConnection: close\r\n\r\n", 1)


def digest_of(content):
    return hashlib.sha1(content).hexdigest()


def asking(method, target, **members):
    """The request with a JSON object as its body."""
    return request(method, target, body=json.dumps(members).encode())


def opening(files, site="one", **members):
    """The request that opens a deploy of these files, given by their digests."""
    return asking("POST", f"/api/v1/sites/{site}/deploys", files=files, **members)


def opened(number, *required, published=None):
    """The reply to it, with the digests that are missing."""
    return done(id=str(number), published=published, required=list(required))


def upload(number, path, content):
    """The request that uploads a file of a deploy; the path has no leading slash."""
    return request("PUT", f"/api/v1/deploys/{number}/files/{path}", body=content)


def uploaded(content, published=None):
    """The reply to it."""
    return done(sha=digest_of(content), published=published)


# The exchanges after which the site `one` serves `hello` at /a.txt.
PUBLISHED = [(opening({"/a.txt": HELLO}), opened(1, HELLO)), (upload(1, "a.txt", b"hello"), uploaded(b"hello", 2))]


def cut_after(stream, length_of):
    """The places in a stream at which its messages end; a field of a head tells the length of what follows it."""
    ends = [0]
    while ends[-1] < len(stream):
        end = stream.index(b"\r\n\r\n", ends[-1]) + 4
        ends.append(end + length_of(stream[ends[-1]:end]))
    return ends[1:]


def messages(stream):
    """The messages of a stream: of each its first line in words, and its body."""
    ends = cut_after(stream, content_length)
    parts = [stream[start:end].partition(b"\r\n\r\n") for start, end in zip([0, *ends], ends)]
    return [(head.splitlines()[0].decode().split(" "), body.decode()) for head, _, body in parts]


def content_length(head):
    fields = dict(line.split(b": ", 1) for line in head.splitlines()[1:-1])
    return int(fields.get(b"Content-Length", 0))


class Client:
    """A client that starts a program, sends it bytes and waits for its replies. If that takes too long, the program is ended."""

    def __init__(self, test, **how):
        pipes = dict.fromkeys(("stdin", "stdout", "stderr"), subprocess.PIPE)
        self.program = subprocess.Popen([PROGRAM, *test.words], bufsize=0, **pipes, **how)
        self.watch = threading.Timer(SECONDS, self.program.kill)
        self.watch.start()
        test.addCleanup(self.leave)

    def send(self, piece):
        """Sends these bytes, and waits until the program has taken them all, or has ended."""
        self.program.stdin.write(piece)
        left = bytearray(4)
        while fcntl.ioctl(self.program.stdin, termios.FIONREAD, left) == 0 and struct.unpack("i", left) != (0,):
            if self.program.poll() is not None:
                return
            time.sleep(0)

    def receive(self, count):
        """`count` bytes of replies, or fewer if there are no more."""
        got = b""
        while len(got) < count and (piece := self.program.stdout.read(count - len(got))):
            got += piece
        return got

    def end(self):
        """What the program ends with, though its input may still be open: its status, its last replies and words."""
        out = self.program.stdout.read()
        return self.program.wait(), out, self.program.stderr.read()

    def close(self, waits=True):
        """The same where nothing more is asked. It is waited for in any case."""
        self.program.stdin.close()
        return self.end()

    def leave(self):
        self.watch.cancel()
        self.program.kill()
        self.program.wait()
        for pipe in (self.program.stdin, self.program.stdout, self.program.stderr):
            pipe.close()


class Program(unittest.TestCase):
    # The words that the program is called with, if a test doesn't say others.
    words = ("solo",)

    def setUp(self):
        self.assertTrue(PROGRAM.is_file(), "there is no program to test: ./filehost builds it")

    def notices(self):
        """What the program will say on standard error while it begins."""
        return b""

    def assert_answers(self, given, wanted, message=None):
        """The program answers these requests with exactly these replies, and ends well."""
        notices = self.notices()
        self.assertEqual(run(*self.words, given=given), (0, wanted, notices), message)

    def assert_converses(self, exchanges, unread=b""):
        """The program answers the request of each exchange with its reply, and nothing after them, and ends well."""
        given, notices = b"".join(asked for asked, _ in exchanges), self.notices()
        status, out, errors = run(*self.words, given=given + unread)
        place = 0
        for number, (asked, wanted) in enumerate(exchanges, 1):
            got = out[place:place + len(wanted)]
            self.assertEqual(got, wanted, f"exchange {number}: {asked[:200]}")
            place += len(wanted)
        self.assertEqual((status, out[place:], errors), (0, b"", notices), f"after exchange {len(exchanges)}")

    def assert_converses_in_turns(self, exchanges):
        """The program answers each request before the next one is sent, and ends with its input or if a reply says so."""
        client = Client(self)
        for number, (asked, wanted) in enumerate(exchanges, 1):
            client.send(asked)
            self.assertEqual(client.receive(len(wanted)), wanted, f"exchange {number}: {asked[:200]}")
        ended = client.end() if b"Connection: close" in exchanges[-1][1] else client.close()
        self.assertEqual(ended, (0, b"", b""))
