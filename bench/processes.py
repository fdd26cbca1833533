"""Runs programs over pipes for bench/run: how long they take, and how much memory."""

import contextlib
import os
import pathlib
import subprocess
import sys
import time

from streams import MEBIBYTE, request


class Output:
    """Reads a pipe to its end. It keeps only the length, the last bytes, when `mark` bytes had come, and when the end came."""

    def __init__(self, mark):
        self.buffer = bytearray(MEBIBYTE)
        self.length = 0
        self.last = b""
        self.mark = mark
        self.marked = self.ended = None

    def read_all(self, pipe):
        while count := os.readv(pipe.fileno(), [self.buffer]):
            self.length += count
            self.last = (self.last + bytes(self.buffer[max(0, count - 100):count]))[-100:]
            if self.marked is None and self.length >= self.mark:
                self.marked = time.perf_counter()
        self.ended = time.perf_counter()


def measure(command, fed=None, mark=0):
    """Runs a command, fed by `cat` of a file if one is given, and reads what it prints through a pipe.

    Returns its output, which tells when `mark` bytes of it had come, the seconds from its start to its end, and its peak memory in bytes.
    """
    with contextlib.ExitStack() as stack:
        source = subprocess.DEVNULL
        if fed:
            feeder = stack.enter_context(subprocess.Popen(["cat", fed], stdout=subprocess.PIPE))
            source = feeder.stdout
        output = Output(mark)
        begun = time.perf_counter()
        program = subprocess.Popen(command, stdin=source, stdout=subprocess.PIPE)
        output.read_all(program.stdout)
        _, status, used = os.wait4(program.pid, 0)
        seconds = time.perf_counter() - begun
        program.returncode = os.waitstatus_to_exitcode(status)
        program.stdout.close()
        if program.returncode != 0:
            sys.exit(f"{command[0]} ended with status {program.returncode}")
    return output, seconds, used.ru_maxrss * 1024


def require(holds, what):
    if not holds:
        sys.exit(f"the program answered otherwise than it should: {what}")


def memory_of(program, field):
    """The bytes that the kernel tells of a running program: what it has now (VmRSS), or the most that it had (VmHWM)."""
    told = pathlib.Path(f"/proc/{program.pid}/status").read_text()
    return 1024 * int(told.partition(f"{field}:")[2].split()[0])


def begin_reply(program, method, target, given=None):
    """Lets a running program answer this request, and reads the head of the reply, and what comes of the body with it."""
    program.stdin.write(request(method, target, given))
    program.stdin.flush()
    reply = b""
    while b"\r\n\r\n" not in reply:
        reply += os.read(program.stdout.fileno(), MEBIBYTE)
    require(reply.startswith(b"HTTP/1.1 200 "), reply[:100])
    told, _, body = reply.partition(b"\r\n\r\n")
    return told, body


def ask(program, method, length):
    """Lets a running program answer this request for its file, and reads the reply, whose body has this length."""
    _, body = begin_reply(program, method, "/s/one/file")
    left = length - len(body)
    while left > 0:
        left -= len(os.read(program.stdout.fileno(), MEBIBYTE))


def answer(program, method, target, given=None):
    """Lets a running program answer this request, and returns the body of its reply and the seconds from the request to its end."""
    begun = time.perf_counter()
    told, body = begin_reply(program, method, target, given)
    length = int(told.partition(b"Content-Length: ")[2].split(b"\r\n")[0])
    while len(body) < length:
        body += os.read(program.stdout.fileno(), MEBIBYTE)
    return body, time.perf_counter() - begun


def answer_all(program, requests, last):
    """Lets a running program answer these requests, which are sent at once, and returns the seconds to the end of the last reply, which ends so."""
    begun, got = time.perf_counter(), b""
    program.stdin.write(b"".join(requests))
    program.stdin.flush()
    while not got.endswith(last):
        more = os.read(program.stdout.fileno(), MEBIBYTE)
        got += more
        require(more and b"HTTP/1.1 4" not in got, got[-200:])
    return time.perf_counter() - begun


def list_changes(program, site):
    """Lets a running program list the changes of a site, and returns the body of its reply and the seconds from the request to its end."""
    return answer(program, "GET", f"/api/v1/sites/{site}/changes")
