"""What a GET of 64 bytes takes over a connection of many: how often the program allocates for it, and how many instructions it takes."""

import os
import re
import subprocess

from servers import TOP
from streams import MEBIBYTE, write_content, write_stream

# A GET is counted by a connection of many GETs, less one of few.
FEW, MANY = 10, 90


def build_counter(folder):
    """Builds the library that counts allocations."""
    command = ["gcc", "-O1", "-shared", "-fPIC", "-o", folder / "counting.so", TOP / "tests/lib/refuse_allocation.c", "-ldl"]
    subprocess.run(command, check=True)


def write_gets(folder, requests):
    """Writes the requests of a connection that puts one file of 64 bytes and then reads it so often."""
    content = folder / "small"
    with content.open("wb") as file:
        digest = write_content(file, 64)
    return write_stream(folder, content, digest, requests)


def count_allocations(program, folder, requests):
    """How often the program allocates over such a connection."""
    told = folder / "allocations"
    env = dict(os.environ, LD_PRELOAD=str(folder / "counting.so"), ALLOCATIONS_FILE=str(told))
    with write_gets(folder, requests).open("rb") as stream:
        subprocess.run([program, "solo"], stdin=stream, stdout=subprocess.DEVNULL, env=env, check=True)
    return int(told.read_text())


def instructions_of(command, folder, given, within=None):
    """How many instructions a command takes with this file as its input, by valgrind; or how many of them it takes within a function."""
    flags = [f"--toggle-collect={within}"] if within else []
    command = ["valgrind", "--tool=callgrind", f"--callgrind-out-file={folder / 'calls'}", *flags, *command]
    with given.open("rb") as stream:
        ran = subprocess.run(command, stdin=stream, stdout=subprocess.DEVNULL, stderr=subprocess.PIPE, text=True, check=True)
    return int(re.search(r"Collected : (\d+)", ran.stderr)[1])


def count_instructions(program, folder, requests):
    """How many instructions the program takes over such a connection."""
    return instructions_of([program, "solo"], folder, write_gets(folder, requests))


def count_served(program, folder, requests, *how, within=None):
    """The same of the program that serves a connection in steps or at once. Each request is a read of its own."""
    stream, line = write_gets(folder, requests).read_bytes(), folder / "line"
    cuts = ",".join(str(end.end()) for end in re.finditer(b"\r\n\r\n", stream))
    line.write_text(" ".join([cuts, *map(str, how), stream.hex()]) + "\n")
    return instructions_of([program, "steps"], folder, line, within)


def count_at_once(program, folder, requests):
    """The same at once, by `serve_connection`."""
    return count_served(program, folder, requests)


def count_within(program, folder, requests):
    """The same without what the program does before and after: it reads and writes hexadecimal digits."""
    return count_served(program, folder, requests, within="host_driver::steps::serving::written_at_once")


def count_in_steps(program, folder, requests):
    """The same in steps: before each request the connection has to wait, as over a socket whose client waits for each reply."""
    return count_served(program, folder, requests, "all")


def count_in_short_steps(program, folder, requests):
    """The same where the connection has to wait before each write too, as over a socket that is full."""
    return count_served(program, folder, requests, MEBIBYTE)


def per_get(count, program, folder):
    """What a GET adds to this count over a connection."""
    few, many = (count(program, folder, requests) for requests in (FEW, MANY))
    return (many - few) / (MANY - FEW)
