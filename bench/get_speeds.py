"""How fast a plain GET is, for bench/compare."""

import contextlib
import socket
import statistics
import subprocess

from servers import HOST, PATIENCE, Filehost, length_of, read_head, stop
from tables import LARGEST, check, random_bytes, say_table, timed

GETS = 90


class Direct:
    """A connection to a program that has it as its standard input and output, with nothing between."""

    def __init__(self, stack, filehost):
        filehost.front.rest_of_programs()
        with socket.create_server((HOST, 0)) as listener:
            self.near = socket.create_connection(listener.getsockname())
            far, _ = listener.accept()
        self.near.settimeout(PATIENCE)
        far.setsockopt(socket.IPPROTO_TCP, socket.TCP_NODELAY, True)
        with far:
            process = subprocess.Popen(filehost.front.words, stdin=far, stdout=far, start_new_session=True)
        stack.callback(stop, process)
        stack.callback(self.near.close)


def time_gets(connection, target, content, count):
    """The seconds of each of `count` GETs over a connection, one after another. One GET before them has its bytes compared."""
    asked = f"GET {target} HTTP/1.1\r\nHost: {HOST}\r\n\r\n".encode()
    room = memoryview(bytearray(len(content)))
    with connection.makefile("rb", 65_536) as stream:
        def get():
            connection.sendall(asked)
            head = read_head(stream)
            check(head.startswith(b"HTTP/1.1 200 ") and length_of(head) == len(content) == stream.readinto(room), f"a GET: {head[:60]}")
        get()
        check(room == content, "the bytes of a GET")
        return [timed(get) for _ in range(count)]


def time_server(server, path, content, count):
    with contextlib.ExitStack() as stack:
        if isinstance(server, Filehost):
            connection = Direct(stack, server).near
        else:
            connection = stack.enter_context(socket.create_connection((HOST, server.port), PATIENCE))
        return time_gets(connection, server.target(path), content, count)


def compare_speeds(servers, times):
    rows = []
    for title, size, count in (("64 bytes", 64, GETS), ("64 KiB", 65_536, GETS), ("1 MiB", 1 << 20, GETS), ("16 MiB", LARGEST, 4)):
        path, content = f"/speed-{size}", random_bytes(size, size)
        for server in servers:
            server.put(path, content)
        runs = [[time_server(server, path, content, count) for server in servers] for _ in range(times)]
        for how, of in (("median", statistics.median), ("best", min)):
            took = [of(sum(turns, [])) for turns in zip(*runs)]
            rows.append([title, how, *(f"{seconds * 1e6:,.0f} us" for seconds in took), *(f"{took[0] / seconds:.2f}" for seconds in took[1:])])
    names = [server.title for server in servers]
    say_table("A plain GET over one connection, one after another",
              ["File", "Of all", *names, *(f"filehost's time against {name}" for name in names[1:])], rows)
