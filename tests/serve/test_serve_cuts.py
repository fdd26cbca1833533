"""Clients of `filehost serve` that break off at each byte: they close or reset their connection, or a read or a write of it fails. Whole requests are answered,
and nothing else is done; what a cut reply tells of stands, and nothing more is read. Other connections go on.

What is expected follows from docs/WIRE.md, "When a connection ends". A library in C lets calls on one connection fail (fail_sockets.c).
"""

import contextlib
import json
import mmap
import socket
import struct
import subprocess

from lib.client import EXAMPLES, HERE, SECONDS, content_length, cut_after, digest_of, opened, opening, request, upload, uploaded
from lib.range_replies import TWO_PARTS
from lib.sample_site import TEXTS
from lib.served import Served, ask, told_at
from lib.wire import NO_FILE

SOURCE = HERE / "fail_sockets.c"
SIZE, NUMBERS = 8, 6
# A file of a site that nobody deploys.
NEXT = request("GET", "/s/none/a.txt")
FOR_GOOD = (1 << 63) - 1
ASKED, REPLIES = ((EXAMPLES / f"first-run.{name}").read_bytes() for name in ("http", "replies"))
ENDS = [0, *cut_after(ASKED, content_length)], [0, *cut_after(REPLIES, content_length)]
# How many entries there are after so many of its requests.
ENTRIES = [0, 1, 2, 2, 3, 3]


def whole(ends, place):
    """How many messages are whole up to a place."""
    return sum(end <= place for end in ends) - 1


class Cuts(Served):
    def begin(self, *words):
        room = self.folder()
        library, file = room / "fail_sockets.so", room / "sockets"
        subprocess.run(["gcc", "-O1", "-shared", "-fPIC", "-o", library, SOURCE, "-ldl"], check=True, timeout=SECONDS)
        file.write_bytes(bytes(NUMBERS * SIZE))
        with file.open("r+b") as shared:
            self.shared = mmap.mmap(shared.fileno(), NUMBERS * SIZE)
        self.environment = {"LD_PRELOAD": str(library), "SOCKETS_FILE": str(file)}
        self.start_anew(*words)

    def start_anew(self, *words):
        self.started = self.serve("--workers", "1", *words, environment=self.environment)
        self.honest = self.plug(NEXT)
        self.assert_receives(self.honest, NO_FILE)

    def assert_goes_on(self):
        """Another connection is answered."""
        self.honest.sendall(NEXT)
        self.assert_receives(self.honest, NO_FILE)

    def breaking(self, read=FOR_GOOD, written=FOR_GOOD):
        """A connection of which so many bytes can be read, and so many be written to it."""
        plug = self.plug()
        struct.pack_into(f"={NUMBERS}Q", self.shared, 0, plug.getsockname()[1], read, written, 0, 0, 0)
        return plug

    def received_of(self, plug):
        """What comes over a connection until it ends."""
        came = b""
        with contextlib.suppress(ConnectionError):
            while more := plug.recv(65_536):
                came += more
        plug.close()
        return came

    def assert_nothing_after(self):
        """No call on the connection came after the one that failed."""
        self.assertEqual(struct.unpack_from(f"={NUMBERS}Q", self.shared)[-1], 0)

    def entries(self, site="one"):
        status, told = ask(self.client(), "GET", f"/api/v1/sites/{site}/changes")
        self.assertEqual(status, 200)
        return len(json.loads(told)["changes"])


def reset(plug):
    """Closes a connection as one that was lost."""
    plug.setsockopt(socket.SOL_SOCKET, socket.SO_LINGER, struct.pack("ii", 1, 0))
    plug.close()


class FirstRun(Cuts):
    """The first run of examples/, sent at once to a host that is empty."""

    def assert_each(self, places, play):
        self.begin()
        for place in places:
            with told_at(place=place):
                count = play(place)
                self.assertEqual(self.entries(), ENTRIES[count])
                self.assert_goes_on()
            self.honest.close()
            self.end(self.started)
            self.start_anew()

    def test_that_is_cut_at_each_byte_is_answered_as_far_as_it_is_whole(self):
        def play(place):
            plug = self.plug(ASKED[:place])
            plug.shutdown(socket.SHUT_WR)
            count = whole(ENDS[0], place)
            self.assertEqual(self.received_of(plug), REPLIES[:ENDS[1][count]])
            return count

        self.assert_each(range(len(ASKED) + 1), play)

    def test_whose_replies_are_cut_at_each_byte_is_done_as_far_as_they_begin(self):
        def play(place):
            plug = self.breaking(written=place)
            plug.sendall(ASKED)
            self.assertEqual(self.received_of(plug), REPLIES[:place])
            self.assert_nothing_after()
            return whole(ENDS[1], place) + 1

        self.assert_each(range(len(REPLIES)), play)


class Reads(Cuts):
    def test_of_two_parts_that_are_cut_at_each_byte_end_alone(self):
        self.begin()
        for asked, wanted in TEXTS:
            plug = self.plug(asked)
            self.assert_receives(plug, wanted)
        asked = request("GET", "/s/one/w.txt", "Range: bytes=0-4,-5")
        for place in range(len(TWO_PARTS)):
            with told_at(place=place):
                plug = self.breaking(written=place)
                plug.sendall(asked + NEXT)
                self.assertEqual(self.received_of(plug), TWO_PARTS[:place])
                self.assert_nothing_after()
        self.assert_goes_on()
        whole = self.breaking(written=len(TWO_PARTS))
        whole.sendall(asked)
        self.assert_receives(whole, TWO_PARTS)


class Uploads(Cuts):
    CONTENT = b"a file that comes whole at last"
    asked = upload(1, "a.txt", CONTENT)

    def open(self, files):
        self.begin()
        plug = self.plug(opening({path: digest_of(content) for path, content in files.items()}))
        self.assert_receives(plug, opened(1, *sorted(map(digest_of, files.values()))))

    def required(self):
        status, told = ask(self.client(), "GET", "/api/v1/deploys/1")
        self.assertEqual(status, 200)
        return json.loads(told)["required"]

    def test_that_are_cut_at_each_byte_do_nothing(self):
        """The client closes or resets its connection, or closes its side alone, or a read fails."""
        def close(place):
            self.plug(self.asked[:place]).close()

        def close_side(place):
            plug = self.plug(self.asked[:place])
            plug.shutdown(socket.SHUT_WR)
            self.assertEqual(self.received_of(plug), b"")

        def lose(place):
            reset(self.plug(self.asked[:place]))

        def fail(place):
            plug = self.breaking(read=place)
            plug.sendall(self.asked)
            self.assertEqual(self.received_of(plug), b"")
            self.assert_nothing_after()

        self.open({"/a.txt": self.CONTENT})
        for cut in (close, close_side, lose, fail):
            for place in range(len(self.asked)):
                with told_at(cut=cut.__name__, place=place):
                    cut(place)
                    self.assertEqual(self.required(), [digest_of(self.CONTENT)])
        self.assert_goes_on()
        self.assertEqual(self.entries(), 1)
        self.assert_receives(self.plug(self.asked), uploaded(self.CONTENT, 2))

    def test_whose_replies_are_cut_at_each_byte_stand(self):
        count = len(uploaded(self.CONTENT))
        files = {f"/{number}": f"file {number:3}".encode() for number in range(count + 1)}
        self.open(files)
        lacking = set(map(digest_of, files.values()))
        for place, (path, content) in enumerate(list(files.items())[:-1]):
            with told_at(place=place):
                plug = self.breaking(written=place)
                plug.sendall(upload(1, path[1:], content) + NEXT)
                self.assertEqual(self.received_of(plug), uploaded(content)[:place])
                self.assert_nothing_after()
                lacking.remove(digest_of(content))
                self.assertEqual(self.required(), sorted(lacking))
        self.assert_goes_on()
        self.assertEqual(self.entries(), 1)
