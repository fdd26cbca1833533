"""A connection as a stream: the pieces in which bytes come, where they end, and reads and writes that fail.

What is expected follows from docs/WIRE.md, docs/HTTP.md and docs/DECISIONS.md.
"""

import os
import pathlib
import resource
import select
import socket
import subprocess
import tempfile

from lib.client import HERE, SECONDS, Client, Program, closing, digest_of, opened, opening, request, run, sent, upload, uploaded
from lib.range_replies import TWO_PARTS, parts
from lib.sample_connection import ASKED, TALK, WANTED
from lib.wire import NEXT


def replies_within(length):
    """The replies to the requests that are whole within the first `length` bytes of the stream."""
    ends = [sum(len(asked) for asked, _ in TALK[:count]) for count in range(1, len(TALK) + 1)]
    return b"".join(wanted for end, (_, wanted) in zip(ends, TALK) if end <= length)


class Pieces(Program):
    """In whatever pieces a stream comes, and wherever it is cut."""

    def assert_hears(self, pieces, message):
        client = Client(self)
        for piece in pieces:
            client.send(piece)
        self.assertEqual(client.end(), (0, WANTED, b""), message)
        client.leave()

    def test_of_a_few_bytes_make_no_difference(self):
        for size in (1, 2, 7, 50):
            self.assert_hears([ASKED[start:start + size] for start in range(0, len(ASKED), size)], f"{size} bytes")

    def test_separated_anywhere_make_no_difference(self):
        for place in range(len(ASKED) + 1):
            self.assert_hears([ASKED[:place], ASKED[place:]], f"separated after {place} bytes")

    def test_are_answered_as_far_as_requests_are_whole(self):
        for length in range(len(ASKED) + 1):
            self.assert_answers(ASKED[:length], replies_within(length), f"cut after {length} bytes")

    def test_are_answered_before_more_comes(self):
        """No byte of a reply comes before the last byte of its request. Then the whole reply comes, though nothing more is sent."""
        client = Client(self)
        for asked, wanted in TALK:
            for place in range(len(asked)):
                # The program has the time to answer too early before the last byte.
                seconds = 0.1 if place == len(asked) - 1 else 0
                self.assertEqual(select.select([client.program.stdout], [], [], seconds)[0], [], f"before byte {place} of {asked[:50]}")
                client.send(asked[place:place + 1])
            self.assertEqual(client.receive(len(wanted)), wanted)
        self.assertEqual(client.end(), (0, b"", b""))

    def test_of_a_long_head_and_a_long_body_make_no_difference(self):
        content = bytes(range(256)) * 160
        digest = digest_of(content)
        long = upload(1, "a.txt", content).replace(b"\r\n", b"\r\nLong: " + b"a" * 16_000 + b"\r\n", 1)
        talk = [(opening({"/a.txt": digest}), opened(1, digest)), (long, uploaded(content, 2)), (NEXT, sent(content))]
        for size in (100, 1_024, 16_383, 16_384, 16_385):
            client = Client(self)
            for asked, wanted in talk:
                for start in range(0, len(asked), size):
                    client.send(asked[start:start + size])
                self.assertEqual(client.receive(len(wanted)), wanted, f"{size} bytes")


INPUT_FAULT = b"filehost: input fault\n"
OUTPUT_FAULT = b"filehost: output fault\n"


class Faults(Program):
    """Reads and writes that fail from some byte on."""

    def run_within(self, room, **how):
        """Runs the program with a limit of `room` bytes on the size of each file."""
        limits = resource.getrlimit(resource.RLIMIT_FSIZE)
        resource.setrlimit(resource.RLIMIT_FSIZE, (room, limits[1]))
        try:
            return run("solo", restore_signals=False, **how)
        finally:
            resource.setrlimit(resource.RLIMIT_FSIZE, limits)

    def assert_writes_within(self, room, asked, wanted):
        """The replies are written up to that byte, and no byte is after it."""
        with tempfile.TemporaryFile() as out:
            status, _, errors = self.run_within(room, given=asked, stdout=out)
            out.seek(0)
            ended = (2, OUTPUT_FAULT) if room < len(wanted) else (0, b"")
            self.assertEqual((out.read(), status, errors), (wanted[:room], *ended), f"after {room} bytes")

    def test_of_a_write_after_each_byte_leave_a_front_of_the_replies(self):
        for room in range(len(WANTED) + 1):
            self.assert_writes_within(room, ASKED, WANTED)

    def talk_over(self, content, ranges, wanted):
        """The streams in which a file is uploaded and these ranges of it are read; and the place at which the reply to that begins."""
        digest = digest_of(content)
        asked = opening({"/w.txt": digest}) + upload(1, "w.txt", content) + request("GET", "/s/one/w.txt", f"Range: {ranges}")
        front = opened(1, digest) + uploaded(content, 2)
        return asked, front + wanted, len(front)

    def test_of_a_write_after_each_byte_of_a_reply_with_several_parts_leave_a_front_of_it(self):
        asked, wanted, begin = self.talk_over(b"hello world", "bytes=0-4,-5", TWO_PARTS)
        for room in range(begin, len(wanted) + 1):
            self.assert_writes_within(room, asked, wanted)

    def test_of_a_write_near_each_edge_of_large_parts_leave_a_front_of_their_reply(self):
        content = bytes(range(251)) * 600
        reply = parts(content, (0, 9_999), (60_000, 80_000), kind="text/plain; charset=utf-8")
        asked, wanted, begin = self.talk_over(content, "bytes=0-9999,60000-80000", reply)
        edges = [len(wanted), begin]
        for piece in (content[:10_000], content[60_000:65_536], content[65_536:80_001]):
            start = wanted.index(piece, edges[-1])
            edges += [start, start + len(piece)]
        for room in sorted({max(0, edge + step) for edge in edges for step in range(-3, 4)} | set(range(begin, len(wanted), 997))):
            self.assert_writes_within(room, asked, wanted)

    def test_of_a_write_come_where_the_reader_goes(self):
        content = bytes(range(256)) * 4_096
        digest = digest_of(content)
        front = opened(1, digest) + uploaded(content, 2)
        for count in (0, 1, 100, 70_000):
            client = Client(self)
            client.send(opening({"/a.txt": digest}) + upload(1, "a.txt", content) + NEXT)
            self.assertEqual(client.receive(len(front)), front)
            self.assertEqual(client.receive(count), sent(content)[:count])
            client.program.stdout.close()
            self.assertEqual((client.program.wait(), client.program.stderr.read()), (2, OUTPUT_FAULT), count)

    def test_of_a_read_after_each_byte_leave_the_replies_to_whole_requests(self):
        stream = ASKED[:-len(closing(NEXT))]
        for length in range(len(stream) + 1):
            near, far = socket.socketpair()
            with near, far:
                # Who closes with something unread resets the connection, after what was sent.
                far.send(b"unread")
                near.sendall(stream[:length])
                near.close()
                ended = run("solo", given=None, stdin=far)
            self.assertEqual(ended, (2, replies_within(length), INPUT_FAULT), f"after {length} bytes")

    def test_have_the_same_status_where_nobody_listens(self):
        folder = os.open("/", os.O_RDONLY)
        self.addCleanup(os.close, folder)
        self.assertEqual(run("solo", given=None, stdin=folder), (2, b"", INPUT_FAULT))
        with tempfile.TemporaryFile() as errors:
            self.assertEqual(self.run_within(3, given=None, stdin=folder, stderr=errors), (2, b"", None))
            errors.seek(0)
            self.assertEqual(errors.read(), INPUT_FAULT[:3])

    def test_are_none_if_the_options_end_after_the_command(self):
        self.assertEqual(run("solo", "--", given=ASKED), (0, WANTED, b""))


class SingleFaults(Program):
    """One read or write fails, and those after it would not. A library in C intercepts these calls (refuse_device.c)."""

    content = bytes(range(256)) * 400
    talk = [
        (opening({"/a.txt": digest_of(content)}), opened(1, digest_of(content))),
        (upload(1, "a.txt", content), uploaded(content, 2)), (NEXT, sent(content)),
    ]

    def setUp(self):
        super().setUp()
        room = tempfile.TemporaryDirectory()
        self.addCleanup(room.cleanup)
        self.room = pathlib.Path(room.name).resolve()
        self.streams = self.room / "streams"
        self.streams.mkdir()
        self.library = self.room / "refuse_device.so"
        command = ["gcc", "-O1", "-shared", "-fPIC", "-o", self.library, HERE / "refuse_device.c", "-ldl"]
        subprocess.run(command, check=True, timeout=SECONDS)

    def run_refusing(self, place, is_late=False):
        """The status, output and words of a run in which this call on its streams is refused, and how many calls there were."""
        told_in = self.room / "calls"
        names = {
            "LD_PRELOAD": str(self.library), "REFUSED_FOLDER": str(self.streams), "REFUSED_PLACE": str(place),
            "REFUSED_LATE": str(int(is_late)), "CALLS_FILE": str(told_in),
        }
        (self.streams / "in").write_bytes(b"".join(asked for asked, _ in self.talk))
        with (self.streams / "in").open("rb") as given, (self.streams / "out").open("w+b") as out:
            status, _, errors = run("solo", given=None, stdin=given, stdout=out, env=os.environ | names)
            out.seek(0)
            return (status, out.read(), errors), int(told_in.read_text())

    def test_end_the_connection_and_no_call_is_made_again(self):
        replies = [wanted for _, wanted in self.talk]
        fronts = {b"".join(replies[:count]) for count in range(len(replies) + 1)}
        whole, calls = self.run_refusing(0)
        self.assertEqual(whole, (0, b"".join(replies), b""))
        self.assertGreater(calls, 10)
        seen = set()
        for place in range(1, calls + 1):
            for is_late in (False, True):
                with self.subTest(place=place, is_late=is_late):
                    (status, out, errors), made = self.run_refusing(place, is_late)
                    self.assertEqual((status, made), (2, place))
                    self.assertIn(errors, (INPUT_FAULT, OUTPUT_FAULT))
                    self.assertTrue(out in fronts if errors == INPUT_FAULT else whole[1].startswith(out), out[-200:])
                    seen.add(errors)
        self.assertEqual(seen, {INPUT_FAULT, OUTPUT_FAULT})
