"""In which writes replies go out: a small one is one write, and of a large file four pieces at a time go out in one, but three with the head.

The stream is a socket that keeps the bytes of each write together, so that what is received at once is what was written at once.
"""

import socket
import subprocess
import tempfile

from lib.client import PROGRAM, PUBLISHED, SECONDS, Program, digest_of, opened, opening, request, sent, to_head, upload, uploaded
from lib.range_replies import TWO_PARTS, parts
from lib.stores import PIECE, pieces_of
from lib.wire import NO_FILE

# So many bytes of small parts are gathered before they are written.
ROOM = 8_192
# One write takes so many pieces of a file beside what was gathered, and one more where nothing was.
AT_ONCE = 3
LARGEST_WRITE = 1 << 20
BINARY = "application/octet-stream"


class Writes(Program):
    def writes_of(self, asked):
        """The bytes of each write with which these requests are answered, in order."""
        near, far = socket.socketpair(socket.AF_UNIX, socket.SOCK_SEQPACKET)
        # The largest write of all is four pieces.
        far.setsockopt(socket.SOL_SOCKET, socket.SO_SNDBUF, LARGEST_WRITE)
        with near, tempfile.TemporaryFile() as given:
            given.write(asked)
            given.seek(0)
            with far:
                program = subprocess.Popen([PROGRAM, *self.words], stdin=given, stdout=far, stderr=subprocess.PIPE)
            near.settimeout(SECONDS)
            written = []
            while piece := near.recv(LARGEST_WRITE):
                written.append(piece)
            self.assertEqual((program.wait(), program.stderr.read()), (0, b""))
            program.stderr.close()
        return written

    def assert_writes(self, talk, *reads):
        """Each reply of the talk is one write, and the reads after it are answered by these writes."""
        asked = b"".join(request for request, _ in talk) + b"".join(request for request, _ in reads)
        wanted = [reply for _, reply in talk] + [write for _, writes in reads for write in writes]
        # The sizes come first, as they tell more of what differs.
        written = self.writes_of(asked)
        self.assertEqual(list(map(len, written)), list(map(len, wanted)))
        self.assertEqual(written, wanted)

    def talk_with(self, content):
        """A talk after which the site has this file at /d."""
        digest = digest_of(content)
        return [(opening({"/d": digest}), opened(1, digest)), (upload(1, "d", content), uploaded(content, 2))]

    def test_of_a_small_reply_are_one(self):
        self.assert_writes(PUBLISHED, (request("GET", "/s/one/a.txt"), [sent(b"hello")]),
                           (request("HEAD", "/s/one/a.txt"), [to_head(sent(b"hello"))]), (request("GET", "/s/one/b.txt"), [NO_FILE]))

    def test_of_a_small_reply_with_several_parts_are_one(self):
        content = b"hello world"
        digest = digest_of(content)
        talk = [(opening({"/w.txt": digest}), opened(1, digest)), (upload(1, "w.txt", content), uploaded(content, 2))]
        self.assert_writes(talk, (request("GET", "/s/one/w.txt", "Range: bytes=0-4,-5"), [TWO_PARTS]))

    def test_of_a_file_of_up_to_three_pieces_are_one(self):
        head = len(to_head(sent(b"a" * 8_000, kind=BINARY)))
        for size in (ROOM - head, ROOM - head + 1, ROOM, ROOM + 1, PIECE, PIECE + 1, AT_ONCE * PIECE):
            content = bytes(place % 251 for place in range(size))
            with self.subTest(size=size):
                self.assert_writes(self.talk_with(content), (request("GET", "/s/one/d"), [sent(content, kind=BINARY)]))

    def test_of_a_large_file_have_four_pieces_each_but_for_the_first(self):
        content = bytes(place % 251 for place in range(12 * PIECE + 77))
        reply = sent(content, kind=BINARY)
        pieces = pieces_of(content)
        first = to_head(reply) + b"".join(pieces[:AT_ONCE])
        others = [b"".join(pieces[at:at + AT_ONCE + 1]) for at in range(AT_ONCE, len(pieces), AT_ONCE + 1)]
        self.assert_writes(self.talk_with(content), (request("GET", "/s/one/d"), [first, *others]),
                           (request("HEAD", "/s/one/d"), [to_head(reply)]))

    def test_of_several_large_parts_have_each_stretch_with_what_lies_before_it(self):
        content = bytes(place % 251 for place in range(2 * PIECE))
        reply = parts(content, (0, 9_999), (PIECE - 9_000, PIECE + 8_999), kind=BINARY)
        stretches = [content[:10_000], content[PIECE - 9_000:PIECE], content[PIECE:PIECE + 9_000]]
        talk = self.talk_with(content)
        asked = request("GET", "/s/one/d", f"Range: bytes=0-9999,{PIECE - 9_000}-{PIECE + 8_999}")
        writes = self.writes_of(b"".join(request for request, _ in talk) + asked)[len(talk):]
        self.assertEqual(b"".join(writes), reply)
        self.assertEqual(len(writes), len(stretches))
        for write, stretch in zip(writes, stretches):
            self.assertIn(stretch, write)
