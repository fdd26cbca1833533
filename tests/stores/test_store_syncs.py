"""What a store does before it answers an upload: which of its files are written, synced and renamed, and in what order, as docs/STORAGE.md
says, by `solo` and by `serve`. No clause of a contract says it of a folder."""

import os

from lib.client import digest_of, run, upload, uploaded
from lib.file_traces import Traces
from lib.served import Served
from lib.stores import PIECE, Stored, files_of, opening_of

ZEROS = bytes(PIECE)
# Of each command the temporary name of a file, and the call by which a reply begins to go out.
TEMPORARIES = {"solo": "blob.tmp", "serve": "blob-0.tmp"}
REPLIES = {"solo": "write replies", "serve": "send socket"}


def joined(lines):
    """The lines, but for those that repeat the one before: bytes may be written in several calls."""
    return [line for place, line in enumerate(lines) if place == 0 or line != lines[place - 1]]


class Uploads(Stored, Served):
    """Over a store with known files. A deploy lacks some contents and one more, and these are uploaded in turn."""

    def solo(self, exchanges, environment):
        """`solo` answers these requests, which are sent at once."""
        replies = self.folder / "replies"
        with replies.open("wb") as output:
            ended = run(*self.words, given=b"".join(asked for asked, _ in exchanges), stdout=output, env={**os.environ, **environment})
        self.assertEqual((ended, replies.read_bytes()), ((0, None, b""), b"".join(wanted for _, wanted in exchanges)))

    def serve_in_turn(self, exchanges, environment):
        """`serve` answers them one after another."""
        started, plug = self.serve("--store", str(self.folder), environment=environment), self.plug()
        for asked, wanted in exchanges:
            plug.sendall(asked)
            self.assert_receives(plug, wanted)
        self.end(started)

    def calls(self, command, contents, known):
        """The calls on files of a program that takes these contents, up to the last reply."""
        listed = {f"/{place}.bin": content for place, content in enumerate([*contents, *known])}
        self.write([opening_of({**listed, "/b.txt": b"another"})], *known)
        exchanges = [(upload(1, f"{place}.bin", content), uploaded(content)) for place, content in enumerate(contents)]
        runs = {"solo": self.solo, "serve": self.serve_in_turn}
        lines = Traces(self.room, self.folder).of(lambda environment: runs[command](exchanges, environment))
        first, *lines = [line for line in lines if " journal" not in line]
        self.assertEqual(first, "fsync folder", "the opening makes the names last that a stopped program left")
        return joined(lines)

    def puts(self, command, content, pieces):
        """A file gets its bytes under another name, which last before it gets its own: the pieces, and then the table. Then the names of all last."""
        temporary, names = TEMPORARIES[command], [*(f"c-{digest_of(piece)}" for piece in pieces), f"t-{digest_of(content)}"]
        return [*(line for name in names for line in (f"write {temporary}", f"fsync {temporary}", f"rename {temporary} {name}")), "fsync folder"]

    def assert_put(self, *contents, known=(), commands=tuple(TEMPORARIES)):
        """Of each content in turn these pieces are put, and its table, before the reply is sent; or nothing, if the pieces are None."""
        for command in commands:
            with self.subTest(command):
                lines = self.calls(command, [content for content, _ in contents], known)
                wanted = [
                    line for content, pieces in contents
                    for line in (*(() if pieces is None else self.puts(command, content, pieces)), REPLIES[command])
                ]
                self.assertEqual(lines, joined(wanted))

    def test_pieces_and_then_their_table_last_before_the_reply(self):
        content = bytes(range(256)) * 256 + b"rest"
        self.assert_put((content, [content[:PIECE], b"rest"]))

    def test_a_piece_that_comes_again_is_put_once(self):
        self.assert_put((ZEROS * 3 + b"rest" + bytes(7), [ZEROS, b"rest" + bytes(7)]))
        self.assert_put((ZEROS * 256, [ZEROS]))
        self.assertEqual(len(files_of(ZEROS * 256)), 2)

    def test_a_piece_that_an_earlier_upload_put_is_put_again_by_serve_alone(self):
        one, two = ZEROS + b"one", ZEROS * 2 + b"two"
        self.assert_put((one, [ZEROS, b"one"]), (two, [b"two"]), (ZEROS, []), commands=["solo"])
        self.assert_put((one, [ZEROS, b"one"]), (two, [ZEROS, b"two"]), (ZEROS, [ZEROS]), commands=["serve"])

    def test_a_piece_of_a_file_that_the_opening_read_is_put_again_by_serve_alone(self):
        self.assert_put((ZEROS + b"two", [b"two"]), known=[ZEROS + b"one"], commands=["solo"])
        self.assert_put((ZEROS + b"two", [ZEROS, b"two"]), known=[ZEROS + b"one"], commands=["serve"])

    def test_of_a_file_that_is_known_nothing_is_put(self):
        self.assert_put((b"same", [b"same"]), (b"same", None))

    def test_the_empty_file_is_a_table(self):
        self.assert_put((b"", []))
