"""A store whose files are lost or damaged while the program runs: what is read of them is refused, unless it was read before and is still in memory, and
all else goes on. With `solo` and with `serve`."""

import itertools

from lib.client import HELLO, digest_of, opened, opening, refused, request, sent, to_head, upload, uploaded
from lib.served_stores import OfServe
from lib.stores import PIECE, Stored, files_of, opening_of, pieces_of
from lib.worked_runs import NO_FILE, entry, reading, removing, renaming, showing, stands, undoing

MISSING, DAMAGED, DEVICE = refused("Missing"), refused("Damaged"), refused("Device")
BINARY = "application/octet-stream"


class Damage(Stored):
    """Files that are lost or damaged after the store was opened."""

    content = b"".join(bytes([place]) * PIECE for place in range(3)) + b"the end"
    entries = [opening_of({"/a.txt": b"hello", "/d": content}), ("publish", "one", 1)]

    def begin(self):
        """A program that has opened the store, and has read nothing of these files yet."""
        self.write(self.entries, b"hello", self.content)
        talk = self.talk()
        talk.ask(reading("/s/one/nothing"), NO_FILE)
        return talk

    def piece(self, place):
        return self.folder / f"c-{digest_of(pieces_of(self.content)[place])}"

    def wrong_bytes(self):
        piece = pieces_of(self.content)[1]
        changed = piece[:777] + bytes([piece[777] ^ 4]) + piece[778:]
        return [changed, piece[:-1], b"", piece + b"x", piece * 2, pieces_of(self.content)[0]]

    def assert_is_told(self, talk, wanted):
        """Each read of the file that needs that piece is refused, and all else is answered as ever, also HEAD of the file."""
        talk.ask(reading("/s/one/d"), wanted)
        talk.ask(reading("/d/one/1/d"), wanted)
        # To HEAD nothing is read, so it tells of the file as ever.
        talk.ask(request("HEAD", "/s/one/d"), to_head(sent(self.content, kind=BINARY)))
        talk.ask(request("GET", "/s/one/d", f"Range: bytes={PIECE}-{PIECE}"), wanted)
        talk.ask(request("GET", "/s/one/d", f"Range: bytes=0-0,{PIECE + 5}-{PIECE + 6}"), wanted)
        first = sent(b"\x00", f"Content-Range: bytes 0-0/{len(self.content)}", kind=BINARY, whole=self.content)
        talk.ask(request("GET", "/s/one/d", "Range: bytes=0-0"), first)
        last = sent(b"end", f"Content-Range: bytes {len(self.content) - 3}-{len(self.content) - 1}/{len(self.content)}",
                    kind=BINARY, whole=self.content)
        talk.ask(request("GET", "/s/one/d", "Range: bytes=-3"), last)
        talk.ask(reading("/s/one/a.txt"), sent(b"hello"))
        talk.ask(removing("/a.txt"), entry(3))
        talk.ask(undoing(3), entry(4))
        talk.ask(renaming("/d", "/e"), entry(5))
        talk.ask(reading("/s/one/e"), wanted)
        talk.end()

    def test_a_piece_that_is_lost_is_missing(self):
        talk = self.begin()
        self.piece(1).unlink()
        self.assert_is_told(talk, MISSING)
        self.assert_fails(4, f"blobs: DamagedBlob {digest_of(self.content)}")

    def test_a_piece_with_other_bytes_is_damaged(self):
        for data in self.wrong_bytes():
            with self.subTest(size=len(data)):
                talk = self.begin()
                self.piece(1).write_bytes(data)
                self.assert_is_told(talk, DAMAGED)
                self.assert_fails(4, f"blobs: DamagedBlob {digest_of(self.content)}")

    def test_a_folder_in_place_of_a_piece_is_damaged(self):
        talk = self.begin()
        self.piece(1).unlink()
        self.piece(1).mkdir()
        self.assert_is_told(talk, DAMAGED)

    def test_a_piece_that_cannot_be_read_is_a_failure_of_the_device(self):
        talk = self.begin()
        self.piece(1).unlink()
        self.piece(1).symlink_to(self.piece(1))
        self.assert_is_told(talk, DEVICE)
        self.assert_fails(4, "blobs: Device")

    def test_two_pieces_that_are_swapped_are_damaged(self):
        talk = self.begin()
        self.swap(self.piece(1), self.folder / f"c-{HELLO}")
        for target in ("d", "a.txt"):
            talk.ask(reading(f"/s/one/{target}"), DAMAGED)
        self.swap(self.piece(1), self.folder / f"c-{HELLO}")
        talk.ask(reading("/s/one/a.txt"), sent(b"hello"))
        self.swap(self.piece(0), self.piece(2))
        talk.ask(reading("/s/one/d"), DAMAGED)
        talk.ask(request("GET", "/s/one/d", f"Range: bytes={2 * PIECE}-{2 * PIECE}"), DAMAGED)
        self.swap(self.piece(0), self.piece(2))
        talk.ask(reading("/s/one/d"), sent(self.content, kind=BINARY))
        talk.end()

    def swap(self, one, other):
        data = one.read_bytes()
        one.write_bytes(other.read_bytes())
        other.write_bytes(data)

    def test_a_table_that_is_lost_is_not_looked_for(self):
        talk = self.begin()
        (self.folder / f"t-{HELLO}").unlink()
        talk.ask(reading("/s/one/a.txt"), sent(b"hello"))
        talk.end()
        self.assert_fails(4, f"blobs: MissingBlob {HELLO}")

    def test_a_piece_that_is_given_back_is_read(self):
        talk = self.begin()
        data = self.piece(1).read_bytes()
        self.piece(1).unlink()
        talk.ask(reading("/s/one/d"), MISSING)
        self.piece(1).write_bytes(data)
        talk.ask(reading("/s/one/d"), sent(self.content, kind=BINARY))
        talk.end()


class Uploaded(Stored):
    """Files that are lost or damaged after they were uploaded, and before they are read; and uploads that fail."""

    # in three pieces and in one, all of them different
    contents = {"/a.txt": b"abcdefghijklmnopqrstuvwxyz" * 5_042, "/b.txt": b"abc"}
    ways = {
        "lost": (lambda data: None, MISSING), "changed": (lambda data: data[:-1] + bytes([255 - data[-1]]), DAMAGED),
        "cut": (lambda data: data[:-1], DAMAGED), "lengthened": (lambda data: data + b"\x00", DAMAGED),
    }

    def begin(self):
        """A program with an open deploy of both files."""
        self.write([])
        talk = self.talk()
        digests = {path: digest_of(content) for path, content in self.contents.items()}
        talk.ask(opening(digests), opened(1, *sorted(digests.values())))
        return talk

    def upload_both(self, talk, published=None):
        """Uploads both files, after which the deploy is published, or was before."""
        for path, content in self.contents.items():
            talk.ask(upload(1, path[1:], content), uploaded(content, published if path == "/b.txt" else None))

    def read_both(self, talk, wrong="", wanted=None):
        """Reads both files twice; the wrong one is refused."""
        for path, content in [*self.contents.items()] * 2:
            talk.ask(reading(f"/s/one{path}"), wanted if path == wrong else sent(content))

    def test_damage_is_told_at_each_read_until_it_is_mended(self):
        files = [(path, *file) for path, content in self.contents.items() for file in files_of(content).items()]
        self.assertEqual([name[0] for _, name, _ in files], ["c", "c", "c", "t", "c", "t"])
        for path, name, data in files:
            for way, (spoil, wanted) in self.ways.items():
                with self.subTest(path=path, name=name, way=way):
                    talk = self.begin()
                    self.upload_both(talk, published=2)
                    (self.folder / name).unlink()
                    if spoil(data) is not None:
                        (self.folder / name).write_bytes(spoil(data))
                    # What is known is not stored again, and no read looks at a table.
                    self.upload_both(talk)
                    self.read_both(talk, path if name[0] == "c" else "", wanted)
                    (self.folder / name).write_bytes(data)
                    self.read_both(talk)
                    talk.end()

    def test_a_file_whose_upload_failed_can_be_uploaded_again(self):
        for (path, content), (other, kept) in itertools.permutations(self.contents.items()):
            for name in files_of(content):
                with self.subTest(path=path, name=name):
                    talk = self.begin()
                    # No put replaces a folder.
                    (self.folder / name).mkdir()
                    talk.ask_all([(upload(1, path[1:], content), DEVICE), (upload(1, other[1:], kept), uploaded(kept))])
                    talk.ask(showing(1), stands(1, "open", digest_of(content)))
                    (self.folder / name).rmdir()
                    talk.ask_all([(upload(1, path[1:], content), uploaded(content, published=2)), (upload(1, other[1:], kept), uploaded(kept))])
                    self.read_both(talk)
                    talk.end()


class Cached(Stored):
    """Files that are lost after they were read, while their pieces are in memory."""

    small = b"".join(bytes([place]) * PIECE for place in range(3)) + b"the end"
    # Four files of 16 MiB, whose pieces are all different.
    large = [b"".join((1000 * number + place).to_bytes(4, "big") * (PIECE // 4) for place in range(256)) for number in range(1, 5)]

    def begin(self):
        """A program that has opened the store and has read the small file, before one of its pieces was lost."""
        files = {"/small": self.small} | {f"/{number}": content for number, content in enumerate(self.large)}
        self.write([opening_of(files), ("publish", "one", 1)], self.small, *self.large)
        talk = self.talk()
        talk.ask(reading("/s/one/small"), sent(self.small, kind=BINARY))
        (self.folder / f"c-{digest_of(pieces_of(self.small)[1])}").unlink()
        return talk

    def test_what_was_read_is_sent_from_memory(self):
        talk = self.begin()
        talk.ask(reading("/s/one/small"), sent(self.small, kind=BINARY))
        talk.ask(request("GET", "/s/one/small", "Range: bytes=65536-65537"),
                 sent(b"\x01\x01", f"Content-Range: bytes 65536-65537/{len(self.small)}", kind=BINARY, whole=self.small))
        talk.end()
        self.assert_fails(4, f"blobs: DamagedBlob {digest_of(self.small)}")

    def test_what_was_read_64_mib_ago_is_looked_for(self):
        talk = self.begin()
        for number, content in enumerate(self.large):
            talk.ask(reading(f"/s/one/{number}"), sent(content, kind=BINARY))
        talk.ask(reading("/s/one/small"), MISSING)
        talk.end()


class DamageOfServe(OfServe, Damage):
    """The same of `serve`."""


class UploadedOfServe(OfServe, Uploaded):
    """The same of `serve`."""


class CachedOfServe(OfServe, Cached):
    """The same of `serve`."""
