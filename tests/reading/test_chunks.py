"""Files of more than one chunk of 65,536 bytes: they are read back as they were uploaded, whole and by ranges.

What is expected follows from docs/HTTP.md, by which a client sees no chunks.
"""

from lib.client import LARGEST_FILE, digest_of, done, opened
from lib.range_replies import none_of, part, parts
from lib.rows import DEPLOYS, Interface, get, post, publishing, row, served, uploading

CHUNK = 65_536


def content_of(size):
    """Bytes that repeat after 251, so that no chunk is like another."""
    return (bytes(range(251)) * (size // 251 + 1))[:size]


def by_ranges(content, *cases, path="/a"):
    """Rows that read a file by ranges: each has one or several pairs of positions."""
    rows = []
    for intervals in cases:
        wanted = part(content, *intervals[0]) if len(intervals) == 1 else parts(content, *intervals)
        asked = ",".join(f"{first}-{last}" for first, last in intervals)
        rows.append(get(f"/s/one{path}", wanted, f"Range: bytes={asked}"))
    return rows


class Chunks(Interface):
    """Files of one byte more or less than some chunks."""

    def test_are_read_whole(self):
        files = {f"/{size}": content_of(size) for count in (1, 2, 3, 16) for size in range(count * CHUNK - 1, count * CHUNK + 2)}
        rows = [get(f"/s/one{path}", served(path, content)) for path, content in files.items()]
        self.assert_rows(rows + rows[::-1], publishing("one", 1, files))

    def test_are_read_by_ranges_across_their_edges(self):
        content = content_of(3 * CHUNK + 1)
        rows = [get("/s/one/a", part(content, 3 * CHUNK, 3 * CHUNK), "Range: bytes=-1"),
                get("/s/one/a", part(content, 3 * CHUNK - 1, 3 * CHUNK), "Range: bytes=-2"),
                get("/s/one/a", part(content, 3 * CHUNK, 3 * CHUNK), f"Range: bytes={3 * CHUNK}-"),
                get("/s/one/a", none_of(content), f"Range: bytes={3 * CHUNK + 1}-")]
        for edge in (CHUNK, 2 * CHUNK, 3 * CHUNK):
            near = range(edge - 2, min(edge + 2, len(content)))
            rows += by_ranges(content, *([(first, last)] for first in near for last in near if first <= last))
        rows += by_ranges(content, [(0, 2 * CHUNK)], [(1, 3 * CHUNK)], [(CHUNK, 2 * CHUNK - 1)], [(CHUNK - 1, 2 * CHUNK)])
        self.assert_rows(rows, publishing("one", 1, {"/a": content}))

    def test_are_read_by_several_ranges_at_once(self):
        content = content_of(2 * CHUNK + 5)
        edges = [(edge - 1, edge) for edge in (CHUNK, 2 * CHUNK)]
        self.assert_rows(by_ranges(
            content, edges, edges[::-1], [(0, CHUNK - 1), (CHUNK, 2 * CHUNK + 4)], [(CHUNK, 2 * CHUNK + 4), (0, CHUNK - 1)],
            [(CHUNK - 1, CHUNK - 1), (CHUNK, CHUNK)], [(2 * CHUNK, 2 * CHUNK), (0, 2 * CHUNK)], 16 * [(CHUNK - 2, CHUNK + 1)],
            [(place, place + 8_000) for place in range(0, 2 * CHUNK - 8_000, 8_191)],
        ), publishing("one", 1, {"/a": content}))

    def test_of_zeros_and_one_byte_more_are_read_across_the_edge(self):
        content = bytes(CHUNK + 1)
        self.assert_rows([
            get("/s/one/a", served("/a", content)),
            get("/s/one/a", part(content, 65_535, 65_536), "Range: bytes=65535-65536"),
            get("/s/one/a", part(content, 65_536, 65_536), "Range: bytes=65536-"),
            get("/s/one/a", part(content, 65_536, 65_536), "Range: bytes=-1"),
            get("/s/one/a", part(content, 0, 65_536), "Range: bytes=-65537"),
            get("/s/one/a", parts(content, (65_535, 65_536), (0, 0)), "Range: bytes=65535-65536,0-0"),
            get("/s/one/a", none_of(content), "Range: bytes=65537-"),
            row("HEAD", "/s/one/a", None, served("/a", content), "Range: bytes=65535-65536"),
        ], publishing("one", 1, {"/a": content}))

    def test_that_files_share_are_read_of_each(self):
        front, other = content_of(CHUNK), bytes(CHUNK)
        files = {"/a": front, "/b": front + b"b", "/c": front + other, "/d": other + front, "/e": front + front + b"e",
                 "/f": b"f" + front}
        rows = [get(f"/s/one{path}", served(path, content)) for path, content in files.items()]
        rows += [line for path, content in files.items()
                 for line in by_ranges(content, [(CHUNK - 3, len(content) - 1)], [(0, 0), (len(content) - 1,) * 2], path=path)]
        self.assert_rows(rows, publishing("one", 1, files))


class LargeFiles(Interface):
    """Files over 1 MiB, and of the largest size."""

    def assert_reads(self, content):
        """They are read back whole and by ranges, and again after a second upload."""
        size = len(content)
        middle = (size // 2 - 1, size // 2 + 70_000)
        rows = [get("/s/one/a", served("/a", content)), row("HEAD", "/s/one/a", None, served("/a", content))]
        rows += by_ranges(content, [(0, 0)], [middle], [(1, size - 1)], [(size - 1, size - 1)], [(CHUNK - 1, CHUNK)],
                          [(size - 1, size - 1), middle, (CHUNK - 1, CHUNK), (0, 0)], [(1, size - 1), (0, 0)])
        rows += [
            get("/s/one/a", part(content, 1, size - 1), f"Range: bytes=1-{size}"),
            get("/s/one/a", none_of(content), f"Range: bytes={size}-{size}"),
            get("/s/one/a", served("/a", content), f"Range: bytes=1-{size},0-1"),
        ]
        again = uploading(1, "/a", content)
        self.assert_rows([*rows, again, *rows[2:6], again, rows[0]], publishing("one", 1, {"/a": content}))

    def test_are_read_whole_and_by_ranges(self):
        for size in (1_048_576, 1_048_577, 3_000_001, LARGEST_FILE):
            with self.subTest(size):
                self.assert_reads(content_of(size))

    def test_of_zeros_are_read_whole_and_by_ranges(self):
        self.assert_reads(bytes(LARGEST_FILE))


class Contents(Interface):
    """A content that is uploaded twice."""

    def test_may_be_at_several_paths_and_in_several_deploys(self):
        content = content_of(CHUNK + 1)
        digest = digest_of(content)
        self.assert_rows([
            post(DEPLOYS, {"files": {"/a": digest, "/b": digest}}, opened(1, digest)),
            uploading(1, "/a", content, 2),
            uploading(1, "/b", content),
            post(DEPLOYS, {"files": {"/c": digest}}, opened(3, published=4)),
            uploading(3, "/c", content),
            get("/s/one/a", "NoSuchFile"),
            *by_ranges(content, [(CHUNK - 1, CHUNK)], [(CHUNK, CHUNK), (0, CHUNK - 1)], path="/c"),
            *(get(target, served("/c", content)) for target in ("/s/one/c", "/d/one/1/a", "/d/one/1/b", "/d/one/3/c")),
        ])

    def test_is_asked_for_once_by_deploys_that_are_open_together(self):
        content = content_of(2 * CHUNK)
        digest = digest_of(content)
        self.assert_rows([
            post(DEPLOYS, {"files": {"/a": digest}}, opened(1, digest)),
            post(DEPLOYS, {"files": {"/b": digest}}, opened(2, digest)),
            uploading(2, "/b", content, 3),
            uploading(1, "/a", content, 4),
            get("/s/one/a", served("/a", content)),
            get("/d/one/2/b", served("/b", content)),
            get("/api/v1/deploys/1", done(id="1", required=[], site="one", state="kept")),
        ])
