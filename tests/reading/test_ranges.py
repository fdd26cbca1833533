"""Which bytes of a file are sent for a range, and which ranges are ignored.

What is expected follows from docs/HTTP.md, "Reading a file".
"""

import collections
import concurrent.futures
import random

from lib.client import REQUESTS, Program, digest_of
from lib.generated_histories import Run, in_json
from lib.plain_model import Request, chosen, specs_of
from lib.range_replies import none_of, part, parts
from lib.rows import CHANGES, Interface, change, get, publishing, put, row, served

CONTENT = b"hello world"
GREATEST = 18_446_744_073_709_551_615
VALUES = 20_000
BATCHES = 20
PROGRAMS_AT_ONCE = 2


class Ranges(Interface):
    """Ranges of small files."""

    files = {"/a": CONTENT, "/five": b"12345", "/one": b"1", "/none": b"", "/long": bytes(range(256)) * 256 + b"."}
    before = [*publishing("one", 1, files), put("/api/v1/sites/one/aliases/next", {"deploy": 1}, {"entry": 3})]

    def assert_parts(self, cases, path="/a"):
        """Each of these values of `Range` gives this of a file: two positions, a list of several such pairs, or an answer."""
        content = self.files[path]
        rows = []
        for value, wanted in cases:
            if isinstance(wanted, list):
                wanted = parts(content, *wanted)
            elif isinstance(wanted, tuple):
                wanted = part(content, *wanted)
            rows.append(get(f"/s/one{path}", wanted, f"Range: {value}"))
        self.assert_rows(rows, self.before)

    def test_have_a_first_and_a_last_position(self):
        self.assert_parts([
            ("bytes=1-3", (1, 3)),
            ("bytes=0-0", (0, 0)),
            ("bytes=6-10", (6, 10)),
            ("bytes=0-10", (0, 10)),
            ("bytes=10-10", (10, 10)),
            ("bytes=007-0010", (7, 10)),
            ("bytes=00000000000000000000000001-00000000000000000000000000000002", (1, 2)),
            (" bytes=0-4", (0, 4)),
            ("bytes=0-4 ", (0, 4)),
            ("bytes=0-4\t", (0, 4)),
        ])

    def test_have_a_first_position_alone(self):
        self.assert_parts([
            ("bytes=0-", (0, 10)),
            ("bytes=6-", (6, 10)),
            ("bytes=10-", (10, 10)),
            ("bytes=0000000010-", (10, 10)),
            ("bytes=11-", none_of(CONTENT)),
            (f"bytes={GREATEST}-", none_of(CONTENT)),
            (f"bytes={GREATEST + 1}-", none_of(CONTENT)),
        ])
        self.assert_parts([("bytes=0-", (0, 0)), ("bytes=1-", none_of(b"1"))], "/one")
        self.assert_parts([("bytes=65536-", (65536, 65536)), ("bytes=1-", (1, 65536))], "/long")

    def test_count_from_the_end(self):
        self.assert_parts([
            ("bytes=-1", (10, 10)),
            ("bytes=-5", (6, 10)),
            ("bytes=-005", (6, 10)),
            ("bytes=-10", (1, 10)),
            ("bytes=-11", (0, 10)),
            ("bytes=-12", (0, 10)),
            (f"bytes=-{GREATEST}", (0, 10)),
            (f"bytes=-{100 * '9'}", (0, 10)),
            ("bytes=-0", none_of(CONTENT)),
            ("bytes=-000", none_of(CONTENT)),
        ])
        self.assert_parts([("bytes=-1", (0, 0)), ("bytes=-2", (0, 0))], "/one")
        self.assert_parts([("bytes=-1", (65536, 65536)), ("bytes=-65537", (0, 65536))], "/long")

    def test_have_a_unit_in_any_case(self):
        self.assert_parts([(f"{unit}=6-10", (6, 10)) for unit in ("Bytes", "BYTES", "bYtEs", "byteS")])

    def test_have_blanks_around_them(self):
        self.assert_parts([(f"bytes={element}", (6, 10)) for element in (
            " 6-10", "\t6-10", "  \t  6-10", "6-10 ,", "6-10\t \t,", " 6- ,", " -5\t,", ",\t6-10 \t, ")])

    def test_have_empty_elements_around_them(self):
        self.assert_parts([(f"bytes={elements}", (6, 10)) for elements in (
            ",6-10", "6-10,", ",,6-10,,", " , ,\t6-,", ",-5", f"{500 * ','}6-10{500 * ' ,'}", f"{9_000 * ','}6-10")])

    def test_are_the_only_ones_that_can_be_satisfied(self):
        ahead = ",".join(15 * ["11-"])
        self.assert_parts([
            ("bytes=20-,,0-0", (0, 0)),
            ("bytes=0-0,-0", (0, 0)),
            ("bytes=11-,-5,12-13", (6, 10)),
            (f"bytes={ahead},6-10", (6, 10)),
            (f"bytes=,{ahead},,\t6-10,", (6, 10)),
            (f"bytes={ahead},11-,6-10", served("/a", CONTENT)),
            ("bytes=20-,-0", none_of(CONTENT)),
            (f"bytes={ahead},-0", none_of(CONTENT)),
        ])

    def test_are_sent_in_parts_if_there_are_several(self):
        self.assert_parts([
            ("bytes=0-4,-5", [(0, 4), (6, 10)]),
            ("bytes=0-0,2-2", [(0, 0), (2, 2)]),
            ("bytes=0-4,6-", [(0, 4), (6, 10)]),
            ("BYTES=\t0-0 , \t-1 ,", [(0, 0), (10, 10)]),
            (",bytes=0-0,1-1", served("/a", CONTENT)),
            ("bytes=,,3-3,,\t,1-2 ,,", [(3, 3), (1, 2)]),
            ("bytes=0-0,20-,-1,-0", [(0, 0), (10, 10)]),
            (f"bytes=0-0,9-{100 * '9'}", [(0, 0), (9, 10)]),
            (f"bytes=0-0,9-{GREATEST + 1},{GREATEST}-", [(0, 0), (9, 10)]),
            (f"bytes={','.join(14 * ['11-'])},1-1,0-0", [(1, 1), (0, 0)]),
        ])
        self.assert_parts([("bytes=0-0,-1", [(0, 0), (4, 4)]), ("bytes=0-1,2-3,4-", [(0, 1), (2, 3), (4, 4)])], "/five")

    def test_are_sent_in_the_order_asked_and_neither_joined_nor_left_out(self):
        self.assert_parts([
            ("bytes=-5,0-4", [(6, 10), (0, 4)]),
            ("bytes=10-,5-5,0-0", [(10, 10), (5, 5), (0, 0)]),
            ("bytes=0-4,5-10", [(0, 4), (5, 10)]),
            ("bytes=5-10,0-4", [(5, 10), (0, 4)]),
            ("bytes=0-2,1-3,2-4", [(0, 2), (1, 3), (2, 4)]),
            ("bytes=1-8,3-3", [(1, 8), (3, 3)]),
            ("bytes=0-0,0-0", [(0, 0), (0, 0)]),
            ("bytes=-1,10-10", [(10, 10), (10, 10)]),
            (f"bytes={','.join(11 * ['4-4'])}", 11 * [(4, 4)]),
        ])
        places = [(place, place + 4) for place in range(65_532, 0, -4_369)]
        self.assertEqual(len(places), 15)
        asked = [f"{first}-{last}" for first, last in places]
        self.assert_parts([
            (f"bytes={','.join([*asked, '-65457'])}", [*places, (80, 65_536)]),
            (f"bytes={','.join([*asked, '0-0', '0-0'])}", served("/long", self.files["/long"])),
        ], "/long")

    def test_are_not_sent_where_they_have_more_bytes_together_than_the_file(self):
        whole = served("/a", CONTENT)
        self.assert_parts([
            ("bytes=0-9,0-0", [(0, 9), (0, 0)]),
            ("bytes=0-9,0-1", whole),
            ("bytes=0-9,0-9", whole),
            ("bytes=0-,0-", whole),
            ("bytes=0-,-1", whole),
            ("bytes=0-0,0-", whole),
            ("bytes=0-0,-11", whole),
            (f"bytes={','.join(12 * ['4-4'])}", whole),
            (", ".join(["BYTES=0-0", *15 * ["1-1"]]), whole),
            (f"bytes=0-0,0-{GREATEST},{GREATEST}-", whole),
        ])
        self.assert_parts([("bytes=0-0,0-0", served("/one", b"1")), ("bytes=0-0,1-", (0, 0))], "/one")

    def test_end_with_the_file(self):
        self.assert_parts([
            ("bytes=6-11", (6, 10)),
            ("bytes=10-11", (10, 10)),
            ("bytes=0-1000000", (0, 10)),
            (f"bytes=6-{GREATEST}", (6, 10)),
            (f"bytes=6-{GREATEST + 1}", (6, 10)),
            ("bytes=6-18446744073709551616000", (6, 10)),
            (f"bytes=6-{100 * '9'}", (6, 10)),
        ])
        self.assert_parts([("bytes=1-3", (1, 3)), ("bytes=4-5", (4, 4))], "/five")
        self.assert_parts([("bytes=0-0", (0, 0)), ("bytes=0-1", (0, 0))], "/one")
        self.assert_parts([("bytes=65535-65536", (65535, 65536)), ("bytes=0-65536", (0, 65536))], "/long")

    def test_are_refused_after_the_end_of_the_file(self):
        none = none_of(CONTENT)
        self.assert_parts([
            ("bytes=11-11", none),
            ("bytes=11-20", none),
            ("bytes=1000-2000", none),
            (f"bytes={GREATEST}-{GREATEST}", none),
            (f"bytes={GREATEST}-{GREATEST + 1}", none),
            (f"bytes={GREATEST + 1}-{GREATEST + 1}", none),
            # Both count as the greatest number, so that the first is not above the last.
            (f"bytes={GREATEST + 2}-{GREATEST + 1}", none),
        ])
        self.assert_parts([("bytes=1-1", none_of(b"1"))], "/one")
        self.assert_parts([("bytes=65537-65537", none_of(self.files["/long"]))], "/long")

    def test_are_ignored_of_an_empty_file(self):
        whole = served("/none", b"")
        values = ["bytes=0-0", "bytes=5-9", "bytes=4-2", "bytes=0-", "bytes=5-", "bytes=-5", "bytes=-0", "bytes=0-,-1"]
        self.assert_parts([(value, whole) for value in values], "/none")

    def test_are_ignored_where_they_are_none(self):
        whole = served("/a", CONTENT)
        values = ["bytes=4-2", "bytes=10-9", "bytes=", "bytes=0 -4", "bytes=0- 4", "lines=0-1", "", "bytes", "bytes=-",
                  "bytes=0-4x", "bytes=x0-4", "bytes=0--4", "bytes=+0-4", "bytes=0-+4", "bytes 0-4", "bytes:0-4",
                  "bytes =0-4", "=0-4", "0-4", "bytes=0x0-0x4", "bytes=0-4;", "bytes=0-4-", "bytes=0.0-4", "byte=0-4",
                  "xbytes=0-4", f"bytes={GREATEST}-0", "bytes=,", "bytes= ,\t,", "bytes==0-4", "bytes= =0-4", "bytes=0-4 5",
                  "bytes=0-4 6-7", "bytes=- 5", "bytes=6 -", "bytes=--5", "bytes=5--", "bytes=-5-", "bytes=5", "bytes=-,0-4",
                  "bytes=0-4,-", "bytes=0-4,x", "bytes=x,0-4", "bytes=0-4,4-2", "bytes=0-4;6-7", "bytes=0-4\xa0",
                  "bytes=\xb2-\xb3", "octets=0-4", "b\xfdtes=0-4", f"bytes={','.join(17 * ['0-0'])}"]
        self.assert_parts([(value, whole) for value in values])

    def test_count_for_get_where_they_come_once(self):
        one, two = "Range: bytes=1-3", "Range: bytes=0-0"
        whole = served("/a", CONTENT)
        self.assert_rows([
            get("/s/one/a", part(CONTENT, 1, 3), one),
            get("/s/one/a", part(CONTENT, 1, 3), "rAnGe: bytes=1-3"),
            get("/s/one/a", whole, one, two),
            get("/s/one/a", whole, one, one),
            get("/s/one/a", whole, one, "Range: bytes=x"),
            get("/s/one/a", whole, one, "Range:"),
            row("HEAD", "/s/one/a", None, whole, one),
            row("HEAD", "/s/one/a", None, whole, "Range: bytes=0-4,-5"),
            row("HEAD", "/s/one/a", None, whole, "Range: bytes=11-11"),
            get("/s/one/b", "NoSuchFile", one),
            get("/s/One/a", "BadName", one),
            get(CHANGES, {"changes": [change(1, "open"), change(2, "publish"), change(3, "alias")]}, one),
        ], self.before)

    def test_count_under_a_condition_that_is_the_tag_of_the_file(self):
        digest, one = digest_of(CONTENT), "Range: bytes=1-3"
        whole, some = served("/a", CONTENT), part(CONTENT, 1, 3)
        tag, other = f'If-Range: "{digest}"', f'If-Range: "{digest_of(b"other")}"'
        self.assert_rows([
            get("/s/one/a", some, one, tag),
            get("/s/one/a", some, tag, one),
            get("/s/one/a", some, one, f'iF-rANGE:\t "{digest}" \t'),
            get("/s/one/a", parts(CONTENT, (0, 4), (6, 10)), tag, "Range: bytes=0-4,-5"),
            get("/s/one/a", none_of(CONTENT), tag, "Range: bytes=11-"),
            get("/s/one/a", whole, tag, "Range: bytes=4-2"),
            get("/s/one/a", whole, tag, one, one),
            get("/s/one/none", served("/none", b""), f'If-Range: "{digest_of(b"")}"', "Range: bytes=0-0"),
            get("/s/one/a", whole, other, one),
            get("/s/one/a", whole, other, "Range: bytes=0-4,-5"),
            get("/s/one/a", whole, other, "Range: bytes=11-"),
            get("/s/one/five", served("/five", b"12345"), tag, one),
            get("/s/one/a", whole, tag, tag, one),
            get("/s/one/a", whole, tag, other, one),
            get("/s/one/a", whole, other, tag, one),
            *(get("/s/one/a", whole, f"If-Range: {value}", one) for value in (
                "", digest, f"'{digest}'", f'W/"{digest}"', f'w/"{digest}"', f'"{digest.upper()}"', f'"{digest}', f'{digest}"',
                f'""{digest}""', f'" {digest}"', f'"{digest}", "{digest}"', f'"{digest}",', f'"{digest}" x', "*", '""',
                f'"{digest[:-1]}"', f'"{digest}0"', "Sun, 06 Nov 1994 08:49:37 GMT", "Sun, 06 Nov 2044 08:49:37 GMT", "bytes")),
            get("/s/one/a", whole, tag),
            get("/s/one/a", whole, other),
            row("HEAD", "/s/one/a", None, whole, tag, one),
            row("HEAD", "/s/one/a", None, whole, other, one),
            get("/s/one/b", "NoSuchFile", one, other),
        ], self.before)

    def test_count_in_each_version_of_a_site(self):
        for target in ("/s/one/a", "/a/one/next/a", "/d/one/1/a"):
            self.assert_rows([
                get(target, part(CONTENT, 6, 10), "Range: bytes=6-10"),
                get(target, parts(CONTENT, (6, 10), (0, 3)), "Range: bytes=6-10,0-3", f'If-Range: "{digest_of(CONTENT)}"'),
                get(target, none_of(CONTENT), "Range: bytes=11-12"),
                get(target, served("/a", CONTENT), "Range: bytes=2-1"),
            ], self.before)

    def test_have_the_type_of_the_file(self):
        text = "text/plain; charset=utf-8"
        self.assert_rows([
            *publishing("one", 1, {"/a.txt": CONTENT}),
            get("/s/one/a.txt", part(CONTENT, 6, 10, text), "Range: bytes=6-10"),
            get("/s/one/a.txt", parts(CONTENT, (6, 10), (0, 0), kind=text), "Range: bytes=6-10,0-0"),
        ])


def drawn_number(draw):
    """A number near the sizes of the files or near the greatest one, perhaps with zeros before it."""
    near = draw.choice((0, 0, 5, 10, 50, 65_536, GREATEST, 10**30)) + draw.randrange(-2, 6)
    return draw.choice(("", "", "", "0", "000")) + str(max(near, 0))


def drawn_element(draw):
    first, last = drawn_number(draw), drawn_number(draw)
    if draw.random() < 0.6:
        last = str(int(first) + draw.randrange(4))
    elif draw.random() < 0.9:
        first, last = sorted((first, last), key=int)
    spec = draw.choices((f"{first}-{last}", f"{first}-", f"-{last}", "", "-", first), (30, 6, 8, 5, 1, 1))[0]
    return draw.choice(("", "", " ", "\t", " \t ")) + spec + draw.choice(("", "", " ", "\t\t"))


def drawn_value(draw):
    """A value that mostly is in the grammar, with few elements or about as many as there may be."""
    count = draw.choices((1, 2, 3, 5, draw.randrange(12, 22)), (8, 7, 5, 3, 1))[0]
    unit = draw.choices(("bytes=", "BYTES=", "bYteS=", "bytes =", "byte=", "lines=", "bytes"), (20, 2, 2, 1, 1, 1, 1))[0]
    value = unit + ",".join(drawn_element(draw) for _ in range(count))
    if draw.random() < 0.2:
        place = draw.randrange(len(value) + 1)
        value = value[:place] + draw.choice("0123456789-,= \tbB;x+") + value[place + draw.randrange(2):]
    return value


def kind_of(value, size):
    """What the plain reading says of a value: that it is ignored, or how many intervals it chooses, which may be too large."""
    specs = specs_of(value.strip(" \t"))
    if specs is None:
        return "ignored"
    intervals = chosen(specs, size)
    if sum(last - first + 1 for first, last in intervals) > size:
        return "too large"
    return ("none", "one", "several")[min(len(intervals), 2)]


def tally_of_values(seed):
    """Asks for the files by drawn values, on a few connections. Tells how often each kind was met, or what is wrong."""
    draw, tally = random.Random(seed), collections.Counter()
    sizes = (0, 1, 10, 60, 65_537)
    files = {size: bytes(place % 251 for place in range(size)) for size in sizes}
    listing = in_json(files={f"/{size}": digest_of(content) for size, content in files.items()})
    before = [Request("POST", "/api/v1/sites/one/deploys", body=listing)]
    before += [Request("PUT", f"/api/v1/deploys/1/files/{size}", body=content) for size, content in files.items()]
    while sum(tally.values()) < VALUES // BATCHES:
        made = Run()
        made.ask(before)
        for _ in range(REQUESTS - len(before)):
            size, value = draw.choices(sizes, (1, 2, 6, 12, 2))[0], drawn_value(draw)
            tally[kind_of(value, size)] += 1
            made.ask([Request("GET", f"/s/one/{size}", (f"Range: {value}",))])
        try:
            made.replies()
        except AssertionError as error:
            return tally, f"the values of seed {seed}:\n{error}"
    return tally, None


class DrawnValues(Program):
    """Values of `Range` that are drawn by chance, against a plain reading of them."""

    def test_are_read_as_by_the_plain_model(self):
        with concurrent.futures.ProcessPoolExecutor(PROGRAMS_AT_ONCE) as pool:
            tallies, faults = zip(*pool.map(tally_of_values, range(BATCHES)))
        for fault in filter(None, faults):
            self.fail(fault)
        tally = sum(tallies, collections.Counter())
        self.assertGreaterEqual(tally.total(), VALUES)
        for kind in ("ignored", "none", "one", "several", "too large"):
            self.assertGreater(tally[kind], VALUES // 20, tally)
