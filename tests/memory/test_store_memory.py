"""An opening of a store again and again, each time with one of its allocations refused: it ends by saying so, and the next one succeeds."""

from lib.client import request, sent
from lib.refused_allocations import NO_MEMORY, Refusing
from lib.stores import PIECE, Stored, opening_of, write_slots

CONTENT = bytes(range(256)) * 300


class Openings(Refusing, Stored):
    entries = [
        opening_of({"/a.txt": b"hello", "/d": CONTENT}), ("publish", "one", 1), ("alias", "one", "next", 1), ("rename", "one", "/d", "/e"),
        opening_of({"/p": b"never there"}, "two"), ("undo", "one", 4), ("remove", "one", "/a.txt"), ("cancel", "two", 5),
        opening_of({"/d": b"hello"}, flags=("patch", "auto")), ("publish", "one", 9), ("undo", "one", 10), ("no-alias", "one", "next"),
        ("restore", "one", 1),
    ]

    def test_end_if_there_is_no_memory_and_leave_the_store_as_it_is(self):
        self.assertGreater(len(CONTENT), PIECE)
        self.write(self.entries, b"hello", CONTENT)
        before = self.all_files()
        whole, count = self.run_refusing(0, b"")
        self.assertEqual(whole, (0, b"", b""))
        ends = {place: self.run_refusing(place, b"")[0] for place in range(1, count + 1)}
        refused = [place for place, end in ends.items() if end == (2, b"", NO_MEMORY)]
        self.assertEqual({place: end for place, end in ends.items() if place not in refused and end != whole}, {})
        self.assertGreater(len(refused), 30)
        self.assertEqual(self.all_files(), before)
        self.assert_converses([
            (request("GET", "/s/one/a.txt"), sent(b"hello")), (request("GET", "/s/one/d"), sent(CONTENT, kind="application/octet-stream")),
        ])

    def test_of_a_new_store_leave_one_that_can_be_opened(self):
        whole, count = self.run_refusing(0, b"")
        self.assertEqual(whole, (0, b"", b""))
        self.assertGreater(count, 10)
        for place in range(1, count + 1):
            with self.subTest(place=place):
                write_slots(self.folder)
                self.assertIn(self.run_refusing(place, b"")[0], [whole, (2, b"", NO_MEMORY)])
                self.assert_answers(b"", b"")
                self.assert_has([])
