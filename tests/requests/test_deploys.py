"""Deploys over one connection: how they are opened, filled, published, patched, changed and undone, reply by reply.

What is expected follows from docs/HTTP.md and docs/CHANGES.md.
"""

import itertools

from lib.client import (
    ABC, HELLO, PUBLISHED, REQUESTS, Program, asking, closing, digest_of, done, opened, opening, refused, reply, request, sent,
    to_head, upload, uploaded,
)
from lib.worked_runs import (
    EMPTY, NO_ALIAS, NO_CHANGE, NO_DEPLOY, NO_FILE, aliasing, cancelling, clash, deleting, entry, renaming, restoring, showing, stands,
    undoing,
)

NOT_LISTED = refused("NotListed")
WRONG_DIGEST = refused("WrongDigest")
HELLO_FILE = sent(b"hello")
ABC_FILE = sent(b"abc")
A_HELLO = upload(1, "a.txt", b"hello")
B_ABC = upload(1, "b.txt", b"abc")


def read(path, *fields, method="GET"):
    """The read of a file of the site `one`, or of what stands there in another version."""
    return request(method, path if path.startswith("/") else f"/s/one/{path}", *fields)


A, B, C = read("a.txt"), read("b.txt"), read("c.txt")


def change(words, site="one", **members):
    """A request on a site: its method, what follows the site, and its body, if any."""
    method, target = words.split(" ")
    target = f"/api/v1/sites/{site}/{target}"
    return asking(method, target, **members) if members else request(method, target)


def listed(*lines):
    """The list of changes: the number and the kind of each, and `gone` if it is undone, or which change it undid."""
    changes = []
    for number, kind, *rest in map(str.split, lines):
        state = {"of": int(rest[0])} if kind == "undo" else {"live": rest != ["gone"]}
        changes.append({"entry": int(number), "kind": kind, **state})
    return done(changes=changes)


class Deploys(Program):
    def test_are_published_with_the_last_missing_file(self):
        self.assert_converses([
            (opening({"/a.txt": HELLO, "b.txt": ABC}), opened(1, ABC, HELLO)),
            (A_HELLO, uploaded(b"hello")), (A, NO_FILE), (upload(1, "b.txt", b"hello"), WRONG_DIGEST),
            (B_ABC, uploaded(b"abc", 2)), (B_ABC, uploaded(b"abc")), (upload(1, "b.txt", b"hello"), WRONG_DIGEST),
            (A, HELLO_FILE), (B, ABC_FILE), (undoing(2), entry(3)),
        ])

    def test_of_many_files_replace_one_another_and_are_undone_whole(self):
        paths = [f"/{number:04}.txt" for number in range(1000)]
        some = [0, 1, 2, 62, 63, 64, 65, 127, 128, 129, 500, 501, 997, 998, 999]

        def reads(site, replies):
            return [(read(f"/s/{site}{paths[number]}"), replies[number % 2]) for number in some]

        self.assert_converses([
            (opening(dict.fromkeys(paths, HELLO)), opened(1, HELLO)), (upload(1, "0000.txt", b"hello"), uploaded(b"hello", 2)),
            (opening(dict.fromkeys(paths, HELLO), "two"), opened(3, published=4)), *reads("one", [HELLO_FILE, HELLO_FILE]),
            (opening(dict.fromkeys(paths[::2], ABC)), opened(5, ABC)), (upload(5, "0000.txt", b"abc"), uploaded(b"abc", 6)),
            *reads("one", [ABC_FILE, NO_FILE]), *reads("two", [HELLO_FILE, HELLO_FILE]),
            (undoing(6), entry(7)), *reads("one", [HELLO_FILE, HELLO_FILE]), (undoing(2), entry(8)), *reads("one", [NO_FILE, NO_FILE]),
        ])

    def test_name_each_missing_digest_once_in_order(self):
        texts = [str(number).encode() for number in range(50)]
        files = {f"/{place}": digest_of(texts[place % 50]) for place in range(150)}
        wanted = sorted(digest_of(text) for text in texts)
        two = b'{"id":"2","published":null,"required":["%b","%b"]}' % (ABC.encode(), HELLO.encode())
        self.assertEqual(len(two), 126)
        self.assert_converses([
            (opening({"/a.txt": HELLO, "b.txt": ABC}), opened(1, ABC, HELLO)),
            (opening({"c": ABC, "b": HELLO, "a": HELLO.upper()}, "two"), reply("200 OK", "application/json", two)),
            (opening(files), opened(3, *wanted)), (upload(3, "7", b"7"), uploaded(b"7")),
            (opening(files, "two"), opened(4, *(digest for digest in wanted if digest != digest_of(b"7")))),
        ])

    def test_are_published_at_once_where_nothing_is_missing(self):
        self.assert_converses([
            (opening({}), opened(1, published=2)), (opening({"a.txt": HELLO}), opened(3, HELLO)),
            (upload(3, "a.txt", b"hello"), uploaded(b"hello", 4)),
            (opening({"b.txt": HELLO}, "two", draft=False), opened(5, published=6)),
            (read("/s/two/b.txt"), HELLO_FILE), (A, HELLO_FILE), (opening({}), opened(7, published=8)),
            (A, NO_FILE), (read("/s/two/b.txt"), HELLO_FILE),
        ])

    def test_stay_open_as_drafts_until_they_are_restored(self):
        self.assert_converses([
            (opening({"a.txt": HELLO}, draft=True), opened(1, HELLO)), (A_HELLO, uploaded(b"hello")), (A, NO_FILE),
            (opening({"a.txt": HELLO}, draft=True), opened(2)), (upload(2, "a.txt", b"hello"), uploaded(b"hello")),
            (opening({}, draft=True), opened(3)), (A, NO_FILE), (showing(2), stands(2, "open")),
            (restoring(2), entry(4)), (A, HELLO_FILE), (showing(2), stands(2, "kept")),
            (showing(1), stands(1, "open")),
        ])

    def test_are_published_again_where_an_undo_opened_them_again(self):
        self.assert_converses([
            *PUBLISHED, (undoing("2"), entry(3)), (A, NO_FILE), (A_HELLO, uploaded(b"hello", 4)), (A, HELLO_FILE),
            (undoing(4), entry(5)), (undoing(1), entry(6)), (A_HELLO, NO_DEPLOY),
        ])

    def test_are_not_published_by_uploads_to_others(self):
        self.assert_converses([
            (opening({"a.txt": HELLO}), opened(1, HELLO)), (opening({"b.txt": HELLO}), opened(2, HELLO)),
            (upload(2, "b.txt", b"hello"), uploaded(b"hello", 3)), (showing(1), stands(1, "open")), (A, NO_FILE),
            (A_HELLO, uploaded(b"hello", 4)), (A, HELLO_FILE), (B, NO_FILE),
        ])

    def test_have_at_most_ten_thousand_files(self):
        files = {str(number): HELLO for number in range(10_001)}
        most = {path: files[path] for path in list(files)[:-1]}
        self.assert_converses([
            (opening(files), refused("TooManyFiles")),
            (opening(dict.fromkeys(files), patch=True), refused("TooManyFiles")), (opening(most), opened(1, HELLO)),
            (upload(1, "10000", b"hello"), NOT_LISTED), (upload(1, "9999", b"hello"), uploaded(b"hello", 2)),
            (read("0"), sent(b"hello", kind="application/octet-stream")),
            (opening(dict.fromkeys(most), patch=True), opened(3, published=4)), (read("0"), NO_FILE),
        ])

    def test_take_no_wrong_uploads(self):
        self.assert_converses([
            (A_HELLO, NO_DEPLOY), (opening({"a.txt": HELLO}), opened(1, HELLO)),
            *((upload(number, "a.txt", b"hello"), NO_DEPLOY) for number in (2, 0, "01", "", "x", 1_000_001)),
            (upload(1, "b.txt", b"hello"), NOT_LISTED), (request("PUT", "/api/v1/deploys/1/files/a.txt"), WRONG_DIGEST),
            (upload(1, "a.txt", b""), WRONG_DIGEST), (A_HELLO, uploaded(b"hello", 2)),
            (upload(2, "a.txt", b"hello"), NO_DEPLOY), (upload(1, "b.txt", b"hello"), NOT_LISTED),
        ])

    def test_leave_no_bytes_of_a_refused_upload(self):
        self.assert_converses([
            (opening({"a.txt": ABC}), opened(1, ABC)), (A_HELLO, WRONG_DIGEST),
            (upload(1, "b.txt", b"hello"), NOT_LISTED), (upload(9, "a.txt", b"hello"), NO_DEPLOY),
            (opening({"a.txt": HELLO}), opened(2, HELLO)), (change("GET changes"), listed("1 open", "2 open")),
        ])


class Completeness(Program):
    """A deploy is published by the upload of the last content that it lacks, in whatever order they come."""

    # What a deploy lists, in the order of its paths: removals at the ends and between, and two contents that stand twice.
    LISTED = {"a": None, "b": b"1", "c": b"2", "d": None, "e": b"1", "f": b"3", "g": b"2", "h": None}

    def uploads_until(self, number, paths, lacking, entry_number):
        """Uploads to these paths of a deploy; the last one publishes it as this entry."""
        exchanges = []
        for path in paths:
            content = self.LISTED[path]
            lacking = lacking - {content}
            exchanges.append((upload(number, path, content), uploaded(content, None if lacking else entry_number)))
            if not lacking:
                break
        return exchanges

    def test_comes_with_the_last_upload_in_every_order(self):
        digests = {path: content and digest_of(content) for path, content in self.LISTED.items()}
        contents = set(self.LISTED.values()) - {None}
        files = [path for path in self.LISTED if self.LISTED[path]]
        for paths in itertools.permutations(files):
            self.assert_converses([
                (opening(digests, patch=True), opened(1, *sorted(map(digest_of, contents)))),
                *self.uploads_until(1, paths, contents, 2), (read("f"), sent(b"3", kind="application/octet-stream")),
            ])

    def test_comes_to_each_of_two_deploys_that_are_filled_in_turn(self):
        first = {f"a{number:02}": str(number).encode() for number in range(20)}
        second = {f"b{number:02}": str(number).encode() for number in range(10, 30)}
        fills = [(number, path, content) for pair in zip(first.items(), reversed(second.items()))
                 for number, (path, content) in zip((1, 2), pair)]
        lacking = {1: set(first.values()), 2: set(second.values())}
        exchanges = [
            (opening({path: digest_of(content) for path, content in files.items()}),
             opened(number, *sorted(map(digest_of, files.values()))))
            for number, files in ((1, first), (2, second))
        ]
        entries, open_deploys = 2, {1, 2}
        for number, path, content in fills:
            if number not in open_deploys:
                continue
            for contents in lacking.values():
                contents.discard(content)
            published = None
            if not lacking[number]:
                entries += 1
                published = entries
                open_deploys.discard(number)
            exchanges.append((upload(number, path, content), uploaded(content, published)))
        self.assertFalse(open_deploys)
        self.assert_converses(exchanges)

    def test_outlasts_the_undo_of_a_publishing_and_of_a_cancelling(self):
        files = {"a.txt": HELLO, "b.txt": ABC}
        self.assert_converses([
            (opening(files), opened(1, ABC, HELLO)), (A_HELLO, uploaded(b"hello")), (cancelling(1), entry(2)),
            (A_HELLO, NO_DEPLOY), (undoing(2), entry(3)), (A_HELLO, uploaded(b"hello")), (B_ABC, uploaded(b"abc", 4)),
            (undoing(4), entry(5)), (B, NO_FILE), (showing(1), stands(1, "open")), (A_HELLO, uploaded(b"hello", 6)),
            (B, ABC_FILE), (undoing(6), entry(7)), (undoing(1), entry(8)),
            (B_ABC, NO_DEPLOY),
        ])


class Patches(Program):
    def test_are_published_over_what_is_served(self):
        self.assert_converses([
            *PUBLISHED, (opening({"/a.txt": None, "/b.txt": HELLO}, patch=True), opened(3, published=4)),
            (A, NO_FILE), (B, HELLO_FILE), (upload(3, "b.txt", b"hello"), NO_DEPLOY),
            (undoing(2), clash(4, "live /a.txt")), (undoing(4), entry(5)), (A, HELLO_FILE), (B, NO_FILE),
            (upload(3, "b.txt", b"hello"), uploaded(b"hello", 6)), (A, NO_FILE), (B, HELLO_FILE),
        ])

    def test_are_filled_but_for_their_removals(self):
        self.assert_converses([
            (opening({"a.txt": None, "b.txt": HELLO, "c.txt": ABC}, patch=True), opened(1, ABC, HELLO)),
            (A_HELLO, NOT_LISTED), (upload(1, "b.txt", b"hello"), uploaded(b"hello")),
            (upload(1, "c.txt", b"abc"), uploaded(b"abc", 2)), (C, ABC_FILE),
            (opening({"c.txt": None, "d.txt": None}, patch=True), opened(3, published=4)), (C, NO_FILE),
            (B, HELLO_FILE), (undoing(2), clash(4, "live /c.txt")),
        ])

    def test_are_neither_kept_nor_restored_once_they_are_published(self):
        asked = [showing(1), restoring(1), aliasing("x", 1), read("/d/one/1/x"), deleting(1)]
        self.assert_converses([
            (opening({"x": None}, patch=True), opened(1, published=2)), *((each, NO_DEPLOY) for each in asked),
            (opening({"x": None}, patch=True, draft=True), opened(3)), (showing(3), stands(3, "open")),
            (restoring(3), entry(4)), (showing(3), NO_DEPLOY),
        ])


class Undos(Program):
    def test_give_back_what_stood_before_a_publish(self):
        self.assert_converses([
            (opening({"a.txt": HELLO, "b.txt": HELLO}), opened(1, HELLO)), (A_HELLO, uploaded(b"hello", 2)),
            (opening({"a.txt": ABC}), opened(3, ABC)), (upload(3, "a.txt", b"abc"), uploaded(b"abc", 4)),
            (A, ABC_FILE), (B, NO_FILE), (undoing(4), entry(5)), (A, HELLO_FILE), (B, HELLO_FILE),
        ])

    def test_of_the_first_run_reach_its_opening(self):
        self.assert_converses([*PUBLISHED, (undoing(1), clash(2, "draft 1")), (undoing(2), entry(3)), (undoing(1), entry(4))])

    def test_are_refused(self):
        self.assert_converses([
            (undoing(1), NO_CHANGE), (opening({}), opened(1, published=2)),
            *((undoing(number), NO_CHANGE) for number in (0, 99, "002", -2, "", 1_000_001)), (undoing(2, "two"), NO_CHANGE),
            (undoing(1), clash(2, "draft 1")), (undoing(2), entry(3)), (undoing(2), refused("AlreadyUndone")),
            (undoing(3), refused("NotAChange")), (undoing(1), entry(4)), (undoing(1), refused("AlreadyUndone")),
        ])

    def test_pass_over_changes_that_need_nothing_of_theirs(self):
        self.assert_converses([
            (opening({}), opened(1, published=2)), (opening({}, "two", draft=True), opened(3)), (undoing(3), NO_CHANGE),
            (undoing(2), entry(4)), (undoing(1), entry(5)), (undoing(3, "two"), entry(6)),
        ])

    def test_name_the_change_and_the_place_in_their_way(self):
        place = '{"cell":"live /b \\"ä\\".txt","change":4,"error":"Clash"}'.encode()
        self.assert_converses([
            (opening({'b "ä".txt': HELLO}), opened(1, HELLO)),
            (upload(1, "b%20%22%C3%A4%22.txt", b"hello"), uploaded(b"hello", 2)),
            (opening({"a.txt": HELLO}), opened(3, published=4)),
            (undoing(2), reply("409 Conflict", "application/json", place)), (A, HELLO_FILE),
            (undoing(4), entry(5)), (undoing(2), entry(6)), (read("b%20%22ä%22.txt"), NO_FILE),
        ])


class Changes(Program):
    one_taken_back = [
        (opening({"/a.txt": HELLO, "b.txt": ABC}), opened(1, ABC, HELLO)), (A_HELLO, uploaded(b"hello")),
        (B_ABC, uploaded(b"abc", 2)), (B_ABC, uploaded(b"abc")), (upload(1, "b.txt", b"hello"), WRONG_DIGEST),
        (renaming("/a.txt", "/c.txt"), entry(3)), (change("DELETE files/b.txt"), entry(4)), (undoing(3), entry(5)),
        (A, HELLO_FILE), (B, NO_FILE), (C, NO_FILE), (undoing(2), clash(4, "live /b.txt")), (undoing(99), NO_CHANGE),
        (undoing(3), refused("AlreadyUndone")), (undoing(5), refused("NotAChange")), (undoing(0), NO_CHANGE),
        (change("GET changes"), listed("1 open", "2 publish", "3 rename gone", "4 remove", "5 undo 3")),
        (undoing(4), entry(6)), (undoing(2), entry(7)), (A, NO_FILE), (B, NO_FILE), (showing(1), stands(1, "open")),
        (restoring(1), entry(8)), (A, HELLO_FILE), (B, ABC_FILE), (showing(1), stands(1, "kept")),
        (aliasing("next", 1), entry(9)), (read("/a/one/next/a.txt"), HELLO_FILE), (undoing(8), clash(9, "kept 1")),
        (deleting(1), refused("DeployInUse", alias="next")), (renaming("/a.txt", "/z.txt"), entry(10)),
        (opening({"/z.txt": HELLO}), opened(11, published=12)), (undoing(10), clash(12, "live /a.txt")), (B, NO_FILE),
        (aliasing("last", 1), entry(13)), (deleting(1), refused("DeployInUse", alias="last")),
        (change("DELETE aliases/last"), entry(14)), (deleting(1), refused("DeployInUse", alias="next")),
    ]

    def test_are_taken_back_one_by_one_while_the_others_stay(self):
        self.assert_converses(self.one_taken_back)
        self.assert_converses_in_turns(self.one_taken_back)

    def test_are_refused(self):
        no_draft = (cancelling(1), refused("NoSuchDraft"))
        self.assert_converses([
            (opening({"a.txt": HELLO, "b.txt": HELLO}), opened(1, HELLO)),
            (restoring(1), refused("NotComplete", digest=HELLO)),
            *((asked, NO_DEPLOY) for asked in (restoring(1, "two"), restoring(2), aliasing("next", 1), deleting(1))),
            (A_HELLO, uploaded(b"hello", 2)), (renaming("/a.txt", "a.txt"), refused("SamePath")),
            (renaming("/c.txt", "c.txt"), refused("SamePath")), (renaming("/a.txt", "/b.txt"), refused("PathTaken")),
            (renaming("/c.txt", "/b.txt"), NO_FILE), (change("DELETE files/c.txt"), NO_FILE),
            (change("DELETE aliases/next"), NO_ALIAS), no_draft,
            *((asked, NO_DEPLOY) for asked in (cancelling(2), deleting(0), deleting(2), cancelling("x"))),
            (undoing(2, "two"), NO_CHANGE), (undoing(2), entry(3)), (undoing(1), entry(4)), (A_HELLO, NO_DEPLOY),
            (showing(1), NO_DEPLOY), no_draft,
        ])

    def test_make_versions_each_of_which_is_read(self):
        first, third, old = read("/d/one/1/a.txt"), read("/d/one/3/a.txt"), read("/a/one/old/a.txt")
        part = sent(b"ell", "Content-Range: bytes 1-3/5", whole=b"hello")
        self.assert_converses([
            *PUBLISHED, (opening({"a.txt": ABC}), opened(3, ABC)), (third, NO_DEPLOY),
            (upload(3, "a.txt", b"abc"), uploaded(b"abc", 4)), (aliasing("old", "1"), entry(5)),
            (A, ABC_FILE), (old, HELLO_FILE), (first, HELLO_FILE), (third, ABC_FILE),
            (read("/d/one/1/a.txt", "Range: bytes=1-3"), part),
            (read("/a/one/old/a.txt", method="HEAD"), to_head(HELLO_FILE)),
            *((read(f"/{version}/b.txt"), NO_FILE) for version in ("d/one/1", "a/one/old")),
            *((read(f"/{version}/a.txt"), NO_ALIAS) for version in ("a/one/new", "a/two/old")),
            *((read(f"/{version}/a.txt"), NO_DEPLOY) for version in ("d/two/1", "d/one/2", "d/one/01")),
            (aliasing("old", 3), entry(6)), (old, ABC_FILE), (undoing(6), entry(7)), (old, HELLO_FILE),
            (change("DELETE aliases/old"), entry(8)), (old, NO_ALIAS), (deleting(1), entry(9)),
            (first, NO_DEPLOY), (undoing(5), clash(8, "alias old")), (undoing(9), entry(10)),
            (request("POST", "/api/v1/sites/one/deploys/1/restore", body=b"ignored"), entry(11)), (A, HELLO_FILE),
        ])

    def test_and_deploys_are_shown(self):
        cancelled = listed("1 open", "4 cancel gone", "5 undo 4")
        self.assert_converses([
            (change("GET changes"), listed()), (showing(1), NO_DEPLOY),
            (opening({"a": HELLO, "b": ABC, "c": HELLO}, draft=True), opened(1, ABC, HELLO)),
            (showing(1), stands(1, "open", ABC, HELLO)), (upload(1, "c", b"hello"), uploaded(b"hello")),
            (request("HEAD", "/api/v1/deploys/1"), to_head(stands(1, "open", ABC))),
            (opening({"x": None}, "two", patch=True), opened(2, published=3)),
            (showing(2), NO_DEPLOY), (showing(3), NO_DEPLOY), (cancelling(1), entry(4)),
            (showing(1), NO_DEPLOY), (undoing(4), entry(5)), (showing(1), stands(1, "open", ABC)),
            (change("GET changes", "two"), listed("2 open", "3 publish")), (change("GET changes"), cancelled),
            (change("HEAD changes"), to_head(cancelled)), (change("GET changes", "three"), listed()),
        ])

    def test_are_listed_with_their_kinds(self):
        self.assert_converses([
            (opening({"a": EMPTY}), opened(1, EMPTY)), (cancelling(1), entry(2)),
            (opening({}), opened(3, published=4)), (aliasing("x", 3), entry(5)), (change("DELETE aliases/x"), entry(6)),
            (restoring(3), entry(7)), (deleting(3), entry(8)), (opening({"a": EMPTY}), opened(9, EMPTY)),
            (upload(9, "a", b""), uploaded(b"", 10)), (renaming("a", "b"), entry(11)),
            (change("DELETE files/b"), entry(12)), (undoing(12), entry(13)), (change("GET changes"), listed(
                "1 open", "2 cancel", "3 open", "4 publish", "5 alias", "6 unalias", "7 restore", "8 delete", "9 open",
                "10 publish", "11 rename", "12 remove gone", "13 undo 12",
            )),
        ])

    def test_are_listed_as_many_as_a_connection_makes(self):
        openings = [(opening({}), opened(number, published=number + 1)) for number in range(1, 2 * REQUESTS - 2, 2)]
        lines = [f"{number} {kind}" for place in range(1, 2 * REQUESTS - 2, 2)
                 for number, kind in ((place, "open"), (place + 1, "publish"))]
        self.assert_converses([*openings, (change("GET changes"), closing(listed(*lines)))])
