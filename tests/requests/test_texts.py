"""The texts of replies, letter by letter, and each refusal with its status.

What is expected follows from docs/HTTP.md: "JSON in replies" and "Refusals".
"""

import json
import urllib.parse

from lib.client import ABC, HELLO, STATUS_OF, messages, opened, refused, reply, request, run, told
from lib.rows import CHANGES, DEPLOYS, UNDO, Interface, change, delete, get, post, publishing, put, read, undo, uploading

RENAME = "/api/v1/sites/one/rename"
RENAME_FOLDER = "/api/v1/sites/one/rename-folder"
ALIASES = "/api/v1/sites/one/aliases"


def text(status, body):
    """A reply whose JSON is this text."""
    return reply(status, "application/json", body.encode())


def fine(body):
    return text("200 OK", body)


def conflict(body):
    return text("409 Conflict", body)


class Told(Interface):
    """What is told of deploys, uploads and entries."""

    def test_of_opened_deploys(self):
        self.assert_rows([
            post(DEPLOYS, {"files": {}}, fine('{"id":"1","published":2,"required":[]}')),
            post(DEPLOYS, {"files": {"/a": HELLO, "/b": HELLO}},
                 fine('{"id":"3","published":null,"required":["aaf4c61ddcc5e8a2dabede0f3b482cd9aea9434d"]}')),
            post(DEPLOYS, {"files": {"/a": HELLO, "/b": ABC}},
                 fine('{"id":"4","published":null,"required":["a9993e364706816aba3e25717850c26c9cd0d89d",'
                      '"aaf4c61ddcc5e8a2dabede0f3b482cd9aea9434d"]}')),
            post(DEPLOYS, {"files": {}, "draft": True}, fine('{"id":"5","published":null,"required":[]}')),
        ])

    def test_of_uploads_and_entries(self):
        before = [post(DEPLOYS, {"files": {}, "draft": True}, opened(number)) for number in range(1, 29)]
        self.assert_rows([
            post(DEPLOYS, {"files": {"/a": HELLO, "/b": ABC}}, opened(29, ABC, HELLO)),
            put("/api/v1/deploys/29/files/a", b"hello",
                fine('{"published":null,"sha":"aaf4c61ddcc5e8a2dabede0f3b482cd9aea9434d"}')),
            put("/api/v1/deploys/29/files/b", b"abc",
                fine('{"published":30,"sha":"a9993e364706816aba3e25717850c26c9cd0d89d"}')),
            delete("/api/v1/sites/one/files/a", fine('{"entry":31}')),
        ], before)

    def test_of_deploys_that_are_shown(self):
        target = "/api/v1/sites/a-2/deploys"
        self.assert_rows([
            post(target, {"files": {"/a": HELLO, "/b": ABC}}, opened(1, ABC, HELLO)),
            get("/api/v1/deploys/1", fine(
                '{"id":"1","required":["a9993e364706816aba3e25717850c26c9cd0d89d",'
                '"aaf4c61ddcc5e8a2dabede0f3b482cd9aea9434d"],"site":"a-2","state":"open"}')),
            uploading(1, "/b", b"abc"),
            get("/api/v1/deploys/1", fine(
                '{"id":"1","required":["aaf4c61ddcc5e8a2dabede0f3b482cd9aea9434d"],"site":"a-2","state":"open"}')),
            uploading(1, "/a", b"hello", 2),
            get("/api/v1/deploys/1", fine('{"id":"1","required":[],"site":"a-2","state":"kept"}')),
            post(DEPLOYS, {"files": {}, "draft": True}, opened(3)),
            get("/api/v1/deploys/3", fine('{"id":"3","required":[],"site":"one","state":"open"}')),
        ])


class Changes(Interface):
    """The list of a site's changes."""

    def test_tells_of_no_change_and_of_one(self):
        self.assert_rows([
            get(CHANGES, fine('{"changes":[]}')),
            post("/api/v1/sites/two/deploys", {"files": {}}, opened(1, published=2)),
            get(CHANGES, fine('{"changes":[]}')),
            post(DEPLOYS, {"files": {}, "draft": True}, opened(3)),
            get(CHANGES, fine('{"changes":[{"entry":3,"kind":"open","live":true}]}')),
        ])

    def test_tells_which_change_was_taken_back(self):
        self.assert_rows([
            *publishing("one", 1, {"/a": b"x", "/c": b"y"}),
            post(RENAME, {"from": "/a", "to": "/b"}, {"entry": 3}),
            delete("/api/v1/sites/one/files/c", {"entry": 4}),
            undo(3, {"entry": 5}),
            get(CHANGES, fine(
                '{"changes":[{"entry":1,"kind":"open","live":true},{"entry":2,"kind":"publish","live":true},'
                '{"entry":3,"kind":"rename","live":false},{"entry":4,"kind":"remove","live":true},'
                '{"entry":5,"kind":"undo","of":3}]}')),
        ])

    def test_names_each_kind(self):
        kinds = ["open", "publish", "alias", "unalias", "rename", "remove", "open", "cancel", "restore", "open",
                 "publish"]
        lines = [change(entry, kind) for entry, kind in enumerate(kinds, 1)]
        self.assert_rows([
            *publishing("one", 1, {"/a": b"x"}),
            put(f"{ALIASES}/next", {"deploy": 1}, {"entry": 3}),
            delete(f"{ALIASES}/next", {"entry": 4}),
            post(RENAME, {"from": "/a", "to": "/b"}, {"entry": 5}),
            delete("/api/v1/sites/one/files/b", {"entry": 6}),
            post(DEPLOYS, {"files": {}, "draft": True}, opened(7)),
            post("/api/v1/deploys/7/cancel", None, {"entry": 8}),
            post(f"{DEPLOYS}/1/restore", None, {"entry": 9}),
            post(DEPLOYS, {"files": {}, "patch": True}, opened(10, published=11)),
            get(CHANGES, {"changes": lines}),
            delete("/api/v1/deploys/1", {"entry": 12}),
            get(CHANGES, {"changes": [*lines, change(12, "delete")]}),
            undo(12, {"entry": 13}),
            post("/api/v1/sites/two/deploys", {"files": {}, "draft": True}, opened(14)),
            get(CHANGES, {"changes": [*lines, change(12, "delete", False), {"entry": 13, "kind": "undo", "of": 12}]}),
            get("/api/v1/sites/two/changes", {"changes": [change(14, "open")]}),
        ])

    def test_is_as_long_as_a_connection_can_make_it(self):
        openings = [post(DEPLOYS, {"files": {}}, opened(number, published=number + 1)) for number in range(1, 197, 2)]
        lines = [change(entry, "open" if entry % 2 else "publish") for entry in range(1, 197)]
        self.assert_rows([*openings, get(CHANGES, {"changes": lines})])


class Refusals(Interface):
    """Each refusal that a connection can meet, with its status."""

    def test_have_their_names_and_statuses(self):
        many = json.dumps({"files": {f"/{number}": ABC for number in range(10_001)}})
        met = [
            ("BadName", get("/s/One/a", text("400 Bad Request", '{"error":"BadName"}'))),
            ("BadPath", get("/s/one/%ff", text("400 Bad Request", '{"error":"BadPath"}'))),
            ("BadDigest", post(DEPLOYS, {"files": {"/a": "x"}}, text("400 Bad Request", '{"error":"BadDigest"}'))),
            ("BadBody", post(DEPLOYS, [], text("400 Bad Request", '{"error":"BadBody"}'))),
            ("NoRoute", get("/", text("404 Not Found", '{"error":"NoRoute"}'))),
            ("NoSuchFile", get("/s/one/a", text("404 Not Found", '{"error":"NoSuchFile"}'))),
            ("NoSuchDeploy", get("/d/one/1/a", text("404 Not Found", '{"error":"NoSuchDeploy"}'))),
            ("NoSuchAlias", get("/a/one/next/a", text("404 Not Found", '{"error":"NoSuchAlias"}'))),
            ("NoSuchChange", undo(1, text("404 Not Found", '{"error":"NoSuchChange"}'))),
            ("BadMethod", post("/s/one/a", None, refused("BadMethod", "Allow: GET, HEAD"))),
            ("TooManyFiles", post(DEPLOYS, many, text("413 Payload Too Large", '{"error":"TooManyFiles"}'))),
            (None, post(DEPLOYS, {"files": {"/a": HELLO, "/b": ABC}, "draft": True}, opened(1, ABC, HELLO))),
            ("NotComplete", post(f"{DEPLOYS}/1/restore", None, conflict(
                '{"digest":"a9993e364706816aba3e25717850c26c9cd0d89d","error":"NotComplete"}'))),
            ("NotListed", put("/api/v1/deploys/1/files/c", b"", text("404 Not Found", '{"error":"NotListed"}'))),
            ("WrongDigest", put("/api/v1/deploys/1/files/a", b"abc",
                                text("422 Unprocessable Entity", '{"error":"WrongDigest"}'))),
            (None, uploading(1, "/a", b"hello")),
            (None, uploading(1, "/b", b"abc")),
            (None, post(f"{DEPLOYS}/1/restore", None, {"entry": 2})),
            ("NoSuchDraft", post("/api/v1/deploys/1/cancel", None, text("404 Not Found", '{"error":"NoSuchDraft"}'))),
            ("PathTaken", post(RENAME, {"from": "/a", "to": "/b"}, conflict('{"error":"PathTaken"}'))),
            ("SamePath", post(RENAME, {"from": "/a", "to": "/a"}, conflict('{"error":"SamePath"}'))),
            ("NestedFolder", post(RENAME_FOLDER, {"from": "/a", "to": "/a/b"}, conflict('{"error":"NestedFolder"}'))),
            ("NotSatisfiable", get("/s/one/a", refused("NotSatisfiable", "Content-Range: bytes */5"),
                                   "Range: bytes=5-5")),
            (None, put(f"{ALIASES}/next", {"deploy": 1}, {"entry": 3})),
            ("DeployInUse", delete("/api/v1/deploys/1", conflict('{"alias":"next","error":"DeployInUse"}'))),
            ("Clash", undo(2, conflict('{"cell":"kept 1","change":3,"error":"Clash"}'))),
            (None, undo(3, {"entry": 4})),
            (None, post(RENAME, {"from": "/a", "to": "/d/a"}, {"entry": 5})),
            ("PathTooLong", post(RENAME_FOLDER, {"from": "/d", "to": "/" + 1_023 * "d"}, conflict('{"error":"PathTooLong"}'))),
            ("AlreadyUndone", undo(3, conflict('{"error":"AlreadyUndone"}'))),
            ("NotAChange", undo(4, conflict('{"error":"NotAChange"}'))),
        ]
        self.assert_rows([exchange for _, exchange in met])
        of_heads = {
            "HeadTooLarge": ("431 Request Header Fields Too Large", bytes(16_384)),
            "BadHead": ("400 Bad Request", b"x\r\n\r\n"),
            "CodingRefused": ("501 Not Implemented", request("GET", "/s/one/a", "Transfer-Encoding: chunked")),
            "LengthBad": ("400 Bad Request", request("GET", "/s/one/a", "Content-Length: x")),
            "BodyTooLarge": ("413 Payload Too Large", request("GET", "/s/one/a", "Content-Length: 4194305")),
        }
        for name, (status, given) in of_heads.items():
            self.assert_answers(given, told(status, {"error": name}, "Connection: close"), name)
        # A connection is too short for HistoryFull, which test_limits.py meets, and its bodies for TooLarge; test_memory.py meets OutOfMemory,
        # and test_store_files_lost.py and test_store_disk_full.py what damage leads to, and a journal whose device fails.
        others = {*of_heads, "HistoryFull", "TooLarge", "OutOfMemory", "Missing", "Damaged", "Device", "Broken"}
        self.assertEqual({name for name, _ in met if name} | others, set(STATUS_OF))

    def test_name_the_least_alias(self):
        rows = [put(f"{ALIASES}/{name}", {"deploy": 1}, {"entry": entry})
                for entry, name in enumerate(["next", "b", "10", "9", "a-b", "-", "a"], 3)]
        rest = [(delete(f"{ALIASES}/{name}", {"entry": entry}), name)
                for entry, name in enumerate(["-", "10", "9", "a", "a-b", "b", "next"], 10)]
        for removal, name in rest:
            rows += [delete("/api/v1/deploys/1", refused("DeployInUse", alias=name)), removal]
        self.assert_rows([*publishing("one", 1, {"/a": b"x"}), *rows, delete("/api/v1/deploys/1", {"entry": 17})])

    def test_name_the_cell_of_each_kind(self):
        files = publishing("one", 1, {"/a.txt": b"x", "/b.txt": b"y"})
        alias = put(f"{ALIASES}/next", {"deploy": 1}, {"entry": 3})
        for cell, rows in [
            ("draft 1", [*files, undo(1, conflict('{"cell":"draft 1","change":2,"error":"Clash"}'))]),
            ("kept 1", [*files, alias, undo(2, conflict('{"cell":"kept 1","change":3,"error":"Clash"}'))]),
            ("alias next", [*files, alias, delete(f"{ALIASES}/next", {"entry": 4}),
                            undo(3, conflict('{"cell":"alias next","change":4,"error":"Clash"}'))]),
            ("live /b.txt", [*files, delete("/api/v1/sites/one/files/b.txt", {"entry": 3}),
                             undo(2, conflict('{"cell":"live /b.txt","change":3,"error":"Clash"}'))]),
        ]:
            with self.subTest(cell):
                self.assert_rows(rows)

    def test_name_the_first_change_and_its_first_cell(self):
        """Files stand before kept deploys, and these before open ones; files in the order of their paths."""
        self.assert_rows([
            *publishing("one", 1, {"/b": b"y", "/a/b": b"x", "/a": b"z"}),
            post(DEPLOYS, {"files": {"/b": None, "/a/b": None}, "patch": True}, opened(3, published=4)),
            post(f"{DEPLOYS}/1/restore", None, {"entry": 5}),
            undo(2, refused("Clash", change=4, cell="live /a/b")),
            undo(4, refused("Clash", change=5, cell="live /a/b")),
            undo(5, {"entry": 6}),
            undo(4, {"entry": 7}),
            post(f"{DEPLOYS}/1/restore", None, {"entry": 8}),
            undo(2, refused("Clash", change=8, cell="live /a")),
        ])
        self.assert_rows([
            post(DEPLOYS, {"files": {}}, opened(1, published=2)),
            post(f"{DEPLOYS}/1/restore", None, {"entry": 3}),
            undo(2, refused("Clash", change=3, cell="kept 1")),
        ])

    def test_escape_the_cell_of_a_clash(self):
        for path, cell in [
            ("/b.txt", r'live /b.txt'),
            ('/a"b\n\x01', r'live /a\"b\n\u0001'),
            ("/\u00e9", "live /\u00e9"),
            ("/\u20ac/\U0001f600", "live /\u20ac/\U0001f600"),
            ("/<a>&'b'", "live /<a>&'b'"),
        ]:
            with self.subTest(path):
                self.assert_rows([
                    *publishing("one", 1, {path: b"x"}),
                    delete(f"/api/v1/sites/one/files{urllib.parse.quote(path)}", {"entry": 3}),
                    undo(2, conflict(f'{{"cell":"{cell}","change":3,"error":"Clash"}}')),
                ])

    def test_tell_any_cell_in_json(self):
        path = "/" + "".join(map(chr, range(1, 35))) + "\x7f\u0080\u2028\u00e9\U0001f600"
        self.assertNotIn("#", path)
        rows = [
            *publishing("one", 1, {path: b"x"}),
            delete(f"/api/v1/sites/one/files{urllib.parse.quote(path)}", {"entry": 3}),
        ]
        self.assert_rows([*rows, read(path)])
        given = b"".join(given for given, _ in rows) + request("POST", UNDO, body=b'{"change":2}')
        status, out, errors = run("solo", given=given)
        (_, code, _), body = messages(out)[-1]
        self.assertEqual((status, errors, code), (0, b"", "409"))
        self.assertEqual(json.loads(body), {"cell": f"live {path}", "change": 3, "error": "Clash"})
        self.assertIn("\u0080\u2028\u00e9\U0001f600", body)
