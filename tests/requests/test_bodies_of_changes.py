"""What the other bodies ask for, which are ignored, and how deep and how long a body may be.

What is expected follows from docs/WIRE.md, "Limits of bodies"; docs/HTTP.md, "The body of a deploy" and "The other bodies".
"""

import json

from lib.client import HELLO, LARGEST_FILE, opened, refused, request, sent
from lib.rows import CHANGES, DEPLOYS, UNDO, Interface, Tables, change, delete, get, post, publishing, put, read, row, served, uploading

LARGEST_TEXT = 4_194_304
RENAME = "/api/v1/sites/one/rename"
ALIAS = "/api/v1/sites/one/aliases/next"

# The number of the change that is undone, or 0, which no change has, and the body of the undo.
UNDOS = r"""
1: {"change":1}
1: {"change":"1"}
7: {"change":"7"}
3: {"change":null,"change":3,"other":[]}
2:  { "other" : {} , "change" : 2 }
0: {"change":1000000}
0: {"change":"1000000"}
0: {"change":1000001}
0: {"change":"1000001"}
0: {"change":18446744073709551616}
0: {"change":18446744073709551617}
0: {"change":"18446744073709551617"}
0: {"change":4294967297}
0: {"change":0}
0: {"change":-0}
0: {"change":-1}
0: {"change":2.0}
0: {"change":2e0}
0: {"change":2.5}
0: {"change":0.2e1}
0: {"change":"007"}
0: {"change":"0"}
0: {"change":"+1"}
0: {"change":"-1"}
0: {"change":" 1"}
0: {"change":"1 "}
0: {"change":"2.0"}
0: {"change":"2e0"}
0: {"change":"one"}
0: {"change":""}
BadBody: {"change":null}
BadBody: {"change":true}
BadBody: {"change":false}
BadBody: {"change":[]}
BadBody: {"change":[1]}
BadBody: {"change":{}}
BadBody: {"change":1,"change":null}
BadBody: {"change":1e400}
BadBody: {"change":007}
BadBody: {"change":+1}
BadBody: {"Change":1}
BadBody: {"deploy":1}
BadBody: {"change":1} 1
BadBody: {}
BadBody: []
BadBody: [1]
BadBody: 1
BadBody: "1"
BadBody: change
"""

# The number of the deploy that an alias is to name, or 0, and the body of the request.
ALIASES = r"""
1: {"deploy":1}
1: {"deploy":"1","name":"other"}
1: {"deploy":null,"deploy":1}
0: {"deploy":1000000}
0: {"deploy":1000001}
0: {"deploy":0}
0: {"deploy":"01"}
0: {"deploy":"+1"}
0: {"deploy":1.0}
0: {"deploy":1e0}
0: {"deploy":-1}
0: {"deploy":18446744073709551617}
0: {"deploy":"next"}
0: {"deploy":""}
BadBody: {"deploy":null}
BadBody: {"deploy":true}
BadBody: {"deploy":[1]}
BadBody: {"deploy":{}}
BadBody: {"deploy":1,"deploy":null}
BadBody: {"change":1}
BadBody: {}
BadBody: []
BadBody: 1
BadBody: deploy
"""

# The path to which the file at /a goes, and the body of the renaming.
RENAMINGS = r"""
/b: {"from":"/a","to":"/b"}
/b: {"to":"b","from":"a"}
/c/d: {"from":1,"from":"a","to":"c/d","and":null}
/é: {"from":"\u0061","to":"\u00e9"}
SamePath: {"from":"a","to":"/a"}
NoSuchFile: {"from":"b","to":"a"}
BadBody: {"from":"a"}
BadBody: {"to":"a"}
BadBody: {"from":"a","to":1}
BadBody: {"from":null,"to":"a"}
BadBody: {"from":"a//b","to":["c"]}
BadBody: {"from":1,"to":"a//b"}
BadBody: {"from":"a","to":"b","to":null}
BadBody: {"from":"a","to":"b"
BadBody: []
BadBody: "a"
BadPath: {"from":"a//b","to":"c"}
BadPath: {"from":"c","to":"a//b"}
BadPath: {"from":"","to":"a"}
BadPath: {"from":"a","to":""}
BadPath: {"from":"a","to":"b#c"}
BadPath: {"from":"a","to":"b/"}
BadPath: {"from":"a","to":".."}
"""


class Changes(Tables):
    """What is undone, which deploy an alias names, and what is renamed."""

    def test_name_the_change_to_be_undone(self):
        """Seven changes can be undone, so that a number which is read too freely undoes one of them."""
        before = [post(DEPLOYS, {"files": {}, "draft": True}, opened(number)) for number in range(1, 8)]

        def rows_of(wanted, body):
            if wanted == "0":
                return [post(UNDO, body, "NoSuchChange")]
            number = int(wanted)
            lines = [change(entry, "open", entry != number) for entry in range(1, 8)]
            undone = {"entry": 8, "kind": "undo", "of": number}
            return [post(UNDO, body, {"entry": 8}), get(CHANGES, {"changes": [*lines, undone]})]

        self.assert_table(UNDOS, UNDO, rows_of, before)

    def test_name_the_deploy_of_an_alias(self):
        file = "/a/one/next/a"

        def rows_of(wanted, body):
            if wanted == "0":
                return [put(ALIAS, body, "NoSuchDeploy"), get(file, "NoSuchAlias")]
            return [
                put(ALIAS, body, {"entry": 3}),
                get(file, served("/a", b"x")),
                delete("/api/v1/deploys/1", refused("DeployInUse", alias="next")),
            ]

        self.assert_table(ALIASES, ALIAS, rows_of, publishing("one", 1, {"/a": b"x"}), method="PUT")

    def test_name_the_paths_of_a_renaming(self):
        def rows_of(wanted, body):
            return [post(RENAME, body, {"entry": 3}), read("/a"), read(wanted, b"x")]

        self.assert_table(RENAMINGS, RENAME, rows_of, publishing("one", 1, {"/a": b"x"}))

    def test_are_ignored_where_nothing_is_asked_for(self):
        body = b"{\xff"
        self.assert_rows([
            *publishing("one", 1, {"/a": b"x", "/b": body}),
            row("GET", "/s/one/a", body, served("/a", b"x")),
            row("HEAD", "/s/one/a", body, served("/a", b"x")),
            put(ALIAS, {"deploy": 1}, {"entry": 3}),
            row("GET", "/a/one/next/b", body, served("/b", body)),
            row("GET", "/d/one/1/a", body, served("/a", b"x")),
            row("DELETE", ALIAS, body, {"entry": 4}),
            row("DELETE", "/api/v1/sites/one/files/a", body, {"entry": 5}),
            read("/a"),
            post(f"{DEPLOYS}/1/restore", body, {"entry": 6}),
            read("/a", b"x"),
            row("GET", "/api/v1/sites/two/changes", body, {"changes": []}),
            row("GET", "/api/v1/deploys/1", body, {"id": "1", "required": [], "site": "one", "state": "kept"}),
            row("DELETE", "/api/v1/deploys/1", body, {"entry": 7}),
            post(DEPLOYS, {"files": {}, "draft": True}, opened(8)),
            post("/api/v1/deploys/8/cancel", body, {"entry": 9}),
        ])


class Sizes(Interface):
    """How deep and how long a body may be, and how many files a deploy may list."""

    def test_have_up_to_127_levels(self):
        def body(depth, front="[", end="]"):
            return '{"files":{},"x":' + front * (depth - 1) + end * (depth - 1) + "}"

        self.assert_rows([
            post(DEPLOYS, body(127), opened(1, published=2)),
            post(DEPLOYS, body(128), "BadBody"),
            post(DEPLOYS, body(10_000), "BadBody"),
            post(DEPLOYS, body(127, '{"x":', "}").replace(":}", ":0}"), opened(3, published=4)),
            post(DEPLOYS, body(128, '{"x":', "}").replace(":}", ":0}"), "BadBody"),
        ])

    def test_list_up_to_10_000_files(self):
        """The paths stand in no order in the body, which has more than 0.5 MB."""
        paths = [f"assets/{number * 0x9e37_79b1 % 2 ** 32:08x}.js" for number in range(10_001)]
        self.assertEqual(len(set(paths)), 10_001)
        whole = json.dumps({"files": dict.fromkeys(paths[:10_000], HELLO)})
        self.assertGreater(len(whole), 500_000)
        script = sent(b"hello", kind="text/javascript; charset=utf-8")
        listed = (paths[0], paths[9_999], min(paths[:-1]), max(paths[:-1]))
        self.assert_rows([
            post(DEPLOYS, {"files": dict.fromkeys(paths, HELLO)}, "TooManyFiles"),
            post(DEPLOYS, {"files": dict.fromkeys(paths, HELLO), "patch": True}, "TooManyFiles"),
            post(DEPLOYS, whole, opened(1, HELLO)),
            uploading(1, f"/{paths[9_999]}", b"hello", 2),
            *[get(f"/s/one/{path}", script) for path in listed],
            get(f"/s/one/{paths[10_000]}", "NoSuchFile"),
        ])

    def test_are_as_long_as_their_route_lets_them_be(self):
        """One byte more is not read at all: its head is refused, and the connection ends."""
        for method, target, limit, wanted in [
            ("PUT", "/api/v1/deploys/1/files/a.txt", LARGEST_FILE, "NoSuchDeploy"),
            ("PUT", "/api/v1/deploys//files//?q", LARGEST_FILE, "BadPath"),
            ("POST", "/api/v1/deploys/1/files/a.txt", LARGEST_TEXT, refused("BadMethod", "Allow: PUT")),
            ("put", "/api/v1/deploys/1/files/a.txt", LARGEST_TEXT, refused("BadMethod", "Allow: PUT")),
            ("PUT", "/api/v1/deploys/1/file/a.txt", LARGEST_TEXT, "NoRoute"),
            ("PUT", "/s/one/a.txt", LARGEST_TEXT, refused("BadMethod", "Allow: GET, HEAD")),
            ("GET", "/s/one/a.txt", LARGEST_TEXT, "NoSuchFile"),
            ("POST", DEPLOYS, LARGEST_TEXT, "BadBody"),
        ]:
            with self.subTest(f"{method} {target}"):
                self.assert_rows([row(method, target, bytes(limit), wanted), get("/s/one/a", "NoSuchFile")])
                longer = request(method, target, f"Content-Length: {limit + 1}") + request("GET", "/s/one/a")
                self.assert_answers(longer, refused("BodyTooLarge", "Connection: close"))

    def test_are_read_whole_where_they_are_longest(self):
        front, end = '{"files":{},"x":"', '","draft":true}'
        body = front + "x" * (LARGEST_TEXT - len(front) - len(end)) + end
        self.assertEqual(len(body), LARGEST_TEXT)
        self.assert_rows([
            post(DEPLOYS, body, opened(1)),
            post(f"{DEPLOYS}/1/restore", None, {"entry": 2}),
            put(ALIAS, '{"deploy":1}'.rjust(LARGEST_TEXT), {"entry": 3}),
            post(RENAME, '{"from":"a","to":"b"}'.ljust(LARGEST_TEXT), "NoSuchFile"),
            post(UNDO, '{"change":3}'.center(LARGEST_TEXT), {"entry": 4}),
        ])
        refusal = refused("BodyTooLarge", "Connection: close")
        self.assert_answers(request("POST", DEPLOYS, body=f" {body}".encode()), refusal)
        self.assert_answers(request("POST", UNDO, body=b'{"change":3}'.rjust(LARGEST_TEXT + 1)), refusal)
