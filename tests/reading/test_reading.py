"""Files over one connection: how they are read, whole or by ranges, with which type, and what is refused.

What is expected follows from docs/HTTP.md and docs/DECISIONS.md.
"""

from lib.client import (
    ABC, HELLO, LARGEST_FILE, PUBLISHED, REQUESTS, Program, asking, closing, digest_of, done, opened, opening, refused, request, sent,
    to_head, upload, uploaded,
)
from lib.range_replies import TWO_PARTS
from lib.sample_site import TEXTS, WORLD

BAD_BODY = refused("BadBody")
BAD_NAME = refused("BadName")
BAD_PATH = refused("BadPath")
NO_FILE = refused("NoSuchFile")
NO_ROUTE = refused("NoRoute")
NO_ALIAS = refused("NoSuchAlias")
OCTETS = "application/octet-stream"


def part(whole, first, last, kind="text/plain; charset=utf-8"):
    """The reply with these positions of a file."""
    return sent(whole[first:last + 1], f"Content-Range: bytes {first}-{last}/{len(whole)}", whole=whole, kind=kind)


def get(target):
    return request("GET", target)


class Reads(Program):
    def assert_reads(self, rows):
        """A host with the three texts answers each read of /s/one/ with its reply."""
        asked = [(request(method, f"/s/one/{path}", *fields), wanted) for method, path, fields, wanted in rows]
        self.assert_converses(TEXTS + asked)

    def test_give_one_range(self):
        self.assert_reads([
            ("GET", "w.txt", ["Range: bytes=6-18446744073709551616000"], part(b"hello world", 6, 10)),
            ("GET", "a.txt", ["range:bytes=0-0"], part(b"hello", 0, 0)),
            ("GET", "a.txt", ["Range: bytes=0-4"], part(b"hello", 0, 4)),
            ("GET", "a.txt?x", ["Range: bytes=4-9"], part(b"hello", 4, 4)),
            ("GET", "a.txt", ["RANGE:\tbytes=1-3 "], part(b"hello", 1, 3)),
            ("GET", "w.txt", ["Range: bytes=10-10"], part(b"hello world", 10, 10)),
            ("GET", "w.txt", ["Range: bytes=2-18446744073709551615"], part(b"hello world", 2, 10)),
            ("GET", "w.txt", ["Range: bytes=0-"], part(b"hello world", 0, 10)),
            ("GET", "w.txt", ["Range: Bytes=-5"], part(b"hello world", 6, 10)),
            ("GET", "w.txt", ["Range: bytes=20-,,0-0"], part(b"hello world", 0, 0)),
        ])

    def test_give_several_ranges_in_one_reply(self):
        self.assertEqual(len(TWO_PARTS.partition(b"\r\n\r\n")[2]), 305)
        self.assert_reads([
            ("GET", "w.txt", ["Range: bytes=0-4,-5"], TWO_PARTS),
            ("GET", "w.txt?x", ["range:\tBYTES=,0-4 ,\t6-99,11-,-0 "], TWO_PARTS),
            ("GET", "w.txt", ["Range: bytes=0-9,0-9"], sent(b"hello world")),
            ("GET", "w.txt", ["Range: bytes=0-4,-5", "Range: bytes=0-4,-5"], sent(b"hello world")),
            ("HEAD", "w.txt", ["Range: bytes=0-4,-5"], to_head(sent(b"hello world"))),
            ("GET", "b.txt", ["Range: bytes=0-4,-5"], NO_FILE),
            ("GET", "e.txt", ["Range: bytes=0-4,-5"], sent(b"")),
        ])

    def test_give_ranges_under_the_tag_of_the_file_alone(self):
        tag = f'"{WORLD}"'
        self.assert_reads([
            ("GET", "w.txt", ["Range: bytes=0-0", f"If-Range: {tag}"], part(b"hello world", 0, 0)),
            ("GET", "w.txt", [f"if-range:{tag}", "Range: bytes=0-4,-5"], TWO_PARTS),
            *(("GET", "w.txt", ["Range: bytes=0-0", *(f"If-Range: {value}" for value in values)], sent(b"hello world"))
              for values in (["W/" + tag], ["Sun, 06 Nov 2044 08:49:37 GMT"], [f'"{HELLO}"'], [WORLD], [""], ["*"], [tag, tag],
                             [f"{tag}, {tag}"])),
            ("GET", "w.txt", ["Range: bytes=11-", f"If-Range: {tag}"], refused("NotSatisfiable", "Content-Range: bytes */11")),
            ("GET", "w.txt", ["Range: bytes=11-", "If-Range: x"], sent(b"hello world")),
            ("GET", "w.txt", [f"If-Range: {tag}"], sent(b"hello world")),
            ("GET", "w.txt", ["If-Range: x"], sent(b"hello world")),
            ("HEAD", "w.txt", ["Range: bytes=0-0", f"If-Range: {tag}"], to_head(sent(b"hello world"))),
            ("GET", "b.txt", ["Range: bytes=0-0", f"If-Range: {tag}"], NO_FILE),
        ])

    def test_refuse_a_range_after_the_end(self):
        refusal = refused("NotSatisfiable", "Content-Range: bytes */5")
        ranges = ("5-9", "5-5", "6-6", "5-18446744073709551616", "18446744073709551615-18446744073709551615",
                  "18446744073709551616-18446744073709551616", "99999999999999999999-18446744073709551615", "5-", "-0")
        self.assert_reads([("GET", "a.txt", [f"Range: bytes={positions}"], refusal) for positions in ranges])

    def test_give_the_whole_where_a_range_does_not_count(self):
        others = (
            "bytes=2-1", "lines=1-2", "Byte=1-2", "bytes=-", "bytes=", "bytes", "bytes=1", "",
            "bytes=1-2,0-", "bytes=1-2;", "bytes=1 -2", "bytes=1- 2", "bytes =1-2", "bytes=+1-2",
            "bytes=1-0x2", "bytes=1-2-3", "1-2", "bytes=a-b", "bytes=9-8", "bytes=18446744073709551616-1",
        )
        rows = [[], *([f"Range: {value}"] for value in others)]
        rows += [["Range: bytes=1-2"] * 2, ["Range: bytes=9-9", "Range: bytes=1-2"], ["If-Range:", "Range: bytes=9-9"]]
        rows += [["Range: bytes=1-2", f'If-Range: "{ABC}"'], ["If-Range: x", "If-Range: y", "Range: bytes=1-2"]]
        self.assert_reads([("GET", "a.txt", fields, sent(b"hello")) for fields in rows] + [
            ("GET", "b.txt", ["Range: bytes=0-0"], NO_FILE), ("GET", "e.txt", [], sent(b"")),
            ("GET", "e.txt", ["Range: bytes=0-0"], sent(b"")), ("GET", "e.txt", ["Range: bytes=9-9"], sent(b"")),
        ])

    def test_give_no_body_to_head(self):
        ranges = [[], ["Range: bytes=1-3"], ["Range: bytes=9-9"]]
        self.assert_reads([("HEAD", "a.txt", fields, to_head(sent(b"hello"))) for fields in ranges])
        rows = [
            ("/s/one/e.txt", sent(b"")), ("/s/one/b.txt", NO_FILE), ("/s/two/a.txt", NO_FILE),
            ("/s/one//a.txt", BAD_PATH), ("/s/one/", NO_FILE), ("/s/one/../two/a.txt", BAD_PATH),
            ("/nowhere", NO_ROUTE), ("/s/One/a", BAD_NAME), ("/a/one/x/a", NO_ALIAS),
            ("/d/one/7/a.txt", refused("NoSuchDeploy")),
            ("/api/v1/sites/one/undo", refused("BadMethod", "Allow: POST")),
        ]
        heads = [(request("HEAD", target), to_head(wanted)) for target, wanted in rows]
        self.assert_converses([*TEXTS, *heads, (get("/s/one/a.txt"), sent(b"hello"))])

    def test_pass_over_other_fields(self):
        fields = [
            "Host:", "Host: other:80", "Accept-Encoding: gzip", "Authorization: Basic eDp5",
            f'If-None-Match: "{HELLO}"', "If-None-Match: *", 'If-Match: "x"',
            "If-Modified-Since: Sun, 06 Nov 2044 08:49:37 GMT", "Expect: x",
            "If-Unmodified-Since: Sun, 06 Nov 1994 08:49:37 GMT", "Expect: 100-continue", "Upgrade: h2c", "Accept: x/y",
            "TE: trailers", "Content-Type: x", "Content-Encoding: gzip", "X-HTTP-Method-Override: DELETE",
        ]
        self.assert_reads([("GET", "a.txt", [field], sent(b"hello")) for field in fields] + [
            ("HEAD", "a.txt", fields, to_head(sent(b"hello"))),
            ("GET", "a.txt", [*fields, "Range: bytes=1-3"], part(b"hello", 1, 3)),
        ])

    def test_give_the_page_of_a_folder(self):
        page, home = (sent(content, kind="text/html; charset=utf-8") for content in (b"abc", b"hello"))
        of_the_first = [
            ("/s/one/b", NO_FILE), ("/s/one/", NO_FILE), ("/s/one/b/", page), ("/s/one/b%2F", page),
            ("/s/one/b/?x=/", page), ("/s/one/b%2f?", page), ("/s/one/b/index.html", page),
            ("/s/one/b/index.html/", NO_FILE), ("/s/one/b//", BAD_PATH), ("/d/one/1/b/", page), ("/d/one/1/", NO_FILE),
            ("/d/one/1", NO_ROUTE), ("/a/one/x/b/", page), ("/a/one/x/", NO_FILE), ("/a/one/x", NO_ROUTE),
        ]
        of_both = [
            ("/s/one/", home), ("/s/one/?", home), ("/d/one/4/", home), ("/s/one/b/", NO_FILE), ("/a/one/x/b/", page),
            ("/s/one", NO_ROUTE),
        ]
        self.assert_converses([
            (opening({"b/index.html": ABC}), opened(1, ABC)),
            (upload(1, "b%2Findex.html", b"abc"), uploaded(b"abc", 2)),
            (asking("PUT", "/api/v1/sites/one/aliases/x", deploy=1), done(entry=3)),
            *((get(target), wanted) for target, wanted in of_the_first), (request("HEAD", "/s/one/b/"), to_head(page)),
            (opening({"/index.html": HELLO}), opened(4, HELLO)),
            (upload(4, "/index.html", b"hello"), uploaded(b"hello", 5)),
            *((get(target), wanted) for target, wanted in of_both),
        ])

    def test_give_the_type_of_the_ending(self):
        kinds = {
            "text/html; charset=utf-8": ["a.html", "a.HTML", ".html", "a.b.html"],
            "text/css; charset=utf-8": ["a.css", ".css"],
            "text/javascript; charset=utf-8": ["a.js", "a.json.js"],
            "text/plain; charset=utf-8": ["a.txt", "a.tXt", "b/c.txt"],
            "application/json": ["a.json", "a.js.JSON"],
            "image/svg+xml": ["a.svg"],
            "image/png": ["a.png", "ä.png", "a.txt/b.png"],
            "image/jpeg": ["a.jpg", "a.jpeg", "a.JPEG"],
            "image/gif": ["a.gif", "a.tar.gif"],
            "font/woff2": ["a.woff2"],
            OCTETS: ["a", "a.", "html", "a.htm", "a.woff", "a.png/html", "a.txt ", "a..", "a.xhtml", "a.txt.gz"],
        }
        rows = [(path, kind) for kind, paths in kinds.items() for path in paths]
        self.assertLess(len(rows), REQUESTS - 2)
        self.assert_converses([
            (opening({path: HELLO for path, _ in rows}), opened(1, HELLO)),
            (upload(1, "a", b"hello"), uploaded(b"hello", 2)),
            *((get("/s/one/" + path.replace(" ", "%20")), sent(b"hello", kind=kind)) for path, kind in rows),
        ])

    def test_give_each_byte_of_large_and_strange_files(self):
        contents = {"bytes": bytes(range(256)), "heads": get("/s/one/a") * 3, "large": bytes(LARGEST_FILE - 3) + b"end"}
        large = contents["large"]
        files = {path: digest_of(content) for path, content in contents.items()}
        last = LARGEST_FILE - 1
        end = request("GET", "/s/one/large", f"Range: bytes={last - 4}-{last + 9}")
        self.assert_converses([
            (opening(files), opened(1, *sorted(files.values()))),
            *((upload(1, path, content), uploaded(content, 2 if path == "large" else None))
              for path, content in contents.items()),
            *((get(f"/s/one/{path}"), sent(content, kind=OCTETS)) for path, content in contents.items()),
            (request("HEAD", "/s/one/large"), to_head(sent(large, kind=OCTETS))),
            (end, part(large, last - 4, last, OCTETS)), (get("/s/one/bytes"), sent(contents["bytes"], kind=OCTETS)),
        ])

    def test_take_bodies_that_no_route_reads(self):
        rows = [
            ("GET /s/one/a.txt", sent(b"hello")), ("HEAD /s/one/a.txt", to_head(sent(b"hello"))),
            ("GET /nowhere", NO_ROUTE), ("POST /s/one/a.txt", refused("BadMethod", "Allow: GET, HEAD")),
            ("GET /s/One/a", BAD_NAME), ("GET /s/one//a", BAD_PATH), ("HEAD /s/one/b.txt", to_head(NO_FILE)),
            ("GET /a/one/x/a.txt", NO_ALIAS),
            ("GET /api/v1/deploys/1", done(id="1", required=[], site="one", state="kept")),
            ("HEAD /api/v1/sites/two/changes", to_head(done(changes=[]))), ("GET /d/one/1/a.txt", sent(b"hello")),
            ("POST /api/v1/sites/one/deploys/1/restore", done(entry=3)), ("POST /nowhere", NO_ROUTE),
            ("DELETE /api/v1/sites/one/files/a.txt", done(entry=4)), ("DELETE /api/v1/deploys/1", done(entry=5)),
            ("DELETE /api/v1/sites/one/aliases/x", NO_ALIAS), ("POST /api/v1/deploys/1/cancel", refused("NoSuchDraft")),
        ]
        for body in (get("/s/one/a.txt"), b'{"files":{}}', b"", b"\n"):
            asked = [(request(*words.split(" "), body=body), wanted) for words, wanted in rows]
            self.assert_converses([*PUBLISHED, *asked, (opening({}), opened(6, published=7))])


class Refusals(Program):
    """Requests that are refused for their method, their target or their body, and make no entry."""

    methods = {
        "GET, HEAD": [
            "POST /s/one/a.txt", "get /s/one/a.txt", "DELETE /s/One/a//b", "POST /a/one/next/a.txt",
            "PUT /d/one/1/a.txt", "POST /api/v1/sites/one/changes", "OPTIONS /s/one/", "Get /d/one/x/#",
        ],
        "POST": [
            "GET /api/v1/sites/one/deploys", "DELETE /api/v1/sites/one/deploys/1/restore", "GET /api/v1/sites/one/undo",
            "PUT /api/v1/sites/one/rename", "DELETE /api/v1/deploys/1/cancel",
        ],
        "PUT, DELETE": ["GET /api/v1/sites/one/aliases/next", "POST /api/v1/sites/ONE/aliases/"],
        "DELETE": ["GET /api/v1/sites/one/files/a.txt", "PUT /api/v1/sites/one/files/a.txt"],
        "GET, HEAD, DELETE": ["PUT /api/v1/deploys/1", "POST /api/v1/deploys/x"],
        "PUT": ["POST /api/v1/deploys/1/files/a.txt", "GET /api/v1/deploys/1/files/"],
    }

    targets = {
        "NoRoute": [
            "GET /", "GET /s/one", "POST /api/v1/sites/one/und%6F", "POST /api/v1/sites/one/undo#",
            "GET /api/v1/deploys/1/", "GET /S/one/a", "GET /%73/one/a", "GET //s/one/a",
            "POST /api/v1/sites/one/deploys/", "GET /s/one#", "GET /s/one?/a",
        ],
        "BadName": [
            "GET /s//a.txt", "GET /s/One/a//b", "POST /api/v1/sites/o_e/deploys", "GET /a/one/Next/a.txt",
            "GET /s/One/a#", "DELETE /api/v1/sites/one/aliases/n%78", "GET /s/on%65/a", f"GET /s/{'a' * 64}/a",
            "GET /a/one//a",
        ],
        "BadPath": [
            "GET /s/one//a.txt", "GET /s/one/a/%2E%2e/b", "GET /s/one/%ff", "GET /s/one/%5C", "GET /s/one/a#b",
            "GET /s/one/..", "PUT /api/v1/deploys/1#/files/a", "PUT /api/v1/deploys/1/files/a%00",
            "PUT /api/v1/deploys/1/files/", "GET /d/one/1/a#", "DELETE /api/v1/sites/one/files//", "GET /s/one/a%3Fb",
            f"GET /s/one/{'a' * 1_024}", "GET /a/one/next/.", "PUT /api/v1/deploys/1/files/a/", "GET /s/one/%2Fa.txt",
        ],
        "NoSuchFile": [
            "GET /s/one/a%25b", "GET /s/one/50%", "GET /s/one/a+b", f"GET /s/one/{'a' * 1_023}", f"GET /s/{'a' * 63}/a",
            "GET /s/0-/a", "GET /s/one/a?#", "GET /s/one/...",
        ],
    }

    bad_bodies = {
        "POST deploys": [
            None, "", '{"files":', "{}", '{"files":[]}', f'{{"files":{{"a":"{HELLO}","/a":"{HELLO}"}}}}',
            '{"files":{"a":1}}', '{"files":{},"draft":1}', '{"files":{},"draft":null}', '{"files":{},"patch":"true"}',
            '{"files":{"a":null}}', '{"files":{"a":null},"patch":false}', '[{"files":{}}]', '{"files":{}}x', "null",
            '{"Files":{}}', '{"files":null}',
        ],
        "POST undo": [None, '{"change":true}', '{"changes":1}', '{"change":null}', "1", "{change:1}"],
        "PUT aliases/next": [None, '{"deploy":[1]}', '{"deploy":{}}', "{}"],
        "POST rename": [None, '{"from":"a"}', '{"to":"a"}', '{"from":1,"to":"b"}'],
    }
    bodies = [(words, body, BAD_BODY) for words, bodies in bad_bodies.items() for body in bodies] + [
        ("POST deploys", f'{{"files":{{"a//b":"{HELLO}"}}}}', BAD_PATH),
        ("POST deploys", '{"files":{"a":"aaf4"}}', refused("BadDigest")),
        ("POST deploys", f'{{"files":{{"a":"{HELLO}0"}}}}', refused("BadDigest")),
        ("POST rename", '{"from":"a","to":"b//c"}', BAD_PATH), ("POST rename", '{"from":"","to":"b"}', BAD_PATH),
    ]

    # Its numbers show that nothing before it made an entry.
    first = (opening({}), opened(1, published=2))

    def test_are_for_the_method(self):
        rows = [(words.split(" "), refused("BadMethod", f"Allow: {allow}"))
                for allow, lines in self.methods.items() for words in lines]
        for body in (None, b"", b'{"change":1}'):
            self.assert_converses([*((request(*words, body=body), wanted) for words, wanted in rows), self.first])
        heads = [(request("HEAD", target), to_head(wanted)) for (_, target), wanted in rows if b"HEAD" not in wanted]
        self.assert_converses([*heads, self.first])
        asked, wanted = request("PUT", "/s/one/a.txt", body=b"hello"), refused("BadMethod", "Allow: GET, HEAD")
        self.assert_converses([(closing(asked), closing(wanted))], unread=get("/s/one/a.txt"))

    def test_are_for_the_target(self):
        rows = [(words.split(" "), refused(name)) for name, lines in self.targets.items() for words in lines]
        for body in (None, b"{", b"hello"):
            self.assert_converses([*((request(*words, body=body), wanted) for words, wanted in rows), self.first])

    def test_are_for_the_body(self):
        exchanges = []
        for words, body, wanted in self.bodies:
            method, target = words.split(" ")
            asked = request(method, f"/api/v1/sites/one/{target}", body=None if body is None else body.encode())
            exchanges.append((asked, wanted))
        self.assert_converses([*exchanges, self.first])
