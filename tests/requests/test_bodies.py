"""What the bodies of openings ask for, and the first reason against those that ask for nothing.

What is expected follows from docs/HTTP.md, "The body of a deploy".
"""

from lib.client import ABC, HELLO, digest_of, opened
from lib.rows import DEPLOYS, Tables, get, post, publishing, put, read, uploading

# What an opening asks for, and its body.
OPENINGS = r"""
live: {"files":{}}
live:  { "files" : { } }
live: {"files":{},"draft":false}
live: {"files":{},"patch":false}
live: {"files":{},"sites":[null,1.5],"Draft":true}
live: {"files":{},"Patch":true,"draft ":true}
live: {"files":[],"files":{}}
live: {"files":{},"draft":true,"draft":false}
live: {"files":{},"patch":true,"patch":false}
live: {"files":{},"x":"\ud83d\ude00"}
draft: {"files":{},"draft":true}
draft: {"draft":1,"files":{},"draft":true}
draft: {"files":{},"\u0064raft":true}
patch: {"files":{},"patch":true}
patch: {"files":{},"patch":null,"patch":true}
draft patch: {"patch":true,"files":{},"draft":true}
BadBody: files
BadBody: {
BadBody: []
BadBody: [{"files":{}}]
BadBody: null
BadBody: true
BadBody: 1
BadBody: "files"
BadBody: {"files":{}} x
BadBody: {"files":{}}{"files":{}}
BadBody: {"files":{},}
BadBody: {'files':{}}
BadBody: {files:{}}
BadBody: {"files":{}/**/}
BadBody: {}
BadBody: {"Files":{}}
BadBody: {"files":[]}
BadBody: {"files":null}
BadBody: {"files":""}
BadBody: {"files":true}
BadBody: {"files":1}
BadBody: {"files":{},"files":[]}
BadBody: {"files":{},"draft":null}
BadBody: {"files":{},"draft":1}
BadBody: {"files":{},"draft":"true"}
BadBody: {"files":{},"draft":[]}
BadBody: {"files":{},"draft":{}}
BadBody: {"files":{},"draft":true,"draft":1}
BadBody: {"files":{},"patch":null}
BadBody: {"files":{},"patch":0}
BadBody: {"files":{},"patch":"false"}
BadBody: {"files":{},"patch":[true]}
BadBody: {"files":{},"x":1e400}
BadBody: {"files":{},"x":-1e400}
BadBody: {"files":{},"x":01}
BadBody: {"files":{},"x":+1}
BadBody: {"files":{},"x":1.}
BadBody: {"files":{},"x":NaN}
BadBody: {"files":{},"x":"\ud800"}
BadBody: {"files":{},"\udc00":1}
BadBody: {"files":{},"x":"\x41"}
BadBody: {"files":{},"x":"	"}
BadBody: {"files":{"a":"\ud800"}}
BadBody: {"files":{"a//b":""},"draft":1}
BadBody: {"files":{"a":"x"},"patch":1}
BadPath: {"files":{"a//b":""},"patch":true}
BadPath: {"files":{"a//b":""},"draft":true}
"""

# What a deploy lists, and the members of its `files`. `H` is the digest of `hello`, and `A` that of `abc`.
LISTINGS = r"""
/a=H: "a":H
/a=H: "/a":H
/a=H: "\u0061":H
/a=H: "\/a":H
/a=H: "a":"x","a":H
/a=H: "a":7,"a":H
/a=H: "a":"AAF4C61DDCC5E8A2DABEDE0F3B482CD9AEA9434D"
/a=H: "a":"aAf4c61ddcc5e8A2dabede0f3b482cd9aea9434D"
/a=A: "a":H,"a":A
/a=H /b=H: "a":H,"b":H
/a=H /b=H: "b":H,"a":H
/a=H /b=H: "/b":H,"a":H
/a=H /b=H: "b":H,"/a":H
/a=H /b=A: "a":H,"b":A
/a=H /b=A: "/b":A,"a":H
/a=A /b=H: "b":H,"/a":A
BadPath: "a//b":H
BadPath: "":H
BadPath: "/":H
BadPath: "//a":H
BadPath: "a/":H
BadPath: "a?b":H
BadPath: "a#b":H
BadPath: "a\\b":H
BadPath: "a\u0000":H
BadPath: ".":H
BadPath: "..":H
BadPath: "a/../b":H
BadDigest: "a":""
BadDigest: "a":"x"
BadDigest: "a":"aaf4c61ddcc5e8a2dabede0f3b482cd9aea9434"
BadDigest: "a":"aaf4c61ddcc5e8a2dabede0f3b482cd9aea9434d0"
BadDigest: "a":"aaf4c61ddcc5e8a2dabede0f3b482cd9aea9434g"
BadDigest: "a":"gaf4c61ddcc5e8a2dabede0f3b482cd9aea9434d"
BadDigest: "a":" aaf4c61ddcc5e8a2dabede0f3b482cd9aea9434"
BadDigest: "a":"0xf4c61ddcc5e8a2dabede0f3b482cd9aea9434d"
BadBody: "a":null
BadBody: "a":7
BadBody: "a":[H]
BadBody: "a":true
BadBody: "a":{}
BadBody: "a":H,"/a":H
BadBody: "/a":H,"a":H
BadBody: "a":"x","/a":H
BadBody: "a":H,"a":null
BadBody: "a":null,"b//c":H
BadBody: "a":H,"b":null,"/a":H
BadBody: "a":H,"b":"x","/b":H
BadBody: "/a":H,"a":"x"
BadDigest: "a":H,"/a":"x"
BadDigest: "a":"x","b//c":H
BadDigest: "b//c":H,"a":"x"
BadDigest: "a":null,"/b":"x"
BadPath: "a//b":H,"b":"x"
BadPath: "b":"x","a//b":H
BadPath: "a//b":null
BadPath: "a":null,"/b//c":H
"""

# What a patch does at its paths, where `-` is a removal, and the members of its `files`.
PATCHES = r"""
/a=-: "a":null
/a=H: "a":H
/a=H /b=-: "b":null,"a":H
/a=- /b=-: "b":null,"/a":null
/a=- /b=H: "/b":H,"a":null
/a=-: "a":H,"a":null
/a=H: "a":null,"a":H
BadBody: "a":false
BadBody: "a":7
BadBody: "a":[null]
BadBody: "a":{}
BadBody: "a":null,"/a":H
BadBody: "a":null,"/a":null
BadDigest: "a":"null"
BadDigest: "a":""
BadDigest: "a":null,"b":""
BadPath: "a//b":null
BadPath: "":null
"""


def filled(members):
    """The members of `files`, with digests in the place of their letters."""
    return members.replace(":H", f':"{HELLO}"').replace("[H]", f'["{HELLO}"]').replace(":A", f':"{ABC}"')


class Openings(Tables):
    """What is opened, and what it lists."""

    def test_open_deploys(self):
        shown = {"id": "3", "required": [], "site": "one", "state": "open"}
        kept = {**shown, "state": "kept"}
        kinds = {
            "live": [opened(3, published=4), kept, {"entry": 5}, None],
            "patch": [opened(3, published=4), "NoSuchDeploy", "NoSuchDeploy", b"old"],
            "draft": [opened(3), shown, {"entry": 4}, None],
            "draft patch": [opened(3), shown, {"entry": 4}, b"old"],
        }

        def rows_of(kind, body):
            answer, state, restored, left = kinds[kind]
            return [
                post(DEPLOYS, body, answer),
                get("/api/v1/deploys/3", state),
                read("/a", None if kind == "live" else b"old"),
                post(f"{DEPLOYS}/3/restore", None, restored),
                read("/a", left),
            ]

        self.assert_table(OPENINGS, DEPLOYS, rows_of, publishing("one", 1, {"/a": b"old"}))

    def test_are_utf_8(self):
        rows = [post(DEPLOYS, body, "BadBody") for body in (
            b'{"files":{},"x":"\xff"}', b'{"files":{},"x":"\xc3"}', b'{"files":{},"x":"\xed\xa0\x80"}',
            b'{"files":{"\xc3":"x"}}', b'{"files":{}}\xff', '{"files":{}}'.encode("utf-16"),
        )]
        self.assert_rows([*rows, post(DEPLOYS, '{"files":{},"x":"\u00e9"}', opened(1, published=2))])

    def test_have_white_space_and_nothing_else_around_them(self):
        rows = [post(DEPLOYS, body, "BadBody") for body in (
            '\ufeff{"files":{}}', '\f{"files":{}}', '\u00a0{"files":{}}', '{"files":{}}\0', '{"files":{}}\v',
            '{"files":{}},', " ", "\r\n",
        )]
        self.assert_rows([*rows, post(DEPLOYS, '\t\r\n {"files":{\t}\n}\r\n\t ', opened(1, published=2))])

    def test_list_the_files_of_a_deploy(self):
        contents = {"H": b"hello", "A": b"abc"}

        def rows_of(wanted, body):
            files = {path: contents[letter] for path, letter in (pair.split("=") for pair in wanted.split())}
            missing = sorted(set(files.values()), key=digest_of)
            rows = [post(DEPLOYS, body, opened(1, *map(digest_of, missing)))]
            for content in missing:
                path = next(path for path in files if files[path] == content)
                rows.append(uploading(1, path, content, 2 if content == missing[-1] else None))
            return rows + [read(path, files.get(path)) for path in ("/a", "/b")]

        self.assert_table(LISTINGS, DEPLOYS, rows_of, body_of=lambda members: f'{{"files":{{{filled(members)}}}}}')

    def test_list_what_a_patch_writes_and_removes(self):
        before = publishing("one", 1, {"/a": b"old a", "/b": b"old b"})

        def rows_of(wanted, body):
            files = {"/a": b"old a", "/b": b"old b"}
            files |= {path: b"hello" if letter == "H" else None
                      for path, letter in (pair.split("=") for pair in wanted.split())}
            rows = [post(DEPLOYS, body, opened(3, HELLO) if "H" in wanted else opened(3, published=4))]
            rows += [uploading(3, path, b"hello", 4) for path in files if files[path] == b"hello"]
            rows += [put("/api/v1/deploys/3/files/b", b"hello", "NoSuchDeploy")]
            return rows + [read(path, content) for path, content in files.items()]

        self.assert_table(PATCHES, DEPLOYS, rows_of, before,
                          body_of=lambda members: f'{{"files":{{{filled(members)}}},"patch":true}}')
