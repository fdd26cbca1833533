"""The types of files, by their names.

What is expected follows from docs/HTTP.md, "Types of files".
"""

import urllib.parse

from lib.client import HELLO, opened, sent
from lib.rows import DEPLOYS, OTHER, Interface, get, post, publishing, uploading


class TypesOfFiles(Interface):
    """The type goes by what follows the last dot of the last segment."""

    types = {
        "/index.html": "text/html; charset=utf-8",
        "/a/b.css": "text/css; charset=utf-8",
        "/a.js": "text/javascript; charset=utf-8",
        "/a.txt": "text/plain; charset=utf-8",
        "/a.json": "application/json",
        "/a.svg": "image/svg+xml",
        "/a.png": "image/png",
        "/a.jpg": "image/jpeg",
        "/a.jpeg": "image/jpeg",
        "/a.gif": "image/gif",
        "/a.woff2": "font/woff2",
        "/A.HTML": "text/html; charset=utf-8",
        "/a.Css": "text/css; charset=utf-8",
        "/a.JS": "text/javascript; charset=utf-8",
        "/a.TxT": "text/plain; charset=utf-8",
        "/a.JSON": "application/json",
        "/a.SVG": "image/svg+xml",
        "/a.PNG": "image/png",
        "/a.JPG": "image/jpeg",
        "/a.JpEg": "image/jpeg",
        "/a.GIF": "image/gif",
        "/a.WOFF2": "font/woff2",
        "/a.tar.gif": "image/gif",
        "/.css": "text/css; charset=utf-8",
        "/..css": "text/css; charset=utf-8",
        "/b.c/d.png": "image/png",
        "/b.txt/.html": "text/html; charset=utf-8",
        "/a.png.gz": OTHER,
        "/a.htm": OTHER,
        "/a.xhtml": OTHER,
        "/a.html5": OTHER,
        "/a.woff": OTHER,
        "/a.mjs": OTHER,
        "/a.html ": OTHER,
        "/a. html": OTHER,
        "/html": OTHER,
        "/x.": OTHER,
        "/a.html.": OTHER,
        "/a.png/c": OTHER,
        "/a.png/html": OTHER,
        "/...": OTHER,
    }

    def test_are_those_of_the_last_ending(self):
        """Each of these files has the same bytes."""
        rows = []
        for path, kind in self.types.items():
            rows.append(get(f"/s/one{urllib.parse.quote(path)}", sent(b"hello", kind=kind)))
        self.assert_rows(rows, [
            post(DEPLOYS, {"files": dict.fromkeys(self.types, HELLO)}, opened(1, HELLO)),
            uploading(1, "/html", b"hello", 2),
        ])

    def test_are_those_of_the_path_that_is_read(self):
        page = sent(b"x", kind="text/html; charset=utf-8")
        self.assert_rows([
            *publishing("one", 1, {"/a.png/index.html": b"x"}),
            get("/s/one/a.png/", page),
            get("/d/one/1/a%2epng/?a.gif", page),
        ])
