"""What visitors get of sites through nginx: the same as from the host, with types, compression, 304, and pages of their own where a file is missing."""

import base64
import contextlib
import gzip
import json
import os
import ssl
import time
import unittest

from stand import INTERFACE, OWN, PASSWORD, PUBLIC, USER, Stand

LOGIN = base64.b64encode(f"{USER}:{PASSWORD}".encode()).decode()
FILES = {
    "/index.html": b"<h1>Home</h1>" * 100, "/style.css": b"h1 { color: teal }\n" * 100, "/small.txt": b"hello world", "/empty.txt": b"",
    "/large.bin": os.urandom(3 * 65_536 + 5), "/a b/50% + \u00fc~.txt": b"strange", "/docs/index.html": b"the docs", "/v1.2/index.html": b"a version",
    "/404.html": b"<h1>This site has no such page</h1>" * 20, "/module.mjs": b"export const a = 1;\n" * 100, "/DATA.XML": b"<a/>" * 200,
}
# The types of endings that the host doesn't know, by the registry of media types (IANA); `.ico` as browsers have it.
TYPES = {
    "htm": "text/html; charset=utf-8", "mjs": "text/javascript; charset=utf-8", "wasm": "application/wasm", "webp": "image/webp", "avif": "image/avif",
    "ico": "image/x-icon", "xml": "application/xml", "pdf": "application/pdf", "mp4": "video/mp4", "webm": "video/webm", "woff": "font/woff",
    "webmanifest": "application/manifest+json", "map": "application/json", "WASM": "application/wasm", "unknown": "application/octet-stream",
    "css": "text/css; charset=utf-8", "woff2": "font/woff2",
}
# The fields of a reply that the host gives and a proxy has to hand on.
KEPT = ("Content-Type", "Content-Length", "Content-Range", "ETag", "Accept-Ranges")
STRANGE = "/a%20b/50%25%20+%20%C3%BC~.txt"


class Sites(unittest.TestCase):
    @classmethod
    def setUpClass(cls):
        stack = contextlib.ExitStack()
        cls.addClassCleanup(stack.close)
        cls.stand = Stand(stack)
        told = cls.stand.deploy(FILES, "www", "deploy", "--alias", "first")
        cls.number = told["deploy"]

    def setUp(self):
        self.visitors = {name: self.stand.visitor(name) for name in (PUBLIC, OWN, INTERFACE)}
        self.nodes = [self.stand.direct(node) for node in range(2)]

    def ask(self, name, target, method="GET", **fields):
        return self.visitors[name].ask(method, target, **fields)

    def change(self, method, target, body=None):
        reply = self.visitors[INTERFACE].ask(method, f"/api/v1/sites/www/{target}", json.dumps(body) if body else None, login=LOGIN)
        self.assertEqual(reply.status, 200, reply.content)
        return json.loads(reply.content)

    def of_host(self, node, method, target, **fields):
        client = self.nodes[node]
        client.request(method, target, headers={name.replace("_", "-"): value for name, value in fields.items()})
        reply = client.getresponse()
        return reply.status, {name: reply.headers[name] for name in KEPT}, reply.read()

    def assert_same(self, target, method="GET", **fields):
        wanted = self.of_host(0, method, target, **fields)
        self.assertEqual(self.of_host(1, method, target, **fields), wanted)
        for _ in range(2):
            got = self.ask(PUBLIC, target, method, **fields)
            self.assertEqual((got.status, {name: got.headers[name] for name in KEPT}, got.content), wanted, (method, target, fields))
        return wanted[0]

    def test_replies_are_those_of_the_host(self):
        """Also where they are read twice, so that the second might come from a cache."""
        tag = self.of_host(0, "GET", "/s/www/large.bin")[1]["ETag"]
        ranges = ("bytes=0-4", "bytes=5-", "bytes=-3", "bytes=65530-65545", "bytes=0-4,-5", "bytes=0-0,65535-65536,-1", "bytes=9999999-", "bytes=4-2", "x=1-2")
        for prefix in ("/s/www", "/a/www/first", f"/d/www/{self.number}"):
            for path in ("/", "/style.css", "/small.txt", "/empty.txt", "/large.bin", STRANGE, "/docs/"):
                self.assertEqual(self.assert_same(prefix + path), 200)
                self.assertEqual(self.assert_same(prefix + path, "HEAD"), 200)
            statuses = {self.assert_same(f"{prefix}/large.bin", Range=value) for value in ranges}
            self.assertEqual(statuses, {200, 206, 416})
            self.assertEqual(self.assert_same(f"{prefix}/large.bin", "HEAD", Range="bytes=0-4"), 200)
            self.assertEqual(self.assert_same(f"{prefix}/large.bin", Range="bytes=1-2", If_Range=tag), 206)
            self.assertEqual(self.assert_same(f"{prefix}/large.bin", Range="bytes=1-2", If_Range='"other"'), 200)
            self.assertEqual(self.assert_same(f"{prefix}/large.bin", Range="bytes=1-2", If_Range="W/" + tag), 200)
            self.assertEqual(self.assert_same(f"{prefix}/nothing"), 404)
            self.assertEqual(self.assert_same(f"{prefix}/a//b"), 400)
        self.assertEqual(self.assert_same("/s/other/"), 404)

    def test_nothing_is_changed_at_the_public_names(self):
        before = len(self.changes())
        read = ("/s/www/small.txt", "/a/www/first/small.txt", f"/d/www/{self.number}/small.txt")
        for name in (PUBLIC, OWN):
            for method in ("PUT", "POST", "DELETE", "PATCH", "OPTIONS", "TRACE", "put"):
                for target in (*read, "/", "/api/v1/sites/www/files/small.txt", f"/api/v1/deploys/{self.number}", "/api/v1/sites/www/undo"):
                    with self.subTest(f"{method} {name}{target}"):
                        status = self.stand.visitor(name).ask(method, target).status
                        # nginx itself refuses TRACE, and a method in small letters.
                        self.assertIn(status, (403,) if target in read and method.isupper() and method != "TRACE" else (400, 403, 404, 405))
        self.assertEqual(len(self.changes()), before)

    def changes(self):
        return json.loads(self.of_host(0, "GET", "/api/v1/sites/www/changes")[2])["changes"]

    def test_the_interface_is_not_read_at_the_public_names(self):
        targets = (
            "/api/v1/sites/www/changes", f"/api/v1/deploys/{self.number}", "/s/../api/v1/sites/www/changes", "/s/%2e%2e/api/v1/sites/www/changes",
            "/s/..%2fapi/v1/sites/www/changes", "//api/v1/sites/www/changes", "/api/v1/sites/www/changes?/s/", "/API/v1/sites/www/changes", "/s",
            "/api/v1/sites/www/changes#/s/", "/api/v1/../../s/x/../../api/v1/sites/www/changes", "/folder/s/www/docs", "/console/", "/",
        )
        for name in (PUBLIC, OWN):
            for target in targets if name == PUBLIC else targets[:-1]:
                with self.subTest(f"{name}{target}"):
                    reply = self.ask(name, target)
                    self.assertIn(reply.status, (400, 404), reply.content)
                    self.assertNotIn(b"entry", reply.content)

    def test_files_have_their_types_and_texts_are_compressed(self):
        self.stand.deploy({f"/types/a.{ending}": b"text " * 100 for ending in TYPES}, "types")
        for prefix, compressed in ((f"{PUBLIC}", "gzip"), (PUBLIC, None)):
            for ending, kind in TYPES.items():
                with self.subTest(ending, compressed=compressed):
                    reply = self.ask(prefix, f"/s/types/types/a.{ending}", **({"Accept_Encoding": "gzip"} if compressed else {}))
                    self.assertEqual((reply.status, reply.headers["Content-Type"]), (200, kind))
                    is_text = kind.startswith(("text/", "application/")) and kind not in ("application/pdf", "application/octet-stream")
                    self.assertEqual(reply.headers["Content-Encoding"], compressed if is_text else None)
                    content = gzip.decompress(reply.content) if compressed and is_text else reply.content
                    self.assertEqual(content, b"text " * 100)
                    # The parts of a file are never compressed.
                    reply = self.ask(prefix, f"/s/types/types/a.{ending}", Accept_Encoding="gzip", Range="bytes=0-3")
                    self.assertEqual((reply.status, reply.headers["Content-Type"], reply.content), (206, kind, b"text"))
        self.assertEqual(self.ask(OWN, "/module.mjs", Accept_Encoding="gzip").headers["Content-Encoding"], "gzip")
        self.assertEqual(self.ask(OWN, "/DATA.XML").headers["Content-Type"], "application/xml")

    def test_304_is_told_and_what_changes_is_seen_at_once(self):
        """In /s/ and /a/, of which nothing is kept."""
        for method in ("GET", "HEAD"):
            for target in ("/s/www/style.css", "/a/www/first/style.css", f"/d/www/{self.number}/style.css", "/s/www/module.mjs"):
                for coding in ("gzip", "identity"):
                    tag = self.ask(PUBLIC, target, method, Accept_Encoding=coding).headers["ETag"]
                    reply = self.ask(PUBLIC, target, method, If_None_Match=tag, Accept_Encoding=coding)
                    self.assertEqual((reply.status, reply.content), (304, b""), (method, target))
                    self.assertEqual(self.ask(PUBLIC, target, method, If_None_Match='"other"').status, 200)
        for number in range(20):
            content = b"number %d" % number
            change = self.stand.deploy({"/now.txt": content}, "now")["change"]
            reply = self.ask(PUBLIC, "/s/now/now.txt")
            self.assertEqual((reply.status, reply.content), (200, content))
            if number % 5 == 4:
                self.visitors[INTERFACE].ask("POST", "/api/v1/sites/now/undo", json.dumps({"change": change}), login=LOGIN)
                self.assertEqual(self.ask(PUBLIC, "/s/now/now.txt").content, b"number %d" % (number - 1))

    def test_the_cache_answers_and_is_a_second_old_at_most(self):
        self.stand.deploy({**FILES, "/page.txt": b"first" * 100}, "www")
        target, count = "/page.txt?x", len(self.stand.nginx.logged())
        first = self.ask(OWN, target)
        again = self.ask(OWN, target, If_None_Match=first.headers["ETag"])
        self.assertEqual((first.status, again.status, first.headers["Cache-Control"]), (200, 304, "no-cache"))
        self.assertEqual([line.split("cache=")[1].split()[0] for line in self.stand.nginx.logged()[count:]], ["MISS", "HIT"])
        self.stand.deploy({**FILES, "/page.txt": b"second" * 100}, "www")
        end = time.monotonic() + 2.5
        while (got := self.ask(OWN, target).content) != b"second" * 100 and time.monotonic() < end:
            self.assertEqual(got, b"first" * 100)
        self.assertEqual(got, b"second" * 100)
        # The files of a deploy are kept, with no word of the host.
        for _ in range(2):
            count = len(self.stand.nginx.logged())
            reply = self.ask(PUBLIC, f"/d/www/{self.number}/style.css?y")
            self.assertEqual((reply.status, reply.headers["Cache-Control"]), (200, "public, max-age=31536000, immutable"))
        self.assertIn("cache=HIT host=-", self.stand.nginx.logged()[count])

    def test_what_is_missing_has_the_page_of_the_site_and_folders_their_slash(self):
        for _ in range(2):
            for target in ("/nothing", "/nothing.png", "/docs/nothing/", "/nothing?x=1", "/folder/s/www/docs", "/a/b/c"):
                for method in ("GET", "HEAD"):
                    with self.subTest(f"{method} {target}"):
                        reply = self.ask(OWN, target, method)
                        self.assertEqual((reply.status, reply.headers["Content-Type"]), (404, "text/html; charset=utf-8"))
                        self.assertEqual(reply.content, FILES["/404.html"] if method == "GET" else b"")
            self.assertEqual(self.ask(OWN, "/nothing", Range="bytes=1-2").content, FILES["/404.html"])
        for target, place in (("/docs", "/docs/"), ("/docs?a=b&c", "/docs/?a=b&c"), ("/v1.2", "/v1.2/")):
            for method in ("GET", "HEAD"):
                reply = self.ask(OWN, target, method)
                self.assertEqual((reply.status, reply.headers["Location"]), (302, f"https://{OWN}:{self.stand.port}{place}"))
        self.assertEqual(self.ask(OWN, "/docs/").content, b"the docs")
        self.assertEqual(self.ask(OWN, STRANGE).content, b"strange")
        for target in ("/docs%0d%0aX-Evil:1", "//evil.example/docs", "/docs%00"):
            reply = self.ask(OWN, target)
            self.assertIn(reply.status, (400, 404), target)
            self.assertIsNone(reply.headers["X-Evil"])

    def test_other_names_are_refused_and_plain_requests_sent_to_https(self):
        with self.assertRaises(ssl.SSLError):
            self.stand.visitor("other.example.org").ask("GET", "/")
        plain = self.stand.visitor(PUBLIC)
        plain.connect = lambda: super(type(plain), plain).connect()
        plain.port = self.stand.plain_port
        reply = plain.ask("GET", "/s/www/?a")
        self.assertEqual((reply.status, reply.headers["Location"]), (301, f"https://{PUBLIC}/s/www/?a"))
        folder = self.stand.room / "acme/.well-known/acme-challenge"
        folder.mkdir(parents=True)
        (folder / "token").write_text("token.key")
        self.assertEqual(plain.ask("GET", "/.well-known/acme-challenge/token").content, b"token.key")


if __name__ == "__main__":
    unittest.main()
