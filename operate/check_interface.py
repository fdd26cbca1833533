"""The interface through nginx: logins, pages of other origins, uploads up to the host's limits, and the console's site alone."""

import contextlib
import hashlib
import json
import pathlib
import subprocess
import tempfile
import unittest

from check_sites import LOGIN
from recorder import Recorder
from stand import INTERFACE, OWN, PUBLIC, SECONDS, Stand, replaced

CHANGES, DEPLOYS, UNDO = (f"/api/v1/sites/www/{name}" for name in ("changes", "deploys", "undo"))
LARGEST = 16_777_216
FORM = {"Content_Type": "text/plain"}


def digest_of(content):
    return hashlib.sha1(content).hexdigest()


class Interface(unittest.TestCase):
    @classmethod
    def setUpClass(cls):
        cls.stack = contextlib.ExitStack()
        cls.addClassCleanup(cls.stack.close)
        cls.recorder = None

        def record(host):
            cls.recorder = Recorder(cls.stack, (host.port, host.port + 1))
            return cls.recorder.ports

        cls.stand = Stand(cls.stack, between=record)
        cls.stand.deploy({"/index.html": b"the console"}, "console")
        cls.stand.deploy({"/index.html": b"home"}, "www")

    def ask(self, method, target, body=None, login=LOGIN, name=INTERFACE, **fields):
        return self.stand.visitor(name).ask(method, target, body, login=login, **fields)

    def count(self):
        return len(json.loads(self.ask("GET", CHANGES).content)["changes"])

    def open_deploy(self, files, site="www"):
        listed = {path: digest_of(content) for path, content in files.items()}
        reply = self.ask("POST", f"/api/v1/sites/{site}/deploys", json.dumps({"files": listed, "patch": True}))
        self.assertEqual(reply.status, 200, reply.content)
        return json.loads(reply.content)["id"]

    def test_the_client_deploys_with_a_login(self):
        told = self.stand.deploy({"/index.html": b"home again", "/new.txt": b"new"})
        self.assertEqual((told["new"], told["changed"]), (1, 1))
        self.assertEqual(self.ask("GET", "/s/www/new.txt", name=PUBLIC).content, b"new")
        self.stand.site("undo", told["change"])
        self.assertEqual(self.ask("GET", "/s/www/new.txt", name=PUBLIC).status, 404)
        self.stand.site("status")
        self.stand.site("get", "/index.html", json_told=False)

    def test_without_a_login_nothing_is_done(self):
        before, asked = self.count(), len(self.recorder.asked())
        for login in (None, "", "YW5uOndyb25n", "x", LOGIN[:-4]):
            for method, target in (("GET", CHANGES), ("POST", UNDO), ("PUT", "/api/v1/deploys/1/files/index.html"), ("GET", "/console/"), ("DELETE", CHANGES)):
                reply = self.ask(method, target, "{}" if method in ("POST", "PUT") else None, login=login)
                self.assertEqual((reply.status, reply.headers["WWW-Authenticate"]), (401, 'Basic realm="filehost"'), (login, method, target))
        self.stand.site("push", self.stand.room / "folder-www", login=None, status=1)
        self.assertEqual(len(self.recorder.asked()), asked)
        self.assertEqual(self.count(), before)

    def test_pages_of_other_origins_change_nothing(self):
        """Whatever a browser lets them send with a login: the forms and simple requests of RFC 6454 and of the Fetch standard."""
        before, asked, own = self.count(), len(self.recorder.asked()), self.stand.address(INTERFACE)
        foreign = (
            {"Origin": "http://evil.example"}, {"Origin": "null"}, {"Origin": self.stand.address(PUBLIC)}, {"Origin": self.stand.address(OWN)},
            {"Origin": f"https://{INTERFACE}"}, {"Origin": own.replace("https", "http")}, {"Origin": own + ".evil.example"}, {"Origin": own + "/"},
            {"Sec_Fetch_Site": "cross-site"}, {"Sec_Fetch_Site": "same-site"}, {"Sec_Fetch_Site": "none, cross-site"},
            {"Origin": own, "Sec_Fetch_Site": "same-site"}, {"Origin": "http://evil.example", "Sec_Fetch_Site": "none"},
        )
        for fields in foreign:
            for method, target in (("POST", UNDO), ("POST", DEPLOYS), ("PUT", "/api/v1/sites/www/aliases/a"), ("DELETE", "/api/v1/deploys/1"), ("OPTIONS", UNDO)):
                reply = self.ask(method, target, '{"change":2}', **FORM, **fields)
                self.assertEqual(reply.status, 403, (method, target, fields))
        self.assertEqual(len(self.recorder.asked()), asked)
        self.assertEqual(self.count(), before)
        for fields in ({}, {"Origin": own}, {"Sec_Fetch_Site": "same-origin", "Origin": own}, {"Sec_Fetch_Site": "none"}):
            self.assertEqual(self.ask("POST", UNDO, '{"change":0}', **FORM, **fields).status, 404)
        # What only reads may come from anywhere; no page of another origin can see the reply, since no field allows it.
        reply = self.ask("GET", CHANGES, Origin="http://evil.example", Sec_Fetch_Site="cross-site")
        self.assertEqual((reply.status, reply.headers["Access-Control-Allow-Origin"]), (200, None))

    def test_only_the_console_is_read_here(self):
        reply = self.ask("GET", "/console/")
        self.assertEqual((reply.status, reply.content), (200, b"the console"))
        self.assertIn("script-src 'self'", reply.headers["Content-Security-Policy"])
        self.assertNotIn("unsafe", reply.headers["Content-Security-Policy"])
        self.assertEqual(self.ask("HEAD", "/console/index.html").status, 200)
        for target in ("/", "/console"):
            reply = self.ask("GET", target)
            self.assertEqual((reply.status, reply.headers["Location"]), (302, f"{self.stand.address(INTERFACE)}/console/"))
        for target in ("/s/www/", "/s/console/", "/a/www/x/", "/d/www/1/", "/console/../s/www/", "/console/..%2fwww/index.html", "/index.html", "/folder/s/www/"):
            self.assertEqual(self.ask("GET", target).status, 404, target)
        for method in ("POST", "PUT", "DELETE"):
            self.assertEqual(self.ask(method, "/console/index.html").status, 403)
        self.assertEqual(self.ask("GET", "/console/nothing").status, 404)

    def test_uploads_go_up_to_the_limits_of_the_host(self):
        content = b"0123456789abcdef" * (LARGEST // 16)
        number = self.open_deploy({"/large": content})
        reply = self.ask("PUT", f"/api/v1/deploys/{number}/files/large", content)
        self.assertEqual(reply.status, 200, reply.content)
        reply = self.ask("GET", "/s/www/large", name=PUBLIC)
        self.assertEqual((reply.status, digest_of(reply.content)), (200, digest_of(content)))
        asked = len(self.recorder.asked())
        for target, length in ((f"/api/v1/deploys/{number}/files/large", LARGEST + 1), (DEPLOYS, 4_194_305)):
            visitor = self.stand.visitor(INTERFACE)
            visitor.putrequest("PUT" if "files" in target else "POST", target, skip_host=True)
            for name, value in (("Host", INTERFACE), ("Authorization", "Basic " + LOGIN), ("Content-Length", str(length))):
                visitor.putheader(name, value)
            visitor.endheaders()
            self.assertEqual(visitor.getresponse().status, 413)
        self.assertEqual(len(self.recorder.asked()), asked)

    def test_a_body_in_chunks_and_one_that_waits_reach_the_host(self):
        for fields in ({"Transfer_Encoding": "chunked"}, {"Expect": "100-continue"}):
            content = repr(fields).encode() * 1_000
            number = self.open_deploy({"/chunks": content})
            target = f"/api/v1/deploys/{number}/files/chunks"
            body = iter([content[:7], content[7:]]) if "Transfer_Encoding" in fields else content
            visitor = self.stand.visitor(INTERFACE)
            headers = {"Host": INTERFACE, "Authorization": "Basic " + LOGIN, **{name.replace("_", "-"): value for name, value in fields.items()}}
            visitor.request("PUT", target, body, headers, encode_chunked=True)
            self.assertEqual(visitor.getresponse().status, 200)
            self.assertEqual(self.ask("GET", "/s/www/chunks", name=PUBLIC).content, content)

    def test_a_change_is_sent_once(self):
        """If the host ends the connection in place of a reply, nginx doesn't ask the other node: the change may have been made."""
        for method, target in (("PUT", "/api/v1/sites/www/aliases/once"), ("DELETE", "/api/v1/sites/www/files/once"), ("POST", UNDO)):
            self.recorder.cut_next(target)
            self.assertEqual(self.ask(method, target, "{}").status, 502)
            self.assertEqual([line for line in self.recorder.asked() if line == f"{method} {target}"], [f"{method} {target}"])
        # A read goes to the other node.
        self.recorder.cut_next("/s/www/twice")
        self.assertEqual(self.ask("GET", "/s/www/twice", name=PUBLIC).status, 404)
        self.assertEqual(self.recorder.asked().count("GET /s/www/twice"), 2)

    def test_the_host_sees_no_login(self):
        self.ask("GET", CHANGES)
        heads = b"".join(self.recorder.heads)
        self.assertIn(b"GET " + CHANGES.encode(), heads)
        self.assertNotIn(b"authorization", heads.lower())


class Certificates(unittest.TestCase):
    """The second form of a login: a certificate of the client."""

    def test_only_who_has_one_comes_in(self):
        with contextlib.ExitStack() as stack:
            folder = pathlib.Path(stack.enter_context(tempfile.TemporaryDirectory()))

            def make(name, *more):
                command = ["openssl", "req", "-newkey", "rsa:2048", "-nodes", "-days", "30", "-subj", f"/CN={name}", "-x509", *more]
                subprocess.run([*command, "-keyout", folder / f"{name}.key", "-out", folder / f"{name}.pem"], check=True, capture_output=True, timeout=SECONDS)
                return folder / f"{name}.pem", folder / f"{name}.key"

            authority, other = make("authority"), make("stranger")
            ann = make("ann", "-CA", authority[0], "-CAkey", authority[1])
            lines = ("    auth_basic filehost;\n", ""), ("# ssl_client_certificate", "ssl_client_certificate"), ("# ssl_verify_client", "ssl_verify_client")
            stand = Stand(stack, lambda text, stand: replaced(text, *lines, (f"{stand.etc}/clients.pem", str(authority[0]))))
            self.assertEqual(stand.visitor(INTERFACE, certificate=ann).ask("GET", CHANGES).status, 200)
            self.assertEqual(stand.visitor(INTERFACE).ask("GET", CHANGES, login=LOGIN).status, 400)
            self.assertEqual(stand.visitor(INTERFACE, certificate=other).ask("GET", CHANGES, login=LOGIN).status, 400)
            foreign = stand.visitor(INTERFACE, certificate=ann).ask("POST", UNDO, '{"change":2}', Origin="http://evil.example")
            self.assertEqual(foreign.status, 403)
            self.assertEqual(stand.visitor(PUBLIC).ask("GET", "/s/www/").status, 404)


if __name__ == "__main__":
    unittest.main()
