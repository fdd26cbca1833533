"""The client `site` and hosts behind a proxy: a login, TLS with a certificate of the tests' own, a prefix, and another name for reading.

With nginx, if that is installed, the same goes through a real proxy; without it the test says what it left out.
"""

import base64
import getpass
import grp
import os
import shutil
import subprocess
import sys
import time

from lib.client import LARGEST_FILE
from lib.faulty_front import Front
from lib.repository import TOP
from lib.served import HOST, free_ports, publish
from lib.site_runs import SiteRuns

CERTIFICATE = TOP / "tests/lib/certificate.pem"
USER, PASSWORD = "ann", "pass:word ü"
BASIC = base64.b64encode(f"{USER}:{PASSWORD}".encode()).decode()
NGINX = shutil.which("nginx", path=f"{os.environ['PATH']}:/usr/sbin")


class Proxies(SiteRuns):
    def setUp(self):
        super().setUp()
        self.start_host()
        self.write({"/a b.txt": b"a", "/b": b"b"})

    def stand_before(self, scheme="http", **how):
        front = Front(self.port, **how)
        self.addCleanup(front.end)
        self.address = f"{scheme}://{HOST}:{front.port}{how.get('prefix', '')}"
        return front

    def assert_never_shown(self, *words, **how):
        """A run ends well, and the password is in nothing that it prints; returns its output."""
        status, out, errors = self.site(*words, **how)
        self.assertEqual(status, 0, errors)
        self.assertNotIn("pass", out + errors)
        return out


class Logins(Proxies):
    def setUp(self):
        super().setUp()
        self.stand_before(password=BASIC)

    def test_without_one_the_host_says_no(self):
        self.assert_fails(1, "asks for a login: --user NAME, or an entry in ~/.netrc", words=["push", self.place])
        self.assert_fails(1, "asks for a login", words=["push", self.place, "--user", f"{USER}:wrong"])
        self.assertEqual(self.changes(), [])

    def test_by_an_option(self):
        self.assert_never_shown("push", self.place, "--user", f"{USER}:{PASSWORD}")
        self.assert_serves({"/b": b"b"})

    def test_by_an_option_and_a_variable(self):
        self.assert_never_shown("push", self.place, "--user", USER, variables={"SITE_PASSWORD": PASSWORD})
        self.assert_fails(2, "--user ann has no password", words=["push", self.place, "--user", USER])

    def test_by_a_question_on_a_terminal(self):
        started, terminal = self.begin_on_terminal("push", self.place, "--user", USER, start_new_session=True)
        shown = self.shown_until(terminal, b"password of ann at http://")
        self.assertIn(b"password of ann", shown)
        os.write(terminal, PASSWORD.encode() + b"\n")
        self.assertEqual(started.wait(60), 0)
        self.assertNotIn(b"pass:", shown + self.shown_until(terminal, b"at all", 0.2))

    def test_by_a_netrc_file(self):
        netrc = self.room / ".netrc"
        netrc.write_text(f'machine other login x password y\nmachine {HOST} login {USER} password "{PASSWORD}"\n')
        netrc.chmod(0o600)
        self.assert_never_shown("push", self.place)
        self.assert_never_shown("status", "--user", USER)
        netrc.write_text(f'# mine\nmachine other login x\nmacdef init\ncd /\n\ndefault\n  login {USER}\n  password "pass:word \\ü"\n')
        self.assert_never_shown("status")
        netrc.write_text("machine\n")
        self.assert_fails(2, ".netrc can't be read", words=["status"])
        netrc.write_text(f'machine {HOST} login {USER} password "{PASSWORD}"\n')
        netrc.rename(self.room / "elsewhere")
        self.assert_never_shown("status", variables={"NETRC": str(self.room / "elsewhere")})

    def test_in_a_url_it_is_used_and_never_printed(self):
        self.stand_before(password=base64.b64encode(b"ann:p@ss:w/").decode())
        address = self.address.replace("http://", "http://ann:p%40ss%3Aw%2F@")
        for words in (["push", self.place], ["log"], ["status", self.place], ["alias"]):
            status, out, errors = self.site(*words, variables={"SITE_HOST": address})
            self.assertEqual(status, 0, errors)
            for part in ("p%40", "p@ss", "ann"):
                self.assertNotIn(part, out + errors)
        # It is in no record either.
        for file in (self.room / ".local").rglob("*.json"):
            self.assertNotIn("ann:", file.read_text())

    def test_is_not_sent_to_another_place_of_reading(self):
        publish(self.client(), {"/other": b"other"})
        reading = Front(self.port + 1)
        self.addCleanup(reading.end)
        self.assert_never_shown("push", self.place, "--user", f"{USER}:{PASSWORD}", "--read", f"http://{HOST}:{reading.port}")
        self.assertEqual({method for method, _ in reading.asked}, {"HEAD"})
        self.assertEqual([head for head in reading.heads if "authorization" in head.lower()], [])


class Places(Proxies):
    def test_tls_with_a_certificate_that_is_named(self):
        front = self.stand_before("https", certificate=CERTIFICATE)
        out = self.assert_done("push", self.place, "--ca", CERTIFICATE)
        self.assertIn(f"https://{HOST}:{front.port}/s/one/", out)
        self.write({"/large": os.urandom(LARGEST_FILE)})
        self.assert_done("push", self.place, "--ca", CERTIFICATE)
        self.assert_done("get", "/large", "-o", self.room / "large", "--ca", CERTIFICATE)
        self.assertEqual((self.room / "large").read_bytes(), (self.place / "large").read_bytes())

    def test_tls_whose_certificate_is_not_trusted(self):
        front = self.stand_before("https", certificate=CERTIFICATE)
        self.assert_fails(3, "isn't trusted", "--ca FILE", words=["push", self.place])
        self.assert_fails(2, "--ca /no/such/file: there is no such file", words=["push", self.place, "--ca", "/no/such/file"])
        # The name has to be that of the certificate.
        self.address = f"https://127.0.0.2:{front.port}"
        self.assert_fails(3, "127.0.0.2", words=["push", self.place, "--ca", CERTIFICATE, "--retry", "0"])
        self.assertEqual(self.changes(), [])

    def test_tls_where_there_is_none_and_none_where_there_is(self):
        self.address = f"https://{HOST}:{self.port}"
        self.assert_fails(3, words=["push", self.place, "--retry", "0"])
        front = self.stand_before("https", certificate=CERTIFICATE)
        self.address = f"http://{HOST}:{front.port}"
        self.assert_fails(3, words=["push", self.place, "--retry", "0"])

    def test_a_prefix(self):
        front = self.stand_before(prefix="/files/here")
        self.assertIn(f"http://{HOST}:{front.port}/files/here/s/one/", self.assert_done("push", self.place))
        self.assert_serves({"/a%20b.txt": b"a"})
        self.assertEqual(self.assert_done("get", "a b.txt"), "a")
        self.address = f"http://{HOST}:{front.port}"
        self.assert_fails(3, "look at --host and its prefix", words=["push", self.place])

    def test_another_place_of_reading(self):
        reading = Front(self.port + 1, prefix="/sites")
        self.addCleanup(reading.end)
        interface = self.stand_before()
        there = f"http://{HOST}:{reading.port}/sites"
        (self.place / ".site.json").write_text(f'{{"read": "{there}"}}')
        self.assertIn(f"{there}/s/one/", self.assert_done("push", self.place))
        self.assertEqual(interface.count("HEAD"), 0)
        self.assertEqual(self.assert_done("get", "/b", "--read", there), "b")
        self.assertEqual([target for _, target in interface.asked if target.startswith("/s/")], [])
        # An address that serves something else is noticed before anything is removed or sent.
        count = len(self.changes())
        self.assert_fails(3, words=["push", self.place, "--read", "http://127.0.0.1:9/", "--retry", "0"])
        self.assertEqual(len(self.changes()), count)

    def test_through_nginx_with_tls_a_login_and_a_prefix(self):
        if not NGINX:
            print("left out: there is no nginx", file=sys.stderr)
            return
        port = free_ports()
        folder = self.room / "nginx"
        folder.mkdir()
        (folder / "users").write_text(f"{USER}:{{PLAIN}}secret\n")
        user = f"user {getpass.getuser()} {grp.getgrgid(os.getgid()).gr_name};" if os.geteuid() == 0 else ""
        kept = "".join(f"{name}_temp_path {folder}/{name};" for name in ("client_body", "proxy", "fastcgi", "uwsgi", "scgi"))
        (folder / "conf").write_text(f"""daemon off; pid {folder}/pid; error_log stderr; {user} events {{}}
http {{ access_log off; gzip on; gzip_types *; {kept}
upstream host {{ server {HOST}:{self.port}; server {HOST}:{self.port + 1}; keepalive 8; }}
server {{ listen {HOST}:{port} ssl; ssl_certificate {CERTIFICATE}; ssl_certificate_key {CERTIFICATE}; client_max_body_size 16m;
auth_basic test; auth_basic_user_file {folder}/users;
location /files/ {{ proxy_pass http://host/; proxy_http_version 1.1; proxy_set_header Connection ""; }} }} }}""")
        nginx = subprocess.Popen([NGINX, "-p", folder, "-e", "stderr", "-c", folder / "conf"], stderr=subprocess.DEVNULL)
        self.addCleanup(nginx.wait, 60)
        self.addCleanup(nginx.terminate)
        self.address = f"https://{HOST}:{port}/files"
        time.sleep(0.5)
        files = {f"/page {number}.html": b"<p>%d</p>" % number * 100 for number in range(300)}
        self.write({**files, "/large": bytes(LARGEST_FILE)})
        # A target that nginx decodes and hands on as it likes still names the same file.
        self.write({"/50%25 + ü~.txt": b"strange"})
        told = self.told("push", self.place, "--ca", CERTIFICATE, "--user", f"{USER}:secret")
        self.assertEqual(told["new"], 304)
        self.assert_serves({path.replace(" ", "%20"): content for path, content in files.items()})
        self.assert_serves({"/50%2525%20+%20%C3%BC~.txt": b"strange"})
        told = self.told("push", self.place, "--ca", CERTIFICATE, "--user", f"{USER}:secret")
        self.assertEqual((told["unchanged"], told["deploy"]), (304, None))
        self.assert_fails(1, "asks for a login", words=["push", self.place, "--ca", CERTIFICATE])
        self.assert_done("get", "/large", "-o", self.room / "large", "--ca", CERTIFICATE, "--user", f"{USER}:secret")
        self.assertEqual((self.room / "large").read_bytes(), bytes(LARGEST_FILE))
