"""The recipes of this folder on loopback: filehost as filehost.service starts it, and nginx with nginx.conf, with ports, a certificate and a login of their own."""

import contextlib
import getpass
import grp
import http.client
import json
import os
import pathlib
import re
import shutil
import signal
import socket
import ssl
import subprocess
import sys
import tempfile
import time

TOP = pathlib.Path(__file__).resolve().parent.parent
sys.path[:0] = [str(TOP / "tests"), str(TOP / "scripts")]

from chosen_program import PROGRAM  # noqa: E402
from lib.sandbox import LAUNCHER, Sandbox  # noqa: E402
from lib.served import HOST, free_ports  # noqa: E402

# A user's PATH may lack the folders of servers.
PATH = os.pathsep.join((os.environ.get("PATH", os.defpath), "/usr/sbin", "/sbin"))
PUBLIC, OWN, INTERFACE = "sites.example.org", "www.example.org", "deploy.example.org"
USER, PASSWORD = "ann", "pass:word"
SECONDS = 60
# The client, for which the names of the recipe are on this machine.
SITE = """
import runpy, socket, sys
found = socket.getaddrinfo
def find(name, *more, **how):
    text = name.decode() if isinstance(name, bytes) else name
    return found("127.0.0.1" if text.endswith(".example.org") else name, *more, **how)
socket.getaddrinfo = find
sys.argv = sys.argv[1:]
runpy.run_path(sys.argv[0], run_name="__main__")
"""


def find(command):
    return shutil.which(command, path=PATH)


def missing(*commands):
    """Those of these commands that aren't installed."""
    return [command for command in commands if not find(command)]


def program():
    """The program that is tested: as in tests/, or else the one in dist/."""
    return PROGRAM if PROGRAM.is_file() else TOP / "dist/filehost"


def replaced(text, *pairs):
    """A recipe in which each of these texts is replaced. Each has to be there, or the tests would be about something else."""
    for old, new in pairs:
        assert old in text, f"{old} is not in the recipe any more"
        text = text.replace(old, new)
    return text


def started_words(launcher, port, store):
    """The words with which the unit starts the program, over another port and store."""
    words = re.search(r"(?m)^ExecStart=(.*)$", (TOP / "operate/filehost.service").read_text())[1]
    return replaced(words, ("/opt/filehost/filehost", str(launcher)), ("127.0.0.1:8080", f"{HOST}:{port}"), ("/var/lib/filehost", str(store))).split()


class Host:
    """A program over a store, as the unit starts it."""

    def __init__(self, stack, room, store=None):
        self.store = store or room / "store"
        self.store.mkdir(exist_ok=True)
        self.port = free_ports()
        self.log = (room / "filehost.log").open("ab")
        stack.callback(self.log.close)
        sandbox = Sandbox(*LAUNCHER)
        stack.callback(sandbox.close)
        sandbox.add_crates("filehost: low\nlow:\n")
        sandbox.let_time_pass()
        sandbox.put_program(program())
        self.launcher = sandbox.top / "filehost"
        self.started = None
        stack.callback(self.kill)

    def start(self):
        words = started_words(self.launcher, self.port, self.store)
        self.started = subprocess.Popen(words, stdin=subprocess.DEVNULL, stdout=subprocess.PIPE, stderr=self.log)
        for node in range(2):
            line = self.started.stdout.readline().decode()
            assert line == f"node {node} listening on {HOST}:{self.port + node}\n", line or "the host doesn't start"
        return self

    def stop(self):
        """Ends it as systemd does, and returns its status."""
        self.started.send_signal(signal.SIGTERM)
        return self.wait()

    def kill(self):
        if self.started and self.started.poll() is None:
            self.started.kill()
            self.wait()

    def wait(self):
        status = self.started.wait(SECONDS)
        self.started.stdout.close()
        return status


def main_configuration(room, included):
    """Debian's own nginx.conf, which reads this file in place of those in conf.d, and keeps its files in the room."""
    user = f"user {getpass.getuser()} {grp.getgrgid(os.getgid()).gr_name};" if os.geteuid() == 0 else ""
    text = pathlib.Path("/etc/nginx/nginx.conf").read_text()
    text = re.sub(r"(?m)^user .*$", user, text)
    text = re.sub(r"(?m)^pid .*$", f"pid {room}/nginx.pid;\ndaemon off;", text)
    text = re.sub(r"(?m)^worker_processes .*$", "worker_processes 2;", text)
    text = re.sub(r"(?m)^\s*include /etc/nginx/(modules-enabled|sites-enabled)/.*$", "", text)
    text = text.replace("/var/log/nginx/", f"{room}/")
    kept = "".join(f"{name}_temp_path {room}/{name};\n" for name in ("client_body", "proxy", "fastcgi", "uwsgi", "scgi"))
    return replaced(text, ("include /etc/nginx/conf.d/*.conf;", f"{kept}include {included};"))


class Nginx:
    """nginx with a configuration, in a room of its own."""

    def __init__(self, stack, room, text):
        room.mkdir(exist_ok=True)
        self.room, self.log = room, room / "filehost.log"
        (room / "filehost.conf").write_text(text)
        (room / "nginx.conf").write_text(main_configuration(room, room / "filehost.conf"))
        self.command = [find("nginx"), "-p", str(room), "-e", str(room / "error.log"), "-c", str(room / "nginx.conf")]
        ran = subprocess.run([*self.command, "-t"], capture_output=True, text=True, timeout=SECONDS)
        assert ran.returncode == 0, ran.stderr
        self.warnings = [line for line in ran.stderr.splitlines() if "[warn]" in line]
        self.started = subprocess.Popen(self.command, stdin=subprocess.DEVNULL, stderr=subprocess.DEVNULL)
        stack.callback(self.started.wait, SECONDS)
        stack.callback(self.started.terminate)

    def wait_for(self, port):
        """Waits until it listens. It tries ports that are taken for two seconds, with the others open."""
        for _ in range(200):
            time.sleep(0.05)
            with contextlib.suppress(OSError), socket.create_connection((HOST, port), timeout=SECONDS):
                said = (self.room / "error.log").read_text()
                assert self.started.poll() is None and "[emerg]" not in said, said
                return self
        raise AssertionError((self.room / "error.log").read_text())

    def logged(self):
        """The lines of its log, once they are all written."""
        time.sleep(0.2)
        return self.log.read_text().splitlines() if self.log.exists() else []


def make_certificate(folder):
    """A certificate for the names of the recipe, as docs/OPERATING.md has it made until there is another."""
    names = ",".join(f"DNS:{name}" for name in (PUBLIC, OWN, INTERFACE))
    command = ["openssl", "req", "-x509", "-newkey", "rsa:2048", "-nodes", "-days", "30", "-subj", "/CN=filehost", "-addext", f"subjectAltName={names}"]
    subprocess.run([*command, "-keyout", folder / "key.pem", "-out", folder / "certificate.pem"], check=True, capture_output=True, timeout=SECONDS)


class Visitor(http.client.HTTPConnection):
    """A connection with TLS to one of the names, which are all on this machine."""

    def __init__(self, stand, name, certificate=None):
        super().__init__(HOST, stand.port, timeout=SECONDS)
        self.name, self.stand = name, stand
        self.context = ssl.create_default_context(cafile=stand.etc / "certificate.pem")
        if certificate:
            self.context.load_cert_chain(*certificate)

    def connect(self):
        super().connect()
        self.sock = self.context.wrap_socket(self.sock, server_hostname=self.name)

    def ask(self, method, target, body=None, login=None, **fields):
        """The reply, with its body in `content`."""
        fields = {name.replace("_", "-"): value for name, value in fields.items()}
        if login:
            fields["Authorization"] = "Basic " + login
        self.request(method, target, body, {"Host": f"{self.name}:{self.stand.port}", **fields})
        reply = self.getresponse()
        reply.content = reply.read()
        return reply


class Stand:
    """nginx before a host with two nodes, on loopback. `edited` changes the text of nginx.conf before it is used; it may listen on `spare_port`."""

    def __init__(self, stack, edited=lambda text, stand: text, between=None):
        self.stack = stack
        self.room = pathlib.Path(stack.enter_context(tempfile.TemporaryDirectory(prefix="filehost-operate-"))).resolve()
        self.etc = self.room / "etc"
        self.etc.mkdir()
        make_certificate(self.etc)
        subprocess.run(["htpasswd", "-B", "-b", "-c", self.etc / "users", USER, PASSWORD], check=True, capture_output=True, timeout=SECONDS)
        self.host = Host(stack, self.room).start()
        first = free_ports()
        self.port, self.plain_port, self.types_port, self.spare_port = range(first, first + 4)
        # Where nginx finds the nodes: there, or something in between.
        nodes = between(self.host) if between else (self.host.port, self.host.port + 1)
        self.text = self.configuration(nodes)
        self.nginx = Nginx(stack, self.room / "nginx", edited(self.text, self)).wait_for(self.port)

    def configuration(self, nodes):
        text = re.sub(r"(?m)^ *listen \[::\].*\n", "", (TOP / "operate/nginx.conf").read_text())
        return replaced(
            text, ("listen 443 ssl", f"listen {HOST}:{self.port} ssl"), ("listen 80 ", f"listen {HOST}:{self.plain_port} "),
            ("127.0.0.1:8070", f"{HOST}:{self.types_port}"), ("127.0.0.1:8080", f"{HOST}:{nodes[0]}"), ("127.0.0.1:8081", f"{HOST}:{nodes[1]}"),
            (f"https://{INTERFACE}", f"https://{INTERFACE}:{self.port}"), ("/etc/filehost", str(self.etc)), ("/var/log/nginx/", f"{self.room}/nginx/"),
            ("/var/cache/filehost-nginx", f"{self.room}/nginx/cache"), ("/var/www/acme", f"{self.room}/acme"),
        )

    def visitor(self, name, **how):
        visitor = Visitor(self, name, **how)
        self.stack.callback(visitor.close)
        return visitor

    def direct(self, node=0):
        """A connection to a node itself."""
        client = http.client.HTTPConnection(HOST, self.host.port + node, timeout=SECONDS)
        self.stack.callback(client.close)
        return client

    def address(self, name):
        return f"https://{name}:{self.port}"

    def site(self, *words, login=f"{USER}:{PASSWORD}", status=0, site="www", json_told=True):
        """A run of the client through nginx with this end; what it tells."""
        words = [*map(str, words), "--host", self.address(INTERFACE), "--site", site, "--read", self.address(PUBLIC), "--ca", str(self.etc / "certificate.pem")]
        words += ["--user", login] if login else []
        environment = {name: value for name, value in os.environ.items() if not name.startswith(("SITE_", "XDG_", "NETRC"))}
        command = [sys.executable, "-S", "-c", SITE, str(TOP / "site"), *words, *["--json"] * json_told]
        ran = subprocess.run(command, stdin=subprocess.DEVNULL, capture_output=True, env={**environment, "HOME": str(self.room)}, timeout=180, cwd=self.room)
        assert ran.returncode == status, (ran.returncode, ran.stderr.decode(), ran.stdout.decode())
        return json.loads(ran.stdout) if json_told else ran.stdout.decode()

    def deploy(self, files, site="www", command="push", *more):
        """Deploys these files through nginx by the client."""
        folder = self.room / f"folder-{site}"
        shutil.rmtree(folder, ignore_errors=True)
        for path, content in files.items():
            file = folder / path.lstrip("/")
            file.parent.mkdir(parents=True, exist_ok=True)
            file.write_bytes(content)
        return self.site(command, folder, *more, site=site)
