"""The servers of bench/compare, each on another port of 127.0.0.1: nginx and caddy over a folder, and filehost over a store; and what they share with those
of bench/serve."""

import concurrent.futures
import contextlib
import getpass
import grp
import http.client
import json
import os
import pathlib
import re
import shutil
import signal
import socket
import socketserver
import subprocess
import sys
import threading
import time

TOP = pathlib.Path(__file__).resolve().parent.parent
sys.path[:0] = [str(TOP / "tests"), str(TOP / "scripts")]

from lib.client import HEAP, digest_of  # noqa: E402
from lib.served import free_ports  # noqa: E402

HOST = "127.0.0.1"
PATIENCE = 20
SITE = "one"
# A user's PATH may lack the folders of servers.
PATH = os.pathsep.join((os.environ.get("PATH", os.defpath), "/usr/sbin", "/sbin"))


class Failure(Exception):
    """What ends a comparison, in one line."""


class Refusal(Failure):
    """What a deploy is refused by, which may be what is to be shown."""


def find(command):
    return shutil.which(command, path=PATH)


def version_of(command, *words):
    """The version that a command prints of itself."""
    ran = subprocess.run([find(command), *words], capture_output=True, text=True, timeout=PATIENCE)
    return re.search(r"\d+(\.\d+)+", ran.stdout + ran.stderr)[0]


def free_port():
    with socket.create_server((HOST, 0)) as listener:
        return listener.getsockname()[1]


def stop(process):
    """Ends a process that leads a group, and all of the group."""
    for name, seconds in ((signal.SIGTERM, 5), (signal.SIGKILL, PATIENCE)):
        with contextlib.suppress(ProcessLookupError):
            os.killpg(process.pid, name)
        with contextlib.suppress(subprocess.TimeoutExpired):
            process.wait(seconds)


def read_head(stream):
    """The head of the next message, or nothing if the stream ends before."""
    head = b""
    while not head.endswith(b"\r\n\r\n"):
        line = stream.readline()
        if not line:
            return b""
        head += line
    return head


def length_of(head):
    """The length of the body that a head announces."""
    found = re.search(rb"(?i)\r\ncontent-length:[ \t]*(\d+)", head)
    return int(found[1]) if found else 0


def closes(head):
    return re.search(rb"(?i)\r\nconnection:[ \t]*close", head) is not None


class Reader:
    """A client with one connection, which is made again if the server has ended it."""

    def __init__(self, stack, port):
        self.connection = http.client.HTTPConnection(HOST, port, timeout=PATIENCE)
        stack.callback(self.connection.close)

    def ask(self, method, target, fields=(), body=None):
        """The status of the reply, its fields and its body."""
        self.connection.putrequest(method, target, skip_accept_encoding=True)
        for name, value in fields:
            self.connection.putheader(name, value)
        if body is not None:
            self.connection.putheader("Content-Length", str(len(body)))
        self.connection.endheaders(body)
        reply = self.connection.getresponse()
        return reply.status, reply.headers, reply.read()


class Server:
    """A server that answers, and has a column in the tables."""

    # What it has in its environment, beside the folders.
    variables = {}

    def __init__(self, stack, title, port):
        self.stack, self.title, self.port = stack, title, port
        self.reader = Reader(stack, port)

    def get(self, path, *fields, method="GET"):
        return self.reader.ask(method, self.target(path), fields)

    def start(self):
        """Starts the server's command, with a log in its folder, and waits until it answers. That must be the process that was started, which is then
        alive."""
        log = self.folder / "log"
        environment = os.environ | {"HOME": str(self.folder), "XDG_DATA_HOME": str(self.folder), "XDG_CONFIG_HOME": str(self.folder)} | self.variables
        with log.open("wb") as file:
            # A process group for the server alone: it has all that the server starts, and no key of the terminal reaches it.
            self.process = subprocess.Popen(self.command(), stdin=subprocess.DEVNULL, stdout=file, stderr=file, env=environment, start_new_session=True)
        self.stack.callback(stop, self.process)
        end = time.monotonic() + PATIENCE
        while time.monotonic() < end and self.process.poll() is None:
            with contextlib.suppress(OSError, http.client.HTTPException), contextlib.ExitStack() as stack:
                Reader(stack, self.port).ask("GET", "/")
                return
            time.sleep(0.05)
        said = log.read_text(errors="replace").strip().splitlines()
        raise Failure(f"{self.title} doesn't answer: {said[-1] if said else 'it said nothing'}")


class FolderServer(Server):
    """One that serves what is in a folder."""

    def __init__(self, stack, title, folder):
        super().__init__(stack, title, free_port())
        self.folder, self.root = folder, folder / "root"
        self.root.mkdir(parents=True)
        self.start()

    def target(self, path):
        return path

    def put(self, path, content, modified=None):
        """Puts a file in its place by a renaming, as who deploys with care does; it may be told when it was modified."""
        temporary = self.folder / "temporary"
        temporary.write_bytes(content)
        if modified is not None:
            os.utime(temporary, (modified, modified))
        os.replace(temporary, self.root / path[1:])

    def put_all(self, files):
        for path, content in files.items():
            self.put(path, content)


class Nginx(FolderServer):
    # How many processes serve, how many connections each has room for, which is the default, and more of its configuration: for all, and for the site.
    workers, connections, more, more_of_site = "auto", 512, "", ""

    def command(self):
        user = f"user {getpass.getuser()} {grp.getgrgid(os.getgid()).gr_name};" if os.geteuid() == 0 else ""
        kept = "".join(f'{name}_temp_path "{self.folder}/{name}";\n' for name in ("client_body", "proxy", "fastcgi", "uwsgi", "scgi"))
        configuration = self.folder / "nginx.conf"
        configuration.write_text(f"""daemon off; worker_processes {self.workers}; pid "{self.folder}/pid"; error_log stderr; {user}
events {{ worker_connections {self.connections}; }}
http {{
access_log off; sendfile on; tcp_nopush on; {self.more}
{kept}server {{ listen {HOST}:{self.port}; root "{self.root}"; {self.more_of_site} }}
}}
""")
        return [find("nginx"), "-p", self.folder, "-e", "stderr", "-c", configuration]


class Caddy(FolderServer):
    def command(self):
        routes = [{"handle": [{"handler": "file_server", "root": str(self.root)}]}]
        server = {"listen": [f"{HOST}:{self.port}"], "automatic_https": {"disable": True}, "routes": routes}
        configuration = self.folder / "caddy.json"
        configuration.write_text(json.dumps({"admin": {"disabled": True, "config": {"persist": False}}, "apps": {"http": {"servers": {"one": server}}}}))
        return [find("caddy"), "run", "--config", configuration]


class Host(Server):
    """The program, and a site that it serves."""

    def target(self, path):
        return f"/s/{SITE}{path}"

    def tell(self, target, asked):
        """The status of a request that changes something, and what its reply says."""
        status, _, body = self.reader.ask("POST", f"/api/v1/{target}", [], json.dumps(asked).encode())
        return status, json.loads(body)

    def deploy(self, files, is_patch=False):
        """Deploys files, sends those that the host lacks, and returns the deploy's number and that of the change that published it."""
        number, published, paths = self.open(files, is_patch)
        for path in paths:
            published = self.upload(self.reader, number, path, files[path])
        return number, published

    def open(self, files, is_patch=False):
        """Opens a deploy of files. Returns its number, that of the change that published it, if it was, and the paths of the files that the host lacks."""
        listed = {path: digest_of(content) for path, content in files.items()}
        paths = {digest: path for path, digest in listed.items()}
        status, told = self.tell(f"sites/{SITE}/deploys", {"files": listed, "patch": is_patch})
        if status != 200:
            raise Refusal(f"filehost refused a deploy: {status}, {told.get('error')}")
        return int(told["id"]), told["published"], [paths[digest] for digest in told["required"]]

    def upload(self, reader, number, path, content):
        """Sends a file of a deploy. Returns the number of the change that published it, if that was the last one."""
        status, _, body = reader.ask("PUT", f"/api/v1/deploys/{number}/files{path}", [], content)
        told = json.loads(body)
        if status != 200:
            raise Refusal(f"filehost refused a file: {status}, {told.get('error')}")
        return told["published"]

    def put(self, path, content, modified=None):
        """Deploys one file, and leaves all others as they are. A deploy has no time of a file."""
        self.put_all({path: content})

    def put_all(self, files):
        self.deploy(files, is_patch=True)


class Front:
    """Lets many connections reach one program, which by itself serves one. It hands on each request unchanged, one after another, and counts the
    bytes of requests and replies. If a reply ends the program's connection, as the hundredth does, the next request goes to a new program over the
    same store."""

    def __init__(self, program, store):
        self.words = [program, "solo", "--store", store]
        self.lock = threading.Lock()
        self.program = None
        self.taken = self.given = self.programs = 0

    def answer(self, head, body):
        with self.lock:
            if self.program is None:
                self.program = subprocess.Popen(self.words, stdin=subprocess.PIPE, stdout=subprocess.PIPE, start_new_session=True)
                self.programs += 1
            # The program may refuse a body by its length, and end before it has read that.
            with contextlib.suppress(BrokenPipeError):
                self.program.stdin.write(head + body)
                self.program.stdin.flush()
            reply = read_head(self.program.stdout)
            if not reply:
                raise Failure(f"filehost ended with status {self.program.wait()}")
            if closes(reply):
                self.leave()
                content = self.rest
            elif head.startswith(b"HEAD "):
                content = b""
            else:
                content = self.program.stdout.read(length_of(reply))
            self.taken += len(head) + len(body)
            self.given += len(reply) + len(content)
            return reply + content

    def leave(self):
        """Ends the program's connection, which lets another one open the store."""
        if self.program:
            with contextlib.suppress(BrokenPipeError):
                self.program.stdin.close()
            self.rest = self.program.stdout.read()
            self.program.stdout.close()
            with contextlib.suppress(subprocess.TimeoutExpired):
                self.program.wait(PATIENCE)
            stop(self.program)
            self.program = None

    def rest_of_programs(self):
        with self.lock:
            self.leave()


class FrontServer(socketserver.ThreadingTCPServer):
    daemon_threads = True

    def handle_error(self, request, client_address):
        """A client that was cut is no fault; any other ends the client's connection, and thereby the comparison."""
        fault = sys.exc_info()[1]
        if not isinstance(fault, ConnectionError):
            print(f"bench/compare: {fault or type(fault).__name__}", file=sys.stderr)


class Filehost(Host):
    """The program over a store, reached through a front."""

    def __init__(self, stack, program, folder):
        store = folder / "store"
        store.mkdir(parents=True)
        self.front = front = Front(program, store)

        class Handler(socketserver.StreamRequestHandler):
            disable_nagle_algorithm = True

            def handle(self):
                while head := read_head(self.rfile):
                    reply = front.answer(head, self.rfile.read(length_of(head)))
                    self.connection.sendall(reply)
                    if closes(reply):
                        return

        server = FrontServer((HOST, 0), Handler)
        stack.callback(front.rest_of_programs)
        stack.callback(server.server_close)
        stack.callback(server.shutdown)
        threading.Thread(target=server.serve_forever, kwargs={"poll_interval": 0.05}, daemon=True).start()
        super().__init__(stack, "filehost", server.server_address[1])


class StoredHost(Host):
    """The program, which serves over a store."""

    variables = HEAP

    def __init__(self, stack, program, folder):
        super().__init__(stack, "filehost serve", free_ports())
        self.folder, self.program, self.store = folder, program, folder / "store"
        self.store.mkdir(parents=True)
        self.start()

    def command(self):
        return [self.program, "serve", "--listen", f"{HOST}:{self.port}", "--store", self.store]

    def deploy_at_once(self, files, clients):
        """Deploys files as `deploy` does, and sends those that the host lacks by so many clients at once."""
        number, published, paths = self.open(files)

        def send(first):
            with contextlib.ExitStack() as stack:
                reader = Reader(stack, self.port)
                return [self.upload(reader, number, path, files[path]) for path in paths[first::clients]]

        with concurrent.futures.ThreadPoolExecutor(clients) as pool:
            sent = sum(pool.map(send, range(clients)), [])
        return number, max(filter(None, sent), default=published)


class Kept(Server):
    """The same program, read under the number of a deploy that was published whole."""

    def __init__(self, stack, filehost):
        super().__init__(stack, "filehost, a kept deploy", filehost.port)
        self.filehost = filehost

    def target(self, path):
        return f"/d/{SITE}/{self.number}{path}"

    def put(self, path, content, modified=None):
        """The first such file is read; each later one is another deploy."""
        number, _ = self.filehost.deploy({path: content})
        if path != getattr(self, "path", None):
            self.path, self.number = path, number
