"""A front before a program that serves, which does to chosen requests what bad networks, proxies and stops do."""

import contextlib
import socket
import socketserver
import ssl
import threading

from lib.served import HOST

# What may be done to a request. PASS hands it on.
PASS, LOSE_REQUEST, LOSE_REPLY, HANG_UP = "pass", "lose request", "lose reply", "hang up"


def answer(status, body=b"", kind="text/html", *fields):
    """A reply of the front's own, in the place of that of the program."""
    lines = [f"HTTP/1.1 {status}", f"Content-Type: {kind}", f"Content-Length: {len(body)}", *fields, "", ""]
    return "\r\n".join(lines).encode() + body


def read_message(stream):
    """The head of the next message and the length of its body, or nothing if the stream ends."""
    head = b""
    while not head.endswith(b"\r\n\r\n"):
        line = stream.readline(65_536)
        if not line:
            return b"", 0
        head += line
    lengths = [line.split(b":")[1] for line in head.lower().split(b"\r\n") if line.startswith(b"content-length:")]
    return head, int(lengths[0]) if lengths else 0


class Front(socketserver.ThreadingTCPServer):
    """The front: `judge(method, target, count)` says what is done to the request, the `count`-th of this method and target. It returns a word from above,
    bytes that are sent instead, or a number: of the reply only as many bytes are handed on. `asked` has each request, as (method, target), and `heads` their heads."""

    daemon_threads = True
    allow_reuse_address = True
    request_queue_size = 64

    def __init__(self, port, judge=None, certificate=None, password=None, prefix=""):
        self.upstream_port = port
        self.judge = judge or (lambda method, target, count: PASS)
        self.password, self.prefix = password, prefix
        # Called before the program's reply is handed on.
        self.before_reply = lambda method, target: None
        self.lock, self.asked, self.heads = threading.Lock(), [], []
        super().__init__((HOST, 0), Handler)
        self.port = self.server_address[1]
        if certificate:
            context = ssl.SSLContext(ssl.PROTOCOL_TLS_SERVER)
            context.load_cert_chain(certificate)
            self.socket = context.wrap_socket(self.socket, server_side=True)
        threading.Thread(target=self.serve_forever, kwargs={"poll_interval": 0.05}, daemon=True).start()

    def count(self, *methods):
        """How many requests had one of these methods."""
        with self.lock:
            return sum(method in methods for method, _ in self.asked)

    def note(self, method, target):
        with self.lock:
            self.asked.append((method, target))
            return self.asked.count((method, target))

    def handle_error(self, request, client_address):
        """A client that goes away is no fault of a test."""

    def end(self):
        self.shutdown()
        self.server_close()


class Handler(socketserver.StreamRequestHandler):
    """One connection of a client, with one of its own to the program."""

    disable_nagle_algorithm = True
    timeout = 60

    def handle(self):
        with contextlib.ExitStack() as stack:
            upstream = None
            while True:
                head, length = read_message(self.rfile)
                if not head:
                    return
                self.server.heads.append(head.decode("latin-1"))
                method, target = head.decode("latin-1").split(" ")[:2]
                if not target.startswith(self.server.prefix):
                    self.wfile.write(answer("404 Not Found"))
                    continue
                target = target[len(self.server.prefix):]
                head = head.replace(f" {self.server.prefix}{target} ".encode("latin-1"), f" {target} ".encode("latin-1"), 1)
                done = self.server.judge(method, target, self.server.note(method, target))
                if self.server.password and f"authorization: basic {self.server.password}".lower() not in head.decode("latin-1").lower():
                    done = answer("401 Unauthorized", b"who are you?", "text/html", 'WWW-Authenticate: Basic realm="test"')
                if done == HANG_UP:
                    return
                body = self.rfile.read(length)
                if done == LOSE_REQUEST:
                    return
                if isinstance(done, bytes):
                    self.wfile.write(done.partition(b"\r\n\r\n")[0] + b"\r\n\r\n" if method == "HEAD" else done)
                    continue
                if upstream is None:
                    upstream = stack.enter_context(socket.create_connection((HOST, self.server.upstream_port), 60))
                    stream = stack.enter_context(upstream.makefile("rb"))
                upstream.sendall(head + body)
                told, length = read_message(stream)
                reply = told + stream.read(0 if method == "HEAD" else length)
                self.server.before_reply(method, target)
                if done == LOSE_REPLY or not told:
                    return
                if isinstance(done, int):
                    self.wfile.write(reply[:done])
                    return
                self.wfile.write(reply)
                if b"connection: close" in told.lower():
                    return
