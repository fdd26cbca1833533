"""What comes to `filehost serve` beside deployers and readers, while bench/endure-serve uses it: clients that hold what they can, and those that let it wait
for disks, for other nodes and for long bodies."""

import contextlib
import json
import random
import socket
import struct
import threading

import http.client
from lib.client import digest_of, request
from lib.served import FILE, HOST, ask

# The ports that hostile clients come to: those of clients, and of other nodes.
PORTS = (0, 1, 8, 9)
# How many hostile connections there are at most.
MOST_HOSTILE = 150
# The files that are read cold: together they are more than the caches of a node have, so most of their pieces have to be read, or fetched from the other node.
COLD = {f"/{number}": random.Random(number).randbytes(1 << 20) for number in range(80)}
# A long body, which asks for nothing and is parsed for it, and how often one comes, in seconds.
LONG_BODY = b'{"files":{},"x":[' + b'{"":0},' * 590_000 + b'{"":0}],"draft":0}'
SELDOM = 3
# How many files an uploader uploads to a deploy, which is cancelled then, and how large they are.
UPLOADS, SIZE = 20, 4_096
GIVEN = (
    b"", b"GET /s/one/a.txt HT", b"PUT /api/v1/deploys/1/files/large HTTP/1.1\r\nContent-Length: 1048576\r\n\r\n" + bytes(100), request("GET", FILE) * 20,
    request("GET", "/s/two/large") * 8, bytes(500), request("GET", "/s/cold/1") * 3,
    b"GET /_groupcache/chunks/" + digest_of(COLD["/2"][:65_536]).encode() + b" HTTP/1.1\r\n\r\n",
)


class Beside:
    """One of them, in a thread of its own, until it is ended, or the program is. `fault` is the first reply that isn't right."""

    def __init__(self, port, seed):
        self.port, self.random, self.count, self.fault = port, random.Random(seed), 0, None
        self.ended = threading.Event()
        self.thread = threading.Thread(target=self.go)

    def go(self):
        while not self.ended.wait(self.pause):
            try:
                with contextlib.closing(http.client.HTTPConnection(HOST, self.port + self.random.choice((0, 1)), timeout=60)) as client:
                    self.ask(client)
            except (OSError, http.client.HTTPException) as error:
                # It is so where the program was killed; else it is looked at.
                self.fault = self.fault or f"{type(self).__name__} met {error!r}"
                return
            except AssertionError as error:
                self.fault = self.fault or str(error)
                return

    def expect(self, reply, wanted):
        assert reply == wanted, f"{type(self).__name__} was answered {reply[0]} {reply[1][:200]}"
        self.count += 1

    def end(self):
        self.ended.set()
        self.thread.join()


class Cold(Beside):
    """Reads files that aren't in the caches."""

    pause = 0.02

    def ask(self, client):
        for path in self.random.sample(sorted(COLD), 5):
            self.expect(ask(client, "GET", f"/s/cold{path}"), (200, COLD[path]))


class Bodies(Beside):
    """Sends long bodies, several at once now and then."""

    pause = SELDOM

    def ask(self, client):
        others = [http.client.HTTPConnection(HOST, self.port, timeout=60) for _ in range(self.random.choice((0, 3)))]
        with contextlib.ExitStack() as left:
            for other in others:
                left.callback(other.close)
                other.request("POST", "/api/v1/sites/two/deploys", LONG_BODY)
            for each in (client, *others):
                if each is client:
                    each.request("POST", "/api/v1/sites/two/deploys", LONG_BODY)
                reply = each.getresponse()
                self.expect((reply.status, reply.read()), (400, b'{"error":"BadBody"}'))


class Uploads(Beside):
    """Uploads files to drafts. `stored` has the contents whose upload was told."""

    pause = 0.5

    def __init__(self, port, seed):
        super().__init__(port, seed)
        self.stored = []

    def ask(self, client):
        contents = [self.random.randbytes(SIZE) for _ in range(UPLOADS)]
        files = {f"/{number}": digest_of(content) for number, content in enumerate(contents)}
        status, told = ask(client, "POST", "/api/v1/sites/drafts/deploys", json.dumps({"files": files, "draft": True}))
        assert status == 200, told
        deploy = json.loads(told)["id"]
        for number, content in enumerate(contents):
            wanted = 200, json.dumps({"published": None, "sha": digest_of(content)}, separators=(",", ":")).encode()
            self.expect(ask(client, "PUT", f"/api/v1/deploys/{deploy}/files/{number}", content), wanted)
            self.stored.append(content)
        status, told = ask(client, "POST", f"/api/v1/deploys/{deploy}/cancel")
        assert status == 200, told


class Hostile(Beside):
    """Clients that hold what they can."""

    def __init__(self, port, seed):
        super().__init__(port, seed)
        self.plugs = []

    def go(self):
        while not self.ended.wait(0.01):
            if len(self.plugs) < MOST_HOSTILE:
                self.come()
            for plug in self.random.sample(self.plugs, min(10, len(self.plugs))):
                self.do_something(plug)

    def come(self):
        with contextlib.suppress(OSError):
            plug = socket.socket()
            self.plugs.append(plug)
            plug.setsockopt(socket.SOL_SOCKET, socket.SO_RCVBUF, 4_096)
            plug.settimeout(0.2)
            plug.connect((HOST, self.port + self.random.choice(PORTS)))
            plug.setblocking(False)
            plug.send(self.random.choice(GIVEN))
            self.count += 1

    def do_something(self, plug):
        """Drips, reads some, ends its side, or breaks off."""
        try:
            what = self.random.random()
            if what < 0.6:
                plug.send(b"a")
            elif what < 0.8:
                if not plug.recv(1_000):
                    self.leave(plug)
            elif what < 0.85:
                plug.shutdown(socket.SHUT_WR)
            elif what < 0.9:
                if what < 0.87:
                    plug.setsockopt(socket.SOL_SOCKET, socket.SO_LINGER, struct.pack("ii", 1, 0))
                self.leave(plug)
        except BlockingIOError:
            pass
        except OSError:
            self.leave(plug)

    def leave(self, plug):
        plug.close()
        self.plugs.remove(plug)

    def end(self):
        super().end()
        for plug in list(self.plugs):
            self.leave(plug)


class Crowd:
    """All of them beside one another."""

    def __init__(self, port, drawn):
        self.hostile, self.uploads = Hostile(port, drawn.random()), Uploads(port, drawn.random())
        self.others = [kind(port, drawn.random()) for kind in (Cold, Cold, Bodies)]
        self.all = [self.hostile, self.uploads, *self.others]
        for each in self.all:
            each.thread.start()

    def end(self):
        for each in self.all:
            each.end()

    def faults(self):
        return [each.fault for each in self.all if each.fault]

    def honest(self):
        """How many requests were answered that weren't those of hostile clients."""
        return sum(each.count for each in (self.uploads, *self.others))
