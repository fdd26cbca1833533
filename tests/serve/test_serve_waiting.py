"""What a node of `filehost serve` has to wait for, while an honest client asks all the time: other nodes, disks, long bodies, and clients that read slowly.

What is expected follows from docs/WIRE.md, "Deadlines and places", and from docs/ARCHITECTURE.md, "How `serve` is built": no worker waits, so an honest client
whose file is in the cache is answered at once. A store is in a folder here.
"""

import concurrent.futures
import contextlib
import hashlib
import itertools
import json
import pathlib
import random
import select
import socket
import threading
import time

from lib.client import LARGEST_FILE, PATIENCE, closing, digest_of, opening, request, sent
from lib.crowds import SECOND, SHORT, WHOLE, Crowds, Plug, for_seconds, reset
from lib.rows import OTHER
from lib.served import FILE, HOST, ask, publish
from lib.stores import opening_of, write_store

# The port for other nodes of the first node; that of the second is the next one.
PEERS = 8
# How many sockets say nothing at each of these ports.
SILENT = 40
# How long a file of 16 MiB takes that no cache has, at most, while they do: for other nodes a request waits two seconds at most.
COLD = 8
# How many small files are uploaded, over how many connections, and how many large ones, each over one.
SMALL, OF_SMALL, LARGE = 1_000, 16, 8
# The longest JSON body, how many come at once, and how many MiB the program takes for all of them at most, and afterwards more than before.
LONGEST_BODY, BODIES, MOST, LEFT = 4_194_304, 8, 700, 32
# How many bytes a slow client takes in a second, and for how long: twice as long as 60 KiB of a body have. A file that the system can't hold.
SLOW, SLOW_FOR, SLOW_FILE = 40_000, 13, 4_194_304
# More clients than this break off, and no more come while the program has more sockets.
MANY = 20
# How many requests a connection may send at once, and how large the files are that they ask for.
PIPELINED, PIECE = 90, 60_000


class Waiting(Crowds):
    """An honest client is answered at once: of a hundred requests 99 within 50 milliseconds."""

    asked, usual = 100, 0.05

    def warm(self, *nodes):
        """Each node has the file of the honest client in its cache: a node that doesn't own a chunk keeps it only now and then."""
        for node in nodes:
            client = self.client(node)
            for _ in range(60):
                self.assertEqual(ask(client, "GET", "/s/one/a.txt"), (200, b"hello"))
            client.close()

    def at_once_each(self, works):
        """Does all of these at once, and returns what each came to."""
        with concurrent.futures.ThreadPoolExecutor(len(works)) as pool:
            return [done.result() for done in [pool.submit(work) for work in works]]


class Peers(Waiting):
    """Two nodes of two workers each. The cold files are in the folder from the start, so no node has read them."""

    def begin_cold(self):
        folder, drawn = self.folder(), random.Random(1)
        self.files = {f"/{number}": drawn.randbytes(LARGEST_FILE) for number in range(4)}
        write_store(folder / "store", [opening_of(self.files, "cold"), ("publish", "cold", 1)], *self.files.values())
        self.begin("--store", str(folder / "store"), "--workers", "2", nodes=2, second=WHOLE)
        self.warm(0, 1)

    @contextlib.contextmanager
    def silent(self, *ports):
        """So many silent sockets at each of these ports; another one comes for each that has gone."""
        ended, gone = threading.Event(), select.poll()
        plugs = {}

        def come(port):
            plug = Plug()
            plug.come(self.port + port, b"")
            plugs[plug.fileno()] = plug, port
            gone.register(plug, select.POLLRDHUP)

        def hold():
            while not ended.wait(0.005):
                for number, _ in gone.poll(0):
                    gone.unregister(number)
                    plug, port = plugs.pop(number)
                    plug.close()
                    come(port)

        for port in ports:
            for _ in range(SILENT):
                come(port)
        thread = threading.Thread(target=hold)
        thread.start()
        try:
            yield
        finally:
            ended.set()
            thread.join()
            for plug, _ in plugs.values():
                plug.close()

    def read_cold(self, path, node):
        """Reads a file that is in no cache, whole, in time."""
        mark, began = self.stalls.mark(), time.monotonic()
        status, content = self.read(f"/s/cold{path}", node)
        self.assertEqual((status, digest_of(content)), (200, digest_of(self.files[path])))
        self.assertLess(time.monotonic() - began, COLD + self.stalls.since(mark))

    def test_silent_sockets_at_a_peer_port_hold_no_cold_read_through_the_other_node(self):
        self.begin_cold()
        with self.beside_honest(0, 1):
            for node, (first, second) in enumerate((("/0", "/1"), ("/2", "/3"))):
                with self.silent(PEERS + 1 - node):
                    self.at_once_each([lambda: self.read_cold(first, node), lambda: self.read_cold(second, node)])
        self.assert_alone()


class Uploads(Waiting):
    def deploy(self, client, files):
        """Opens a deploy of files that are to be uploaded, and returns its number."""
        body = opening({path: digest_of(content) for path, content in files.items()}, "two").partition(b"\r\n\r\n")[2]
        status, told = ask(client, "POST", "/api/v1/sites/two/deploys", body)
        self.assertEqual((status, len(json.loads(told)["required"])), (200, len(files)))
        return json.loads(told)["id"]

    def upload(self, deploy, files):
        """Uploads files over one connection, and returns the entries that this published."""
        published, client = [], self.client()
        for path, content in files:
            status, told = ask(client, "PUT", f"/api/v1/deploys/{deploy}/files{path}", content)
            self.assertEqual((status, json.loads(told)["sha"]), (200, digest_of(content)), told)
            published.append(json.loads(told)["published"])
        client.close()
        return [number for number in published if number is not None]

    def test_of_many_files_and_of_large_ones_hold_no_read(self):
        drawn = random.Random(2)
        small = {f"/small/{number}": drawn.randbytes(4_096) for number in range(SMALL)}
        large = {f"/large/{number}": drawn.randbytes(LARGEST_FILE) for number in range(LARGE)}
        self.begin("--store", str(self.folder()), "--workers", "2", second=WHOLE)
        self.warm(0)
        with self.beside_honest():
            client = self.client()
            deploys = self.deploy(client, small), self.deploy(client, large)
            client.close()
            each = list(small.items())
            parts = [(deploys[0], each[place::OF_SMALL]) for place in range(OF_SMALL)] + [(deploys[1], [file]) for file in large.items()]
            published = self.at_once_each([lambda part=part: self.upload(*part) for part in parts])
            # The last upload to each deploy published it, and no other.
            self.assertEqual(len(list(itertools.chain(*published))), 2)
        last = max(itertools.chain(*published))
        shown = large if last in itertools.chain(*published[OF_SMALL:]) else small
        for path in random.Random(3).sample(sorted(shown), 3):
            self.assertEqual(self.read(f"/s/two{path}"), (200, shown[path]))
        self.assert_alone()


class Bodies(Waiting):
    """The launcher sets what these need: `serve` of lib/served.py starts the program with the same environment."""

    def memory(self):
        """How many MiB of memory the program takes, and how many it took at most."""
        lines = pathlib.Path(f"/proc/{self.started.pid}/status").read_text().splitlines()
        values = dict(line.split(":", 1) for line in lines)
        return tuple(int(values[name].split()[0]) / 1_024 for name in ("VmRSS", "VmHWM"))

    def ask_once(self, *request):
        client = self.client()
        reply = ask(client, *request)
        client.close()
        return reply

    def post(self, body):
        return self.ask_once("POST", "/api/v1/sites/two/deploys", body)

    def long_body(self):
        """One that takes as long to parse as any."""
        start, each, end = b'{"files":{},"x":[', b'{"":0},', b'{"":0}]}'
        return start + each * ((LONGEST_BODY - len(start) - len(end)) // len(each)) + end

    def test_a_read_with_a_long_one_keeps_its_worker_from_nobody(self):
        """Others are parsed meanwhile, one at a time."""
        body = self.long_body()
        self.begin("--workers", "1", second=WHOLE)
        self.warm(0)
        with self.beside_honest():
            replies = self.at_once_each([lambda: self.post(body)] * 3 + [lambda: self.ask_once("GET", FILE, body)] * 3)
        self.assertEqual([status for status, _ in replies[:3]], [200] * 3, replies[:3])
        self.assert_alone()

    def test_long_ones_are_parsed_one_at_a_time_and_give_their_memory_back(self):
        body = self.long_body()
        self.begin("--store", str(self.folder()), "--workers", "8", second=WHOLE)
        self.warm(0)
        before = self.memory()[0]
        with self.beside_honest():
            replies = self.at_once_each([lambda: self.post(body)] * BODIES)
        self.assertEqual([status for status, _ in replies], [200] * BODIES, replies)
        self.assertLess(self.memory()[1], MOST)
        self.assert_in_time(lambda: self.memory()[0] <= before + LEFT, PATIENCE)
        self.assert_alone()


class Readers(Waiting):
    def take(self, plug, count):
        """So many bytes of what comes, or fewer if it ends before."""
        came = bytearray()
        with contextlib.suppress(ConnectionError):
            while len(came) < count and (more := plug.recv(min(65_536, count - len(came)))):
                came += more
        return bytes(came)

    def take_slowly(self, plug, rate, seconds):
        """What a client has that takes so many bytes a second for so long. What it is late with, if the machine held it up, it takes then."""
        came, began = b"", time.monotonic()
        while (passed := time.monotonic() - began) < seconds:
            came += self.take(plug, int(passed * rate) - len(came))
            time.sleep(0.05)
        return came

    def come_slowly(self, given):
        """A connection with little room for what comes, over which these bytes were sent."""
        return self.crowd(1, given, room=4_096)[0]

    def test_a_slow_download_that_takes_more_than_it_has_to_is_not_cut(self):
        """It takes four times as much as it has to. Without a bound, the system would hold so much for it that no room came for long."""
        content = random.Random(4).randbytes(SLOW_FILE)
        self.begin(files={"/a.txt": b"hello", "/large": content}, second=SECOND)
        wanted = closing(sent(content, kind=OTHER))
        with self.beside_honest():
            plug = self.plug(request("GET", "/s/one/large", "Connection: close"))
            came = self.take_slowly(plug, SLOW, SLOW_FOR)
            self.assertLess(len(came), len(wanted))
            came += self.take(plug, len(wanted) + 1)
        self.assertEqual((len(came), hashlib.sha1(came).digest()), (len(wanted), hashlib.sha1(wanted).digest()))
        self.assert_alone()

    def test_one_that_asks_for_many_files_at_once_and_reads_them_late_gets_all(self):
        """It has asked for the next files, so its time isn't that of a head, whichever reply the system has no room for."""
        content = random.Random(5).randbytes(PIECE)
        self.begin(files={"/a.txt": b"hello", "/piece": content}, second=SHORT)
        wanted = sent(content, kind=OTHER) * (PIPELINED - 1) + closing(sent(content, kind=OTHER))
        asked = request("GET", "/s/one/piece") * (PIPELINED - 1) + request("GET", "/s/one/piece", "Connection: close")
        with self.beside_honest():
            plugs = [self.come_slowly(asked) for _ in range(8)]
            # Longer than a head or a body may take, and shorter than a reply.
            time.sleep(self.seconds(200))
            for plug in plugs:
                self.assertEqual(hashlib.sha1(self.take(plug, len(wanted) + 1)).digest(), hashlib.sha1(wanted).digest())
        self.assert_alone()


class Turns(Waiting):
    def test_clients_that_break_off_while_they_are_answered_leave_their_places_to_others(self):
        """Each sends a body that is read for nothing, in a thread for what may wait, and is gone before or after that. A deployer is answered beside them."""
        drawn = random.Random(6)
        self.begin("--store", str(self.folder()), "--workers", "2", second=WHOLE)
        self.warm(0)
        ended, gone = threading.Event(), []
        listed = ",".join(f'"/{number}":"{digest_of(b"%d" % number)}"' for number in range(2_000))
        asked = request("POST", "/api/v1/sites/four/deploys", body=f'{{"files":{{{listed},"/last":"no digest"}}}}'.encode())

        def break_off():
            while not ended.is_set():
                with socket.create_connection((HOST, self.port), timeout=PATIENCE) as plug:
                    plug.sendall(asked)
                    time.sleep(drawn.random() * 0.02)
                    if drawn.random() < 0.5:
                        reset(plug)
                gone.append(plug)
                time.sleep(0.02)
                # Bodies are parsed one at a time. So few are left at the end.
                while self.sockets() > MANY and not ended.is_set():
                    time.sleep(0.01)

        with self.beside_honest(), concurrent.futures.ThreadPoolExecutor(4) as pool:
            crowd = [pool.submit(break_off) for _ in range(4)]
            try:
                goes_on = for_seconds(1.5)
                for number in itertools.takewhile(lambda _: goes_on() or len(gone) <= MANY, itertools.count()):
                    self.publish_alone_as(b"content %d" % number)
            finally:
                ended.set()
            for thread in crowd:
                thread.result()
        self.assert_alone()

    def publish_alone_as(self, content):
        """Deploys a file over a connection of its own, and reads it over that."""
        with contextlib.closing(self.client()) as client:
            publish(client, {"/a.txt": content}, "three")
            self.assertEqual(ask(client, "GET", "/s/three/a.txt"), (200, content))
