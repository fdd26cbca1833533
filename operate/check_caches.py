"""Three caches with nginx-cache.conf before the machine with nginx.conf, all on loopback: how many requests reach the host, and what readers see of a switch
of versions and of an undo."""

import base64
import contextlib
import json
import re
import threading
import time
import unittest

from stand import INTERFACE, OWN, PASSWORD, PUBLIC, TOP, USER, Nginx, Stand, Visitor, replaced
from lib.served import HOST, free_ports

LOGIN = base64.b64encode(f"{USER}:{PASSWORD}".encode()).decode()
PATHS = ("/index.html", "/style.css", "/script.js", "/one.html", "/two.html")
# For how long nginx-cache.conf keeps a page, and how much longer the slowest machine may take.
KEPT, SLACK = 2, 2.5
LARGE = bytes(range(256)) * 12_000


def version(number):
    return {path: b"version %d of %s " % (number, path.encode()) * 50 for path in PATHS}


class Cache:
    """One of the caches; a Visitor of it has its port."""

    def __init__(self, stack, stand, number):
        self.etc, self.port = stand.etc, free_ports()
        text = re.sub(r"(?m)^ *listen \[::\].*\n", "", (TOP / "operate/nginx-cache.conf").read_text())
        room = stand.room / f"cache-{number}"
        text = replaced(
            text, ("listen 443 ssl", f"listen {HOST}:{self.port} ssl"), ("192.0.2.10:443", f"{HOST}:{stand.port}"), ("/etc/filehost", str(stand.etc)),
            ("/var/log/nginx/", f"{room}/"), ("/var/cache/filehost-nginx", f"{room}/cache"), ("/etc/ssl/certs/ca-certificates.crt", f"{stand.etc}/certificate.pem"),
        )
        self.nginx = Nginx(stack, room, text).wait_for(self.port)


class Caches(unittest.TestCase):
    def setUp(self):
        self.stack = contextlib.ExitStack()
        self.addCleanup(self.stack.close)
        self.stand = Stand(self.stack)
        self.stand.deploy(version(1), "www")
        self.caches = [Cache(self.stack, self.stand, number) for number in range(3)]

    def ask(self, cache, target, method="GET", name=PUBLIC, **fields):
        with contextlib.closing(Visitor(cache, name)) as visitor:
            return visitor.ask(method, target, **fields)

    def change(self, target, body):
        reply = self.stand.visitor(INTERFACE).ask("POST", f"/api/v1/sites/www/{target}", json.dumps(body), login=LOGIN)
        self.assertEqual(reply.status, 200, reply.content)
        return json.loads(reply.content)

    def read(self, cache):
        """Looks at the site again and again: each look is a read of all its files."""
        with contextlib.closing(Visitor(cache, PUBLIC)) as visitor:
            while not self.ended.is_set():
                began, seen = time.monotonic(), []
                for path in PATHS:
                    reply = visitor.ask("GET", f"/s/www{path}")
                    seen.append(int(reply.content.split()[1]) if reply.status == 200 and reply.content in self.wanted[path] else None)
                self.looks.append((began, time.monotonic(), tuple(seen)))
                time.sleep(0.005)

    def test_a_switch_and_an_undo_reach_all_readers_in_time_and_few_requests_reach_the_host(self):
        self.ended, self.looks = threading.Event(), []
        self.wanted = {path: [version(number)[path] for number in (1, 2)] for path in PATHS}
        readers = [threading.Thread(target=self.read, args=(cache,)) for cache in self.caches for _ in range(2)]
        logged, began = len(self.stand.nginx.logged()), time.monotonic()
        for reader in readers:
            reader.start()
        time.sleep(3)
        before = time.monotonic()
        change = self.stand.deploy(version(2), "www")["change"]
        switched = time.monotonic()
        time.sleep(KEPT + SLACK)
        undo = time.monotonic()
        self.change("undo", {"change": change})
        undone = time.monotonic()
        time.sleep(KEPT + SLACK)
        self.ended.set()
        for reader in readers:
            reader.join()
        seconds = time.monotonic() - began
        reached = sum("/s/www/" in line and "host=200" in line for line in self.stand.nginx.logged()[logged:])
        self.tell(seconds, reached, switched, undone)
        count = len(self.looks) * len(PATHS)
        self.assertFalse([look for look in self.looks if None in look[2]])
        # Each cache asks for each file once in the time that it is kept, and a few readers at once may ask while it is asked for.
        self.assertLessEqual(reached, len(self.caches) * len(PATHS) * (seconds / KEPT + 1) * 2)
        self.assertGreater(count, 5 * reached)
        self.assertFalse([look for look in self.looks if look[1] < before and set(look[2]) != {1}])
        self.assertFalse([look for look in self.looks if switched + KEPT + SLACK / 2 < look[0] and look[1] < undo and set(look[2]) != {2}])
        self.assertFalse([look for look in self.looks if undone + KEPT + SLACK / 2 < look[0] and set(look[2]) != {1}])

    def tell(self, seconds, reached, switched, undone):
        """Prints what was measured."""
        mixed = [look for look in self.looks if len(set(look[2])) > 1]
        last_old = max((began for began, _, seen in self.looks if began < undone and 1 in seen), default=switched)
        last_new = max((began for began, _, seen in self.looks if 2 in seen), default=undone)
        print(
            f"\n{len(self.looks) * len(PATHS):,} requests in {seconds:.1f} s, {reached} of them reached the host; of {len(self.looks):,} looks {len(mixed)} saw two "
            f"versions; the old version was last seen {last_old - switched:.1f} s after the switch, the undone one {last_new - undone:.1f} s after the undo", flush=True)

    def test_the_files_of_a_deploy_reach_each_cache_once_also_in_parts(self):
        number = self.stand.deploy({"/large.bin": LARGE, **version(1)}, "film", "deploy")["deploy"]
        logged, target = len(self.stand.nginx.logged()), f"/d/film/{number}/large.bin"
        for cache in self.caches:
            for _ in range(3):
                reply = self.ask(cache, target, Range="bytes=2000000-2000009")
                self.assertEqual((reply.status, reply.content, reply.headers["Content-Range"]), (206, LARGE[2_000_000:2_000_010], f"bytes 2000000-2000009/{len(LARGE)}"))
            for _ in range(3):
                reply = self.ask(cache, target)
                self.assertEqual((reply.status, reply.content == LARGE), (200, True))
            self.assertEqual(self.ask(cache, target, If_None_Match=reply.headers["ETag"]).status, 304)
            self.assertEqual(self.ask(cache, f"/d/film/{number}/nothing").status, 404)
        lines = [line for line in self.stand.nginx.logged()[logged:] if target in line]
        # A slice of a mebibyte each: three of them.
        self.assertEqual(len(lines), 3 * len(self.caches), lines)

    def test_replies_are_those_of_the_machine_with_the_host(self):
        for target in ("/s/www/index.html", "/s/www/nothing", "/s/other/", "/s/www/style.css?a=b"):
            wanted = self.stand.visitor(PUBLIC).ask("GET", target)
            for method in ("GET", "HEAD"):
                reply = self.ask(self.caches[0], target, method)
                kept = [[each.headers[name] for name in ("Content-Type", "ETag", "Content-Length")] for each in (reply, wanted)]
                self.assertEqual((reply.status, *kept[:1]), (wanted.status, *kept[1:]))
            self.assertEqual(self.ask(self.caches[0], target).content, wanted.content)
        self.assertEqual(self.ask(self.caches[0], "/s/www/index.html", Range="bytes=0-6").content, b"version")
        self.assertEqual(self.ask(self.caches[0], "/index.html", name=OWN).content, version(1)["/index.html"])
        for method in ("PUT", "POST", "DELETE"):
            self.assertEqual(self.ask(self.caches[0], "/s/www/index.html", method).status, 403)
        self.assertEqual(self.ask(self.caches[0], "/api/v1/sites/www/changes").status, 404)
        # A folder /d/ of a site with a name of its own is pages, which may change.
        self.stand.deploy({"/d/a.txt": b"first"}, "www")
        self.assertEqual(self.ask(self.caches[0], "/d/a.txt", name=OWN).content, b"first")
        self.stand.deploy({"/d/a.txt": b"second"}, "www")
        time.sleep(KEPT + SLACK)
        self.assertEqual(self.ask(self.caches[0], "/d/a.txt", name=OWN).content, b"second")


if __name__ == "__main__":
    unittest.main()
