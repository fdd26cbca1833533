#!/usr/bin/env python3
"""A client of `filehost serve` that asks again and again, with a pause of 10 milliseconds, and measures how long the program lets it wait:

    tests/lib/honest_client.py PORT reads|uploads PROCESS COUNT LATE

It reads /s/one/a.txt, which has to be `hello`, on a new connection and on one that it keeps, in turn; or it also uploads files to a deploy, each in a new
connection. It prints a line once it was answered. When its input ends, and it has asked COUNT times, it prints the longest wait in seconds, and the longest but
for one in a hundred, less what the machine held up it and the process of the program meanwhile; or, with status 1, the first reply that isn't right, or why
there was none. Where the machine held them up for LATE seconds during a request, the program may have cut the connection since it was late: then the client
asks again.
"""

import hashlib
import http.client
import json
import select
import sys
import time

from stalls import Stalls

PAUSE = 0.01
PATIENCE = 60
FILES = 3_000
# After how many seconds without a request a kept connection isn't used again at the latest: the program may end it, where a second of the deadlines is short.
OLD = 0.3


class Honest:
    def __init__(self, port, process, late):
        self.port, self.late = port, late
        self.kept, self.asked = self.client(), time.monotonic()
        self.stalls = Stalls(process)
        self.waits = []
        self.old = min(OLD, late)

    def client(self):
        return http.client.HTTPConnection("127.0.0.1", self.port, timeout=PATIENCE)

    def ask(self, client, method, target, body=None, mark=None):
        """The body of the reply, which has to be one of success. The mark is one of just before."""
        mark, began = mark or self.stalls.mark(), time.monotonic()
        try:
            client.request(method, target, body=body)
            reply = client.getresponse()
            answer = reply.read()
        except (ConnectionError, http.client.HTTPException):
            client.close()
            if self.stalls.since(mark) < self.late:
                raise
            return self.ask(client, method, target, body)
        ended = time.monotonic()
        self.waits.append(ended - began - self.stalls.since(mark))
        if reply.status != 200:
            sys.exit(f"{method} {target} was answered {reply.status} {answer[:200]}")
        return answer

    def ask_once(self, *words):
        client = self.client()
        answer = self.ask(client, *words)
        client.close()
        return answer

    def ask_kept(self, *words):
        mark, began = self.stalls.mark(), time.monotonic()
        if began - self.asked > self.old:
            self.kept.close()
        answer = self.ask(self.kept, *words, mark=mark)
        # The program has waited for the next request since then at the earliest.
        self.asked = began
        return answer

    def read(self):
        """On a new connection and on the kept one."""
        for ask in (self.ask_once, self.ask_kept):
            if (answer := ask("GET", "/s/one/a.txt")) != b"hello":
                sys.exit(f"the file was {answer[:200]}")

    def uploads(self):
        """Calls that upload the files of a deploy, one after another."""
        contents = [b"file %d" % number for number in range(FILES)]
        digests = [hashlib.sha1(content).hexdigest() for content in contents]
        listing = {"files": {f"/{number}": digest for number, digest in enumerate(digests)}, "draft": True}
        deploy = json.loads(self.ask_once("POST", "/api/v1/sites/two/deploys", json.dumps(listing)))["id"]
        for number, content in enumerate(contents):
            yield f"/api/v1/deploys/{deploy}/files/{number}", content, digests[number]

    def upload(self, target, content, digest):
        if json.loads(self.ask_once("PUT", target, content)) != {"published": None, "sha": digest}:
            sys.exit(f"{target} was answered otherwise than it should")


def main():
    port, kind, process, count, late = sys.argv[1:]
    honest = Honest(int(port), int(process), float(late))
    uploads = honest.uploads() if kind == "uploads" else ()
    honest.read()
    print("answered", flush=True)
    turns = iter(uploads)
    while not select.select([sys.stdin], [], [], PAUSE)[0] or len(honest.waits) < int(count):
        honest.read()
        if upload := next(turns, None):
            honest.upload(*upload)
    waits = sorted(honest.waits)
    print(waits[-1], waits[-1 - len(waits) // 100])


if __name__ == "__main__":
    try:
        main()
    except OSError as error:
        sys.exit(f"no answer came: {error!r}")
    except http.client.HTTPException as error:
        sys.exit(f"no whole answer came: {error!r}")
