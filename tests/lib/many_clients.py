"""Deployers and readers of `filehost serve` beside one another, and the states of the plain model of which each reply has to be one."""

import bisect
import itertools
import json
import random
import threading
import time

from lib.client import digest_of
from lib.long_model import LongModel
from lib.plain_history import Deploy, Entry, Refused
from lib.served import FILE, ask

DEPLOYS = "/api/v1/sites/one/deploys"
UNDO = "/api/v1/sites/one/undo"


class ManyClients:
    """Two deployers and four readers at two nodes, and what each was told. `client_of` makes a connection to the node of a number.

    `entries` has of each entry that someone was told of what it is, by its number; `looks` has each look at the file: its connection, the number of the last
    entry that anyone was told of before, and the reply; `contents` all that was ever deployed.
    """

    deployers, readers = ((0, 5), (1, 6)), (0, 1, 0, 1)

    def __init__(self, client_of):
        self.client_of = client_of
        self.contents, self.entries, self.looks, self.faults = [], {}, [], []
        self.connections = itertools.count()
        # The number of the last entry that anyone was told of.
        self.told = 0
        self.ended = threading.Event()

    def look(self, client, connection):
        """Reads the file, and keeps the reply."""
        told = self.told
        self.looks.append((connection, told, ask(client, "GET", FILE)))

    def publish(self, client, content):
        """Deploys two paths with this content, and returns the number of the entry that published them."""
        self.contents.append(content)
        files = dict.fromkeys(("/a.txt", "/b.txt"), digest_of(content))
        status, told = ask(client, "POST", DEPLOYS, json.dumps({"files": files, "patch": True}))
        assert status == 200, told
        deploy = int(json.loads(told)["id"])
        self.entries[deploy] = Entry("open", "one", (Deploy(files, False, True),))
        status, told = ask(client, "PUT", f"/api/v1/deploys/{deploy}/files/b.txt", content)
        assert status == 200, told
        published = json.loads(told)["published"]
        self.entries[published] = Entry("publish", "one", (deploy,))
        return published

    def take_back(self, client, change):
        """Undoes a change, unless another one touched what it changed."""
        status, told = ask(client, "POST", UNDO, json.dumps({"change": change}))
        told = json.loads(told)
        if status != 200:
            assert (status, told["error"]) == (409, "Clash") and told["change"] > change, told
            return change
        self.entries[told["entry"]] = Entry("undo", "one", (change,))
        return told["entry"]

    def deploy(self, node, seed):
        """Deploys and takes back, over one connection after another."""
        draw = random.Random(seed)
        while not self.ended.is_set():
            client, connection = self.client_of(node), next(self.connections)
            for turn in range(20):
                last = self.publish(client, b"turn %d of connection %d, %d" % (turn, connection, draw.randrange(10 ** 9)))
                if draw.random() < 0.4:
                    last = self.take_back(client, last)
                self.told = max(self.told, last)
                self.look(client, connection)
                time.sleep(0.02)
                if self.ended.is_set():
                    break
            client.close()

    def read(self, node):
        while not self.ended.is_set():
            client, connection = self.client_of(node), next(self.connections)
            for _ in range(60):
                self.look(client, connection)
                time.sleep(0.002)
                if self.ended.is_set():
                    break
            client.close()

    def run(self, work, *words):
        try:
            work(*words)
        except Exception as fault:
            self.faults.append(fault)
            self.ended.set()

    def go(self, seconds, seed=0, at_the_end=lambda: None):
        """Lets all go on for so long, or until one of them fails, and does one thing before they end. Returns the faults that were met before that."""
        works = [(self.deploy, node, place + seed) for node, place in self.deployers] + [(self.read, node) for node in self.readers]
        self.ended.clear()
        self.faults = []
        threads = [threading.Thread(target=self.run, args=work) for work in works]
        for thread in threads:
            thread.start()
        self.ended.wait(seconds)
        faults = list(self.faults)
        at_the_end()
        self.ended.set()
        for thread in threads:
            thread.join()
        return faults


class Shown:
    """What the file is after each number of entries, by the plain model."""

    def __init__(self):
        self.model = LongModel()
        self.places = {(404, None): [0]}

    def add(self, entries, contents):
        """Adds entries to the log, each of which has to be accepted, over the files with these contents."""
        self.model.uploads.update((digest_of(content), content) for content in contents)
        for entry in entries:
            try:
                number = self.model.enter(entry)
            except Refused as refused:
                raise AssertionError(f"entry {len(self.model.entries) + 1} is refused by the plain model: {refused}") from None
            content = self.model.state().get(("one", 0, "/a.txt"))
            self.places.setdefault((404, None) if content is None else (200, content), []).append(number)

    def first(self, reply, least):
        """After how many entries the file is first what this reply says, of so many at least; None if it isn't."""
        status, body = reply
        numbers = self.places.get((status, body if status == 200 else None), [])
        at = bisect.bisect_left(numbers, least)
        return numbers[at] if at < len(numbers) else None

    def fault_of(self, looks):
        """The first look whose reply is of no state that is late enough: a connection's states never go back, nor behind what anyone was told before."""
        reached = {}
        for connection, told, reply in looks:
            least = max(reached.get(connection, 0), told)
            at = self.first(reply, least)
            if at is None:
                return f"{reply} is no state after {least} entries"
            reached[connection] = at
        return None
