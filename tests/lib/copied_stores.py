"""Stores that operate/follow copies while hosts use them: the words that it is called with, and rounds of copies, some of which are killed."""

import json
import os
import pathlib
import random
import subprocess
import sys
import threading
import time

from lib.client import PROGRAM, SECONDS, TOP
from lib.many_clients import ManyClients
from lib.served import Served, ask
from lib.stores import entry_of
import journal

FOLLOW, CHECK, WHY = (str(TOP / "operate" / name) for name in ("follow", "check-store", "why"))


def call(*words, **how):
    """The status of a script, and what it prints on standard output and on standard error."""
    ran = subprocess.run([sys.executable, "-B", *map(str, words)], stdin=subprocess.DEVNULL, capture_output=True, text=True, timeout=SECONDS, **how)
    return ran.returncode, ran.stdout, ran.stderr


class CopiedStores(Served):
    """Tests over a store and a copy of it."""

    # More words of operate/follow; the store is then given by another name.
    words, prefix = (), ""

    def setUp(self):
        self.room = self.folder()
        self.store, self.copy = self.room / "store", self.room / "copy"
        self.store.mkdir()

    def follow(self, *more, **how):
        return call(FOLLOW, f"{self.prefix}{self.store}", self.copy, *self.words, *more, **how)

    def assert_copied(self, *more):
        status, out, errors = self.follow(*more)
        self.assertEqual((status, errors), (0, ""))
        return out

    def assert_refused(self, *parts, more=(), words=None):
        """A copy isn't made, for a reason in one line that has these parts; what is copied stays as it is."""
        before = self.files_of(self.copy)
        status, out, errors = call(FOLLOW, *words) if words else self.follow(*more)
        self.assertEqual((status, out, len(errors.splitlines())), (1, "", 1), errors)
        for part in ("operate/follow: ", *parts):
            self.assertIn(part, errors)
        self.assertEqual(self.files_of(self.copy), before)

    def files_of(self, folder):
        return {file.name: file.read_bytes() for file in folder.iterdir() if file.is_file()} if folder.is_dir() else {}

    def assert_opens(self, folder):
        """A store opens; returns what is said of it."""
        status, out, errors = call(CHECK, folder, "--program", PROGRAM)
        self.assertEqual((status, errors), (0, ""))
        return out

    def entries_of(self, folder):
        return [entry_of(told) for told in journal.read_in(folder)]

    def serve_store(self, folder):
        """Starts a host with two nodes over a folder; returns it and the seconds until it answers."""
        began = time.monotonic()
        started = self.serve("--store", str(folder), nodes=2)
        self.assertEqual(ask(self.client(), "GET", "/api/v1/sites/one/changes")[0], 200)
        return started, time.monotonic() - began


class PacedClients(ManyClients):
    """They go on only while they may, so that the store doesn't grow while a copy is looked at."""

    def __init__(self, client_of):
        super().__init__(client_of)
        self.may = threading.Event()

    def publish(self, client, content):
        self.may.wait()
        return super().publish(client, content)

    def look(self, client, connection):
        self.may.wait()
        super().look(client, connection)


class Load:
    """Deployers, who also undo, and readers of a host, until they are ended. A kill of the host ends them too."""

    def __init__(self, test):
        self.clients = PacedClients(test.client)

    def begin(self, seed):
        self.thread = threading.Thread(target=self.clients.go, args=(SECONDS, seed))
        self.thread.start()

    def end(self):
        self.clients.ended.set()
        self.clients.may.set()
        self.thread.join()

    def told(self):
        """The entries that someone was told of, by their numbers."""
        return dict(self.clients.entries)


class Rounds:
    """Copies of a store under load, of which many are killed, and now and then the host is too. `test` is of CopiedStores."""

    def __init__(self, test, seed):
        self.test, self.random = test, random.Random(seed)
        self.longest, self.copied, self.kills, self.switches = 0.3, 0, 0, []
        # What the last whole copy has to have.
        self.wanted = {}

    def go(self, count):
        load = Load(self.test)
        try:
            self.go_under(load, count)
        finally:
            # Clients that go on would hold the test, whatever it has found.
            load.end()

    def go_under(self, load, count):
        host, _ = self.test.serve_store(self.test.store)
        load.begin(0)
        for number in range(count):
            load.clients.may.set()
            time.sleep(0.05)
            self.copy_once(load, is_killed=number % 4 != 3)
            if number % 10 == 9 or number == count - 1:
                self.test.end(host)
                load.end()
                self.switch()
                host, _ = self.test.serve_store(self.test.store)
                load.begin(number)

    def copy_once(self, load, is_killed):
        """Copies, and looks whether the copy opens and has what it has to."""
        told, began = load.told(), time.monotonic()
        command = [sys.executable, "-B", FOLLOW, f"{self.test.prefix}{self.test.store}", str(self.test.copy), *map(str, self.test.words)]
        # A process group: what it starts goes with it.
        started = subprocess.Popen(command, stdout=subprocess.DEVNULL, stderr=subprocess.PIPE, start_new_session=True)
        with started.stderr:
            if is_killed:
                time.sleep(self.random.random() * self.longest * 1.1)
                os.killpg(started.pid, 9)
            status, errors = started.wait(SECONDS), started.stderr.read()
        load.clients.may.clear()
        if status == 0:
            self.longest, self.wanted, self.copied = time.monotonic() - began, told, self.copied + 1
        else:
            self.test.assertTrue(is_killed, errors)
            self.kills += 1
        if self.copied or (self.test.copy / journal.SLOTS[1]).exists():
            self.test.assert_opens(self.test.copy)
            self.look()

    def look(self):
        """The copy has each change that was told before the last whole copy began, and no other than the store."""
        entries = self.test.entries_of(self.test.copy)
        self.test.assertLessEqual(max(self.wanted, default=0), len(entries))
        self.test.assertEqual(entries, self.test.entries_of(self.test.store)[:len(entries)])
        for number, entry in self.wanted.items():
            self.test.assertEqual(entries[number - 1], entry)

    def switch(self):
        """Starts a host with the copy, in place of the one that was killed: its files are those of its last entries."""
        if not (self.test.copy / journal.SLOTS[1]).exists():
            return
        started, seconds = self.test.serve_store(self.test.copy)
        self.switches.append(seconds)
        changes = json.loads(ask(self.test.client(1), "GET", "/api/v1/sites/one/changes")[1])["changes"]
        self.test.assertEqual(changes[-1]["entry"], len(self.test.entries_of(self.test.copy)))
        self.test.assertIn(ask(self.test.client(), "GET", "/s/one/a.txt")[0], (200, 404))
        self.test.assertEqual(self.test.end(started, 15), -15)


def fake_ssh(folder):
    """A command in place of ssh, which runs what it is given on this machine."""
    file = pathlib.Path(folder) / "fake-ssh"
    # rsync gives the user and the name of the machine in words of their own.
    file.write_text('#!/bin/sh\nwhile [ "$1" != other ]; do shift; done\nshift\nexec sh -c "$*"\n')
    file.chmod(0o755)
    return file
