"""SIGTERM and SIGINT to `filehost serve`, as ./filehost starts it: what has begun goes on, nothing else begins, and the program ends by itself.

A program that is started bare ends by the signal, as test_serve.py has it.
"""

import contextlib
import json
import os
import signal
import socket
import time

from lib.client import PATIENCE, PROGRAM, digest_of, request, sent
from lib.crowds import WHOLE, Plug
from lib.held_file import HeldFile
from lib.launched import Launched, limited_to
from lib.served import FILE, HOST, ask, publish, seconds_until_closed
from lib.stalls import Stalls
from lib.stores import opening_of, write_store
import journal

LARGE = bytes(range(256)) * 16_384
# The program looks at its signals four times a second. After so many seconds it has seen one.
SEEN = 0.6
# How many seconds what has begun has at most.
DRAIN = 10
# Within so many seconds a connection ends that is to end at once, and so does a program that nothing holds any more: each of two kinds of threads looks once a
# second.
SOON = 3.5


def all_received(plug):
    """What still comes over a connection, up to its end or a reset."""
    came = b""
    with contextlib.suppress(ConnectionError):
        while more := plug.recv(65_536):
            came += more
    return came


class Stops(Launched):
    """A program that was asked to end."""

    def begin(self, *words, second=WHOLE, **how):
        self.started = self.serve(*words, second=second, **how)
        self.stalls = Stalls(self.started.pid)

    def assert_ends(self, within, since, least=0, told=rb""):
        """The program ends by itself, with status 0, no later and no sooner than so many seconds after a mark. It has told no other lines than these."""
        mark, began = since
        self.assertEqual(self.started.wait(PATIENCE), 0)
        took = time.monotonic() - began
        self.assertLess(took, within + self.stalls.since(mark))
        self.assertGreater(took, least)
        self.assertEqual(self.started.stdout.read(), b"")
        self.assertRegex(self.started.stderr.read(), rb"\A(?:%s)*\Z" % told)

    def ask_to_end(self, by=signal.SIGTERM):
        """Asks the program to end, and answers when that was, once it has seen it."""
        asked = self.stalls.mark(), time.monotonic()
        self.started.send_signal(by)
        time.sleep(SEEN)
        return asked

    def download(self, node=0):
        """A connection over which a download has begun that its client doesn't read yet."""
        plug = Plug()
        self.addCleanup(plug.close)
        plug.come(self.port + node, request("GET", "/s/one/large"), room=4_096)
        self.assertEqual(plug.recv(1), b"H")
        return plug

    def assert_comes_slowly(self, plug):
        """The rest of the download comes whole, to a client that takes a second and a half for it; and then the end of the connection."""
        came, paused = bytearray(), 0
        while more := plug.recv(65_536):
            came += more
            if len(came) - paused > 65_536:
                paused = len(came)
                time.sleep(0.02)
        self.assertTrue(came.partition(b"\r\n\r\n")[2] == LARGE, f"{len(came)} bytes came")

    def test_downloads_go_on(self):
        self.begin(nodes=2)
        publish(self.client(), {"/large": LARGE})
        plugs = [self.download(node) for node in (0, 1)]
        asked = self.ask_to_end()
        for plug in plugs:
            self.assert_comes_slowly(plug)
        self.assert_ends(DRAIN, asked)

    def test_an_upload_goes_on_and_is_kept(self):
        store = self.folder()
        self.begin("--store", str(store))
        status, told = ask(self.client(), "POST", "/api/v1/sites/one/deploys", json.dumps({"files": {"/a.txt": digest_of(LARGE)}}))
        self.assertEqual(status, 200, told)
        asked = request("PUT", "/api/v1/deploys/1/files/a.txt", body=LARGE)
        plug = self.plug(asked[:2_000_000])
        begun = self.ask_to_end()
        plug.sendall(asked[2_000_000:])
        self.assertEqual(self.received(plug, 15), b"HTTP/1.1 200 OK")
        self.assert_ends(DRAIN, begun)
        self.begin("--store", str(store))
        self.assertEqual(ask(self.client(), "GET", FILE), (200, LARGE))

    def test_a_change_goes_on_and_is_kept(self):
        """One whose body has come half, and one that is being synced."""
        store, room = self.folder().resolve(), self.folder()
        held = HeldFile(room, store / "journal.2")
        held.open()
        self.begin("--store", str(store), environment=held.environment)
        publish(self.client(), {"/a.txt": b"first"})
        publish(self.client(), {"/a.txt": b"second"})
        held.close()
        asked = [request("POST", "/api/v1/sites/one/undo", body=json.dumps({"change": change}).encode()) for change in (4, 2)]
        syncing = self.plug(asked[0])
        held.wait("held")
        halved = self.plug(asked[1][:-3])
        begun = self.ask_to_end()
        self.assertIsNone(self.started.poll())
        held.open()
        self.assertEqual(self.received(syncing, 15), b"HTTP/1.1 200 OK")
        halved.sendall(asked[1][-3:])
        self.assertEqual(self.received(halved, 15), b"HTTP/1.1 200 OK")
        self.assert_ends(DRAIN, begun)
        self.assertEqual([entry[0] for entry in journal.read_in(store)], ["open", "publish"] * 2 + ["undo"] * 2)
        self.begin("--store", str(store))
        self.assertEqual(ask(self.client(), "GET", FILE)[0], 404)

    def test_a_head_of_which_a_part_has_come_goes_on(self):
        """That of a first request, and that of a second one."""
        self.begin()
        publish(self.client(), {"/a.txt": b"hello"})
        asked, wanted = request("GET", FILE), sent(b"hello")
        plugs = [self.plug(), self.plug(asked)]
        self.assert_receives(plugs[1], wanted)
        for plug in plugs:
            plug.sendall(asked[:10])
        begun = self.ask_to_end()
        # Idle connections have ended.
        time.sleep(SEEN)
        for plug in plugs:
            plug.sendall(asked[10:])
            self.assert_receives(plug, wanted)
        self.assert_ends(DRAIN, begun)

    def test_nothing_else_goes_on(self):
        """Idle connections end at once, and who comes then isn't answered."""
        self.begin(nodes=2)
        publish(self.client(), {"/large": LARGE, "/a.txt": b"hello"})
        plug, idle = self.download(), [self.plug(node=node) for node in (0, 1)]
        idle += [self.plug(request("GET", FILE), node=node) for node in (0, 1)]
        for one in idle[2:]:
            self.assertEqual(self.received(one, 15), b"HTTP/1.1 200 OK")
        asked = self.ask_to_end()
        late = []
        for node in (0, 0, 0, 1, 1, 1):
            one = socket.socket()
            self.addCleanup(one.close)
            one.settimeout(PATIENCE)
            if one.connect_ex((HOST, self.port + node)) == 0:
                one.sendall(request("GET", FILE))
                late.append(one)
        for one in idle:
            seconds_until_closed(one, PATIENCE)
        self.assertLess(time.monotonic() - asked[1], SOON + self.stalls.since(asked[0]))
        self.assertIsNone(self.started.poll())
        self.assert_comes_slowly(plug)
        self.assert_ends(DRAIN, asked)
        for one in late:
            self.assertEqual(all_received(one), b"")

    def test_a_program_that_nobody_uses_ends_at_once(self):
        for by in (signal.SIGTERM, signal.SIGINT):
            self.begin(nodes=2)
            self.assert_ends(SOON, self.ask_to_end(by))

    def test_an_account_of_many_groups_is_obeyed_too(self):
        """The system names the groups of a program before its signals. Only the administrator can give it more."""
        groups = range(4_000_000_000, 4_000_000_200) if os.geteuid() == 0 else os.getgroups()
        self.begin(preexec_fn=lambda: os.setgroups(groups) if os.geteuid() == 0 else None)
        self.assert_ends(SOON, self.ask_to_end())

    def test_a_second_signal_of_the_other_kind_ends_it_at_once(self):
        for first, second in ((signal.SIGTERM, signal.SIGINT), (signal.SIGINT, signal.SIGTERM)):
            with self.subTest(first):
                self.begin()
                publish(self.client(), {"/large": LARGE})
                plugs = [self.download(), self.plug(b"GET /s")]
                self.ask_to_end(first)
                self.ask_to_end(first)
                self.assertIsNone(self.started.poll())
                self.assert_ends(SOON, self.ask_to_end(second))
                del plugs

    def test_both_signals_at_once_end_it_at_once(self):
        """It sees both at its next look: that is twice."""
        self.begin()
        publish(self.client(), {"/large": LARGE})
        plugs = [self.download(), self.plug(b"GET /s")]
        self.started.send_signal(signal.SIGTERM)
        self.assert_ends(SOON, self.ask_to_end(signal.SIGINT))
        del plugs

    def test_what_never_moves_holds_it_for_ten_seconds(self):
        """They are real ones, and no deadlines: a second of those is short here."""
        self.begin(second=WHOLE // 10)
        publish(self.client(), {"/large": LARGE})
        plug = self.download()
        self.assert_ends(DRAIN + SOON, self.ask_to_end(), least=DRAIN)
        plug.close()

    def test_a_signal_is_seen_though_no_descriptor_is_left(self):
        """Silent clients and nodes have all of them, and more want one."""
        limit, ports = 80, (8, 9, 0, 1)
        self.begin(nodes=2, **limited_to(limit))
        plugs = [self.plug(node=node) for node in ports for _ in range(20)]
        until = time.monotonic() + PATIENCE
        # Two workers of a port may each have found none for one client: then one is left, since two connections went.
        while len(os.listdir(f"/proc/{self.started.pid}/fd")) < limit - len(ports):
            self.assertLess(time.monotonic(), until)
            time.sleep(0.01)
        self.assert_ends(SOON, self.ask_to_end(), told=rb"filehost: \S+ descriptors: [^\n]*\n")
        del plugs

    def test_ends_while_it_opens_a_store(self):
        """So it does without a line; a program that is started bare ends by the signal."""
        store, contents = self.folder().resolve() / "store", {f"/{number}": b"content %d" % number for number in range(20)}
        write_store(store, [opening_of(contents), ("publish", "one", 1)], *contents.values())
        first = min(file.name for file in store.iterdir() if file.name.startswith("t-"))
        for command, by, status in (
            (self.command, signal.SIGTERM, 0), (self.command, signal.SIGINT, 0), ((PROGRAM,), signal.SIGTERM, -signal.SIGTERM)
        ):
            with self.subTest((command, by)):
                held = HeldFile(self.folder(), store / first)
                self.command = command
                started = self.start("--store", str(store), environment=held.environment)
                held.wait("opened", "held")
                started.send_signal(by)
                # It looks once a second meanwhile.
                time.sleep(1.1)
                held.open()
                self.assertEqual(started.communicate(timeout=PATIENCE), (b"", b""))
                self.assertEqual(started.returncode, status)
