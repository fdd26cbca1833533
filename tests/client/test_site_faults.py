"""The client `site` over a bad network: requests and replies that are lost, hosts that are busy, close, or answer nonsense.

A front hands requests on to a real host, and does something else to those that a test chooses. What is counted is what the host did.
"""

import json
import socketserver
import threading
import unittest
from unittest import mock

from lib.faulty_front import HANG_UP, LOSE_REPLY, LOSE_REQUEST, PASS, Front, answer
from lib.served import ask, publish
from lib.site_runs import SiteRuns, kinds

from filehost_client import Host, connection

DEPLOYS = "/api/v1/sites/one/deploys"
BUSY = answer("503 Service Unavailable", b'{"error":"OutOfMemory"}', "application/json")
GATEWAY = answer("502 Bad Gateway", b"<html>", "text/html")


class Faults(SiteRuns):
    def setUp(self):
        super().setUp()
        self.start_host()
        self.write({"/a": b"a", "/b": b"b", "/c": b"c"})

    def stand_before(self, judge=None, **how):
        """Lets the client reach the host through a front."""
        front = Front(self.port, judge, **how)
        self.addCleanup(front.end)
        self.address = f"http://127.0.0.1:{front.port}"
        return front

    def do_once(self, method, part, done):
        """A judge that does this to the first request of a method and a part of its target."""
        found = []

        def judge(asked, target, _):
            if asked == method and part in target and not found:
                found.append(target)
                return done
            return PASS

        judge.found = found
        return judge


class SentAgain(Faults):
    def test_reads_and_uploads_are_sent_again_until_there_is_an_answer(self):
        for number, done in enumerate((BUSY, GATEWAY, HANG_UP, LOSE_REQUEST, LOSE_REPLY, 0, 30)):
            for method, part in (("HEAD", "/s/"), ("PUT", "/files/")):
                with self.subTest(done=done, method=method):
                    # The host knows none of these contents.
                    files = {path: f"{path} {method} {number}".encode() for path in ("/a", "/b", "/c")}
                    self.write(files)
                    site = f"{method.lower()}-{number}"
                    publish(self.client(), {"/other": b"other"}, site)
                    judge = self.do_once(method, part, done)
                    self.stand_before(judge)
                    told = self.told("push", "--site", site, self.place)
                    self.assertEqual(len(judge.found), 1)
                    self.assertEqual((told["new"], told["sent_files"], kinds(self.changes(site))), (3, 3, ["open", "publish"] * 2))
                    self.assert_serves(files, site)

    def test_a_proxy_that_ends_each_connection_after_a_reply_only_costs_time(self):
        front = self.stand_before(lambda method, target, count: PASS)
        original = front.finish_request

        def one_request(request, client_address):
            request.settimeout(5)
            original(request, client_address)

        front.finish_request = one_request
        self.write({f"/{number}": b"%d" % number for number in range(30)})
        self.assertEqual(self.told("push", self.place)["new"], 33)

    def test_a_busy_host_is_told_once_and_then_ends_the_command(self):
        front = self.stand_before(lambda method, target, count: BUSY if method == "PUT" else PASS)
        status, out, errors = self.site("push", self.place, "--retry", "1")
        self.assertEqual((status, out), (3, ""))
        self.assertEqual(errors.count("trying again for 1 s"), 1)
        self.assertIn("can't be reached: the host ran out of memory (OutOfMemory), tried again for 1 s", errors)
        self.assertRegex(errors, r"deploy 1 is open; what was uploaded isn't sent again\. Go on: site push ")
        self.assertEqual(kinds(self.changes()), ["open"])
        # The next run ends that deploy, and goes on.
        front.judge = lambda method, target, count: PASS
        status, _, errors = self.site("push", self.place)
        self.assertEqual(status, 0)
        self.assertIn("cancelled deploy 1, which the last run left open", errors)
        self.assertEqual(kinds(self.changes()), ["open", "cancel", "open", "publish"])


class OneByOne(unittest.TestCase):
    """A proxy that takes a request only after the reply to the one before: what comes earlier is lost."""

    def test_is_asked_one_by_one_once_that_is_known(self):
        digest, taken = "5" * 40, []

        class Handler(socketserver.BaseRequestHandler):
            def handle(self):
                while came := self.request.recv(65_536):
                    taken.append(came.count(b"HEAD "))
                    self.request.sendall(answer("200 OK", b"", "text/plain", f'ETag: "{digest}"'))

        class Proxy(socketserver.ThreadingTCPServer):
            daemon_threads = True

        with Proxy(("127.0.0.1", 0), Handler) as proxy, mock.patch.object(connection, "REPLY_SECONDS", 0.3):
            threading.Thread(target=proxy.serve_forever, kwargs={"poll_interval": 0.05}, daemon=True).start()
            site = Host(f"http://127.0.0.1:{proxy.server_address[1]}").site("one")
            paths = [f"/{number}" for number in range(20)]
            self.assertEqual(site.digests(paths), dict.fromkeys(paths, digest))
            proxy.shutdown()
        self.assertEqual(taken, [20] + [1] * 19)


class Changes(Faults):
    """Requests that make a change are carried out once, whatever is lost."""

    def deployed(self):
        """A whole site, with an alias and a draft."""
        self.address = f"http://127.0.0.1:{self.port}"
        self.assert_done("deploy", self.place, "--alias", "old")
        self.assert_done("deploy", self.place, "--draft")

    WORDS = (
        (("undo", "3"), "/undo", "undo"), (("restore", "1"), "/restore", "restore"), (("alias", "new", "1"), "/aliases/", "alias"),
        (("alias", "old", "--remove"), "/aliases/", "unalias"), (("mv", "/a", "/d"), "/rename", "rename"), (("rm", "/b"), "/files/", "remove"),
        (("cancel", "4"), "/cancel", "cancel"),
    )

    def test_are_made_once_where_the_request_or_the_reply_was_lost(self):
        self.deployed()
        for number, (words, part, kind) in enumerate(self.WORDS):
            method = {"alias": "PUT", "unalias": "DELETE", "remove": "DELETE"}.get(kind, "POST")
            for done in ((LOSE_REQUEST, 20) if number % 2 else (LOSE_REPLY, GATEWAY)):
                with self.subTest(words=words, done=done):
                    before = self.changes()
                    judge = self.do_once(method, part, done)
                    front = self.stand_before(judge)
                    status, _, errors = self.site(*words)
                    self.assertEqual((status, len(judge.found)), (0, 1), errors)
                    self.assertEqual(kinds(self.changes()[len(before):]), [kind])
                    self.assertEqual(front.count(method), 1 if done in (LOSE_REPLY, 20) else 2)
                    # The host is put back to where it was.
                    undone = json.dumps({"change": self.changes()[-1]["entry"]})
                    if kind != "undo":
                        self.assertEqual(ask(self.client(), "POST", "/api/v1/sites/one/undo", undone)[0], 200)
                    else:
                        self.assertEqual(ask(self.client(), "PUT", "/api/v1/sites/one/aliases/old", '{"deploy":1}')[0], 200)
                        words = ("undo", str(self.changes()[-1]["entry"]))

    def test_an_opening_is_made_once_and_its_deploy_goes_on(self):
        for done, posts in ((LOSE_REQUEST, 2), (LOSE_REPLY, 1)):
            for words in (["push"], ["deploy"], ["push", "--draft"]):
                with self.subTest(done=done, words=words):
                    site = f"{posts}-{'-'.join(words)}"
                    judge = self.do_once("POST", "/deploys", done)
                    front = self.stand_before(judge)
                    told = self.told(*words, "--site", site, self.place)
                    self.assertEqual((len(judge.found), front.count("POST")), (1, posts))
                    wanted = ["open"] if told["draft"] else ["open", "publish"]
                    self.assertEqual(kinds(self.changes(site)), wanted)
                    numbers = [change["entry"] for change in self.changes(site)]
                    self.assertEqual([told["deploy"], told["change"]], (numbers + [None])[:2])

    def test_the_last_upload_of_a_patch_counts_though_its_reply_was_lost(self):
        self.write({"/only": b"only"})
        for path in ("a", "b", "c"):
            (self.place / path).unlink()
        judge = self.do_once("PUT", "/files/", LOSE_REPLY)
        front = self.stand_before(judge)
        told = self.told("push", self.place)
        self.assertEqual((told["deploy"], told["change"], front.count("PUT")), (1, 2, 2))
        self.assert_serves({"/only": b"only"})

    def test_a_command_that_can_not_tell_ends_with_three(self):
        """Another client makes a change of the same kind while the reply is lost."""
        self.deployed()

        def meddle(target, body=None, method="POST"):
            self.assertEqual(ask(self.client(), method, target, body)[0], 200)

        cases = (
            (("mv", "/a", "/d"), "/rename", lambda: meddle("/api/v1/sites/one/rename", '{"from":"/b","to":"/e"}')),
            (("restore", "1"), "/restore", lambda: meddle("/api/v1/sites/one/deploys/1/restore")),
            (("push", "--remove", "/c", self.place), "/deploys", lambda: meddle(DEPLOYS, '{"files":{"/o":"%s"}}' % ("0" * 40))),
        )
        (self.place / "c").unlink()
        for words, part, other in cases:
            with self.subTest(words=words):
                def judge(method, target, count, part=part, other=other, done=[]):
                    if method == "POST" and part in target and not done:
                        done.append(target)
                        other()
                        return LOSE_REPLY
                    return PASS

                front = self.stand_before(judge)
                self.assert_fails(3, "the reply was lost", "Look: site log", words=words)
                self.assertEqual(front.count("POST"), 1)

    def test_a_renaming_of_a_folder_whose_reply_was_lost_counts_by_its_page(self):
        self.write({"/with/index.html": b"page", "/with/a": b"a", "/without/a": b"b"})
        self.deployed()
        for folder, is_told in (("/with", True), ("/without", False)):
            with self.subTest(folder=folder):
                judge = self.do_once("POST", "/rename-folder", LOSE_REPLY)
                front = self.stand_before(judge)
                words = ("mv", f"{folder}/", f"{folder}-new/")
                if is_told:
                    self.assert_done(*words)
                else:
                    self.assert_fails(3, "the reply was lost", "Look: site log", words=words)
                self.assertEqual((len(judge.found), front.count("POST"), kinds(self.changes())[-1]), (1, 1, "rename-folder"))

    def test_a_change_of_another_kind_meanwhile_leaves_no_doubt(self):
        self.deployed()

        def judge(method, target, count, done=[]):
            if method == "POST" and "/rename" in target and not done:
                done.append(target)
                self.assertEqual(ask(self.client(), "DELETE", "/api/v1/sites/one/files/b")[0], 200)
                return LOSE_REPLY
            return PASS

        front = self.stand_before(judge)
        self.assert_done("mv", "/a", "/d")
        self.assertEqual((front.count("POST"), kinds(self.changes())[-2:]), (1, ["remove", "rename"]))

    def test_an_undo_that_stands_counts_as_done(self):
        """The first request is lost, is looked for in vain, and is carried out before the second one comes."""
        self.deployed()
        looks = []

        def judge(method, target, count):
            if method == "POST" and target.endswith("/undo"):
                return LOSE_REQUEST if count == 1 else PASS
            if target.endswith("/changes"):
                looks.append(target)
                if len(looks) == 3:
                    # Right after this look, the lost one gets through.
                    reply = answer("200 OK", ask(self.client(), "GET", target)[1], "application/json")
                    self.assertEqual(ask(self.client(), "POST", "/api/v1/sites/one/undo", '{"change":3}')[0], 200)
                    return reply
            return PASS

        self.stand_before(judge)
        before = len(self.changes())
        looks.append("so that the second look of the undo is the third one")
        self.assert_done("undo", "3")
        self.assertEqual(kinds(self.changes()[before:]), ["undo"])

    def test_a_proxy_that_lost_its_patience_leaves_the_outcome_open(self):
        """The host may still carry the request out, so it isn't sent again; an undo or another change that is there by then counts."""
        self.deployed()
        late = answer("504 Gateway Timeout", b"<html>", "text/html")
        front = self.stand_before(self.do_once("POST", "/rename", late))
        self.assert_fails(3, "isn't done yet, and may still be", "Look: site log", words=["mv", "/a", "/d"])
        self.assertEqual(front.count("POST"), 1)

        def judge(method, target, count):
            if method == "POST" and target.endswith("/rename"):
                self.assertEqual(ask(self.client(), "POST", target, '{"from":"/a","to":"/d"}')[0], 200)
                return late
            return PASS

        front = self.stand_before(judge)
        self.assert_done("mv", "/a", "/d")
        self.assertEqual((front.count("POST"), kinds(self.changes())[-2:]), (1, ["open", "rename"]))

    def test_a_disk_that_failed_is_told_and_nothing_is_sent_twice(self):
        self.deployed()
        reply = answer("503 Service Unavailable", b'{"error":"Device"}', "application/json")
        front = self.stand_before(self.do_once("POST", "/rename", reply))
        self.assert_fails(3, "can't say whether this was done", "disk failed, or is full", "site log", words=["mv", "/a", "/d"])
        self.assertEqual(front.count("POST"), 1)
        broken = answer("503 Service Unavailable", b'{"error":"Broken"}', "application/json")
        front = self.stand_before(self.do_once("POST", "/rename", broken))
        # Nothing was done then, so it is sent again.
        self.assert_done("mv", "/a", "/d")
        self.assertEqual((front.count("POST"), kinds(self.changes())[-1]), (2, "rename"))


class Nonsense(Faults):
    """What isn't a filehost, or says what none says, ends a command with 3 or 1 and one line; nothing is deployed."""

    REPLIES = (
        (b"SSH-2.0-OpenSSH_9.2\r\n\r\n", 3, "doesn't speak HTTP/1.1"),
        (b"HTTP/1.1 200 OK\r\nno colon\r\n\r\n", 3, "without a colon"),
        (b"HTTP/1.1 200 OK\r\nX: " + b"x" * 70_000 + b"\r\n\r\n", 3, "too long"),
        (b"HTTP/1.1 200 OK\r\nContent-Length: -1\r\n\r\n", 3, "its length is"),
        (b"HTTP/1.1 200 OK\r\nTransfer-Encoding: chunked\r\n\r\nzz\r\n", 3, "without a size"),
        (answer("200 OK", b"<html>a page</html>"), 3, "not as a filehost"),
        (answer("200 OK", b"[" * 100_000, "application/json"), 3, "not as a filehost"),
        (answer("200 OK", b'{"changes":[{"entry":"x"}]}', "application/json"), 3, "isn't one of a filehost"),
        (answer("200 OK", b" " * 5_000_000, "application/json"), 3, "longer than any"),
        (answer("404 Not Found", b"nothing here"), 3, "look at --host"),
        (answer("500 Internal Server Error", b"oops"), 3, "status 500"),
        (answer("301 Moved Permanently", b"", "text/html", "Location: https://elsewhere.example/\x1b[31m"), 2, "elsewhere.example"),
        (answer("401 Unauthorized", b""), 1, "asks for a login: --user"),
        (answer("403 Forbidden", b""), 1, "status 403"),
        (answer("413 Payload Too Large", b""), 1, "client_max_body_size"),
    )

    def test_in_place_of_the_list_of_changes(self):
        for reply, status, part in self.REPLIES:
            with self.subTest(reply[:60]):
                self.stand_before(lambda method, target, count, reply=reply: reply if target.endswith("/changes") else PASS)
                line = self.assert_fails(status, part, words=["push", self.place, "--retry", "0"])
                self.assertNotIn("\x1b", line)
        self.assertEqual(self.changes(), [])

    def test_in_place_of_the_state_of_a_file(self):
        publish(self.client(), {"/other": b"other"})
        for reply, status, part in ((answer("200 OK"), 3, "without a digest as its tag"), (answer("200 OK", b"", "text/html", 'ETag: "5f-1"'), 3, "--read"),
                                    (answer("403 Forbidden"), 1, "403"), (answer("302 Found", b"", "text/html", "Location: /login"), 2, "/login")):
            with self.subTest(reply):
                self.stand_before(lambda method, target, count, reply=reply: reply if method == "HEAD" else PASS)
                self.assert_fails(status, part, words=["push", self.place])
        self.assertEqual(kinds(self.changes()), ["open", "publish"])

    def test_in_place_of_the_reply_to_an_opening_or_an_upload(self):
        other = answer("200 OK", b'{"id":"1","published":null,"required":["%s"]}' % (b"0" * 40), "application/json")
        for method, reply in (("POST", answer("200 OK", b'{"id":[]}', "application/json")), ("POST", other), ("PUT", answer("200 OK", b"{}", "application/json"))):
            with self.subTest(method=method, reply=reply):
                self.stand_before(lambda asked, target, count, method=method, reply=reply: reply if asked == method else PASS)
                status, out, errors = self.site("push", self.place)
                self.assertEqual((status, out), (3, ""), errors)
        self.assert_serves({"/a": None})

    def test_chunked_replies_of_a_proxy_are_read(self):
        """A proxy may send replies so, and its own fields with them."""
        def judge(method, target, count):
            if not target.endswith("/changes"):
                return PASS
            body = ask(self.client(), "GET", target)[1]
            chunks = b"".join(b"%x;a=b\r\n%s\r\n" % (len(body[start:start + 7]), body[start:start + 7]) for start in range(0, len(body), 7))
            return b"HTTP/1.1 103 Early Hints\r\n\r\nHTTP/1.1 200 OK\r\nTransfer-Encoding: chunked\r\nVia: x\r\n\r\n" + chunks + b"0\r\nTrailer: x\r\n\r\n"

        self.stand_before(judge)
        self.assert_done("push", self.place)
        self.assertEqual(len(self.told("log")["changes"]), 2)
