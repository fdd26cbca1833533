"""The client `site` sends folders to a host of two nodes: push, deploy, preview; what it sends, removes, keeps and says. Reads go to the other node."""

import json
import os

from lib.client import LARGEST_FILE
from lib.faulty_front import PASS, Front, answer
from lib.site_runs import SiteRuns, kinds

STRANGE = {
    "/index.html": b"<h1>Home</h1>", "/a b/50% + ü.txt": b"strange", "/empty": b"", "/same 1": b"twice", "/same 2": b"twice", "/%41": b"escape",
    "/~tilde'(1)!*;=,$&.txt": b"marks", "/.well-known/security.txt": b"known", "/日本/語.css": b"p {}",
}


class Pushes(SiteRuns):
    def setUp(self):
        super().setUp()
        self.start_host()

    def push(self, *words, **how):
        return self.told("push", *words, self.place, **how)

    def counts(self, told):
        return tuple(told[name] for name in ("new", "changed", "removed", "unchanged", "sent_files"))

    def test_sends_each_file_and_then_what_differs(self):
        self.write(STRANGE)
        told = self.push()
        # Equal contents are sent once.
        self.assertEqual(self.counts(told), (9, 0, 0, 0, 8))
        self.assertEqual((told["deploy"], told["change"]), (1, 2))
        self.assertEqual(told["address"], f"{self.address}/s/one/")
        self.assert_serves({"/a%20b/50%25%20+%20%C3%BC.txt": b"strange", "/empty": b"", "/same%202": b"twice", "/%2541": b"escape",
                            "/~tilde'(1)!*;=,$&.txt": b"marks", "/.well-known/security.txt": b"known", "/%E6%97%A5%E6%9C%AC/%E8%AA%9E.css": b"p {}"})
        self.write({"/index.html": b"<h1>New</h1>", "/same 1": b"other", "/new.txt": b"new"})
        told = self.push()
        self.assertEqual(self.counts(told), (1, 2, 0, 7, 3))
        self.assertEqual(told["paths"], {"new": ["/new.txt"], "changed": ["/index.html", "/same 1"], "removed": []})
        self.assert_serves({"/index.html": b"<h1>New</h1>", "/same%201": b"other", "/same%202": b"twice", "/new.txt": b"new"})

    def test_sends_nothing_where_nothing_differs(self):
        self.write(STRANGE)
        self.push()
        before = self.changes()
        told = self.push()
        self.assertEqual((self.counts(told), told["deploy"], told["change"]), ((0, 0, 0, 9, 0), None, None))
        self.assertEqual(self.changes(), before)
        self.assertEqual(self.assert_done("push", self.place), f"nothing differs: 9 files at {self.address}/s/one/\n")

    def test_can_be_taken_back_alone(self):
        self.write({"/a": b"a", "/b": b"b"})
        self.push()
        self.write({"/a": b"A"})
        first = self.push()["change"]
        self.write({"/b": b"B"})
        second = self.push()["change"]
        self.assert_done("undo", first)
        self.assert_serves({"/a": b"a", "/b": b"B"})
        self.assertEqual([change["entry"] for change in self.changes() if change["kind"] == "publish" and not change["live"]], [first])
        self.assertLess(first, second)

    def test_tells_what_happened_in_lines(self):
        self.write({"/a": b"a", "/b": b"b"})
        self.push()
        self.write({"/a": b"A", "/c": b"c"})
        lines = self.assert_done("push", self.place).splitlines()
        self.assertEqual(lines[:2], ["new      /c", "changed  /a"])
        self.assertRegex(lines[2], r"^1 new, 1 changed, 0 removed, 1 unchanged; 2 files sent, 2 B in \d+\.\d s$")
        self.assertEqual(lines[3:], ["deploy 3, change 4: `site undo 4` takes it back", f"{self.address}/s/one/"])

    def test_says_what_would_be_sent_and_sends_nothing(self):
        self.write({"/a": b"a"})
        out = self.assert_done("push", "--dry-run", self.place)
        self.assertEqual(out.splitlines(), ["new      /a", "1 new, 0 changed, 0 removed, 0 unchanged; nothing was sent (--dry-run)"])
        told = self.told("deploy", "--dry-run", self.place)
        self.assertEqual((told["new"], told["deploy"], told["dry_run"]), (1, None, True))
        self.assertEqual(self.changes(), [])

    def test_removes_only_what_it_put_there_itself(self):
        """Another client's file, and one that another client replaced, stay."""
        other = self.room / "other"
        other.mkdir()
        (other / "theirs").write_bytes(b"theirs")
        (other / "shared").write_bytes(b"shared")
        self.assert_done("push", other)
        # That the site has this one already isn't this folder's work.
        self.write({"/mine": b"mine", "/shared": b"shared", "/replaced": b"mine too", "/kept": b"kept"})
        self.push()
        (other / "replaced").write_bytes(b"theirs now")
        self.assert_done("push", other)
        for path in ("mine", "shared", "replaced"):
            (self.place / path).unlink()
        told = self.push("--delete")
        self.assertEqual(told["paths"]["removed"], ["/mine"])
        self.assert_serves({"/mine": None, "/theirs": b"theirs", "/shared": b"shared", "/replaced": b"theirs now", "/kept": b"kept"})

    def test_names_what_stays_and_removes_it_if_it_is_told_to(self):
        self.write({"/a": b"a", "/b": b"b", "/c": b"c"})
        self.push()
        (self.place / "b").unlink()
        status, out, errors = self.site("push", self.place)
        self.assertEqual((status, out.startswith("nothing differs")), (0, True))
        self.assertIn("1 file stays on the site that the folder no longer has: /b; --delete removes it", errors)
        self.assert_serves({"/b": b"b"})
        self.assertEqual(self.push()["stays"], ["/b"])
        told = self.push("--delete")
        self.assertEqual((told["paths"]["removed"], told["sent_files"]), (["/b"], 0))
        self.assert_serves({"/a": b"a", "/b": None, "/c": b"c"})
        self.assert_done("undo", told["change"])
        self.assert_serves({"/b": b"b"})

    def test_removes_the_paths_that_are_named(self):
        self.write({"/a": b"a", "/b": b"b"})
        self.push()
        (self.place / "b").unlink()
        told = self.push("--remove", "b", "--remove", "/not/there")
        self.assertEqual(told["paths"]["removed"], ["/b"])
        self.assert_serves({"/a": b"a", "/b": None})
        self.assert_fails(2, "--remove /a", "sent and removed at once", words=["push", "--remove", "a", self.place])

    def test_asks_on_a_terminal_before_it_removes(self):
        self.write({"/a": b"a", "/b": b"b"})
        self.push()
        (self.place / "b").unlink()
        for answered, served in ((b"\n", b"b"), (b"y\n", None)):
            with self.subTest(answered):
                started, terminal = self.begin_on_terminal("push", self.place)
                self.assertIn(b"remove from the site 1 file that the folder no longer has? /b [y/N]", self.shown_until(terminal, b"[y/N]"))
                os.write(terminal, answered)
                self.assertEqual(started.wait(60), 0)
                self.assert_serves({"/a": b"a", "/b": served})

    def test_leaves_a_draft_open_until_it_is_restored(self):
        self.write({"/a": b"a"})
        told = self.push("--draft")
        self.assertEqual((told["draft"], told["change"], kinds(self.changes())), (True, None, ["open"]))
        self.assert_serves({"/a": None})
        self.assert_done("restore", told["deploy"])
        self.assert_serves({"/a": b"a"})
        # What a draft put there is this folder's, from its publishing on.
        self.write({"/b": b"b"})
        (self.place / "a").unlink()
        self.assertEqual(self.push("--delete")["paths"]["removed"], ["/a"])

    def test_does_not_run_twice_at_once_over_one_folder(self):
        self.write({"/a": b"a"})
        self.push()
        (self.place / "a").unlink()
        self.write({"/b": b"b"})
        waiting, terminal = self.begin_on_terminal("push", self.place)
        self.shown_until(terminal, b"[y/N]")
        self.assert_fails(2, "another `site` is deploying", words=["push", self.place])
        # A run that is killed holds up no other one.
        waiting.kill()
        waiting.wait(60)
        self.assert_done("push", self.place)


class Deploys(SiteRuns):
    def setUp(self):
        super().setUp()
        self.start_host()

    def test_replaces_the_whole_site_and_can_be_restored(self):
        self.write({"/a": b"a", "/b": b"b"})
        first = self.told("deploy", self.place)
        self.assertEqual((first["deploy"], first["change"], first["new"], first["sent_files"]), (1, 2, 2, 2))
        (self.place / "a").unlink()
        self.write({"/b": b"B"})
        second = self.told("deploy", self.place)
        self.assertEqual((second["changed"], second["removed"], second["sent_files"]), (1, 1, 1))
        self.assert_serves({"/a": None, "/b": b"B"})
        self.assert_done("restore", first["deploy"])
        self.assert_serves({"/a": b"a", "/b": b"b"})
        self.assertEqual(self.get(f"/d/one/{second['deploy']}/b"), (200, b"B"))

    def test_lets_an_alias_name_it(self):
        self.write({"/a": b"a"})
        told = self.told("deploy", "--alias", "stable", self.place)
        self.assertEqual(told["alias"], "stable")
        self.assertEqual(self.get("/a/one/stable/a"), (200, b"a"))
        self.assertEqual(kinds(self.changes()), ["open", "publish", "alias"])
        self.assert_fails(2, "draft", words=["deploy", "--alias", "x", "--draft", self.place])
        self.assert_fails(2, "not the name of an alias", words=["deploy", "--alias", "X!", self.place])

    def test_a_preview_goes_to_a_second_site_and_spares_the_uploads(self):
        self.write({f"/{number}": b"%d" % number for number in range(20)})
        told = self.told("preview", self.place)
        self.assertEqual((told["site"], told["sent_files"], told["address"]), ("one-preview", 20, f"{self.address}/s/one-preview/"))
        self.assert_serves({"/7": b"7"}, "one-preview")
        self.assert_serves({"/7": None})
        told = self.told("push", self.place)
        self.assertEqual((told["new"], told["sent_files"], told["sent_bytes"]), (20, 0, 0))
        self.assert_serves({"/7": b"7"})
        self.assert_fails(2, "can't have a preview", "over 63 characters", words=["preview", "--site", "a" * 56, self.place])
        self.assert_done("preview", "--site", "a" * 55, self.place)

    def test_tells_all_refusals_before_anything_is_sent(self):
        self.write({"/fine": b"", "/a#b": b"", "/a?b": b"", "/large": bytes(LARGEST_FILE + 1), "/back\\slash": b""})
        (self.place / os.fsdecode(b"\xff")).write_bytes(b"")
        status, out, errors = self.site("deploy", self.place)
        self.assertEqual((status, out, len(errors.splitlines())), (2, "", 5))
        for part in ("/a#b: its name has a #", "/a?b: its name has a ?", "/back\\slash", "isn't UTF-8", "/large has 16,777,217 bytes", "rename it", ".siteignore"):
            self.assertIn(part, errors)
        told = self.told("push", self.place, status=2)
        self.assertEqual((told["error"], self.changes()), ("Unfit", []))

    def test_takes_the_largest_file_and_refuses_too_many(self):
        content = os.urandom(LARGEST_FILE)
        self.write({"/large": content})
        self.assertEqual(self.told("deploy", self.place)["sent_bytes"], LARGEST_FILE)
        self.assert_serves({"/large": content})
        for number in range(10_000):
            (self.place / str(number)).write_bytes(b"")
        self.assert_fails(2, "10,001 files", "10,000", words=["deploy", self.place])
        self.assert_fails(2, "10,001 paths", "10,000", words=["push", "--site", "two", self.place])

    def test_refuses_a_list_that_is_too_long_and_a_folder_without_files(self):
        empty = self.room / "empty"
        empty.mkdir()
        self.assert_fails(2, "no file to deploy", words=["deploy", empty])
        self.assert_fails(2, "no file to deploy", words=["push", "--delete", empty])
        self.assert_fails(2, "there is no folder", words=["push", self.room / "none"])
        below = self.place.joinpath(*["d" * 200] * 4)
        below.mkdir(parents=True)
        for number in range(4_000):
            (below / f"{number:0>200}").write_bytes(b"")
        self.assert_fails(2, "the list of the files", "4,194,304", words=["push", self.place])
        # With all other refusals, before any file is read.
        self.write({"/a#b": b""})
        status, _, errors = self.site("deploy", self.place)
        self.assertEqual((status, len(errors.splitlines())), (2, 2), errors)
        self.assertIn("the list of the files", errors)
        self.assertEqual(self.changes(), [])

    def test_a_deploy_whose_alias_can_not_be_set_stands(self):
        self.write({"/a": b"a"})
        front = Front(self.port, lambda method, target, count: answer("403 Forbidden") if "/aliases/" in target else PASS)
        self.addCleanup(front.end)
        self.address = f"http://127.0.0.1:{front.port}"
        status, _, errors = self.site("deploy", "--alias", "next", self.place)
        self.assertEqual(status, 1)
        self.assertEqual(errors.splitlines()[0], "site: deploy 1, change 2 is published, and the alias next isn't set")
        self.assert_serves({"/a": b"a"})

    def test_keeps_a_record_that_may_be_damaged_or_lost(self):
        self.write({"/a": b"a", "/b": b"b"})
        self.told("push", self.place)
        records = sorted((self.room / ".local/state/filehost-site/folders").glob("*.json"))
        self.assertEqual(len(records), 1)
        self.assertEqual(sorted(json.loads(records[0].read_text())["files"]), ["/a", "/b"])
        (self.place / "b").unlink()
        for damage in ("{", "[]", '{"files": [1], "open": "x", "drafts": 3}'):
            records[0].write_text(damage)
            told = self.told("push", "--delete", self.place)
            self.assertEqual((told["removed"], told["stays"]), (0, []))
        self.assert_serves({"/b": b"b"})
