"""The client `site` with a host of two nodes: what its other commands do and say, the hints where two numbers are mixed up, and each exit status."""

import json
import subprocess
import sys

from lib.client import TOP
from lib.served import HOST, ask, free_ports
from lib.site_runs import SiteRuns, kinds


class Commands(SiteRuns):
    def setUp(self):
        super().setUp()
        self.start_host()
        self.write({"/a": b"a", "/b": b"b"})

    def test_undo_names_what_is_in_its_way_in_words(self):
        first = self.told("push", self.place)["change"]
        self.write({"/a": b"A"})
        second = self.told("push", self.place)["change"]
        self.assert_fails(1, f"change {second} (publish) touches /a, which change {first} wrote; undo {second} first", words=["undo", first])
        told = self.told("undo", first, status=1)
        self.assertEqual((told["error"], told["change"], told["cell"]), ("Clash", second, "live /a"))
        undone = self.told("undo", second)
        self.assertEqual((undone["undone"], undone["change"]), (second, second + 1))
        self.assert_done("undo", first)
        self.assert_serves({"/a": None, "/b": None})

    def test_a_clash_at_an_alias_and_at_a_deploy_is_told_in_words(self):
        told = self.told("deploy", self.place, "--alias", "next")
        self.assert_fails(1, f"change 3 (alias) uses deploy 1, which change {told['change']} published or removed; undo 3 first", words=["undo", 2])
        self.assert_done("alias", "next", "1")
        self.assert_fails(1, "change 4 (alias) sets or reads the alias next, which change 3 set; undo 4 first", words=["undo", 3])

    def test_the_number_of_a_deploy_for_that_of_its_change_gets_a_hint(self):
        told = self.told("push", self.place)
        self.assert_fails(1, f"1 is the number of a deploy, and change {told['change']} published it: site undo 2", words=["undo", told["deploy"]])

    def test_the_number_of_a_change_for_that_of_its_deploy_gets_a_hint(self):
        self.told("deploy", self.place)
        self.assert_fails(1, "2 is the number of the change that published deploy 1: give 1", words=["restore", 2])
        self.assert_fails(1, "2 is the number of the change that published deploy 1: give 1", words=["alias", "x", 2])
        # Another client doesn't know the deploy.
        self.assert_fails(1, "2 is the number of a change, and this takes that of a deploy", words=["restore", 2], variables={"XDG_STATE_HOME": str(self.room / "x")})

    def test_undos_that_can_not_be_are_told_in_words(self):
        change = self.told("push", self.place)["change"]
        self.assert_done("undo", change)
        self.assert_fails(1, f"change {change} is undone already, by change 3 (AlreadyUndone)", words=["undo", change])
        self.assert_fails(1, "NotAChange", words=["undo", 3])
        self.assert_fails(1, "one has no change 99", words=["undo", 99])

    def test_log_lists_the_last_changes_with_both_numbers(self):
        self.assertEqual(self.assert_done("log"), "one has no changes\n")
        self.assert_done("push", self.place)
        self.assert_done("mv", "/a", "c")
        self.assert_done("undo", 3)
        self.assertEqual(self.assert_done("log").splitlines(), [
            "4  undo     of change 3", "3  rename   undone", "2  publish  live           deploy 1, change 2", "1  open     live           deploy 1, change 2",
        ])
        self.assertEqual(self.assert_done("log", "-n", 1), "4  undo     of change 3\n")
        told = self.told("log")["changes"]
        self.assertEqual([(line["change"], line["kind"], line["live"], line["undoes"], line["deploy"]) for line in told],
                         [(4, "undo", True, 3, None), (3, "rename", False, None, None), (2, "publish", True, None, 1), (1, "open", True, None, 1)])

    def test_status_says_what_differs_and_which_change_was_the_last(self):
        self.assert_done("push", self.place)
        self.write({"/a": b"A", "/new": b"new"})
        (self.place / "b").unlink()
        out = self.assert_done("status", self.place)
        self.assertEqual(out.splitlines(), [
            f"{self.address} answers; the last change of one is 2 (publish; deploy 1, change 2)", "new      /new", "changed  /a", "gone     /b",
            "1 new, 1 changed, 1 gone from the folder, 0 unchanged",
        ])
        told = self.told("status", self.place)
        self.assertEqual((told["answers"], told["new"], told["changed"], told["gone"], told["last"]["change"]), (True, 1, 1, 1, 2))
        self.assertEqual(len(self.assert_done("status").splitlines()), 1)

    def test_status_ends_with_three_where_no_host_answers(self):
        self.address = f"http://{HOST}:{free_ports()}"
        self.assert_fails(3, "can't be reached", "Connection refused", words=["status"])
        told = self.told("status", status=3)
        self.assertEqual(told["error"], "Unreachable")

    def test_restore_serves_a_deploy_again(self):
        self.told("deploy", self.place)
        self.write({"/a": b"A"})
        self.told("deploy", self.place)
        told = self.told("restore", 1)
        self.assertEqual((told["deploy"], told["change"], told["address"]), (1, 5, f"{self.address}/s/one/"))
        self.assert_serves({"/a": b"a"})
        self.assert_fails(1, "keeps no deploy 77", words=["restore", 77])

    def test_restore_says_that_a_push_is_not_kept(self):
        told = self.told("push", self.place)
        self.assert_fails(1, "or is a push, which isn't kept", words=["restore", told["deploy"]])

    def test_alias_is_set_moved_shown_and_removed(self):
        self.assertIn("has set no alias", self.assert_done("alias"))
        self.told("deploy", self.place)
        told = self.told("alias", "next", 1)
        self.assertEqual((told["deploy"], told["change"], told["address"]), (1, 3, f"{self.address}/a/one/next/"))
        self.assertEqual(self.get("/a/one/next/a"), (200, b"a"))
        self.assertEqual(self.assert_done("alias"), f"next  deploy 1, as this client set it  {self.address}/a/one/next/\n")
        self.assertEqual(self.assert_done("alias", "next"), f"next  deploy 1, as this client set it  {self.address}/a/one/next/\n")
        self.assertIn("that this client doesn't know", self.assert_done("alias", "next", variables={"XDG_STATE_HOME": str(self.room / "x")}))
        self.assert_fails(1, "the alias next names deploy 1", "site alias next --remove", words=["delete", 1])
        self.assert_done("alias", "--remove", "next")
        self.assertEqual(self.get("/a/one/next/a")[0], 404)
        self.assert_fails(1, "one has no alias next", words=["alias", "next"])
        self.assert_fails(1, "NoSuchAlias", words=["alias", "next", "--remove"])
        self.assert_fails(2, "--remove takes the name of one alias", words=["alias", "--remove"])
        self.assert_done("delete", 1)
        self.assertEqual(kinds(self.changes())[-2:], ["unalias", "delete"])

    def test_mv_and_rm_change_one_file_each(self):
        self.assert_done("push", self.place)
        self.assertEqual(self.assert_done("mv", "a", "/c d/ü"), "/a is now /c d/ü, by change 3: `site undo 3` takes that back\n")
        self.assert_serves({"/a": None, "/c%20d/%C3%BC": b"a"})
        self.assert_fails(1, "PathTaken", words=["mv", "b", "/c d/ü"])
        self.assertEqual(self.told("rm", "/c d/ü")["change"], 4)
        self.assert_serves({"/c%20d/%C3%BC": None, "/b": b"b"})
        self.assert_fails(1, "NoSuchFile", words=["rm", "/c d/ü"])
        self.assert_fails(2, "can't be on a site", words=["rm", "a#b"])
        self.assert_fails(2, "can't be on a site", words=["mv", "a", "b/../c"])

    def test_mv_renames_a_folder_whose_path_ends_in_a_slash(self):
        self.assert_done("push", self.place)
        self.assert_done("mv", "a", "/d/x")
        self.assert_done("mv", "b", "/d/y/z")
        self.assertEqual(self.assert_done("mv", "/d/", "e/f"), "/d/ is now /e/f/, by change 5: `site undo 5` takes that back\n")
        self.assert_serves({"/d/x": None, "/e/f/x": b"a", "/e/f/y/z": b"b"})
        self.assertEqual(self.told("mv", "e/", "/g/")["to"], "/g/")
        self.assert_serves({"/g/f/x": b"a", "/g/f/y/z": b"b"})
        self.assertEqual(kinds(self.changes())[-2:], ["rename-folder", "rename-folder"])
        self.assert_fails(1, "NoSuchFile", words=["mv", "/d/", "/h"])
        self.assert_fails(1, "one of the two folders is in the other", words=["mv", "/g/", "/g/h"])
        self.assert_fails(1, "choose a shorter name", words=["mv", "/g/", "/" + 1_023 * "a"])
        self.assert_fails(2, "can't be on a site", words=["mv", "/", "/h"])
        self.assert_fails(2, "can't be on a site", words=["mv", "/g/f/x", "/h/"])

    def test_cancel_and_delete_take_deploys_of_their_site_alone(self):
        draft = self.told("push", "--draft", self.place)["deploy"]
        self.assert_fails(2, f"deploy {draft} is one of the site one: --site one", words=["cancel", draft, "--site", "two"])
        self.assert_done("cancel", draft)
        self.assert_fails(1, "isn't open", words=["cancel", draft])
        self.assert_fails(1, "NoSuchDeploy", words=["cancel", 50])
        kept = self.told("deploy", self.place)["deploy"]
        self.assert_fails(2, "--site one", words=["delete", kept, "--site", "two"])
        self.assert_done("delete", kept)
        self.assert_fails(1, "NoSuchDeploy", words=["restore", kept])

    def test_get_reads_what_is_served_or_what_a_deploy_has(self):
        self.told("deploy", self.place)
        self.write({"/a": b"newer"})
        self.told("push", self.place)
        self.assertEqual(self.assert_done("get", "a"), "newer")
        self.assertEqual(self.assert_done("get", "/a", "--deploy", 1), "a")
        self.assert_done("get", "a", "-o", "here")
        self.assertEqual((self.room / "here").read_bytes(), b"newer")
        self.assert_fails(1, "one has no file /x", words=["get", "x"])
        self.assert_fails(1, "deploy 1 has no file /x", words=["get", "x", "--deploy", 1])
        self.assert_fails(1, "keeps no deploy 9", words=["get", "a", "--deploy", 9])
        self.assert_fails(2, "-o FILE", words=["get", "a", "--resume"])
        self.assert_fails(2, "can't be written", words=["get", "a", "-o", "/no/such/folder/a"])

    def test_is_a_library_for_other_scripts(self):
        script = """
import hashlib, sys
from filehost_client import Host, Refused
site = Host(sys.argv[1]).site("library")
digest = hashlib.sha1(b"hello").hexdigest()
deploy = site.open({"/a.txt": digest})
assert deploy.required == [digest] and deploy.published is None
deploy.upload("/a.txt", b"hello")
assert site.digest("a.txt") == digest and site.digests(["/a.txt", "/b"]) == {"/a.txt": digest}
try:
    site.undo(deploy.number)
except Refused as error:
    assert error.reason == "Clash" and error.details["change"] == deploy.published
print(site.address("/a.txt"), [change.kind for change in site.changes()], site.undo(deploy.published))
"""
        environment = {"PYTHONPATH": str(self.room / "packed/site")}
        subprocess.run([sys.executable, "-S", TOP / "scripts/pack-site", "--into", self.room / "packed"], check=True, capture_output=True, timeout=60)
        ran = subprocess.run([sys.executable, "-S", "-c", script, self.address], capture_output=True, text=True, timeout=60, env=environment)
        self.assertEqual((ran.returncode, ran.stdout), (0, f"{self.address}/s/library/a.txt ['open', 'publish'] 3\n"), ran.stderr)
        # The packed file is the command too.
        ran = subprocess.run([self.room / "packed/site", "log", "--site", "library", "--json"], capture_output=True, text=True, timeout=60, env=self.environment())
        self.assertEqual([line["kind"] for line in json.loads(ran.stdout)["changes"]], ["undo", "publish", "open"])
        ran = subprocess.run([self.room / "packed/site", "push", self.place], capture_output=True, text=True, timeout=60, env=self.environment())
        self.assertEqual((ran.returncode, ran.stderr), (0, ""))
        self.assertEqual(ask(self.client(1), "GET", "/s/one/a"), (200, b"a"))
