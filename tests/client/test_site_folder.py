"""Which files of a folder the client `site` takes, and how it hashes them: hidden names, links, special files, `.siteignore` by git's own rules, and the
cache of digests."""

import hashlib
import json
import os
import pathlib
import random
import shutil
import subprocess
import sys
import tempfile
import time
import unittest
from unittest import mock

from lib.site_runs import SiteRuns

from filehost_client import digests, folder, kept_files
from filehost_client.errors import Unfit, WrongWords

PATTERNS = """
*.map
!keep.map
/top.txt
sub/only.txt
build/
**/deep
a/**/z
logs/**
!logs/keep/
*.t[mx]p
[!a-c]?.log
\\#hash
\\!bang
# a comment
trailing\\ 
spaces   
**/*.bak
/x/*
!/x/y
f*o
[[:digit:]][[:digit:]]
b\\*r
[
no[close
]odd
a[]]b
"""
NAMES = (
    "app.map keep.map top.txt only.txt build deep a z logs keep x.tmp x.txp x.tzp d1.log a1.log #hash !bang trailing spaces old.bak x y foo fao fo 12 1 b*r bar [ "
    "no[close ]odd a]b ab sub x\ty é.map"
).split(" ")


class Folders(unittest.TestCase):
    def setUp(self):
        room = tempfile.TemporaryDirectory(prefix="filehost-test-")
        self.addCleanup(room.cleanup)
        self.room = pathlib.Path(room.name).resolve()
        self.top = self.room / "site"
        self.top.mkdir()

    def add(self, *paths, content=b"hello"):
        for path in paths:
            file = self.top / path
            file.parent.mkdir(parents=True, exist_ok=True)
            file.write_bytes(content)

    def found(self):
        return sorted(folder.read_folder(self.top).files)

    def test_hidden_names_are_left_out_but_for_well_known(self):
        self.add(".git/config", ".env", "a/.secret", ".well-known/.hidden", ".well-known/security.txt", "a/b.txt", "a/c.")
        self.assertEqual(self.found(), ["/.well-known/security.txt", "/a/b.txt", "/a/c."])
        self.assertEqual(folder.read_folder(self.top).left_out, 4)

    def test_links_that_lead_elsewhere_and_what_is_no_file_are_left_out(self):
        self.add("a.txt", "b/c.txt", ".hidden")
        (self.room / "secret").write_bytes(b"secret")
        (self.room / "site-2").mkdir()
        (self.room / "site-2" / "near").write_bytes(b"near")
        for name, target in (
            ("out", "../secret"), ("absolute", self.room / "secret"), ("near", "../site-2/near"), ("folder", ".."), ("inner", "b"),
            ("nowhere", "no-such-file"), ("round", "round"), ("hidden", ".hidden"), ("b/in", "../a.txt"),
        ):
            (self.top / name).symlink_to(target)
        os.mkfifo(self.top / "fifo")
        self.assertEqual(self.found(), ["/a.txt", "/b/c.txt", "/b/in"])
        self.assertEqual(folder.read_folder(self.top).left_out, 10)
        (self.room / "link").symlink_to("site")
        self.assertEqual(sorted(folder.read_folder(self.room / "link").files), self.found())

    def test_problems_are_told_together_by_the_names_of_the_files(self):
        self.add("a#b", "back\\slash", os.fsdecode(b"\xff\xfe"), "fine", "line\nbreak?")
        with self.assertRaises(Unfit) as raised:
            folder.check_folder(folder.read_folder(self.top), "site", True)
        self.assertEqual(len(raised.exception.problems), 4)
        self.assertTrue(all("rename it" in problem and "\n" not in problem for problem in raised.exception.problems))
        (self.top / "fine").unlink()
        long = "/".join(["é" * 100] * 5)
        self.add(f"{long}/{'a' * 18}", f"{long}/{'a' * 19}")
        with self.assertRaises(Unfit) as raised:
            folder.check_folder(folder.read_folder(self.top), "site", True)
        told, = [problem for problem in raised.exception.problems if "aaa" in problem]
        self.assertIn("its path has 1,025 bytes, and a path has at most 1,024", told)
        self.assertRaises(WrongWords, folder.read_folder, self.room / "none")

    def test_a_siteignore_leaves_out_what_it_names(self):
        self.add("a.map", "b.txt", "c/a.map", "c/d/b.txt", "node_modules/x/y.js", "c/keep.map", "c/own/z.txt", "own/z.txt")
        (self.top / ".siteignore").write_text("*.map\n!keep.map\nnode_modules/\n/b.txt\n")
        (self.top / "c/.siteignore").write_text("/own\nb.*\n!/a.map\n")
        self.assertEqual(self.found(), ["/c/a.map", "/c/keep.map", "/own/z.txt"])
        told = folder.read_folder(self.top)
        self.assertEqual((told.left_out, told.ignored), (0, 5))

    def test_its_rules_are_those_of_git(self):
        """Of a drawn tree the same files are left out as git leaves out of one with the same lines as its .gitignore."""
        if not shutil.which("git"):
            print("left out: there is no git", file=sys.stderr)
            return
        lots = random.Random(1)
        for _ in range(400):
            parts = [lots.choice(NAMES) for _ in range(lots.randint(1, 4))]
            file = self.top.joinpath(*parts)
            if not any(above.is_file() for above in file.parents) and not file.exists():
                file.parent.mkdir(parents=True, exist_ok=True)
                file.write_bytes(b"")
        below = next(path for path in sorted(self.top.iterdir()) if path.is_dir())
        for number, (rules, inner) in enumerate(((PATTERNS, ""), ("*\n!*/\n!*.map\n", "*.map\n"), ("/*\n!/a\n!/x\nx/**/y\n", "!*\n"), ("sub/**\n!sub/a\n", "a/\n"))):
            with self.subTest(number=number):
                for name in (".siteignore", ".gitignore"):
                    (self.top / name).write_text(rules)
                    (below / name).write_text(inner)
                git = ["git", "-C", str(self.top), "-c", "core.excludesFile=/dev/null", "-c", "core.quotePath=false"]
                subprocess.run(["git", "init", "-q", str(self.top)], check=True)
                told = subprocess.run([*git, "ls-files", "-z", "--others", "--exclude-standard"], check=True, capture_output=True, timeout=60).stdout
                wanted = sorted("/" + name.decode() for name in told.split(b"\0") if name and b".gitignore" not in name and b".siteignore" not in name)
                self.assertGreater(len(wanted), 0)
                self.assertEqual(self.found(), wanted)


class Cached(unittest.TestCase):
    """The digests of files, and which of them are kept."""

    def setUp(self):
        room = tempfile.TemporaryDirectory(prefix="filehost-test-")
        self.addCleanup(room.cleanup)
        self.top = pathlib.Path(room.name) / "site"
        self.top.mkdir()
        self.store = kept_files.KeptFile(str(pathlib.Path(room.name) / "cache/digests.json"), self.fail)
        self.hashed = []

    def hash(self, later=0.0):
        """The digests of the folder's files, by a clock that is this many seconds later; notes which files were read."""
        real, clock = digests.hash_file, time.time_ns
        with mock.patch.object(digests, "hash_file", lambda place: self.hashed.append(os.path.basename(place)) or real(place)), \
                mock.patch.object(digests.time, "time_ns", lambda: clock() + int(later * 1e9)):
            found = digests.hash_files(folder.read_folder(self.top).files, digests.DigestCache(self.store), None)
        return {path: digest for path, (digest, _) in found.items()}

    def take_hashed(self):
        hashed, self.hashed = sorted(self.hashed), []
        return hashed

    def digest(self, content):
        return hashlib.sha1(content).hexdigest()

    def test_a_file_is_hashed_once_as_long_as_it_stays(self):
        (self.top / "a").write_bytes(b"first")
        (self.top / "b").write_bytes(b"b" * 1_000_000)
        for wanted in (["a", "b"], [], []):
            self.assertEqual(self.hash(later=3), {"/a": self.digest(b"first"), "/b": self.digest(b"b" * 1_000_000)})
            self.assertEqual(self.take_hashed(), wanted)
        (self.top / "a").write_bytes(b"other")
        self.assertEqual(self.hash(later=3)["/a"], self.digest(b"other"))
        self.assertEqual(self.take_hashed(), ["a"])

    def test_a_file_that_changed_within_two_seconds_is_hashed_again(self):
        (self.top / "a").write_bytes(b"first")
        for later in (0, 1.9):
            self.hash(later)
            self.assertEqual(self.take_hashed(), ["a"])
        # Neither is one whose time was set back just now, which shows in the time of its change.
        os.utime(self.top / "a", (1_000_000_000, 1_000_000_000))
        self.hash()
        self.assertEqual(self.take_hashed(), ["a"])
        self.hash()
        self.assertEqual(self.take_hashed(), ["a"])
        self.hash(later=2.5)
        self.assertEqual(self.take_hashed(), ["a"])
        self.hash(later=2.5)
        self.assertEqual(self.take_hashed(), [])

    def test_another_size_time_or_inode_is_another_file(self):
        (self.top / "a").write_bytes(b"first")
        self.hash(later=3)
        told = (self.top / "a").stat()
        for place in range(4):
            kept = json.loads(pathlib.Path(self.store.place).read_text())
            self.assertEqual(kept["files"]["/a"][:4], [5, told.st_mtime_ns, told.st_ctime_ns, told.st_ino])
            kept["files"]["/a"][place] += 1
            pathlib.Path(self.store.place).write_text(json.dumps(kept))
            self.take_hashed()
            self.assertEqual(self.hash(later=3), {"/a": self.digest(b"first")})
            self.assertEqual(self.take_hashed(), ["a"])

    def test_a_cache_that_is_damaged_is_made_again(self):
        (self.top / "a").write_bytes(b"first")
        self.hash(later=3)
        told = (self.top / "a").stat()
        for kept in ("[1]", {"a": 1}, None, [told.st_size, told.st_mtime_ns, told.st_ctime_ns, told.st_ino, "no digest"]):
            pathlib.Path(self.store.place).write_text(json.dumps({"files": {"/a": kept}}))
            self.assertEqual(self.hash(later=3), {"/a": self.digest(b"first")})

    def test_what_is_gone_is_forgotten(self):
        (self.top / "a").write_bytes(b"first")
        (self.top / "b").write_bytes(b"second")
        self.hash(later=3)
        (self.top / "b").unlink()
        self.hash(later=3)
        self.assertEqual(list(json.loads(pathlib.Path(self.store.place).read_text())["files"]), ["/a"])


class Kept(unittest.TestCase):
    """The bytes of small files, which are kept from their hash to their upload."""

    def setUp(self):
        room = tempfile.TemporaryDirectory(prefix="filehost-test-")
        self.addCleanup(room.cleanup)
        self.top = pathlib.Path(room.name)

    def hash(self, files, room=digests.ROOM):
        """The contents that are kept once these files were written and hashed."""
        for name, content in files.items():
            (self.top / name).write_bytes(content)
        contents = digests.Contents(room)
        digests.hash_files(folder.read_folder(self.top).files, digests.DigestCache(None), None, contents=contents)
        return contents

    def take(self, contents, name):
        return contents.take(f"/{name}", str(self.top / name))

    def test_are_those_that_were_hashed_and_are_taken_once(self):
        files = {"empty": b"", "small": b"s" * digests.SMALL, "large": b"l" * (digests.SMALL + 1)}
        contents = self.hash(files)
        self.assertEqual([self.take(contents, name) for name in files], [b"", files["small"], None])
        self.assertEqual([self.take(contents, name) for name in files], [None] * 3)
        self.assertIsNone(self.take(contents, "never-there"))

    def test_of_a_file_that_was_changed_or_removed_are_not_taken(self):
        contents = self.hash({name: b"before" for name in "abcdef"})
        # Most systems take the times of files from a clock that goes on each 4 to 10 milliseconds.
        time.sleep(0.05)
        (self.top / "a").write_bytes(b"beside")
        (self.top / "b").write_bytes(b"")
        (self.top / "c").unlink()
        (self.top / "new").write_bytes(b"before")
        (self.top / "new").replace(self.top / "d")
        os.utime(self.top / "e", (1, 1))
        self.assertEqual([self.take(contents, name) for name in "abcdef"], [None] * 5 + [b"before"])

    def test_have_no_more_bytes_than_there_is_room_for(self):
        contents = self.hash({"a": bytes(60), "b": bytes(50), "c": bytes(40), "d": b"", "e": b"e"}, room=100)
        self.assertEqual([self.take(contents, name) for name in "abcde"], [bytes(60), None, bytes(40), b"", None])
        self.assertLessEqual(digests.ROOM, 16 << 20)


class CacheOfRuns(SiteRuns):
    def test_is_used_unless_it_is_turned_off(self):
        """A wrong digest in the cache shows whether that was used."""
        self.start_host()
        self.write({"/a": b"a"})
        time.sleep(digests.RACE_SECONDS + 0.2)
        self.assert_done("push", self.place)
        cache, = (self.room / ".cache/filehost-site").glob("digests-*.json")
        self.assertEqual([path for path in self.place.rglob("*")], [self.place / "a"])
        kept = json.loads(cache.read_text())
        kept["files"]["/a"][4] = "0" * 40
        cache.write_text(json.dumps(kept))
        self.assertEqual(self.told("push", "--dry-run", self.place)["changed"], 1)
        self.assertEqual(self.told("push", "--dry-run", "--no-cache", self.place)["unchanged"], 1)
        # The host notices what the cache says wrongly.
        self.assertEqual(self.told("push", self.place, status=1)["error"], "WrongDigest")
