"""What sites serve, what aliases name, and what kept and open deploys hold.

What is expected follows from docs/HTTP.md and docs/CHANGES.md.
"""

from lib.client import ABC, HELLO, digest_of, opened, refused
from lib.rows import DEPLOYS, Interface, delete, get, post, publishing, put, read, served, undo, uploading


class Files(Interface):
    """What a site serves."""

    def test_are_found_by_site_and_path(self):
        self.assert_rows([
            *publishing("one", 1, {"/b": b"of b", "/a": b"of a"}),
            *publishing("two", 3, {"/a": b"of two"}),
            get("/s/one/a", served("/a", b"of a")),
            get("/s/one/b", served("/b", b"of b")),
            get("/s/two/a", served("/a", b"of two")),
            get("/s/two/b", "NoSuchFile"),
            get("/s/three/a", "NoSuchFile"),
            get("/d/two/3/a", served("/a", b"of two")),
            get("/d/one/3/a", "NoSuchDeploy"),
        ])

    def test_are_written_over_and_removed_and_stay_in_their_deploys(self):
        self.assert_rows([
            delete("/api/v1/sites/one/files/a", "NoSuchFile"),
            *publishing("one", 1, {"/a": b"old"}),
            *publishing("one", 3, {"/a": b"new"}),
            read("/a", b"new"),
            delete("/api/v1/sites/one/files/a", {"entry": 5}),
            read("/a"),
            delete("/api/v1/sites/one/files/a", "NoSuchFile"),
            get("/d/one/1/a", served("/a", b"old")),
            get("/d/one/3/a", served("/a", b"new")),
        ])

    def test_are_written_and_removed_many_at_once(self):
        patch = {"/b": digest_of(b"2"), "/c": None}
        again = {"/b": digest_of(b"new"), "/c": digest_of(b"3")}
        self.assert_rows([
            post(DEPLOYS, {"files": {}}, opened(1, published=2)),
            *publishing("one", 3, {"/a": b"1", "/c": b"3"}),
            post(DEPLOYS, {"files": patch, "patch": True}, opened(5, patch["/b"])),
            uploading(5, "/b", b"2", 6),
            read("/a", b"1"),
            read("/b", b"2"),
            read("/c"),
            post(DEPLOYS, {"files": again, "patch": True}, opened(7, again["/b"])),
            uploading(7, "/b", b"new", 8),
            read("/a", b"1"),
            read("/b", b"new"),
            read("/c", b"3"),
        ])

    def test_of_two_sites_are_written_apart(self):
        self.assert_rows([
            *publishing("one", 1, {"/b": b"1"}),
            *publishing("two", 3, {"/a": b"2"}),
            read("/b", b"1"),
            read("/a"),
            get("/s/two/a", served("/a", b"2")),
            get("/s/two/b", "NoSuchFile"),
            post("/api/v1/sites/two/deploys", {"files": {}}, opened(5, published=6)),
            read("/b", b"1"),
            get("/s/two/a", "NoSuchFile"),
        ])

    def test_are_the_same_where_their_bytes_are(self):
        """A patch that writes the same bytes leaves its path as it is, so it can be undone whatever follows there."""
        for content, wanted in [
            (b"hello", {"entry": 6}),
            (b"jello", refused("Clash", change=5, cell="live /a")),
            (b"", refused("Clash", change=5, cell="live /a")),
        ]:
            same = content == b"hello"
            told_first = opened(3, published=4) if same else opened(3, digest_of(content))
            patch = post(DEPLOYS, {"files": {"/a": digest_of(content)}, "patch": True}, told_first)
            with self.subTest(content):
                self.assert_rows([
                    *publishing("one", 1, {"/a": b"hello"}),
                    patch,
                    *([] if same else [uploading(3, "/a", content, 4)]),
                    read("/a", content),
                    delete("/api/v1/sites/one/files/a", {"entry": 5}),
                    undo(4, wanted),
                ])


class Aliases(Interface):
    """Which deploy an alias names."""

    first = publishing("one", 1, {"/a": b"first"})
    second = publishing("one", 3, {"/a": b"second"})
    alias = "/api/v1/sites/one/aliases/next"

    def test_name_a_kept_deploy_of_their_site(self):
        file = "/a/one/next/a"
        self.assert_rows([
            get(file, "NoSuchAlias"),
            put(self.alias, {"deploy": 1}, "NoSuchDeploy"),
            get(file, "NoSuchAlias"),
            *self.first,
            put("/api/v1/sites/two/aliases/next", {"deploy": 1}, "NoSuchDeploy"),
            *self.second,
            put(self.alias, {"deploy": 1}, {"entry": 5}),
            get(file, served("/a", b"first")),
            put(self.alias, {"deploy": 2}, "NoSuchDeploy"),
            put(self.alias, {"deploy": 8}, "NoSuchDeploy"),
            get(file, served("/a", b"first")),
            get("/a/two/next/a", "NoSuchAlias"),
            get("/a/one/other/a", "NoSuchAlias"),
            get("/a/one/next/b", "NoSuchFile"),
            put(self.alias, {"deploy": 3}, {"entry": 6}),
            get(file, served("/a", b"second")),
            delete(self.alias, {"entry": 7}),
            get(file, "NoSuchAlias"),
            delete(self.alias, "NoSuchAlias"),
        ])

    def test_keep_their_deploy(self):
        self.assert_rows([
            *self.first,
            put(self.alias, {"deploy": 1}, {"entry": 3}),
            delete("/api/v1/deploys/1", refused("DeployInUse", alias="next")),
            get("/d/one/1/a", served("/a", b"first")),
            delete(self.alias, {"entry": 4}),
            delete("/api/v1/deploys/1", {"entry": 5}),
            get("/d/one/1/a", "NoSuchDeploy"),
            read("/a", b"first"),
        ])

    def test_are_the_same_if_they_name_one_deploy(self):
        """A move to the deploy that the alias names already changes nothing, so that it can be undone whatever follows."""
        for number, wanted in [(1, {"entry": 8}), (3, refused("Clash", change=7, cell="alias next"))]:
            with self.subTest(number):
                self.assert_rows([
                    *self.first,
                    *self.second,
                    put(self.alias, {"deploy": 1}, {"entry": 5}),
                    put(self.alias, {"deploy": number}, {"entry": 6}),
                    delete(self.alias, {"entry": 7}),
                    undo(6, wanted),
                ])


class Deploys(Interface):
    """Kept and open deploys."""

    def test_are_kept_with_their_files_under_their_number(self):
        self.assert_rows([
            *publishing("one", 1, {"/b": b"y"}),
            get("/d/one/1/b", served("/b", b"y")),
            get("/d/one/1/c", "NoSuchFile"),
            get("/d/one/2/b", "NoSuchDeploy"),
            get("/api/v1/deploys/1", {"id": "1", "required": [], "site": "one", "state": "kept"}),
            get("/api/v1/deploys/2", "NoSuchDeploy"),
        ])

    def test_are_open_under_their_number(self):
        self.assert_rows([
            post(DEPLOYS, {"files": {"/a": HELLO, "/b": HELLO}}, opened(1, HELLO)),
            get("/api/v1/deploys/1", {"id": "1", "required": [HELLO], "site": "one", "state": "open"}),
            get("/api/v1/deploys/2", "NoSuchDeploy"),
            get("/d/one/1/a", "NoSuchDeploy"),
            read("/a"),
        ])

    def test_are_given_back_with_all_else_by_an_undo(self):
        """What is removed and given up comes back as it was: a file, a kept deploy, an alias and an open deploy."""
        shown = {"id": "4", "required": [ABC], "site": "one", "state": "open"}
        self.assert_rows([
            *publishing("one", 1, {"/a": b"x"}),
            put("/api/v1/sites/one/aliases/next", {"deploy": 1}, {"entry": 3}),
            post(DEPLOYS, {"files": {"/b": ABC}, "draft": True}, opened(4, ABC)),
            delete("/api/v1/sites/one/files/a", {"entry": 5}),
            delete("/api/v1/sites/one/aliases/next", {"entry": 6}),
            delete("/api/v1/deploys/1", {"entry": 7}),
            post("/api/v1/deploys/4/cancel", None, {"entry": 8}),
            read("/a"),
            get("/a/one/next/a", "NoSuchAlias"),
            get("/d/one/1/a", "NoSuchDeploy"),
            get("/api/v1/deploys/4", "NoSuchDeploy"),
            undo(5, {"entry": 9}),
            read("/a", b"x"),
            undo(7, {"entry": 10}),
            get("/d/one/1/a", served("/a", b"x")),
            undo(6, {"entry": 11}),
            get("/a/one/next/a", served("/a", b"x")),
            undo(8, {"entry": 12}),
            get("/api/v1/deploys/4", shown),
            uploading(4, "/b", b"abc"),
            post(f"{DEPLOYS}/4/restore", None, {"entry": 13}),
            read("/b", b"abc"),
            read("/a"),
        ])


class MissingFiles(Interface):
    """Which contents a deploy waits for."""

    show = "/api/v1/deploys/1"

    def told_open(self, *required):
        return {"id": "1", "required": list(required), "site": "one", "state": "open"}

    def test_are_told_in_the_order_of_their_digests(self):
        restore = f"{DEPLOYS}/1/restore"
        self.assert_rows([
            post(DEPLOYS, {"files": {"/a": HELLO, "/b": ABC}, "draft": True}, opened(1, ABC, HELLO)),
            get(self.show, self.told_open(ABC, HELLO)),
            post(restore, None, refused("NotComplete", digest=ABC)),
            uploading(1, "/b", b"abc"),
            get(self.show, self.told_open(HELLO)),
            post(restore, None, refused("NotComplete", digest=HELLO)),
            uploading(1, "/a", b"hello"),
            get(self.show, self.told_open()),
            post(restore, None, {"entry": 2}),
        ])

    def test_are_told_once(self):
        self.assert_rows([
            post(DEPLOYS, {"files": {"/a": HELLO, "/b": HELLO}}, opened(1, HELLO)),
            get(self.show, self.told_open(HELLO)),
            uploading(1, "/b", b"hello", 2),
            read("/a", b"hello"),
            read("/b", b"hello"),
        ])

    def test_are_none_where_no_file_is_listed(self):
        self.assert_rows([
            post(DEPLOYS, {"files": {}, "draft": True}, opened(1)),
            get(self.show, self.told_open()),
            post(f"{DEPLOYS}/1/restore", None, {"entry": 2}),
        ])

    def test_are_no_removals(self):
        files = {"/a": HELLO, "/b": None}
        self.assert_rows([
            post(DEPLOYS, {"files": files, "patch": True, "draft": True}, opened(1, HELLO)),
            get(self.show, self.told_open(HELLO)),
            post(f"{DEPLOYS}/1/restore", None, refused("NotComplete", digest=HELLO)),
            put("/api/v1/deploys/1/files/b", b"hello", "NotListed"),
            uploading(1, "/a", b"hello"),
            get(self.show, self.told_open()),
            post(f"{DEPLOYS}/1/restore", None, {"entry": 2}),
            read("/a", b"hello"),
        ])

    def test_belong_each_to_its_path(self):
        self.assert_rows([
            post(DEPLOYS, {"files": {"/b": HELLO, "/a": ABC}}, opened(1, ABC, HELLO)),
            put("/api/v1/deploys/1/files/a", b"hello", "WrongDigest"),
            put("/api/v1/deploys/1/files/b", b"abc", "WrongDigest"),
            put("/api/v1/deploys/1/files/c", b"abc", "NotListed"),
            get(self.show, self.told_open(ABC, HELLO)),
            uploading(1, "/a", b"abc"),
            uploading(1, "/b", b"hello", 2),
            read("/a", b"abc"),
            read("/b", b"hello"),
            read("/c"),
        ])
