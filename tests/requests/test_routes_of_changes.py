"""Which methods and targets change and show what, and the first reason against those that ask for nothing.

What is expected follows from docs/HTTP.md, "Routes" and "Targets".
"""

from lib.client import STATUS_OF, digest_of, opened
from lib.rows import (
    DEPLOYS, NO_NUMBERS, UNDO, Interface, change, delete, get, post, publishing, put, read, row, served, undo, uploading, written,
)

UPLOADS = "/api/v1/deploys/1/files"
SITE_FILES = "/api/v1/sites/one/files"


class Writes(Interface):
    """The routes on which something is changed."""

    def test_open_deploys_and_undo(self):
        digest = digest_of(b"x")
        shown = {"id": "1", "required": [digest], "site": "one", "state": "open"}
        rows = [
            post(f"{DEPLOYS}?x", {"files": {"/a": digest}}, opened(1, digest)),
            get("/api/v1/deploys/1", shown),
            post("/api/v1/sites/deploys/deploys", {"files": {"/a": digest}}, opened(2, digest)),
            get("/api/v1/deploys/2", {**shown, "id": "2", "site": "deploys"}),
        ]
        for target, wanted in [
            ("/api/v1/sites/one/deploys/", "NoRoute"),
            ("/api/v1/sites/one/undo/a", "NoRoute"),
            ("/api/v1/sites/one/undo/", "NoRoute"),
            ("/api/v1/sites/one/und%6F", "NoRoute"),
            ("/api/v1/sites/one/Undo", "NoRoute"),
            ("/api/v1/sites/one", "NoRoute"),
            ("/api/v1/sites/one?/undo", "NoRoute"),
            ("/api/v1//sites/one/undo", "NoRoute"),
            ("/api/v2/sites/one/undo", "NoRoute"),
            ("/api/v1/sites//deploys", "BadName"),
            ("/api/v1/sites/One/undo", "BadName"),
            ("/api/v1/sites/on%65/undo", "BadName"),
        ]:
            rows += [post(target, {"files": {}, "change": 1}, wanted)]
        rows += [
            undo(2, "NoSuchChange"),
            post("/api/v1/sites/deploys/undo", {"change": 1}, "NoSuchChange"),
            post("/api/v1/sites/deploys/undo", {"change": 2}, {"entry": 3}),
            post(f"{UNDO}?", {"change": 1}, {"entry": 4}),
        ]
        self.assert_rows(rows)

    def test_upload_to_the_path_after_files(self):
        files = written("of", ["/a.txt", "/a/b", "/%25", "/\u00e9"])
        body = {"files": {path: digest_of(content) for path, content in files.items()}, "draft": True}
        before = post(DEPLOYS, body, opened(1, *sorted(body["files"].values())))
        cases = [
            (f"{UPLOADS}/a.txt", "/a.txt"),
            (f"{UPLOADS}//a.txt", "/a.txt"),
            (f"{UPLOADS}/%2Fa.txt", "/a.txt"),
            (f"{UPLOADS}/a.txt?a/b", "/a.txt"),
            (f"{UPLOADS}/a%2Fb", "/a/b"),
            (f"{UPLOADS}/a/b", "/a/b"),
            (f"{UPLOADS}/%2525", "/%25"),
            (f"{UPLOADS}/\u00e9", "/\u00e9"),
            (f"{UPLOADS}/b.txt", "NotListed"),
            ("/api/v1/deploys/2/files/a.txt", "NoSuchDeploy"),
            ("/api/v1/deploys/999999/files/a.txt", "NoSuchDeploy"),
            ("/api/v1/deploys/1000000/files/a.txt", "NoSuchDeploy"),
            *[(f"/api/v1/deploys/{text}/files/a.txt", "NoSuchDeploy") for text in NO_NUMBERS],
            ("/api/v1/deploys/1/files", "NoRoute"),
            ("/api/v1/deploys/1/a.txt", "NoRoute"),
            ("/api/v1/deploys/1/file/a.txt", "NoRoute"),
            ("/api/v1/deploys/1/Files/a.txt", "NoRoute"),
            ("/api/v1/deploys/files/a.txt", "NoRoute"),
            (f"{UPLOADS}/", "BadPath"),
            (f"{UPLOADS}//", "BadPath"),
            (f"{UPLOADS}/a/", "BadPath"),
            (f"{UPLOADS}///a.txt", "BadPath"),
            (f"{UPLOADS}/%2F%2Fa.txt", "BadPath"),
            (f"{UPLOADS}/%ff", "BadPath"),
            (f"{UPLOADS}/a.txt%00", "BadPath"),
            (f"{UPLOADS}/a.txt#", "BadPath"),
            ("/api/v1/deploys/1#/files/a.txt", "BadPath"),
        ]
        rows = []
        for target, wanted in cases:
            content = files.get(wanted, files["/a.txt"])
            sent = wanted if wanted in STATUS_OF else {"published": None, "sha": digest_of(content)}
            rows.append(put(target, content, sent))
        self.assert_rows(rows, [before])

    def test_restore(self):
        rows = [*publishing("one", 1, {"/a.txt": b"old"}), *publishing("one", 3, {"/a.txt": b"new"})]
        for target, wanted in [
            *[(f"{DEPLOYS}/{text}/restore", "NoSuchDeploy") for text in [*NO_NUMBERS, "2", "999999", "1000000"]],
            (f"{DEPLOYS}//restore?q", "NoSuchDeploy"),
            ("/api/v1/sites/two/deploys/1/restore", "NoSuchDeploy"),
            ("/api/v1/sites/One/deploys/1/restore", "BadName"),
            (f"{DEPLOYS}/1#/restore", "BadPath"),
            (f"{DEPLOYS}/1", "NoRoute"),
            (f"{DEPLOYS}/1/restore/", "NoRoute"),
            (f"{DEPLOYS}/1/Restore", "NoRoute"),
        ]:
            rows.append(post(target, None, wanted))
        self.assert_rows([
            *rows,
            read("/a.txt", b"new"),
            post(f"{DEPLOYS}/1/restore", None, {"entry": 5}),
            read("/a.txt", b"old"),
        ])

    def test_rename(self):
        body = {"from": "/a.txt", "to": "/b.txt"}
        self.assert_rows([
            *publishing("one", 1, {"/a.txt": b"x"}),
            post("/api/v1/sites//rename", body, "BadName"),
            post("/api/v1/sites/one/rename/a", body, "NoRoute"),
            post("/api/v1/sites/one/rename#", body, "NoRoute"),
            post("/api/v1/sites/two/rename", body, "NoSuchFile"),
            post("/api/v1/sites/one/rename", body, {"entry": 3}),
            read("/a.txt"),
            read("/b.txt", b"x"),
        ])

    def test_give_a_deploy_up(self):
        rows = [post(DEPLOYS, {"files": {}, "draft": True}, opened(1))]
        for text in [*NO_NUMBERS, "2", "999999", "1000000"]:
            rows.append(post(f"/api/v1/deploys/{text}/cancel", None, "NoSuchDeploy"))
        self.assert_rows([
            *rows,
            post("/api/v1/deploys/1#/cancel", None, "BadPath"),
            post("/api/v1/deploys/1/cancel/", None, "NoRoute"),
            post("/api/v1/deploys/1/cancel?q", None, {"entry": 2}),
            post("/api/v1/deploys/1/cancel", None, "NoSuchDraft"),
            get("/api/v1/deploys/1", "NoSuchDeploy"),
        ])

    def test_move_and_remove_aliases(self):
        aliases, body = "/api/v1/sites/one/aliases", {"deploy": 1}
        self.assert_rows([
            *publishing("one", 1, {"/a.txt": b"x"}),
            put(f"{aliases}/", body, "BadName"),
            put("/api/v1/sites/One/aliases/next", body, "BadName"),
            put(f"{aliases}/ne%78t", body, "BadName"),
            put(f"{aliases}/next#", body, "BadName"),
            put(aliases, body, "NoRoute"),
            put(f"{aliases}/next/a", body, "NoRoute"),
            put(f"{aliases}/next/", body, "NoRoute"),
            get("/a/one/next/a.txt", "NoSuchAlias"),
            put(f"{aliases}/next?#", body, {"entry": 3}),
            get("/a/one/next/a.txt", served("/a.txt", b"x")),
            delete("/api/v1/sites//aliases/next", "BadName"),
            delete("/api/v1/sites/two/aliases/next", "NoSuchAlias"),
            delete(f"{aliases}/next", {"entry": 4}),
            get("/a/one/next/a.txt", "NoSuchAlias"),
        ])

    def test_remove_files_of_a_site(self):
        paths = ["/a.txt", "/b.txt", "/c.txt", "/a/b", "/d"]
        self.assert_rows([
            *publishing("one", 1, written("live", paths)),
            delete(f"{SITE_FILES}/a/", "BadPath"),
            delete(f"{SITE_FILES}/", "BadPath"),
            delete(f"{SITE_FILES}///a.txt", "BadPath"),
            delete(f"{SITE_FILES}/a.txt#", "BadPath"),
            delete("/api/v1/sites/One/files/%ff#", "BadName"),
            delete(SITE_FILES, "NoRoute"),
            delete("/api/v1/sites/two/files/a.txt", "NoSuchFile"),
            *[read(path, f"live {path}".encode()) for path in paths],
            delete(f"{SITE_FILES}/a.txt", {"entry": 3}),
            delete(f"{SITE_FILES}//b.txt", {"entry": 4}),
            delete(f"{SITE_FILES}/%2Fc.txt?q", {"entry": 5}),
            delete(f"{SITE_FILES}/a%2Fb", {"entry": 6}),
            *[read(path) for path in paths[:4]],
            read("/d", b"live /d"),
        ])

    def test_remove_deploys(self):
        rows = publishing("one", 1, {"/a.txt": b"x"})
        for text in [*NO_NUMBERS, "2", "999999", "1000000"]:
            rows.append(delete(f"/api/v1/deploys/{text}", "NoSuchDeploy"))
        self.assert_rows([
            *rows,
            delete("/api/v1/deploys/1#", "BadPath"),
            delete("/api/v1/deploys/1/", "NoRoute"),
            delete("/api/v1/deploys", "NoRoute"),
            get("/d/one/1/a.txt", served("/a.txt", b"x")),
            delete("/api/v1/deploys/1?q", {"entry": 3}),
            get("/d/one/1/a.txt", "NoSuchDeploy"),
        ])


class Shows(Interface):
    """The routes on which changes and deploys are shown."""

    def test_show_changes_and_deploys(self):
        changes = {"changes": [change(1, "open")]}
        shown = {"id": "1", "required": [], "site": "one", "state": "open"}
        cases = [
            ("/api/v1/sites/one/changes", changes),
            ("/api/v1/sites/one/changes?from=1", changes),
            ("/api/v1/sites/two/changes", {"changes": []}),
            ("/api/v1/sites//changes", "BadName"),
            ("/api/v1/sites/one#/changes", "BadName"),
            ("/api/v1/sites/one/changes#", "NoRoute"),
            ("/api/v1/sites/one/changes/", "NoRoute"),
            ("/api/v1/deploys/1", shown),
            ("/api/v1/deploys/1?q", shown),
            *[(f"/api/v1/deploys/{text}", "NoSuchDeploy") for text in [*NO_NUMBERS, "2", "999999", "1000000"]],
            ("/api/v1/deploys/1#", "BadPath"),
            ("/api/v1/deploys", "NoRoute"),
        ]
        before = [post(DEPLOYS, {"files": {}, "draft": True}, opened(1))]
        self.assert_rows([row(method, target, None, wanted) for target, wanted in cases for method in ("GET", "HEAD")],
                         before)


class LongPaths(Interface):
    """Paths of 1,024 bytes, and of one more."""

    plain = "/" + 1023 * "a"
    folder = "/" + 1012 * "a" + "/index.html"
    dotted = "/" + 1021 * "a" + "A."
    files = {plain: b"plain", folder: b"folder", dotted: b"dotted"}

    def test_are_read_uploaded_and_removed(self):
        self.assertEqual({len(path) for path in self.files}, {1024})
        self.assert_rows([
            *publishing("one", 1, self.files),
            get("/s/one/" + 1023 * "a", served(self.plain, b"plain")),
            get("/s/one/" + 1023 * "a" + "?query", served(self.plain, b"plain")),
            get("/s/one/" + 1024 * "a", "BadPath"),
            get("/s/one/" + 1012 * "a" + "/", served(self.folder, b"folder")),
            get("/s/one/" + 1013 * "a" + "/", "BadPath"),
            get("/s/one/" + 1021 * "a" + "%41%2e", served(self.dotted, b"dotted")),
            get("/s/one/" + 1022 * "a" + "%41%2e", "BadPath"),
            get("/s/one/" + 511 * "%C3%A9" + "a", "NoSuchFile"),
            get("/s/one/" + 511 * "%C3%A9" + "ab", "BadPath"),
            get("/s/one/" + 512 * "\u00e9", "BadPath"),
            uploading(1, self.plain, b"plain", None),
            put(f"{UPLOADS}//" + 1023 * "a", b"plain", {"published": None, "sha": digest_of(b"plain")}),
            put(f"{UPLOADS}/" + 1024 * "a", b"plain", "BadPath"),
            put(f"{UPLOADS}//" + 1024 * "a", b"plain", "BadPath"),
            delete(f"{SITE_FILES}/" + 1024 * "a", "BadPath"),
            read(self.plain, b"plain"),
            delete(f"{SITE_FILES}/" + 1023 * "a", {"entry": 3}),
            read(self.plain),
        ])
