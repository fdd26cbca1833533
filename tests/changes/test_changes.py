"""Worked runs of deploys, and of changes of single files and aliases."""

from lib.client import ABC, HELLO, done, opened, opening, refused, sent, upload, uploaded
from lib.worked_runs import (
    EMPTY, LISTING, NO_ALIAS, NO_DEPLOY, NO_DRAFT, NO_FILE, Worked, aliasing, cancelling, clash, deleting, deployed, entry,
    first_deployed, patching, reading, removing, renaming, restoring, served, serves, showing, stands, unaliasing, undoing,
)


class Deploys(Worked):
    """What opening, publishing, giving up and removing a deploy changes, touches, and is refused by."""

    def test_an_opening_touches_its_draft_alone(self):
        self.assert_run(
            *first_deployed("/a.txt"),
            (opening({"/a.txt": HELLO, "/b.txt": HELLO}, draft=True), opened(3)),
            (undoing(2), entry(4)),
            (showing(3), stands(3, "open")),
            (undoing(3), entry(5)),
            (showing(3), NO_DEPLOY),
        )

    def test_the_least_missing_digest_is_named(self):
        self.assert_run(
            (opening({"/a": HELLO, "/b": ABC, "/c": HELLO}, draft=True), opened(1, ABC, HELLO)),
            (restoring(1), refused("NotComplete", digest=ABC)),
            (upload(1, "b", b"abc"), uploaded(b"abc")),
            (restoring(1), refused("NotComplete", digest=HELLO)),
            (upload(1, "a", b"hello"), uploaded(b"hello")),
            (restoring(1), entry(2)),
        )

    def test_at_most_10_000_paths_are_listed(self):
        for listed, members in ((HELLO, {"draft": True}), (None, {"patch": True, "draft": True})):
            required = [HELLO] if listed else []
            with self.subTest(**members):
                self.assert_run(
                    (opening({f"/{n}": listed for n in range(10_001)}, **members), refused("TooManyFiles")),
                    (LISTING, done(changes=[])),
                    (opening({f"/{n}": listed for n in range(10_000)}, **members), opened(1, *required)),
                )

    def test_files_are_replaced_kept_and_removed(self):
        paths = ["/a", "/b", "/c", "/d", "/z"]
        first = {"/a": HELLO, "/c": HELLO, "/d": ABC, "/z": HELLO}
        second = {"/b": EMPTY, "/c": EMPTY, "/d": ABC}
        self.assert_run(
            (opening({"/b": HELLO}), opened(1, HELLO)),
            (upload(1, "b", b"hello"), uploaded(b"hello", published=2)),
            (opening(first), opened(3, ABC)),
            (upload(3, "d", b"abc"), uploaded(b"abc", published=4)),
            *served(first, paths),
            (undoing(2), clash(4, "live /b")),
            (opening(second), opened(5, EMPTY)),
            (upload(5, "b", b""), uploaded(b"", published=6)),
            *served(second, paths),
            *served(first, paths, "d/one/3"),
            (undoing(4), clash(6, "live /a")),
            (opening(second), opened(7, published=8)),
            *served(second, paths),
            (undoing(6), clash(8, "live /a")),
            (undoing(8), entry(9)),
            (undoing(6), entry(10)),
            *served(first, paths),
        )

    def test_no_files_are_published(self):
        self.assert_run(
            *first_deployed("/b.txt"),
            *deployed(3, "/b.txt", site="two"),
            *deployed(5, "/b.txt", site="none"),
            (opening({}), opened(7, published=8)),
            *serves(),
            *serves("/b.txt", site="two"),
            *serves("/b.txt", site="none"),
            (showing(7), stands(7, "kept")),
            (reading("/d/one/7/b.txt"), NO_FILE),
        )

    def test_an_empty_file_is_published(self):
        self.assert_run(
            (opening({"/e": EMPTY}), opened(1, EMPTY)),
            (upload(1, "e", b""), uploaded(b"", published=2)),
            *served({"/e": EMPTY}, ["/e"]),
            (removing("/e"), entry(3)),
            (reading("/s/one/e"), NO_FILE),
        )

    def test_no_deploy_of_another_site_is_published(self):
        self.assert_run(
            (opening({"/a.txt": HELLO}, draft=True), opened(1, HELLO)),
            (upload(1, "a.txt", b"hello"), uploaded(b"hello")),
            (restoring(1, site="two"), NO_DEPLOY),
            (restoring(1), entry(2)),
            *serves("/a.txt"),
        )

    def test_a_publish_touches_every_path_of_its_site(self):
        """And no alias, no path of another site, and no other deploy."""
        self.assert_run(
            *first_deployed("/b.txt"),
            (aliasing("next", 1), entry(3)),
            *deployed(4, "/b.txt", site="two"),
            (patching({"/never-listed": HELLO}), opened(6, published=7)),
            (removing("/never-listed"), entry(8)),
            (opening({}, draft=True), opened(9)),
            *deployed(10, "/a.txt"),
            (undoing(8), clash(11, "live /never-listed")),
            (undoing(2), clash(3, "kept 1")),
            (undoing(3), entry(12)),
            (undoing(9), entry(13)),
            (undoing(5, site="two"), entry(14)),
            (undoing(2), clash(11, "live /b.txt")),
            (deleting(10), entry(15)),
            (undoing(11), clash(15, "kept 10")),
        )

    def test_an_open_deploy_is_given_up_once(self):
        self.assert_run(
            (opening({"/a.txt": HELLO}, draft=True), opened(1, HELLO)),
            (cancelling(1), entry(2)),
            (cancelling(1), NO_DRAFT),
            (showing(1), NO_DEPLOY),
            (undoing(1), clash(2, "draft 1")),
            (undoing(2), entry(3)),
            (showing(1), stands(1, "open", HELLO)),
        )

    def test_no_other_deploy_is_given_up(self):
        self.assert_run(
            *first_deployed("/a.txt"),
            (cancelling(1), NO_DRAFT),
            (cancelling(2), NO_DEPLOY),
            (cancelling(0), NO_DEPLOY),
            (cancelling(6), NO_DEPLOY),
            (restoring(2), NO_DEPLOY),
        )

    def test_a_deploy_is_removed(self):
        """Which touches it and every alias of its site, and no other deploy."""
        self.assert_run(
            *first_deployed("/a.txt"),
            *deployed(3, "/a.txt"),
            (opening({"/c.txt": HELLO}, draft=True), opened(5)),
            (deleting(0), NO_DEPLOY),
            (deleting(2), NO_DEPLOY),
            (deleting(5), NO_DEPLOY),
            (aliasing("later", 3), entry(6)),
            (unaliasing("later"), entry(7)),
            *deployed(8, "/a.txt", site="two"),
            (aliasing("later", 8, site="two"), entry(10)),
            (deleting(1), entry(11)),
            (reading("/d/one/1/a.txt"), NO_DEPLOY),
            (undoing(7), clash(11, "alias later")),
            (undoing(10, site="two"), entry(12)),
            (deleting(1), NO_DEPLOY),
            (deleting(3), entry(13)),
            (undoing(11), entry(14)),
            (reading("/d/one/1/a.txt"), sent(b"hello")),
            (reading("/d/one/3/a.txt"), NO_DEPLOY),
        )

    def test_the_least_alias_of_a_deploy_is_named(self):
        moves = (("next", 1), ("b", 3), ("new", 1), ("old", 3))
        self.assert_run(
            *first_deployed("/a.txt"),
            *deployed(3, "/a.txt"),
            *[(aliasing(name, number), entry(place)) for place, (name, number) in enumerate(moves, 5)],
            (deleting(1), refused("DeployInUse", alias="new")),
            (unaliasing("new"), entry(9)),
            (deleting(1), refused("DeployInUse", alias="next")),
            (unaliasing("next"), entry(10)),
            (deleting(1), entry(11)),
        )


class Files(Worked):
    """Renamings and removals of files, and aliases."""

    def test_a_file_is_removed_once(self):
        self.assert_run(
            *first_deployed("/b.txt"),
            *deployed(3, "/b.txt", site="two"),
            (removing("/a.txt"), NO_FILE),
            (removing("/b.txt"), entry(5)),
            (removing("/b.txt"), NO_FILE),
            *serves(),
            *serves("/b.txt", site="two"),
        )

    def test_renamings_are_refused_in_order(self):
        refusals = (
            ("/a", "/a", refused("SamePath")), ("/x", "/x", refused("SamePath")), ("/x", "/y", NO_FILE),
            ("/x", "/a", NO_FILE), ("/a", "/b", refused("PathTaken")), ("/b", "/a", refused("PathTaken")),
        )
        asked = [(renaming(source, target), reason) for source, target, reason in refusals]
        self.assert_run(*first_deployed("/a", "/b"), *asked, *serves("/a", "/b", among=("/a", "/b", "/x", "/y")))

    def test_a_file_is_renamed_there_and_back(self):
        """Which touches both paths, and no other."""
        self.assert_run(
            *first_deployed("/a.txt", "/b.txt"),
            (removing("/b.txt"), entry(3)),
            (renaming("/a.txt", "/c.txt"), entry(4)),
            *serves("/c.txt"),
            (undoing(2), clash(3, "live /b.txt")),
            (renaming("/c.txt", "/a.txt"), entry(5)),
            *serves("/a.txt"),
            (undoing(4), clash(5, "live /a.txt")),
            (undoing(3), entry(6)),
            *serves("/a.txt", "/b.txt"),
            (undoing(2), clash(4, "live /a.txt")),
        )

    def test_both_paths_of_a_renaming_are_touched(self):
        self.assert_run(
            *first_deployed("/a.txt", "/c.txt"),
            (removing("/c.txt"), entry(3)),
            (renaming("/a.txt", "/c.txt"), entry(4)),
            (undoing(3), clash(4, "live /c.txt")),
        )

    def test_an_alias_is_moved(self):
        """Which touches it and its deploy, and no other alias."""
        self.assert_run(
            *first_deployed("/a.txt"),
            *deployed(3, "/b.txt"),
            (opening({"/c.txt": HELLO}, draft=True), opened(5)),
            *[(aliasing("next", number), NO_DEPLOY) for number in (0, 2, 5)],
            (aliasing("old", 3), entry(6)),
            (aliasing("next", 1), entry(7)),
            (reading("/a/one/next/a.txt"), sent(b"hello")),
            (reading("/a/one/next/b.txt"), NO_FILE),
            (aliasing("next", 1), entry(8)),
            (undoing(7), clash(8, "alias next")),
            (undoing(6), entry(9)),
            (aliasing("next", 3), entry(10)),
            (reading("/a/one/next/b.txt"), sent(b"hello")),
            (undoing(8), entry(11)),
            (undoing(7), clash(10, "alias next")),
            (undoing(10), entry(12)),
            (reading("/a/one/next/a.txt"), sent(b"hello")),
        )

    def test_an_alias_is_given_up_once(self):
        self.assert_run(
            *first_deployed("/a.txt"),
            (unaliasing("next"), NO_ALIAS),
            (aliasing("next", 1), entry(3)),
            (unaliasing("next"), entry(4)),
            (reading("/a/one/next/a.txt"), NO_ALIAS),
            (unaliasing("next"), NO_ALIAS),
        )
