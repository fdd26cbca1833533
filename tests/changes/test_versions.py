"""Worked runs of restores and of patches."""

from lib.client import ABC, HELLO, opened, opening, refused, upload, uploaded
from lib.worked_runs import (
    NO_DEPLOY, NO_DRAFT, Worked, aliasing, cancelling, clash, deleting, deployed, entry, first_deployed, patching, reading, removing,
    renaming, restoring, served, serves, showing, stands, undoing,
)


class Restores(Worked):
    """What the restoring of a deploy changes and touches, and what it is refused by."""

    first, second = {"/a": HELLO, "/b": HELLO}, {"/b": ABC, "/c": ABC}
    deployed = [
        (opening(first), opened(1, HELLO)),
        (upload(1, "a", b"hello"), uploaded(b"hello", published=2)),
        (opening(second), opened(3, ABC)),
        (upload(3, "b", b"abc"), uploaded(b"abc", published=4)),
    ]

    def served(self, files):
        return served(files, ("/a", "/b", "/c"))

    def test_a_kept_deploy_is_served_again(self):
        self.assert_run(
            *self.deployed,
            *self.served(self.second),
            (restoring(1), entry(5)),
            *self.served(self.first),
            (restoring(1), entry(6)),
            *self.served(self.first),
            (undoing(5), clash(6, "live /a")),
            (undoing(6), entry(7)),
            *self.served(self.first),
            (undoing(5), entry(8)),
            *self.served(self.second),
        )

    def test_what_changes_nothing_can_always_be_undone(self):
        self.assert_run(*self.deployed, (restoring(3), entry(5)), (restoring(1), entry(6)), (undoing(5), entry(7)))

    def test_the_deploy_and_every_path_are_touched(self):
        """And no other deploy."""
        self.assert_run(
            *self.deployed,
            (patching({"/never-listed": HELLO}), opened(5, published=6)),
            (removing("/never-listed"), entry(7)),
            (deleting(3), entry(8)),
            (restoring(1), entry(9)),
            (undoing(7), clash(9, "live /never-listed")),
            (undoing(8), entry(10)),
            (showing(3), stands(3, "kept")),
            (deleting(1), entry(11)),
            (undoing(11), entry(12)),
        )

    def test_a_removed_deploy_is_needed_by_its_restoring(self):
        self.assert_run(
            *self.deployed,
            (deleting(1), entry(5)),
            (restoring(1), NO_DEPLOY),
            (undoing(5), entry(6)),
            (restoring(1), entry(7)),
            *self.served(self.first),
        )

    def test_a_deploy_that_stays_the_same_is_touched_at_its_number(self):
        """The restore of a deploy whose files are served already, whose publish changed no path."""
        self.assert_run(
            *first_deployed("/a"),
            *deployed(3, "/a"),
            (restoring(3), entry(5)),
            (undoing(4), clash(5, "kept 3")),
            (undoing(3), clash(4, "draft 3")),
        )

    def test_no_unknown_deploy_is_restored(self):
        self.assert_run(*self.deployed, *[(restoring(number), NO_DEPLOY) for number in (0, 2, 99)])

    def test_an_open_deploy_is_published(self):
        self.assert_run(
            (opening({"/a": HELLO, "/b": ABC}, draft=True), opened(1, ABC, HELLO)),
            (restoring(1), refused("NotComplete", digest=ABC)),
            (upload(1, "b", b"abc"), uploaded(b"abc")),
            (upload(1, "a", b"hello"), uploaded(b"hello")),
            (restoring(1), entry(2)),
            *self.served({"/a": HELLO, "/b": ABC}),
            (showing(1), stands(1, "kept")),
        )


class Patches(Worked):
    """What a patch changes and touches, and what it is refused by."""

    patched = [
        *first_deployed("/a", "/b", "/c"),
        (patching({"/b": ABC, "/c": None, "/d": ABC, "/e": None}), opened(3, ABC)),
    ]
    published = [*patched, (upload(3, "d", b"abc"), uploaded(b"abc", published=4))]

    def served(self, **digests):
        return served({f"/{name}": digest for name, digest in digests.items()}, ("/a", "/b", "/c", "/d", "/e", "/z"))

    def test_its_listed_paths_change_alone(self):
        self.assert_run(
            *self.patched,
            *self.served(a=HELLO, b=HELLO, c=HELLO),
            (upload(3, "d", b"abc"), uploaded(b"abc", published=4)),
            *self.served(a=HELLO, b=ABC, d=ABC),
            (undoing(2), clash(4, "live /b")),
            (undoing(4), entry(5)),
            *self.served(a=HELLO, b=HELLO, c=HELLO),
            (showing(3), stands(3, "open")),
        )

    def test_no_deploy_is_kept(self):
        self.assert_run(
            *self.published,
            (showing(3), NO_DEPLOY),
            (reading("/d/one/3/b"), NO_DEPLOY),
            (showing(1), stands(1, "kept")),
            (cancelling(3), NO_DRAFT),
            (restoring(3), NO_DEPLOY),
            (deleting(3), NO_DEPLOY),
            (aliasing("next", 3), NO_DEPLOY),
            (upload(3, "b", b"abc"), NO_DEPLOY),
        )

    def test_its_missing_digest_is_named(self):
        self.assert_run(
            *self.patched,
            (restoring(3), refused("NotComplete", digest=ABC)),
            (showing(3), stands(3, "open", ABC)),
            (upload(3, "c", b"hello"), refused("NotListed")),
            (upload(3, "a", b"hello"), refused("NotListed")),
            (upload(3, "b", b"hello"), refused("WrongDigest")),
        )

    def test_files_are_removed_with_nothing_uploaded(self):
        self.assert_run(
            *self.patched,
            (patching({"/0": None, "/a": None, "/e": None}), opened(4, published=5)),
            *self.served(b=HELLO, c=HELLO),
        )

    def test_a_removal_where_nothing_is_served_is_no_refusal(self):
        self.assert_run(
            (patching({"/a": None}), opened(1, published=2)),
            *self.served(),
            (undoing(2), entry(3)),
            (showing(1), stands(1, "open")),
        )

    def test_files_are_written_without_removals(self):
        """That of /a is there already, so nothing changes there, though the patch touches it."""
        self.assert_run(
            *self.published,
            (patching({"/a": HELLO, "/z": ABC}), opened(5, published=6)),
            *self.served(a=HELLO, b=ABC, d=ABC, z=ABC),
            (removing("/a"), entry(7)),
            (undoing(6), entry(8)),
            *self.served(b=ABC, d=ABC),
        )

    def test_its_draft_and_its_listed_paths_are_touched(self):
        """Also one at a path where nothing is served, and none that is not listed."""
        self.assert_run(
            *first_deployed("/a", "/e"),
            (removing("/a"), entry(3)),
            (removing("/e"), entry(4)),
            (patching({"/b": HELLO, "/e": None}, draft=True), opened(5)),
            (opening({}, draft=True), opened(6)),
            *deployed(7, "/e", site="two"),
            (restoring(5), entry(9)),
            (undoing(4), clash(9, "live /e")),
            (undoing(5), clash(9, "draft 5")),
            (undoing(6), entry(10)),
            (undoing(3), entry(11)),
            (undoing(8, site="two"), entry(12)),
            *self.served(a=HELLO, b=HELLO),
        )

    def test_its_restoring_publishes_it(self):
        self.assert_run(
            *first_deployed("/a", "/b", "/c"),
            (patching({"/b": ABC, "/c": None, "/d": ABC, "/e": None}, draft=True), opened(3, ABC)),
            (upload(3, "d", b"abc"), uploaded(b"abc")),
            *self.served(a=HELLO, b=HELLO, c=HELLO),
            (restoring(3), entry(4)),
            *self.served(a=HELLO, b=ABC, d=ABC),
            (showing(3), NO_DEPLOY),
        )

    def test_it_does_not_meet_what_it_leaves_alone(self):
        self.assert_run(
            *first_deployed("/a.txt"),
            (patching({"/a.txt": None, "/b.txt": HELLO}), opened(3, published=4)),
            *serves("/b.txt"),
            (undoing(2), clash(4, "live /a.txt")),
            (renaming("/b.txt", "/z.txt"), entry(5)),
            (patching({"/a.txt": None, "/c.txt": HELLO}, draft=True), opened(6)),
            (restoring(6), entry(7)),
            *serves("/c.txt", "/z.txt"),
            (undoing(5), entry(8)),
            *serves("/b.txt", "/c.txt"),
        )
