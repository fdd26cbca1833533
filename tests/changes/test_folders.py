"""Worked runs of renamings of folders, and of their undo."""

import urllib.parse

from lib.client import ABC, HELLO, asking, done, opened, opening, refused, request, sent, upload, uploaded
from lib.worked_runs import (
    LISTING, NO_FILE, SITE, Worked, aliasing, clash, deployed, entry, first_deployed, patching, reading, removing, renaming, renaming_folder, restoring,
    served, serves, undoing,
)

# A site with two files below one folder, and one beside it whose name begins as the folder's does: the entries 1 and 2.
FILES = {"/docs/x": HELLO, "/docs/y/z": ABC, "/docsx": HELLO}
PUBLISHED = [
    (opening(FILES), opened(1, ABC, HELLO)),
    (upload(1, "docs/x", b"hello"), uploaded(b"hello")),
    (upload(1, "docs/y/z", b"abc"), uploaded(b"abc", published=2)),
]
SAME, NESTED = refused("SamePath"), refused("NestedFolder")
LONG, TAKEN = refused("PathTooLong"), refused("PathTaken")


def has(files, *others):
    """The site serves these files, and none at the other paths of these runs."""
    return served(files, [*files, *others, *(path for path in FILES if path not in files)])


class Folders(Worked):
    def test_a_folder_is_renamed_and_the_renaming_is_taken_back(self):
        moved = {"/d2/x": HELLO, "/d2/y/z": ABC, "/docsx": HELLO}
        self.assert_run(
            *PUBLISHED,
            (renaming_folder("/docs", "/d2"), entry(3)),
            *has(moved),
            (renaming("/docsx", "/docs/q"), entry(4)),
            (undoing(3), entry(5)),
            *has({"/docs/x": HELLO, "/docs/y/z": ABC, "/docs/q": HELLO}, *moved),
            (renaming_folder("/docs", "/d3"), entry(6)),
            *has({"/d3/x": HELLO, "/d3/y/z": ABC, "/d3/q": HELLO}, "/docs/q"),
            (undoing(4), clash(6, "live /docs/q")),
            (LISTING, done(changes=[
                {"entry": 1, "kind": "open", "live": True},
                {"entry": 2, "kind": "publish", "live": True},
                {"entry": 3, "kind": "rename-folder", "live": False},
                {"entry": 4, "kind": "rename", "live": True},
                {"entry": 5, "kind": "undo", "of": 3},
                {"entry": 6, "kind": "rename-folder", "live": True},
            ])),
        )

    def test_a_path_without_a_file_is_touched_too(self):
        self.assert_run(
            *PUBLISHED,
            (removing("/docs/x"), entry(3)),
            (renaming_folder("/docs", "/d2"), entry(4)),
            *has({"/d2/y/z": ABC, "/docsx": HELLO}, "/d2/x"),
            (undoing(3), clash(4, "live /docs/x")),
            (undoing(4), entry(5)),
            (undoing(3), entry(6)),
            *has(FILES),
        )

    def test_each_reason_is_told_in_its_order(self):
        longest = "/" + 1_019 * "a"
        self.assert_run(
            *PUBLISHED,
            *deployed(3, "/e/k", site="two"),
            (patching({"/e/k": HELLO}), opened(5, published=6)),
            *[(renaming_folder(path, path), SAME) for path in ("/docs", "/none")],
            (renaming_folder("/docs", "/docs/in"), NESTED),
            (renaming_folder("/docs/y", "/docs"), NESTED),
            (renaming_folder("/none", "/none/in"), NESTED),
            (renaming_folder("/none", "/m"), NO_FILE),
            (renaming_folder("/docsx", "/m"), NO_FILE),
            (renaming_folder("/none", "/e"), NO_FILE),
            (renaming_folder("/none", "/" + 1_023 * "a"), NO_FILE),
            (renaming_folder("/docs", "/" + 1_023 * "a"), LONG),
            (renaming_folder("/docs", longest + "a"), LONG),
            (renaming_folder("/docs", "/e"), TAKEN),
            (patching({longest + "a/k": HELLO}), opened(7, published=8)),
            (renaming_folder("/docs", longest + "a"), LONG),
            *has(FILES),
            (renaming_folder("/docs", longest), entry(9)),
            *has({longest + "/x": HELLO, longest + "/y/z": ABC, "/docsx": HELLO}),
        )

    def test_bodies_are_refused(self):
        target = f"{SITE}/rename-folder"
        for members, reason in (
            ({}, "BadBody"), ({"from": "/a"}, "BadBody"), ({"from": "/a", "to": 1}, "BadBody"), ({"from": "/a/", "to": None}, "BadBody"),
            ({"from": "/a/", "to": "/b"}, "BadPath"), ({"from": "/a", "to": "/b/"}, "BadPath"), ({"from": "/", "to": "/b"}, "BadPath"),
        ):
            with self.subTest(**members):
                self.assert_run((asking("POST", target, **members), refused(reason)))
        self.assert_run((request("GET", target), refused("BadMethod", "Allow: POST")))

    def test_a_name_that_begins_as_the_other_does_is_another(self):
        """The order of the two texts is not that of the paths below them."""
        self.assert_run(
            *PUBLISHED,
            (renaming_folder("/docs", "/docs-"), entry(3)),
            *has({"/docs-/x": HELLO, "/docs-/y/z": ABC, "/docsx": HELLO}),
            (patching({"/docs/x": ABC, "/docs-/a": ABC}), opened(4, published=5)),
            (renaming_folder("/docs-", "/docs"), TAKEN),
            (renaming_folder("/docs", "/docs-"), TAKEN),
            (renaming_folder("/docs-", "/doc"), entry(6)),
            *has({"/doc/x": HELLO, "/doc/y/z": ABC, "/doc/a": ABC, "/docs/x": ABC, "/docsx": HELLO}, "/docs-/x", "/docs-/y/z", "/docs-/a"),
            (undoing(5), clash(6, "live /docs-/a")),
            (undoing(6), entry(7)),
            (undoing(3), clash(5, "live /docs/x")),
            (undoing(5), entry(8)),
            (undoing(3), entry(9)),
            *has(FILES, "/docs-/x", "/docs-/y/z", "/docs-/a"),
        )

    def test_a_file_at_the_folders_own_path_stays(self):
        self.assert_run(
            *first_deployed("/a", "/a/b", "/a/b/c"),
            (renaming_folder("/a", "/z"), entry(3)),
            *serves("/a", "/z/b", "/z/b/c", among=("/a", "/a/b", "/a/b/c", "/z", "/z/b", "/z/b/c")),
            (removing("/a"), entry(4)),
            (undoing(3), entry(5)),
            *serves("/a/b", "/a/b/c", among=("/a", "/a/b", "/a/b/c", "/z", "/z/b", "/z/b/c")),
            (renaming_folder("/a/b", "/a/d"), entry(6)),
            *serves("/a/b", "/a/d/c", among=("/a", "/a/b", "/a/b/c", "/a/d", "/a/d/c")),
        )

    def test_a_file_at_the_new_folders_own_path_or_above_it_stays(self):
        self.assert_run(
            *first_deployed("/a/b", "/z"),
            (renaming_folder("/a", "/z"), entry(3)),
            *serves("/z", "/z/b", among=("/a", "/a/b", "/z", "/z/b")),
            (removing("/z"), entry(4)),
            (undoing(3), entry(5)),
            (undoing(4), entry(6)),
            (renaming_folder("/a", "/z/in/it"), entry(7)),
            *serves("/z", "/z/in/it/b", among=("/a", "/a/b", "/z", "/z/b", "/z/in/it/b")),
        )

    def test_new_paths_are_measured_in_bytes(self):
        """That of any file may be too long."""
        rest, short, long = "/" + 10 * "é", "/" + 501 * "é", "/" + 501 * "é" + "a"
        self.assert_run(
            *first_deployed("/d/a", "/d" + rest, "/d/ü"),
            (renaming_folder("/d", long), LONG),
            (renaming_folder("/d", short), entry(3)),
            (reading(f"/s/one{urllib.parse.quote(short + rest)}"), sent(b"hello", kind="application/octet-stream")),
            (renaming_folder(short, "/d"), entry(4)),
            *serves("/d/a", among=("/d/a", "/d")),
        )

    def test_the_longest_folder_becomes_a_short_one(self):
        longest = "/" + 1_021 * "a"
        self.assert_run(
            *first_deployed(longest + "/x"),
            (renaming_folder(longest, "/b"), entry(3)),
            *serves("/b/x", among=(longest + "/x", "/b/x", "/b")),
            (renaming_folder("/b", longest + "b"), LONG),
            (undoing(3), entry(4)),
            *serves(longest + "/x", among=(longest + "/x", "/b/x")),
        )

    def test_a_later_change_below_the_new_folder_is_in_the_way_only_of_what_was_moved(self):
        self.assert_run(
            *PUBLISHED,
            (renaming_folder("/docs", "/d2"), entry(3)),
            (patching({"/d2/new": HELLO}), opened(4, published=5)),
            (undoing(3), entry(6)),
            *has({**FILES, "/d2/new": HELLO}, "/d2/x", "/d2/y/z"),
            (renaming_folder("/docs", "/d2"), TAKEN),
            (removing("/d2/new"), entry(7)),
            (renaming_folder("/docs", "/d2"), entry(8)),
            (patching({"/d2/x": ABC}), opened(9, published=10)),
            (removing("/d2/y/z"), entry(11)),
            (undoing(8), clash(10, "live /d2/x")),
            (undoing(10), entry(12)),
            (undoing(8), clash(11, "live /d2/y/z")),
            (undoing(11), entry(13)),
            (undoing(8), entry(14)),
            *has(FILES, "/d2/x", "/d2/y/z", "/d2/new"),
        )

    def test_a_folder_is_renamed_again_and_back(self):
        self.assert_run(
            *PUBLISHED,
            (renaming_folder("/docs", "/d2"), entry(3)),
            (renaming_folder("/d2", "/d3"), entry(4)),
            (undoing(3), clash(4, "live /d2/x")),
            (renaming_folder("/d3", "/docs"), entry(5)),
            *has(FILES, "/d2/x", "/d3/x"),
            (undoing(3), clash(4, "live /d2/x")),
            (undoing(4), clash(5, "live /d3/x")),
            (undoing(5), entry(6)),
            (undoing(4), entry(7)),
            (undoing(3), entry(8)),
            *has(FILES, "/d2/x", "/d3/x"),
        )

    def test_kept_deploys_and_drafts_stay(self):
        self.assert_run(
            *PUBLISHED,
            (aliasing("next", 1), entry(3)),
            (patching({"/docs/new": HELLO}, draft=True), opened(4)),
            (renaming_folder("/docs", "/d2"), entry(5)),
            *served(FILES, [*FILES, "/d2/x"], "d/one/1"),
            *served(FILES, [*FILES, "/d2/x"], "a/one/next"),
            (restoring(4), entry(6)),
            *has({"/d2/x": HELLO, "/d2/y/z": ABC, "/docsx": HELLO, "/docs/new": HELLO}),
            (undoing(5), entry(7)),
            *has({**FILES, "/docs/new": HELLO}),
        )

    def test_a_folder_that_no_changed_path_is_below_is_in_no_ones_way(self):
        """Nor is what a patch lists and doesn't change."""
        self.assert_run(
            *first_deployed("/k/a/in", "/kk/x", "/k-/x", "/docs/x"),
            (patching({"/k/a": HELLO, "/docs/none": None}), opened(3, published=4)),
            (renaming_folder("/k/a", "/k/b"), entry(5)),
            (renaming_folder("/kk", "/k2"), entry(6)),
            (renaming_folder("/k-", "/k."), entry(7)),
            (renaming_folder("/docs", "/d2"), entry(8)),
            (undoing(4), entry(9)),
            *serves("/k/b/in", "/k2/x", "/k./x", "/d2/x", among=("/k/a", "/k/b/in", "/k2/x", "/k./x", "/d2/x")),
        )

    def test_a_folder_is_found_that_the_path_before_only_shares_its_name_with(self):
        """The changed paths are next to one another: a longer name, the folder's own path, and paths below it and below one in it."""
        self.assert_run(
            *first_deployed("/a/c/x"),
            (patching({"/a-": HELLO, "/a/b": HELLO}), opened(3, published=4)),
            (renaming_folder("/a", "/q"), entry(5)),
            (undoing(4), clash(5, "live /a/b")),
            (undoing(5), entry(6)),
            (patching({"/a/c": HELLO, "/a/c-": HELLO, "/a/c/d": HELLO}), opened(7, published=8)),
            (renaming_folder("/a/c", "/a/d"), entry(9)),
            (undoing(8), clash(9, "live /a/c/d")),
            (undoing(9), entry(10)),
            (undoing(8), entry(11)),
            (undoing(4), entry(12)),
        )

    def test_a_change_far_below_is_found(self):
        """Whichever of the folders above a path is renamed."""
        deep = "/a" + "/b" * 500
        above = [deep[:2 + 2 * count] for count in (0, 1, 2, 100, 499)]
        for folder in above:
            with self.subTest(length=len(folder)):
                self.assert_run(
                    *first_deployed(deep, "/a/c", "/c"),
                    (removing(deep), entry(3)),
                    (patching({folder + "/other": HELLO}), opened(4, published=5)),
                    (renaming_folder(folder, "/else"), entry(6)),
                    (undoing(3), clash(6, "live " + deep)),
                    (undoing(6), entry(7)),
                    (undoing(3), entry(8)),
                )

    def test_a_folder_of_another_site_is_another(self):
        self.assert_run(
            *PUBLISHED,
            *deployed(3, "/docs/x", site="two"),
            (removing("/docs/x"), entry(5)),
            (renaming_folder("/docs", "/d2", site="two"), entry(6)),
            *serves("/d2/x", site="two", among=("/docs/x", "/d2/x")),
            (undoing(5), entry(7)),
            *has(FILES),
        )

    def test_whole_deploys_and_renamings_of_folders_touch_one_another(self):
        self.assert_run(
            *PUBLISHED,
            (renaming_folder("/docs", "/d2"), entry(3)),
            (undoing(2), clash(3, "live /docs/x")),
            *deployed(4, "/z.txt"),
            (undoing(3), clash(5, "live /d2/x")),
            (renaming_folder("/d2", "/d3"), NO_FILE),
            (restoring(1), entry(6)),
            (undoing(5), clash(6, "live /d2/x")),
            *has(FILES, "/d2/x", "/z.txt"),
        )
