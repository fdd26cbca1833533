"""Worked runs of undos: which change can be taken back, what that leaves, and why another cannot."""

from lib.client import ABC, HELLO, done, opened, opening, refused, reply, sent, upload, uploaded
from lib.worked_runs import (
    JSON, LISTING, NO_ALIAS, NO_CHANGE, NO_DEPLOY, NO_DRAFT, NO_FILE, Worked, aliasing, cancelling, clash, deleting, deployed, entry,
    first_deployed, patching, reading, removing, renaming, restoring, serves, showing, stands, unaliasing, undoing,
)


class Undos(Worked):
    """Which changes can be undone, and what is there afterwards."""

    def test_a_publish_is_taken_back_and_then_its_opening(self):
        self.assert_run(
            (opening({"/a.txt": HELLO}, draft=True), opened(1, HELLO)),
            (restoring(1), refused("NotComplete", digest=HELLO)),
            (showing(1), stands(1, "open", HELLO)),
            (upload(1, "a.txt", b"hello"), uploaded(b"hello")),
            (restoring(1), entry(2)),
            (showing(1), stands(1, "kept")),
            (reading("/s/one/a.txt"), sent(b"hello")),
            (reading("/d/one/1/a.txt"), sent(b"hello")),
            (undoing(2, site="two"), NO_CHANGE),
            (undoing(0), NO_CHANGE),
            (undoing(99), NO_CHANGE),
            (undoing(1), clash(2, "draft 1")),
            (undoing(2), entry(3)),
            (reading("/s/one/a.txt"), NO_FILE),
            (reading("/d/one/1/a.txt"), NO_DEPLOY),
            (showing(1), stands(1, "open")),
            (undoing(2), refused("AlreadyUndone")),
            (undoing(3), refused("NotAChange")),
            (undoing(1), entry(4)),
            (showing(1), NO_DEPLOY),
            (restoring(1), NO_DEPLOY),
            (cancelling(1), NO_DRAFT),
            (upload(1, "a.txt", b"hello"), NO_DEPLOY),
            (LISTING, done(changes=[
                {"entry": 1, "kind": "open", "live": False},
                {"entry": 2, "kind": "restore", "live": False},
                {"entry": 3, "kind": "undo", "of": 2},
                {"entry": 4, "kind": "undo", "of": 1},
            ])),
        )

    def test_a_publish_is_made_again_though_its_file_came_after_its_opening(self):
        self.assert_run(
            *first_deployed("/a.txt"),
            (opening({"/b.txt": ABC}), opened(3, ABC)),
            (undoing(3), entry(4)),
            (reading("/s/one/a.txt"), sent(b"hello")),
            (showing(1), stands(1, "kept")),
        )

    def test_a_change_is_undone_that_later_ones_leave_alone(self):
        self.assert_run(
            (opening({"/a.txt": HELLO}, draft=True), opened(1, HELLO)),
            (opening({"/a.txt": HELLO}, site="two"), opened(2, HELLO)),
            (upload(2, "a.txt", b"hello"), uploaded(b"hello", published=3)),
            (undoing(1), entry(4)),
            (showing(1), NO_DEPLOY),
            (reading("/s/two/a.txt"), sent(b"hello")),
            (undoing(4), refused("NotAChange")),
            (undoing(4, site="two"), NO_CHANGE),
            (undoing(2, site="two"), clash(3, "draft 2")),
            (undoing(3, site="two"), entry(5)),
            (undoing(2, site="two"), entry(6)),
            (reading("/s/two/a.txt"), NO_FILE),
        )

    changed = [
        *first_deployed("/a.txt", "/b.txt"),
        (renaming("/a.txt", "/c.txt"), entry(3)),
        (removing("/b.txt"), entry(4)),
        (undoing(3), entry(5)),
        *serves("/a.txt"),
    ]
    restored = [
        *changed,
        (undoing(4), entry(6)),
        (undoing(2), entry(7)),
        *serves(),
        (showing(1), stands(1, "open")),
        (restoring(1), entry(8)),
        *serves("/a.txt", "/b.txt"),
        (showing(1), stands(1, "kept")),
    ]

    def test_each_reason_is_told_in_its_order(self):
        self.assert_run(
            *self.changed,
            (undoing(2), clash(4, "live /b.txt")),
            (undoing(3), refused("AlreadyUndone")),
            (undoing(5), refused("NotAChange")),
            (undoing(99), NO_CHANGE),
            (undoing(0), NO_CHANGE),
            *serves("/a.txt"),
        )

    def test_an_alias_needs_its_deploy(self):
        self.assert_run(
            *self.restored,
            (aliasing("next", 1), entry(9)),
            (undoing(8), clash(9, "kept 1")),
            (deleting(1), refused("DeployInUse", alias="next")),
            *serves("/a.txt", "/b.txt"),
        )

    def test_a_whole_deploy_touches_what_it_leaves_alone(self):
        self.assert_run(
            *self.restored,
            (renaming("/a.txt", "/z.txt"), entry(9)),
            *deployed(10, "/z.txt"),
            (undoing(9), clash(11, "live /a.txt")),
            *serves("/z.txt"),
        )

    given_up = [
        *first_deployed("/a.txt"),
        (aliasing("next", 1), entry(3)),
        (unaliasing("next"), entry(4)),
        (deleting(1), entry(5)),
    ]

    def test_the_removal_of_a_deploy_needs_that_no_alias_names_it(self):
        self.assert_run(
            *self.given_up,
            (undoing(4), clash(5, "alias next")),
            (undoing(3), clash(4, "alias next")),
            (undoing(2), clash(3, "kept 1")),
        )

    def test_changes_of_aliases_are_undone_one_by_one(self):
        self.assert_run(
            *self.given_up,
            (undoing(5), entry(6)),
            (showing(1), stands(1, "kept")),
            (undoing(4), entry(7)),
            (reading("/a/one/next/a.txt"), sent(b"hello")),
            (deleting(1), refused("DeployInUse", alias="next")),
            (undoing(3), entry(8)),
            (reading("/a/one/next/a.txt"), NO_ALIAS),
            (undoing(2), entry(9)),
            *serves(),
        )


class UndoneAtOnce(Worked):
    """A change of each kind that is undone at once: all is there again as it was."""

    def assert_undone(self, setup, change, number, after, before, needs=()):
        """What is seen after the change, which is the entry of this number, and then after its undo as before it.

        `needs` tells the undos of earlier changes that are refused in between, each with the later change and the cell.
        """
        looks = [reading("/s/one/a.txt"), reading("/s/one/b.txt"), reading("/a/one/next/a.txt"), showing(1), showing(3)]
        absent = [NO_FILE, NO_FILE, NO_ALIAS, NO_DEPLOY, NO_DEPLOY]

        def seen(there):
            return [(look, there.get(place, absent[place])) for place, look in enumerate(looks)]

        refusals = [(undoing(earlier), clash(later, cell)) for earlier, later, cell in needs]
        undo = (undoing(number), entry(number + 1))
        self.assert_run(*setup, *seen(before), change, *seen(after), *refusals, undo, *seen(before))

    a, b, next_a, first, third = range(5)
    kept = {first: stands(1, "kept")}
    live = {a: sent(b"hello"), **kept}
    moved = {b: sent(b"hello"), **kept}
    aliased = {next_a: sent(b"hello"), **live}
    complete = {first: stands(1, "open")}

    an_opening = opening({"/a.txt": HELLO}, draft=True), opened(1, HELLO)
    opened_first = [an_opening, (upload(1, "a.txt", b"hello"), uploaded(b"hello"))]
    deployed_first = first_deployed("/a.txt")

    def test_an_opening(self):
        self.assert_undone([], self.an_opening, 1, {self.first: stands(1, "open", HELLO)}, {})

    def test_the_restore_of_an_open_deploy(self):
        needs = [(1, 2, "draft 1")]
        self.assert_undone(self.opened_first, (restoring(1), entry(2)), 2, self.live, self.complete, needs)

    def test_a_publish(self):
        """An upload to a deploy that lacks nothing publishes it."""
        taken_back = [*self.deployed_first, (undoing(2), entry(3))]
        again = upload(1, "a.txt", b"hello"), uploaded(b"hello", published=4)
        self.assert_undone(taken_back, again, 4, self.live, self.complete, [(1, 4, "draft 1")])

    def test_a_patch(self):
        patch = patching({"/a.txt": None, "/b.txt": HELLO}, draft=True), opened(3)
        before = {**self.live, self.third: stands(3, "open")}
        needs = [(1, 2, "draft 1"), (2, 4, "live /a.txt"), (3, 4, "draft 3")]
        self.assert_undone([*self.deployed_first, patch], (restoring(3), entry(4)), 4, self.moved, before, needs)

    def test_a_cancel(self):
        needs = [(1, 2, "draft 1")]
        self.assert_undone(self.opened_first, (cancelling(1), entry(2)), 2, {}, self.complete, needs)

    def test_a_move_of_an_alias(self):
        needs = [(2, 3, "kept 1")]
        self.assert_undone(self.deployed_first, (aliasing("next", 1), entry(3)), 3, self.aliased, self.live, needs)

    def test_the_removal_of_an_alias(self):
        setup = [*self.deployed_first, (aliasing("next", 1), entry(3))]
        needs = [(2, 3, "kept 1"), (3, 4, "alias next")]
        self.assert_undone(setup, (unaliasing("next"), entry(4)), 4, self.live, self.aliased, needs)

    def test_a_renaming(self):
        renamed, needs = (renaming("/a.txt", "/b.txt"), entry(3)), [(2, 3, "live /a.txt")]
        self.assert_undone(self.deployed_first, renamed, 3, self.moved, self.live, needs)

    def test_the_removal_of_a_file(self):
        needs = [(2, 3, "live /a.txt")]
        self.assert_undone(self.deployed_first, (removing("/a.txt"), entry(3)), 3, self.kept, self.live, needs)

    def test_the_restore_of_a_kept_deploy(self):
        setup = [*self.deployed_first, (removing("/a.txt"), entry(3))]
        needs = [(2, 3, "live /a.txt"), (3, 4, "live /a.txt")]
        self.assert_undone(setup, (restoring(1), entry(4)), 4, self.live, self.kept, needs)

    def test_the_removal_of_a_deploy(self):
        needs = [(2, 3, "kept 1")]
        self.assert_undone(self.deployed_first, (deleting(1), entry(3)), 3, {self.a: sent(b"hello")}, self.live, needs)


class Clashes(Worked):
    """Which later change stands in the way of an undo, and at which cell."""

    two_sites = [
        *first_deployed("/b.txt"),
        *deployed(3, "/a.txt", site="two"),
        *deployed(5, "/b.txt"),
        *deployed(7, "/c.txt"),
    ]

    def test_the_first_later_change_is_named_with_its_first_cell(self):
        self.assert_run(
            *self.two_sites,
            (undoing(1), clash(2, "draft 1")),
            (undoing(2), clash(6, "live /b.txt")),
            (undoing(3, site="two"), clash(4, "draft 3")),
            (undoing(5), clash(6, "draft 5")),
            (undoing(7), clash(8, "draft 7")),
            (undoing(0), NO_CHANGE),
            (undoing(9), NO_CHANGE),
        )

    def test_there_is_none_if_no_later_change_touches_what_it_changed(self):
        for change, site, path in ((4, "two", None), (6, "one", "/c.txt"), (8, "one", "/b.txt")):
            with self.subTest(change=change):
                self.assert_run(
                    *self.two_sites,
                    (undoing(change, site), entry(9)),
                    *serves(path, site=site),
                    (undoing(change - 1, site), entry(10)),
                )

    def test_changes_of_another_site_are_none(self):
        self.assert_run(*self.two_sites[:3], (undoing(2), entry(5)), *serves(), *serves("/a.txt", site="two"))

    def test_what_was_undone_is_passed_over(self):
        setup = [
            *first_deployed("/a.txt"),
            *deployed(3, "/b.txt"),
            (undoing(2), clash(4, "live /a.txt")),
            (undoing(4), entry(5)),
        ]
        self.assert_run(
            *setup,
            (undoing(4), refused("AlreadyUndone")),
            (undoing(5), refused("NotAChange")),
            (undoing(2), entry(6)),
            *serves(),
        )
        self.assert_run(*setup, (restoring(3), entry(6)), (undoing(2), clash(6, "live /a.txt")))

    def test_cells_have_the_order_of_their_kinds_and_then_of_their_bytes(self):
        self.assert_run(
            (opening({"/é": HELLO, "/a\"b": HELLO, "/Z": HELLO}), opened(1, HELLO)),
            (upload(1, "Z", b"hello"), uploaded(b"hello", published=2)),
            (removing("/é"), entry(3)),
            (undoing(2), reply("409 Conflict", JSON, '{"cell":"live /é","change":3,"error":"Clash"}'.encode())),
            (undoing(3), entry(4)),
            (removing("/a\"b"), entry(5)),
            (undoing(2), reply("409 Conflict", JSON, b'{"cell":"live /a\\"b","change":5,"error":"Clash"}')),
            (undoing(5), entry(6)),
            (deleting(1), entry(7)),
            (undoing(2), clash(7, "kept 1")),
            (undoing(7), entry(8)),
            (opening({}), opened(9, published=10)),
            (undoing(2), clash(10, "live /Z")),
        )
