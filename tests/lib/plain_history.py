"""A plain model of histories, written from docs/CHANGES.md alone.

A state is a dict from cells to values, files are whole bytes, and each state is what the live changes give from
nothing. What no test asks of it is left out: running out of memory, and a full history.
"""

from typing import NamedTuple

from lib.client import STATUS_OF


class Refused(Exception):
    """A request is refused by this name. The reply has the members next to it, and the fields."""

    def __init__(self, name, *fields, **members):
        super().__init__(name)
        self.status = STATUS_OF[name]
        self.told = {"error": name, **members}
        self.fields = fields


def refuse_where(holds, name, **members):
    if holds:
        raise Refused(name, **members)


# Cells. They are ordered by site, then by kind in this order, then by path, name or number.

KINDS = ("live", "kept", "alias", "draft")
LIVE, KEPT, ALIAS, DRAFT = range(4)
EVERY = None  # means every cell of a site and kind, if a command touches them all


class Below(NamedTuple):
    """Means every path below a folder, if a command touches them all."""

    folder: str


def folders_of(path):
    """The folders that a path is below."""
    return [path[:place] for place in range(1, len(path)) if path[place] == "/"]


def covering(cell):
    """What a command may name that touches the cell: the cell itself, all of its site and kind, and of a path all below a folder that it is below."""
    yield cell
    site, kind, key = cell
    yield site, kind, EVERY
    if kind == LIVE:
        yield from ((site, kind, Below(folder)) for folder in folders_of(key))


def is_in(cell, touched):
    return any(one in touched for one in covering(cell))


def serving(state, site, files):
    """What to write so that the site serves exactly these files."""
    nothing = {cell: None for cell in state if cell[:2] == (site, LIVE)}
    return nothing | {(site, LIVE, path): content for path, content in files.items()}


class Deploy(NamedTuple):
    """What a deploy lists: for each path a digest, or None if a patch removes the file."""

    files: dict
    is_draft: bool
    is_patch: bool

    def missing(self, uploads):
        return sorted(set(self.files.values()) - {None} - uploads.keys())


# Commands, in the order of the table of docs/CHANGES.md. Each refuses, or answers what it writes, None for a cell that it
# empties, and what it touches. `number` is the number of its own entry.


def open_deploy(state, uploads, number, site, deploy):
    refuse_where(len(deploy.files) > 10_000, "TooManyFiles")
    return {(site, DRAFT, number): deploy}, {(site, DRAFT, number)}


def publish(state, uploads, number, site, which):
    kept, draft = (site, KEPT, which), (site, DRAFT, which)
    refuse_where(draft not in state, "NoSuchDraft")
    deploy = state[draft]
    for digest in deploy.missing(uploads):
        raise Refused("NotComplete", digest=digest)
    files = {path: uploads.get(digest) for path, digest in deploy.files.items()}
    if deploy.is_patch:
        writes = {(site, LIVE, path): content for path, content in files.items()}
        return writes | {draft: None}, {*writes, draft}
    return serving(state, site, files) | {kept: files, draft: None}, {(site, LIVE, EVERY), kept, draft}


def cancel(state, uploads, number, site, which):
    refuse_where((site, DRAFT, which) not in state, "NoSuchDraft")
    return {(site, DRAFT, which): None}, {(site, DRAFT, which)}


def move_alias(state, uploads, number, site, name, which):
    refuse_where((site, KEPT, which) not in state, "NoSuchDeploy")
    return {(site, ALIAS, name): which}, {(site, ALIAS, name), (site, KEPT, which)}


def remove_alias(state, uploads, number, site, name):
    refuse_where((site, ALIAS, name) not in state, "NoSuchAlias")
    return {(site, ALIAS, name): None}, {(site, ALIAS, name)}


def rename(state, uploads, number, site, first, second):
    source, target = (site, LIVE, first), (site, LIVE, second)
    refuse_where(source == target, "SamePath")
    refuse_where(source not in state, "NoSuchFile")
    refuse_where(target in state, "PathTaken")
    return {source: None, target: state[source]}, {source, target}


def files_below(state, site, folder):
    """The paths of the files that the site serves below the folder."""
    return [cell[2] for cell in state if cell[:2] == (site, LIVE) and folder in folders_of(cell[2])]


def rename_folder(state, uploads, number, site, first, second):
    refuse_where(first == second, "SamePath")
    refuse_where(first in folders_of(second) or second in folders_of(first), "NestedFolder")
    moved = {path: second + path[len(first):] for path in files_below(state, site, first)}
    refuse_where(not moved, "NoSuchFile")
    refuse_where(any(len(path.encode()) > 1_024 for path in moved.values()), "PathTooLong")
    refuse_where(files_below(state, site, second), "PathTaken")
    writes = {(site, LIVE, path): None for path in moved}
    writes |= {(site, LIVE, new): state[site, LIVE, old] for old, new in moved.items()}
    return writes, {(site, LIVE, Below(first)), (site, LIVE, Below(second))}


def remove(state, uploads, number, site, path):
    refuse_where((site, LIVE, path) not in state, "NoSuchFile")
    return {(site, LIVE, path): None}, {(site, LIVE, path)}


def restore(state, uploads, number, site, which):
    kept, draft = (site, KEPT, which), (site, DRAFT, which)
    if kept in state:
        return serving(state, site, state[kept]), {(site, LIVE, EVERY), kept, draft}
    refuse_where(draft not in state, "NoSuchDeploy")
    writes, touched = publish(state, uploads, number, site, which)
    return writes, touched | {kept, draft}


def remove_deploy(state, uploads, number, site, which):
    refuse_where((site, KEPT, which) not in state, "NoSuchDeploy")
    for name in sorted(cell[2] for cell in state if cell[:2] == (site, ALIAS) and state[cell] == which):
        raise Refused("DeployInUse", alias=name)
    return {(site, KEPT, which): None}, {(site, KEPT, which), (site, ALIAS, EVERY)}


COMMANDS = {
    "open": open_deploy, "publish": publish, "cancel": cancel, "alias": move_alias, "unalias": remove_alias,
    "rename": rename, "rename-folder": rename_folder, "remove": remove, "restore": restore, "delete": remove_deploy,
}


class Entry(NamedTuple):
    """A command with its parts, or an undo, whose part is the number of the change."""

    kind: str
    site: str
    parts: tuple


class History:
    """Entries, numbered from 1, and what was uploaded."""

    def __init__(self):
        self.uploads = {}
        self.entries = []
        self.known_states = {(): {}}

    def copy(self):
        """One with the same entries and uploads, over a new connection."""
        copy = type(self)()
        copy.uploads, copy.entries, copy.known_states = dict(self.uploads), list(self.entries), dict(self.known_states)
        return copy

    def entry(self, number):
        return self.entries[number - 1] if 1 <= number <= len(self.entries) else None

    def opened(self):
        """The numbers of the entries that open deploys, also of those that are undone."""
        return [number for number, entry in enumerate(self.entries, 1) if entry.kind == "open"]

    def live_changes(self):
        """The numbers of the changes that no undo names."""
        undone = {entry.parts[0] for entry in self.entries if entry.kind == "undo"}
        numbered = enumerate(self.entries, 1)
        return tuple(number for number, entry in numbered if entry.kind != "undo" and number not in undone)

    def plan(self, number, state):
        """What a change writes and touches when it runs again. It is accepted there as it was at first."""
        kind, site, parts = self.entry(number)
        try:
            return COMMANDS[kind](state, self.uploads, number, site, *parts)
        except Refused as refused:
            raise AssertionError(f"the change {number}, {kind}, is refused where it runs again: {refused}") from None

    def run(self, changes):
        """The state that the changes of these numbers give from nothing. Each is worked out once."""
        if changes not in self.known_states:
            before = self.run(changes[:-1])
            values = before | self.plan(changes[-1], before)[0]
            self.known_states[changes] = {cell: value for cell, value in values.items() if value is not None}
        return self.known_states[changes]

    def state(self):
        return self.run(self.live_changes())

    def commit(self, kind, site, *parts):
        """Adds a change, unless it is refused, and returns its number."""
        number = len(self.entries) + 1
        COMMANDS[kind](self.state(), self.uploads, number, site, *parts)
        self.entries.append(Entry(kind, site, parts))
        return number

    def undo(self, site, change):
        """Adds an undo, unless it is refused, and returns its number."""
        entry = self.entry(change)
        refuse_where(entry is None or entry.site != site, "NoSuchChange")
        refuse_where(entry.kind == "undo", "NotAChange")
        refuse_where(change not in self.live_changes(), "AlreadyUndone")
        for later, cell in self.clashes(change):
            raise Refused("Clash", change=later, cell=f"{KINDS[cell[1]]} {cell[2]}")
        self.entries.append(Entry("undo", site, (change,)))
        return len(self.entries)

    def clashes(self, change):
        """The later live changes that touch a cell which this one changed, each with each such cell, in their order."""
        live = self.live_changes()
        place = live.index(change)
        before, after = self.run(live[:place]), self.run(live[:place + 1])
        changed = sorted(cell for cell in before.keys() | after.keys() if before.get(cell) != after.get(cell))
        for place in range(place + 1, len(live)):
            _, touched = self.plan(live[place], self.run(live[:place]))
            yield from ((live[place], cell) for cell in changed if is_in(cell, touched))
