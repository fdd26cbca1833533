"""The plain model of a host for histories of some thousand entries, mostly undos.

After each undo it runs all live changes again from nothing, and keeps what each changed and touched there. A clash is looked for at
each later live change in turn.
"""

from lib.plain_history import is_in
from lib.plain_model import Model


class ReplayedModel(Model):
    def __init__(self):
        super().__init__()
        self.cells = {}
        # for each live change, in their order, the cells that it changed, in theirs, and what it touched
        self.effects = {}

    def copy(self):
        copy = super().copy()
        copy.cells, copy.effects = dict(self.cells), dict(self.effects)
        return copy

    def state(self):
        return self.cells

    def live_changes(self):
        return tuple(self.effects)

    def commit(self, kind, site, *parts):
        number = super().commit(kind, site, *parts)
        self.play(number)
        return number

    def undo(self, site, change):
        number = super().undo(site, change)
        self.cells, self.effects = {}, {}
        for live in super().live_changes():
            self.play(live)
        return number

    def play(self, number):
        """Runs a change over the state that the ones before it left."""
        writes, touched = self.plan(number, self.cells)
        self.effects[number] = sorted(cell for cell, value in writes.items() if self.cells.get(cell) != value), touched
        for cell, value in writes.items():
            if value is None:
                self.cells.pop(cell, None)
            else:
                self.cells[cell] = value

    def clashes(self, change):
        changed, _ = self.effects[change]
        for later, (_, touched) in self.effects.items():
            if later > change:
                yield from ((later, cell) for cell in changed if is_in(cell, touched))
