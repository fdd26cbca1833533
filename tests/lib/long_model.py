"""The plain model of a host, made quick for histories of many thousand entries.

It keeps the state, and of each live change which cells it changed, with what they had before, and what it touches. An undo puts that back.
That this is what the live changes give from nothing is checked by the plain model itself (`compare`), which takes seconds.
"""

import bisect

from lib.plain_history import covering
from lib.plain_model import Model


class LongModel(Model):
    def __init__(self):
        super().__init__()
        self.cells, self.live, self.openings = {}, [], []
        # for each live change the cells that it changed, with their values before it, and what it touches
        self.effects = {}
        # for each cell, all of a site and kind, or all paths below a folder, the numbers of the live changes that touch it, in their order
        self.touching = {}

    def copy(self):
        copy = type(self)()
        copy.uploads, copy.entries = dict(self.uploads), list(self.entries)
        copy.cells, copy.live, copy.openings, copy.effects = dict(self.cells), list(self.live), list(self.openings), dict(self.effects)
        copy.touching = {cell: list(numbers) for cell, numbers in self.touching.items()}
        return copy

    def state(self):
        return self.cells

    def live_changes(self):
        return self.live

    def opened(self):
        return self.openings

    def commit(self, kind, site, *parts):
        number = super().commit(kind, site, *parts)
        changed, touched = self.effect(number, self.cells)
        self.live.append(number)
        self.openings += [number] * (kind == "open")
        self.effects[number] = {cell: self.cells.get(cell) for cell in changed}, touched
        for cell in touched:
            self.touching.setdefault(cell, []).append(number)
        put(self.cells, changed)
        return number

    def undo(self, site, change):
        number = super().undo(site, change)
        before, touched = self.effects.pop(change)
        remove(self.live, change)
        for cell in touched:
            remove(self.touching[cell], change)
        put(self.cells, before)
        return number

    def enter(self, entry):
        """Adds an entry that is accepted."""
        if entry.kind == "undo":
            return self.undo(entry.site, *entry.parts)
        return self.commit(entry.kind, entry.site, *entry.parts)

    def effect(self, number, state):
        """The cells that a change changes in this state, with their new values, and what it touches."""
        writes, touched = self.plan(number, state)
        return {cell: value for cell, value in writes.items() if state.get(cell) != value}, touched

    def clashes(self, change):
        """The first of them."""
        found = []
        for cell in self.effects[change][0]:
            for touched in covering(cell):
                numbers = self.touching.get(touched, ())
                later = bisect.bisect_right(numbers, change)
                found += [(number, cell) for number in numbers[later:later + 1]]
        return [min(found)] if found else []

    def compare(self):
        """Runs the live changes from nothing: they change and touch what is kept here, and give this state."""
        state = {}
        numbers = [number for number in range(1, len(self.entries) + 1) if number in self.effects]
        if numbers != list(Model.live_changes(self)) or numbers != self.live:
            raise AssertionError("other changes are live")
        for number in numbers:
            changed, touched = self.effect(number, state)
            if ({cell: state.get(cell) for cell in changed}, touched) != self.effects[number]:
                raise AssertionError(f"the change {number} has another effect where it runs again")
            put(state, changed)
        if state != self.cells:
            raise AssertionError("the state is another where all runs again")


def put(state, values):
    for cell, value in values.items():
        if value is None:
            state.pop(cell, None)
        else:
            state[cell] = value


def remove(numbers, number):
    """Takes the number out of these, which rise."""
    del numbers[bisect.bisect_left(numbers, number)]
