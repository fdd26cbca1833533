"""What a crash may leave of a store, worked out from the calls on its files that a program made: the plain model of docs/STORAGE.md, "What a crash leaves of a
file", apart from the crates' code.
"""

from journal import SLOTS

FOLDER = "folder"
# What stands in a file of the shelf whose bytes weren't synced before it got its name.
LOST = b"bytes that no program wrote"


class Disk:
    """A file of bytes: those that a read gives, and what a crash may leave of them."""

    def __init__(self, data=b""):
        self.data, self.syncs = data, -1
        self.sync()

    def write(self, at, data):
        self.data = self.data[:at] + data + self.data[at + len(data):]
        self.greatest = max(self.greatest, at + len(data))
        self.written.append((at, at + len(data)))

    def cut(self, size):
        self.data = self.data[:size]
        self.least = min(self.least, size)

    def sync(self):
        self.least = self.greatest = len(self.data)
        self.written = []
        self.syncs += 1

    def image(self, byte):
        """The longest file that a crash may leave, with this byte wherever it may leave any."""
        image = bytearray(self.data[:self.least].ljust(self.greatest, bytes([byte])))
        for start, end in self.written:
            image[start:end] = bytes([byte]) * (end - start)
        return bytes(image)


class Store:
    """A store as the calls leave it: the slots of the journal, and the files of the shelf, each with the bytes that its name stands for."""

    def __init__(self, before, contents):
        self.slots = {name: Disk(before.get(name, b"")) for name in SLOTS}
        self.lasting = {name: data for name, data in before.items() if name not in SLOTS}
        # The files that were renamed since the folder was synced, and those under temporary names whose bytes weren't synced.
        self.renamed, self.unsynced = {}, set()
        self.contents = contents

    def apply(self, line):
        """Does what a traced call did."""
        call, name, *rest = line.split(" ")
        if name in SLOTS:
            self.apply_to_slot(self.slots[name], call, *rest)
        elif call == "write":
            self.unsynced.add(name)
        elif call == "rename":
            self.rename(name, *rest)
        elif name == FOLDER:
            self.lasting.update(self.renamed)
            self.renamed = {}
        else:
            self.unsynced.discard(name)

    def apply_to_slot(self, slot, call, *rest):
        if call == "pwrite":
            at, data = rest
            slot.write(int(at), bytes.fromhex(data))
        elif call == "ftruncate":
            slot.cut(int(rest[0]))
        else:
            slot.sync()

    def rename(self, temporary, name):
        self.renamed[name] = LOST if temporary in self.unsynced else self.contents[name]
        self.unsynced.discard(temporary)

    def files(self, byte, are_renamed):
        """The files that a crash may leave, with this byte wherever it may leave any in the journal; of the renamed ones all, or none."""
        slots = {name: slot.image(byte) for name, slot in self.slots.items()}
        return {**slots, **self.lasting, **(self.renamed if are_renamed else {})}


def stops_of(trace, before, contents):
    """For each of the calls, and before the first, how many replies had begun by then, and what the store is. The files were these before, and
    the shelf's have these contents in the end."""
    store, replies = Store(before, contents), 0
    yield replies, store
    for line in trace:
        if line in ("write replies", "send socket"):
            replies += 1
        else:
            store.apply(line)
        yield replies, store
