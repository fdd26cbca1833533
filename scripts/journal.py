"""A reader and a writer of a journal's files, written from docs/STORAGE.md alone and apart from the crates' code.

An entry is a tuple: its kind, its site, and what else it says. A listing of a deploy is a tuple of pairs, each a path and the
hexadecimal digits of a digest, or None where the file is removed. In each number the highest byte comes first.
"""

import re

# A file's own gate, which is open, and its header: that of version 1, and that of version 2, whose generation is 1.
OLD_HEADER = b"\x01FHJRNL\x01"
HEADER = b"\x01FHJRNL\x02" + (1).to_bytes(8, "big")
HEADERS = (OLD_HEADER, HEADER)
EMPTY = HEADER + b"\x00"
SLOTS = ("journal", "journal.2")
# How the names begin of files of the journal that were kept.
KEPT = "journal.kept-"
OPEN, SHUT = b"\x01", b"\x00"
LONGEST_BODY = 10_470_070
# How many bytes a record has beside its body: its length, and the gate behind it.
AROUND_BODY = 5
MOST_PATHS = 10_000
MOST_RECORDS = 1_000_000
GREATEST_NUMBER = 1_000_000

NAME = re.compile(rb"[a-z0-9-]{1,63}", re.ASCII)
KINDS = ["undo", "open", "publish", "cancel", "alias", "no-alias", "rename", "remove", "restore", "no-deploy", "rename-folder"]
# How many of these kinds a journal of version 1 has. Each later version has all.
OLD_KINDS = 10
# What follows the site of an entry of each kind.
PARTS = {
    "undo": ["number"], "open": ["flags", "listing"], "publish": ["number"], "cancel": ["number"], "alias": ["name", "number"],
    "no-alias": ["name"], "rename": ["path", "path"], "remove": ["path"], "restore": ["number"], "no-deploy": ["number"],
    "rename-folder": ["path", "path"],
}


class BadEntry(Exception):
    """The bytes are the text of no entry."""


class BadHeader(Exception):
    """A slot in use has no header, or both have one generation."""


class BadRecord(Exception):
    """The record of this number is malformed."""


class Text:
    """The bytes of an entry that aren't read yet."""

    def __init__(self, text):
        # A view, since what remains of a long text would else be copied at each step.
        self.rest = memoryview(text)

    def take(self, count):
        if len(self.rest) < count:
            raise BadEntry
        taken, self.rest = self.rest[:count], self.rest[count:]
        return bytes(taken)

    def integer(self, count):
        return int.from_bytes(self.take(count), "big")

    def name(self):
        name = self.take(self.integer(1))
        if not NAME.fullmatch(name):
            raise BadEntry
        return name.decode()

    def path(self):
        path = self.take(self.integer(2))
        if not is_path(path):
            raise BadEntry
        return path.decode()

    def number(self):
        number = self.integer(8)
        if not 1 <= number <= GREATEST_NUMBER:
            raise BadEntry
        return number

    def flags(self):
        flags = self.integer(1)
        if flags > 3:
            raise BadEntry
        self.is_patch = bool(flags & 1)
        return tuple(word for bit, word in ((1, "patch"), (2, "auto")) if flags & bit)

    def listed(self):
        """A path, and the digest that is listed there."""
        path, mark = self.path(), self.integer(1)
        if mark == 1:
            return path, self.take(20).hex()
        if mark == 0 and self.is_patch:
            return path, None
        raise BadEntry

    def listing(self):
        count = self.integer(4)
        if count > MOST_PATHS:
            raise BadEntry
        listing = tuple(self.listed() for _ in range(count))
        paths = [path.encode() for path, _ in listing]
        if any(one >= other for one, other in zip(paths, paths[1:])):
            raise BadEntry
        return listing


def is_path(path):
    """Whether these bytes are a path: 2 to 1,024 of UTF-8 with the leading slash."""
    try:
        path.decode()
    except UnicodeDecodeError:
        return False
    if not 2 <= len(path) <= 1024 or path[:1] != b"/" or re.search(rb"[#?\\\0]", path):
        return False
    return not any(segment in (b"", b".", b"..") for segment in path[1:].split(b"/"))


def decode(body, version=2):
    """The entry whose text this is, in a journal of this version."""
    text = Text(body)
    kind = text.integer(1)
    if kind >= (OLD_KINDS if version == 1 else len(KINDS)):
        raise BadEntry
    word = KINDS[kind]
    entry = (word, text.name(), *(getattr(text, part)() for part in PARTS[word]))
    if text.rest:
        raise BadEntry
    return entry


def listed_text(path, digest):
    return spell("path", path) + (b"\x00" if digest is None else b"\x01" + bytes.fromhex(digest))


def spell(part, value):
    if part == "name":
        return bytes([len(value)]) + value.encode()
    if part == "path":
        return len(value.encode()).to_bytes(2, "big") + value.encode()
    if part == "number":
        return value.to_bytes(8, "big")
    if part == "flags":
        return bytes([("patch" in value) + 2 * ("auto" in value)])
    return len(value).to_bytes(4, "big") + b"".join(listed_text(*listed) for listed in value)


def encode(entry):
    """The text of an entry."""
    word, site, *values = entry
    parts = [spell(part, value) for part, value in zip(PARTS[word], values, strict=True)]
    return bytes([KINDS.index(word)]) + spell("name", site) + b"".join(parts)


def record(body):
    """A record with its open gate before it, and without the gate after it."""
    return OPEN + len(body).to_bytes(4, "big") + body


def write(entries, header=HEADER):
    """The file that has these entries."""
    return header + b"".join(record(encode(entry)) for entry in entries) + SHUT


def read_record(file, gate, number):
    """The body of the record after an open gate."""
    length = int.from_bytes(file[gate + 1:gate + 5], "big")
    # The gate of the next record belongs to it.
    if number > MOST_RECORDS or length > LONGEST_BODY or len(file) < gate + 5 + length + 1:
        raise BadRecord(number)
    return file[gate + 5:gate + 5 + length]


def version_of(header):
    """The version of a file that has this header behind its gate."""
    return header[len(b"\x01FHJRNL")]


def read_records(file, header):
    """The entries of the records behind a header, and the place of the first gate that isn't open."""
    gate = len(header)
    entries = []
    while file[gate:gate + 1] == OPEN:
        number = len(entries) + 1
        body = read_record(file, gate, number)
        try:
            entries.append(decode(body, version_of(header)))
        except BadEntry:
            raise BadRecord(number) from None
        gate += 5 + len(body)
    return entries, gate


def whole_records(file, gate, header):
    """The entries of the whole records that follow one another from this gate on, in a file with this header, whatever their gates are, each with
    whether its gate is open.
    """
    found = []
    try:
        while True:
            body = read_record(file, gate, len(found) + 1)
            found.append((decode(body, version_of(header)), file[gate:gate + 1] == OPEN))
            gate += AROUND_BODY + len(body)
    except (BadEntry, BadRecord):
        return found


def salvaged(file):
    """What can be read of a file that was kept, whatever its first byte and its gates are: entries, each with whether its gate is open."""
    return max((whole_records(file, len(header), header) for header in HEADERS), key=len)


def is_in_use(slot):
    return len(slot) > 1 and slot[:1] == OPEN


def generation_of(slot):
    """The generation of the file in a slot, or -1 if the slot isn't in use."""
    if not is_in_use(slot):
        return -1
    for generation, header in enumerate(HEADERS):
        if len(slot) > len(header) and slot.startswith(header):
            return generation
    raise BadHeader


def place_read(slots):
    """Which of two slots is read, or None if neither is in use."""
    one, other = map(generation_of, slots)
    if one == other:
        if one < 0:
            return None
        raise BadHeader
    return 0 if one > other else 1


def opened(first, second=b""):
    """The entries of two slots, and the bytes that each has after they were opened."""
    slots = [first, second]
    place = place_read(slots)
    if place is None:
        return [], (first[:1], EMPTY)
    file = slots[place]
    header = HEADERS[generation_of(file)]
    entries, gate = read_records(file, header)
    beside = slots[1 - place]
    slots[1 - place] = beside if is_in_use(beside) else beside[:1]
    new = HEADER + file[len(header):gate] + SHUT
    slots[1 - place if header == OLD_HEADER else place] = new
    return entries, tuple(slots)


def may_be_unfinished(behind):
    """Whether these bytes behind a closed gate may be all that a stop left of one record."""
    if len(behind) < AROUND_BODY:
        return True
    if len(behind) > LONGEST_BODY + AROUND_BODY:
        return False
    length = int.from_bytes(behind[:4], "big")
    return len(behind) - AROUND_BODY < length or behind == behind[:1] * len(behind)


def loss_of(file, start, gate, header):
    """What is dropped of a file with this header from one place on: that place, how many bytes, and how many whole records follow one another from a
    gate on.
    """
    return start, len(file) - start, len(whole_records(file, gate, header))


def dropped(first, second=b""):
    """What an opening drops of each of two slots, beyond what one unfinished record may have left: `loss_of` that, or None."""
    slots = [first, second]
    place = place_read(slots)
    lost = [None, None]
    for at, slot in enumerate(slots):
        if not is_in_use(slot) and len(slot) > len(EMPTY):
            headers = [header for header in HEADERS if slot[1:len(header)] == header[1:]]
            lost[at] = loss_of(slot, 1, len(headers[0]), headers[0]) if headers else (1, len(slot) - 1, 0)
    if place is not None:
        file = slots[place]
        header = HEADERS[generation_of(file)]
        gate = read_records(file, header)[1]
        if not may_be_unfinished(file[gate + 1:]):
            lost[place] = loss_of(file, gate + 1, gate, header)
    return tuple(lost)


def read(first, second=b""):
    """The entries of two slots."""
    return opened(first, second)[0]


def slots_in(folder):
    """The bytes of both slots in a folder. One that isn't there has none."""
    files = [folder / name for name in SLOTS]
    return tuple(file.read_bytes() if file.exists() else b"" for file in files)


def read_in(folder):
    """The entries of the journal in a folder."""
    return read(*slots_in(folder))


def file_in(folder):
    """The bytes of the file that is read in a folder, or none if there is no journal."""
    slots = slots_in(folder)
    place = place_read(slots)
    return b"" if place is None else slots[place]
