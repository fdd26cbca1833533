"""Stores in folders, as docs/STORAGE.md says what is in them: what the program is to find there, and runs of it over one."""

import contextlib
import itertools
import os
import pathlib
import resource
import shutil
import signal
import subprocess
import tempfile

from lib.client import Client, Program, content_length, digest_of, request, run
from lib.generated_histories import SITES, Generator, in_json, views
from lib.plain_history import Deploy, Entry
from lib.plain_model import Request
import journal

PIECE = 65_536
# A folder in memory, if there is one: there a sync takes no time.
IN_MEMORY = "/dev/shm" if pathlib.Path("/dev/shm").is_dir() else None

# What is said of a folder with files of a store and no journal.
LOST = "filehost: the folder has files of a store and no journal: it begins with an empty history\n"

# The kinds that the list of changes and the reader of journals name in two ways.
KINDS = {"unalias": "no-alias", "delete": "no-deploy"}


def told(entry):
    """An entry of the plain model, as the reader of journals tells it."""
    if entry.kind != "open":
        return (KINDS.get(entry.kind, entry.kind), entry.site, *entry.parts)
    deploy, = entry.parts
    flags = ("patch",) * deploy.is_patch + ("auto",) * (not deploy.is_draft)
    return "open", entry.site, flags, tuple(sorted(deploy.files.items(), key=lambda listed: listed[0].encode()))


def entry_of(told):
    """The same the other way."""
    kind, site, *parts = told
    if kind != "open":
        return Entry({word: name for name, word in KINDS.items()}.get(kind, kind), site, tuple(parts))
    flags, listing = parts
    return Entry(kind, site, (Deploy(dict(listing), "auto" not in flags, "patch" in flags),))


def opening_of(contents, site="one", flags=("auto",)):
    """The entry that opens a deploy of files with these contents, as the reader of journals tells it."""
    return "open", site, flags, tuple((path, digest_of(content)) for path, content in sorted(contents.items()))


def pieces_of(content):
    return [content[start:start + PIECE] for start in range(0, len(content), PIECE)]


def files_of(content):
    """The files that a store has for an uploaded one: for each of their names the bytes, the table last."""
    pieces = {f"c-{digest_of(piece)}": piece for piece in pieces_of(content)}
    names = b"".join(bytes.fromhex(digest_of(piece)) for piece in pieces_of(content))
    return pieces | {f"t-{digest_of(content)}": len(content).to_bytes(8, "big") + names}


def files_in(folder):
    """What a store has but its journal, files of it that were kept, and what has no name of its own yet."""
    return {file.name: file.read_bytes() for file in folder.iterdir() if not file.name.startswith("journal") and file.suffix != ".tmp"}


def kept_in(folder):
    """The files of its journal that a store has kept."""
    return {file.name: file.read_bytes() for file in sorted(folder.iterdir()) if file.name.startswith(journal.KEPT) and file.is_file()}


def is_stored(folder, content):
    """Whether a store has an uploaded file whole."""
    files = [(folder / name, data) for name, data in files_of(content).items()]
    return all(file.is_file() and file.read_bytes() == data for file, data in files)


def write_slots(folder, first=None, second=None):
    """Writes the files of both slots. One that isn't given isn't there."""
    for name, slot in zip(journal.SLOTS, (first, second)):
        (folder / name).unlink(missing_ok=True)
        if slot is not None:
            (folder / name).write_bytes(slot)


def kept_lines(folder):
    """What a program that opens the store says of files that it keeps, since it drops a part of them."""
    lines = []
    try:
        losses = journal.dropped(*journal.slots_in(folder))
    except (OSError, journal.BadHeader, journal.BadRecord):
        return []
    free = (name for name in (f"{journal.KEPT}{number}" for number in itertools.count(1)) if not os.path.lexists(folder / name))
    for slot, loss in zip(journal.SLOTS, losses):
        if loss:
            start, size, records = loss
            lines.append(f"filehost: {slot}: the opening drops {size} bytes from {start} on, {records} whole records among them, which a stop may have left: "
                         f"{next(free)} has all of the file\n")
    return lines


def notices_of(folder):
    """What a program that opens the store says before it reads the journal: that there is none, or which files it keeps."""
    has_files = any(file.name.startswith(("c-", "t-", journal.KEPT)) for file in folder.iterdir())
    is_lost = has_files and not any((folder / name).exists() and (folder / name).stat().st_size > 1 for name in journal.SLOTS)
    return "".join([LOST] * is_lost + kept_lines(folder)).encode()


def write_store(folder, entries, *contents):
    """Writes a store with these entries and these uploaded files."""
    folder.mkdir(exist_ok=True)
    write_slots(folder, journal.write(entries), b"")
    for content in contents:
        for name, data in files_of(content).items():
            (folder / name).write_bytes(data)


def found_in(test, folder, model, asked=None):
    """The model of what a store has after a stop during this request: what was acknowledged, all and unchanged, and after it
    none, the first or all of the entries that the request would make; and what is uploaded whole, also by that request."""
    entries = [entry_of(entry) for entry in journal.read_in(folder)]
    done, count = model.copy(), len(model.entries)
    if asked:
        done.answer(asked)
    test.assertEqual(entries[:count], model.entries)
    test.assertEqual(entries[count:], done.entries[count:len(entries)])
    for content in model.uploads.values():
        test.assertTrue(is_stored(folder, content), f"{content[:40]} is lost")
    found = model.copy()
    found.entries = entries
    found.uploads = {digest: content for digest, content in done.uploads.items() if is_stored(folder, content)}
    return found


def refused_undos(model):
    """Requests to undo what can't be undone, or not any more."""
    trial, found = model.copy(), []
    for number in range(1, len(model.entries) + 2):
        for site in SITES:
            asked = Request("POST", f"/api/v1/sites/{site}/undo", body=in_json(change=number))
            trial.answer(asked)
            if len(trial.entries) == len(model.entries):
                found.append(asked)
            else:
                trial = model.copy()
    return found


def looks(model, of=Generator):
    """Requests that read all that is visible: the changes of each site, each file of each version, and each deploy."""
    return [Request("GET", f"/api/v1/sites/{site}/changes") for site in of.sites] + views(model, of=of)


def as_bytes(asked):
    return request(asked.method, asked.target, *asked.fields, body=asked.body)


class Stored(Program):
    """Runs of the program over a store in a temporary folder."""

    # Where that folder is, if it isn't where others are.
    place = None

    def setUp(self):
        super().setUp()
        room = tempfile.TemporaryDirectory(prefix="filehost-test-", dir=self.place)
        self.addCleanup(room.cleanup)
        self.room = pathlib.Path(room.name).resolve()
        self.use(self.room / "store")
        self.folder.mkdir()

    def use(self, folder):
        """Lets the program be called with this folder."""
        self.folder = folder
        self.words = ("solo", "--store", str(folder))

    def notices(self):
        return notices_of(self.folder) if self.folder.is_dir() else b""

    def talk(self, **how):
        """A conversation with a program over the store."""
        return Conversation(self, **how)

    def write(self, entries, *contents):
        """Writes the store anew."""
        if self.folder.exists():
            shutil.rmtree(self.folder)
        write_store(self.folder, entries, *contents)

    def assert_answers_as(self, model, requests):
        """One connection is answered as the model does, byte for byte; afterwards the journal has its entries."""
        model.requests = 0
        self.assert_converses([(as_bytes(asked), model.answer(asked)) for asked in requests])
        self.assert_has(model.entries)

    def assert_has(self, entries):
        """The journal has these entries, and no other byte."""
        file = journal.file_in(self.folder)
        self.assertEqual([entry_of(entry) for entry in journal.read(file)], entries)
        self.assertEqual(file, journal.write(map(told, entries)))

    def assert_fails(self, status, why, words=None, **how):
        """An opening ends with this status and this line, answers nothing, and changes no file of the store."""
        before = self.all_files()
        given = request("GET", "/s/one/a.txt")
        ended = run(*(words or self.words), given=given, **how)
        self.assertEqual(ended, (status, b"", f"filehost: {why}\n".encode()))
        self.assertEqual(self.all_files(), before)

    def all_files(self):
        """Each file of the store with its bytes; None if there is no folder to be read."""
        if not self.folder.is_dir():
            return None
        return {file.name: file.is_file() and file.read_bytes() for file in self.folder.iterdir()}


class Conversation:
    """A program over a store that is asked one request after the other."""

    clients = Client

    def __init__(self, test, **how):
        self.test = test
        self.client = self.clients(test, **how)

    def answer_to(self, asked):
        """The reply, or as much of it as comes before the program ends."""
        with contextlib.suppress(BrokenPipeError):
            self.client.send(asked)
        got = b""
        while b"\r\n\r\n" not in got and (byte := self.client.receive(1)):
            got += byte
        has_body = got.endswith(b"\r\n\r\n") and not asked.startswith(b"HEAD ")
        return got + self.client.receive(content_length(got)) if has_body else got

    def ask(self, asked, wanted):
        self.test.assertEqual(self.answer_to(asked), wanted, asked[:200])

    def ask_all(self, exchanges):
        for exchange in exchanges:
            self.ask(*exchange)

    def close(self, waits=False):
        """What the program ends with if nothing more is asked: its status, its last replies and words."""
        return self.client.close(waits)

    def end(self):
        self.test.assertEqual(self.close(), (0, b"", b""))


def limited(size):
    """Lets no file of a program grow over this size; it is told so by a failure, and not ended by a signal."""

    def limit():
        signal.signal(signal.SIGXFSZ, signal.SIG_IGN)
        resource.setrlimit(resource.RLIMIT_FSIZE, (size, size))

    return {"preexec_fn": limit}


@contextlib.contextmanager
def small_file_system(folder, size):
    """Whether a file system of `size` bytes could be mounted on the folder."""
    mounted = subprocess.run(["mount", "-t", "tmpfs", "-o", f"size={size}", "tmpfs", folder], capture_output=True).returncode == 0
    try:
        yield mounted
    finally:
        if mounted:
            # lazily, since after a failed test a program may still have it open
            subprocess.run(["umount", "--lazy", folder], check=True)
