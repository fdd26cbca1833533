"""The SHA-1 of each file, a cache of them, and the bytes of small files."""

import hashlib
import os
import time
from collections import namedtuple

from .errors import Unfit
from .names import DIGEST, shown
from .workers import each

PIECE = 1 << 18
# The time of a file may be this much coarser than a clock: a change within it may leave the time as it was.
RACE_SECONDS = 2
THREADS = min(8, os.cpu_count() or 1)
# Smaller files are hashed one after another: threads that hash them spend more time on waiting for one another, two to three times as much as was measured.
LARGE = 1 << 18
# Files of at most SMALL bytes are kept in memory from their hash to their upload: threads that read them again would wait for one another as often as they
# send. All that are kept have at most ROOM bytes.
SMALL = 1 << 16
ROOM = 8 << 20


class Hashed(namedtuple("Hashed", "digest size is_settled modified changed inode content")):
    """The digest of a file, how many bytes were hashed, whether it may be trusted as long as size, times and inode stay, these, and the bytes of a small
    file, else None."""

    __slots__ = ()

    def is_of(self, told):
        """Whether the system tells of the file what it told when it was hashed."""
        return (self.size, self.modified, self.changed, self.inode) == (told.st_size, told.st_mtime_ns, told.st_ctime_ns, told.st_ino)


def hash_file(place):
    """Reads a file once. Raises OSError."""
    began = time.time_ns()
    at = os.open(place, os.O_RDONLY)
    try:
        told = os.fstat(at)
        # Room for one byte more shows the end. More room than that costs a small file more than its hash.
        most = min(PIECE, told.st_size + 1)
        first = piece = os.read(at, most)
        sha, size = hashlib.sha1(first), len(first)
        while piece and not (len(piece) < most and size >= told.st_size):
            piece = os.read(at, most)
            sha.update(piece)
            size += len(piece)
    finally:
        os.close(at)
    is_settled = size == told.st_size and max(told.st_mtime_ns, told.st_ctime_ns) < began - RACE_SECONDS * 1_000_000_000
    content = first if size == len(first) <= SMALL else None
    return Hashed(sha.hexdigest(), size, is_settled, told.st_mtime_ns, told.st_ctime_ns, told.st_ino, content)


class Contents:
    """The bytes of small files, as they were hashed."""

    def __init__(self, room=ROOM):
        self.room = room
        self.kept = {}

    def keep(self, path, hashed):
        """Keeps the bytes of a small file, as long as there is room."""
        if hashed.content is not None and hashed.size <= self.room:
            self.room -= hashed.size
            self.kept[path] = hashed

    def take(self, path, place):
        """The bytes of a file, which aren't kept any longer; or None if they weren't, or if the file was changed or removed since."""
        hashed = self.kept.pop(path, None)
        try:
            return hashed.content if hashed and hashed.is_of(os.stat(place)) else None
        except OSError:
            return None


class DigestCache:
    """The digests of a folder's files, kept in a file that is elsewhere: for each path the size, the times, the inode and the digest."""

    def __init__(self, store):
        self.store = store
        self.known = store.read().get("files", {}) if store else {}
        self.is_changed = False

    def digest(self, file):
        """The digest of a file that is as it was when it was hashed, or None."""
        kept = self.known.get(file.path)
        if isinstance(kept, list) and len(kept) == 5 and kept[:4] == [file.size, file.modified, file.changed, file.inode]:
            return kept[4] if isinstance(kept[4], str) and DIGEST.fullmatch(kept[4]) else None
        return None

    def note(self, path, hashed):
        if hashed.is_settled:
            self.known[path] = [hashed.size, hashed.modified, hashed.changed, hashed.inode, hashed.digest]
            self.is_changed = True
        elif self.known.pop(path, None):
            self.is_changed = True

    def save(self, paths):
        """Keeps what is known of these paths."""
        if self.store and (self.is_changed or self.known.keys() - paths):
            self.store.write({"files": {path: kept for path, kept in self.known.items() if path in paths}})


def hash_files(files, cache, ended, progress=lambda size: None, contents=None):
    """The digest and the size of each of these files, by their paths. `contents` keeps the bytes of those that are read. Raises Unfit with all that can't be
    read. Once the event `ended` is set, no further file is begun."""
    found, left, problems = {}, [], []
    for file in files.values():
        digest = cache.digest(file)
        if digest:
            found[file.path] = (digest, file.size)
            progress(file.size)
        else:
            left.append(file)

    def work(file):
        try:
            hashed = hash_file(file.place)
        except OSError as error:
            problems.append(f"{shown(file.path)} can't be read: {error.strerror}")
            return
        found[file.path] = (hashed.digest, hashed.size)
        cache.note(file.path, hashed)
        if contents:
            contents.keep(file.path, hashed)
        progress(hashed.size)

    each([file for file in left if file.size < LARGE], work, 1, ended)
    each([file for file in left if file.size >= LARGE], work, THREADS, ended)
    if problems:
        raise Unfit(sorted(problems))
    cache.save(files.keys())
    return found
