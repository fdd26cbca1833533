"""The uploads of a deploy, over several connections at once."""

import os

from .errors import BadReply, ChangedMeanwhile, WrongWords
from .names import shown
from .workers import each


class CountedFile:
    """A file whose bytes are counted as they are read."""

    def __init__(self, place, count):
        # Each call of the system lets another thread go on first, so there are as few as can be.
        self.descriptor = os.open(place, os.O_RDONLY)
        self.count = count

    def read(self, most):
        piece = os.read(self.descriptor, most)
        self.count(len(piece))
        return piece

    def __enter__(self):
        return self

    def __exit__(self, *_):
        os.close(self.descriptor)


def sources_of(deploy, files, sizes):
    """For each content that the host lacks its first path, the place of the file and its size. Raises BadReply if the deploy doesn't list it."""
    first = {}
    for path, digest in deploy.files.items():
        first.setdefault(digest, path)
    try:
        paths = [first[digest] for digest in deploy.required]
    except KeyError:
        raise BadReply(f"{deploy.host.address} asks for a file that isn't listed: is it a filehost?") from None
    return [(path, files[path].place, sizes[path]) for path in paths]


def upload_file(deploy, path, place, size, add):
    """Uploads a file as it is read. `add` is told how many bytes were read."""
    counted = 0

    def count(length):
        nonlocal counted
        counted += length
        add(length)

    def open_file():
        # An upload that is sent again begins at its first byte.
        count(-counted)
        try:
            return CountedFile(place, count)
        except FileNotFoundError:
            raise ChangedMeanwhile(path, f"{shown(path)} was removed while it was being deployed") from None
        except OSError as error:
            raise WrongWords(f"{shown(path)} can't be read: {error.strerror}") from None

    deploy.upload(path, size, open_file)


def upload_all(deploy, sources, contents, jobs, progress):
    """Uploads each source, out of the kept contents if it is there. Raises the first error of an upload; no other is begun after that."""
    progress.begin("uploading", len(sources), sum(size for _, _, size in sources))

    def upload(source):
        path, place, size = source
        content = contents.take(path, place)
        if content is None:
            upload_file(deploy, path, place, size, progress.add)
            progress.file_done()
        else:
            deploy.upload(path, content)
            progress.file_done(size)

    try:
        each(sources, upload, jobs, deploy.host.waiting.ended)
    finally:
        progress.end()
