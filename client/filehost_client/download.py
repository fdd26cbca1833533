"""A download that goes on after a cut, and never has bytes of two versions of a file."""

import glob
import hashlib
import os
import re

from .connection import Lost, NotSent
from .errors import BadReply, Refused, WrongWords
from .names import DIGEST, shown
from .refusals import is_passing, raise_for, words_of
from .wire import LARGEST_BODY, Reply

PIECE = 1 << 18


class Part:
    """A file that a download is written to until it is whole. Its name has the digest of the version, so that no other version is added to it."""

    def __init__(self, place):
        self.place = place
        self.file = None
        self.digest = None
        self.count = 0

    def path(self, digest):
        return f"{self.place}.part-{digest}"

    def find(self):
        """Goes on with the part that an earlier run left, if there is one; of several with that which was written last."""
        parts = [part for part in glob.glob(glob.escape(self.place) + ".part-*") if DIGEST.fullmatch(part.rpartition("-")[2])]
        if parts:
            self.begin(max(parts, key=os.path.getmtime).rpartition("-")[2], goes_on=True)

    def begin(self, digest, goes_on=False):
        """Begins the version of this digest, and drops what there is of another one."""
        self.drop()
        self.digest, self.sha, self.count = digest, hashlib.sha1(), 0
        self.file = open(self.path(digest), "r+b" if goes_on else "w+b")
        if goes_on:
            while piece := self.file.read(PIECE):
                self.sha.update(piece)
                self.count += len(piece)

    def write(self, piece):
        self.file.write(piece)
        self.sha.update(piece)
        self.count += len(piece)

    def close(self):
        if self.file:
            self.file.close()

    def drop(self):
        if self.file:
            self.file.close()
            os.unlink(self.path(self.digest))
            self.file = None

    def finish(self):
        """Gives the file its name."""
        self.file.close()
        os.replace(self.path(self.digest), self.place)


class Stream:
    """Standard output: what was written there can't be taken back."""

    def __init__(self, stream):
        self.stream = stream
        self.digest = None
        self.count = 0

    def begin(self, digest):
        if self.count:
            raise Refused("the file was replaced while it was read, and a part of the old one is written already: read it again", "Replaced")
        self.digest, self.sha = digest, hashlib.sha1()

    def write(self, piece):
        self.stream.write(piece)
        self.sha.update(piece)
        self.count += len(piece)

    def finish(self):
        self.stream.flush()

    def drop(self):
        pass

    close = drop


class Download:
    """A download of one target into a sink, a Part or a Stream. `run` returns its digest and its size."""

    def __init__(self, host, target, sink, progress):
        self.host = host
        self.target = target
        self.sink = sink
        self.progress = progress

    def run(self):
        sink, patience = self.sink, self.host.patience(self.host.reads)
        try:
            total = None
            while total is None or sink.count < total:
                before = sink.count
                try:
                    total = self.attempt()
                except (NotSent, Lost) as error:
                    if sink.count > before:
                        patience = self.host.patience(self.host.reads)
                    patience.pause(error)
                except Passing as error:
                    patience.pause(error)
            if sink.sha.hexdigest() != sink.digest:
                sink.drop()
                raise BadReply(f"{self.host.read_address.url(self.target)} came with other bytes than its tag says: read it again")
            sink.finish()
        finally:
            sink.close()
        return sink.digest, sink.count

    def attempt(self):
        """Reads as much as comes, and returns the size of the whole file."""
        sink = self.sink
        # From the start on there is nothing that could be mixed.
        fields = [("Range", f"bytes={sink.count}-"), ("If-Range", f'"{sink.digest}"')] if sink.count else []
        with self.host.reads.borrowed() as connection:
            head, pieces = connection.begin("GET", self.target, fields)
            reply = Reply(head.status, head.fields)
            if head.status == 416 and head.fields.get("content-range") == f"bytes */{sink.count}":
                drain(pieces)
                return sink.count
            if head.status not in (200, 206):
                told = Reply(head.status, head.fields, b"".join(limited(pieces)))
                if is_passing(told):
                    raise Passing(words_of(told))
                raise_for(told, self.host.read_address)
            if not DIGEST.fullmatch(reply.tag or ""):
                connection.close()
                raise BadReply(f"{self.host.read_address.url(self.target)} is answered without a digest as its tag: look at --host and --read")
            total = self.place(reply)
            self.progress.begin("reading", 1, total)
            self.progress.add(sink.count)
            for piece in pieces:
                sink.write(piece)
                self.progress.add(len(piece))
        return total

    def place(self, reply):
        """Prepares the sink for a reply, and returns the size of the whole file. Raises BadReply if the bytes don't follow on those that are there."""
        sink = self.sink
        if reply.status == 206:
            found = re.fullmatch(r"bytes (\d+)-(\d+)/(\d+)", reply.fields.get("content-range", ""), re.ASCII)
            if not found or int(found[1]) != sink.count or int(found[2]) + 1 != int(found[3]) or reply.tag != sink.digest:
                raise BadReply("a part of a file was answered with other bytes than were asked for")
            return int(found[3])
        length = reply.fields.get("content-length", "")
        if not re.fullmatch(r"[0-9]{1,19}", length, re.ASCII):
            raise BadReply("a file came without its length")
        sink.begin(reply.tag)
        return int(length)


class Passing(Exception):
    """The host can't answer for now."""


def drain(pieces):
    for _ in pieces:
        pass


def limited(pieces):
    """The pieces of a refusal, which is short."""
    count = 0
    for piece in pieces:
        count += len(piece)
        if count > LARGEST_BODY:
            raise BadReply("a refusal is longer than any of a filehost")
        yield piece


def download(site, path, place, progress, deploy=None, resumes=False, stream=None):
    """Reads a file of a site into the file `place`, or to a stream, and returns its digest and its size.

    deploy   the number of the deploy out of which it is read; else it is what the site serves
    resumes  whether it goes on with what an earlier download into `place` left

    Raises what the calls of Host raise, BadReply if the bytes aren't those of the tag, and WrongWords if the file can't be written.
    """
    try:
        sink = Stream(stream) if stream else Part(place)
        if resumes:
            sink.find()
        return Download(site.host, site.target(path, deploy=deploy), sink, progress).run()
    except BrokenPipeError:
        raise
    except OSError as error:
        raise WrongWords(f"{shown(place or 'standard output')} can't be written: {error.strerror}") from None
    finally:
        progress.end()
