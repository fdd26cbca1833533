"""The streams of requests and the stores that bench/run measures the program over."""

import hashlib
import json

import journal

MEBIBYTE = 1 << 20
LARGEST_DOCUMENT = 4 * MEBIBYTE


def write_content(file, length):
    """Writes bytes that look like no pattern, a piece at a time, and returns their digest.

    This script stays small until the program has been measured: the peak that wait4 tells of a program begins with
    the size of the process that started it.
    """
    digest = hashlib.sha1()
    for start in range(0, length, MEBIBYTE):
        piece = hashlib.shake_128(str(start).encode()).digest(min(MEBIBYTE, length - start))
        digest.update(piece)
        file.write(piece)
    return digest.hexdigest()


def head(method, target, length=None):
    lengths = [] if length is None else [f"Content-Length: {length}"]
    return "\r\n".join([f"{method} {target} HTTP/1.1", "Host: localhost", *lengths, "", ""]).encode()


def request(method, target, body=None):
    return head(method, target) if body is None else head(method, target, len(body)) + body


def write_stream(folder, content, digest, reads):
    """Writes the requests that deploy the content as one file and then read it so often."""
    stream = folder / f"{content.name}.http"
    listing = json.dumps({"files": {"/file": digest}}).encode()
    with stream.open("wb") as out, content.open("rb") as body:
        out.write(head("POST", "/api/v1/sites/one/deploys", len(listing)) + listing)
        out.write(head("PUT", "/api/v1/deploys/1/files/file", content.stat().st_size))
        while piece := body.read(MEBIBYTE):
            out.write(piece)
        out.write(head("GET", "/s/one/file") * reads)
    return stream


def write_document(folder, name, body):
    """Writes the request that opens a deploy by this body, and returns the stream and the body."""
    stream = folder / f"{name}.http"
    stream.write_bytes(head("POST", "/api/v1/sites/one/deploys", len(body)) + body)
    return stream, body


def write_opening(folder, count):
    """Writes the request that opens a deploy of `count` files, in no order, in a body of nearly the largest size.

    Returns the stream and the body.
    """
    room = (LARGEST_DOCUMENT - 100) // count - len(json.dumps({"": "0" * 40})) - 1
    digests = [hashlib.sha1(str(number).encode()).hexdigest() for number in range(count)]
    files = {f"/{digest}/{'a' * room}"[:room]: digest for digest in digests}
    return write_document(folder, f"opening-{count}", json.dumps({"files": files}).encode())


def write_members(folder):
    """Writes an opening of no files with as many other members as fit, none of them nested."""
    members = "".join(f',"{number:x}":0' for number in range(LARGEST_DOCUMENT // 8))
    room = members[:LARGEST_DOCUMENT - 20].rpartition(",")[0]
    return write_document(folder, "members", f'{{"files":{{}}{room}}}'.encode())


def write_items(folder, name, item):
    """Writes an opening of no files with as many of these items in one array as fit."""
    items = ",".join([item] * ((LARGEST_DOCUMENT - 30) // (len(item) + 1)))
    return write_document(folder, name, f'{{"files":{{}},"items":[{items}]}}'.encode())


def changes(count):
    """`count` entries of changes of a site: a deploy without files is published; then, in turn, another deploy is opened, and another alias is
    moved to the first one."""
    later = (("alias", "one", f"n{number}", 1) if number % 2 else ("open", "one", (), ()) for number in range(3, count + 1))
    return [("open", "one", (), ()), ("publish", "one", 1), *later]


def undos(count):
    """The undos of as many changes, the earliest first, except that the published deploy is undone last, since all aliases need it."""
    return [("undo", "one", change) for change in (*range(3, count + 1), 2, 1)]


def write_store(folder, name, entries):
    """Writes a store that has these entries and no files, and the request that lists the last of them."""
    store = folder / name
    store.mkdir()
    (store / "journal").write_bytes(journal.write(entries))
    stream = folder / f"{name}.http"
    stream.write_bytes(head("GET", "/api/v1/sites/one/changes"))
    return store, stream
