"""Requests for which there may be no memory: what a host may be after each, by the plain model, and a run in which each kind of change is made and undone."""

from lib.client import ABC, HELLO, refused
from lib.generated_histories import in_json
from lib.plain_model import Request
from lib.stores import opening_of

LACKING = refused("OutOfMemory")
LACKING_AND_CLOSED = refused("OutOfMemory", "Connection: close")


def opening(files, **members):
    return Request("POST", "/api/v1/sites/one/deploys", body=in_json(files=files, **members))


def upload(number, path, content):
    return Request("PUT", f"/api/v1/deploys/{number}/files/{path}", body=content)


def undo(change):
    return Request("POST", "/api/v1/sites/one/undo", body=in_json(change=change))


def alias(name, number):
    return Request("PUT", f"/api/v1/sites/one/aliases/{name}", body=in_json(deploy=number))


def restore(number):
    return Request("POST", f"/api/v1/sites/one/deploys/{number}/restore")


def read(target, *fields):
    return Request("GET", target, fields)


def show(number):
    return read(f"/api/v1/deploys/{number}")


RENAME = Request("POST", "/api/v1/sites/one/rename", body=in_json(**{"from": "/a.txt", "to": "/c.txt"}))
RENAME_FOLDER = Request("POST", "/api/v1/sites/one/rename-folder", body=in_json(**{"from": "/e", "to": "/g"}))
REMOVE_B = Request("DELETE", "/api/v1/sites/one/files/b.txt")
LIST = read("/api/v1/sites/one/changes")

# Each kind of change and an undo of it, reads between them, and undos that are refused. A comment has the number of an entry.
CHANGES = [
    opening({"/a.txt": HELLO, "/b.txt": ABC}), upload(1, "b.txt", b"abc"), upload(1, "a.txt", b"hello"), undo(2), restore(1),  # 4
    alias("next", 1), read("/a/one/next/a.txt"), Request("DELETE", "/api/v1/sites/one/aliases/next"), undo(6), undo(5),  # 8
    RENAME, read("/s/one/c.txt", "Range: bytes=1-2"), undo(9),  # 10
    Request("DELETE", "/api/v1/sites/one/files/a.txt"), undo(11),  # 12
    opening({"/a.txt": None, "/c.txt": HELLO}, patch=True), undo(14), Request("POST", "/api/v1/deploys/13/cancel"), undo(16),  # 17
    opening({"/d": ABC}, draft=True), undo(18), Request("DELETE", "/api/v1/deploys/1"), undo(20),  # 21
    opening({"/d": ABC}), undo(4), read("/d/one/1/b.txt"), restore(1), undo(24), undo(2), undo(1),  # 25
    opening({"/e/x": HELLO, "/e/f/y": ABC}, patch=True), RENAME_FOLDER, read("/s/one/g/f/y"), undo(28),  # 29
    LIST, show(13), read("/s/one/a.txt"),
]


# The entries and the contents of two stores: of a site with folders, and of one in which two of them were renamed, the second one elsewhere.
FOLDERS = [
    opening_of({"/e/x": b"hello", "/e/f/y": b"abc", "/k/z": b"abc"}), ("publish", "one", 1), ("rename-folder", "one", "/k", "/l"),
], [b"hello", b"abc"]
RENAMED = [*FOLDERS[0][:2], ("rename-folder", "one", "/e", "/g"), FOLDERS[0][2]], FOLDERS[1]


def left_by(model, asked):
    """What a host may be after it found no memory for a request: as before, or with the first or all of what the request asks for."""
    done = model.copy()
    done.answer(asked)
    hosts = [model.copy()]
    for count in range(len(model.entries), len(done.entries) + 1):
        host = model.copy()
        host.entries, host.uploads = done.entries[:count], dict(done.uploads)
        hosts.append(host)
    return hosts


def is_same(host, other):
    return (host.entries, host.uploads) == (other.entries, other.uploads)


class Hosts:
    """What a host may be, after what it answered so far."""

    def __init__(self, model):
        self.left = [model]

    def lack(self, asked):
        """There was no memory for a request."""
        found = [host for before in self.left for host in left_by(before, asked)]
        self.left = [host for at, host in enumerate(found) if not any(is_same(host, other) for other in found[:at])]

    def told(self, asked, reply):
        """Whether a host that is left may answer so; those that answer otherwise aren't left."""
        for host in self.left:
            # No connection has a hundredth request.
            host.requests = 0
        self.left = [host for host in self.left if host.answer(asked) == reply]
        return bool(self.left)
