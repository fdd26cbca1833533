"""What the worked runs say and are answered: changes of the site `one` and their undo, each as a request or as a reply.

The replies follow from docs/CHANGES.md and docs/HTTP.md.
"""

import urllib.parse

from lib.client import ABC, HELLO, Program, asking, digest_of, done, opened, opening, refused, request, sent, upload, uploaded
from lib.hopping import Hopping

SITE = "/api/v1/sites/one"
JSON = "application/json"
EMPTY = digest_of(b"")
CONTENTS = {HELLO: b"hello", ABC: b"abc", EMPTY: b""}


# What is asked. The site is `one` unless another is named.


def patching(files, **members):
    return opening(files, patch=True, **members)


def restoring(number, site="one"):
    return request("POST", f"/api/v1/sites/{site}/deploys/{number}/restore")


def cancelling(number):
    return request("POST", f"/api/v1/deploys/{number}/cancel")


def deleting(number):
    return request("DELETE", f"/api/v1/deploys/{number}")


def showing(number):
    return request("GET", f"/api/v1/deploys/{number}")


def aliasing(name, number, site="one"):
    return asking("PUT", f"/api/v1/sites/{site}/aliases/{name}", deploy=number)


def unaliasing(name):
    return request("DELETE", f"{SITE}/aliases/{name}")


def renaming(source, target):
    return asking("POST", f"{SITE}/rename", **{"from": source, "to": target})


def renaming_folder(source, target, site="one"):
    return asking("POST", f"/api/v1/sites/{site}/rename-folder", **{"from": source, "to": target})


def removing(path):
    return request("DELETE", f"{SITE}/files{urllib.parse.quote(path)}")


def undoing(change, site="one"):
    return asking("POST", f"/api/v1/sites/{site}/undo", change=change)


def reading(target):
    return request("GET", target)


LISTING = request("GET", f"{SITE}/changes")


# What is answered.


def entry(number):
    return done(entry=number)


def stands(number, state, *required):
    return done(id=str(number), required=list(required), site="one", state=state)


def clash(change, cell):
    return refused("Clash", change=change, cell=cell)


NO_FILE = refused("NoSuchFile")
NO_ALIAS = refused("NoSuchAlias")
NO_DEPLOY = refused("NoSuchDeploy")
NO_DRAFT = refused("NoSuchDraft")
NO_CHANGE = refused("NoSuchChange")


# Exchanges, each of a request and its reply.


def served(files, paths, version="s/one"):
    """The version has these files, given by their digests, and none at the other paths."""

    def answer(path):
        kind = "text/plain; charset=utf-8" if path.endswith(".txt") else "application/octet-stream"
        return sent(CONTENTS[files[path]], kind=kind) if path in files else NO_FILE

    return [(request("GET", f"/{version}{path}"), answer(path)) for path in paths]


def serves(*paths, site="one", among=("/a.txt", "/b.txt", "/c.txt", "/z.txt")):
    """The site has `hello` at these of the paths, and no file at the others."""
    return served(dict.fromkeys(paths, HELLO), among, f"s/{site}")


def deployed(number, *paths, site="one"):
    """A deploy of `hello` at these paths goes live by the entry after its opening, since its content is known."""
    files = dict.fromkeys(paths, HELLO)
    return [(opening(files, site), opened(number, published=number + 1))]


def first_deployed(*paths):
    """The same with the first deploy of all, whose content is uploaded: the entries 1 and 2."""
    return [
        (opening(dict.fromkeys(paths, HELLO)), opened(1, HELLO)),
        (upload(1, paths[0][1:], b"hello"), uploaded(b"hello", published=2)),
    ]

# A run in three parts: a site is changed, then requests are refused and changes taken back, and it is changed again.

CHANGED = [
    (opening({"/a.txt": HELLO, "b.txt": ABC}), opened(1, ABC, HELLO)),
    (upload(1, "a.txt", b"hello"), uploaded(b"hello")),
    (upload(1, "b.txt", b"abc"), uploaded(b"abc", published=2)),
    (upload(1, "b.txt", b"abc"), uploaded(b"abc")),
    (upload(1, "b.txt", b"hello"), refused("WrongDigest")),
    (renaming("/a.txt", "/c.txt"), entry(3)),
    (removing("/b.txt"), entry(4)),
    (undoing(3), entry(5)),
    *serves("/a.txt"),
]
REFUSED = [
    (undoing(2), clash(4, "live /b.txt")),
    (undoing(3), refused("AlreadyUndone")),
    (undoing(5), refused("NotAChange")),
    (undoing(99), NO_CHANGE),
    (undoing(0), NO_CHANGE),
    (LISTING, done(changes=[
        {"entry": 1, "kind": "open", "live": True},
        {"entry": 2, "kind": "publish", "live": True},
        {"entry": 3, "kind": "rename", "live": False},
        {"entry": 4, "kind": "remove", "live": True},
        {"entry": 5, "kind": "undo", "of": 3},
    ])),
]
CHANGED_AGAIN = [
    (undoing(4), entry(6)),
    (undoing(2), entry(7)),
    *serves(),
    (showing(1), stands(1, "open")),
    (restoring(1), entry(8)),
    (reading("/s/one/a.txt"), sent(b"hello")),
    (reading("/s/one/b.txt"), sent(b"abc")),
    (showing(1), stands(1, "kept")),
    (aliasing("next", 1), entry(9)),
    (reading("/a/one/next/a.txt"), sent(b"hello")),
    (undoing(8), clash(9, "kept 1")),
    (deleting(1), refused("DeployInUse", alias="next")),
    (renaming("/a.txt", "/z.txt"), entry(10)),
    *deployed(11, "/z.txt"),
    (undoing(10), clash(12, "live /a.txt")),
    (reading("/s/one/b.txt"), NO_FILE),
]


class Worked(Program, Hopping):
    def assert_run(self, *exchanges):
        """One connection takes these exchanges, and so do four connections to two nodes in turn. Both hosts are empty at first."""
        self.assert_converses(exchanges)
        self.assert_hops(exchanges)
