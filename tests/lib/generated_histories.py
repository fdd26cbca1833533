"""Histories that are drawn by chance: the requests, and a run of them whose replies are those of the plain model."""

import collections
import json
import os
import random
import re
import urllib.parse

from lib.client import digest_of, request, run
from lib.plain_history import ALIAS, DRAFT, KEPT, LIVE, folders_of
from lib.plain_model import Model, Request

PROGRAMS_AT_ONCE = 2


def count_of(histories):
    """How many are made where so many are usual: as many as FILEHOST_HISTORIES says, if it is set."""
    return int(os.environ.get("FILEHOST_HISTORIES", histories))


SITES = ("one", "two")
PATHS = ("/a.txt", "/index.html", "/d/c", "/d/e/c", "/d-/c", '/"é".svg')
# Folders that are renamed: one below another, one whose name begins as another's, and some that mostly have nothing.
FOLDERS = ("/d", "/d/e", "/d-", "/f", "/f/g", "/é")
NAMES = ("next", "old")
CONTENTS = (b"", b"first", b"second one", "thïrd".encode(), b"4", b"fifth\r\n\r\n", b"sixth", b"never there")
CONTENT_OF = {digest_of(content): content for content in CONTENTS}
READING = ("GET", "GET", "GET", "HEAD")

# Requests that are refused whatever the host has.
MISTAKES = (
    Request("GET", "/s/One/a.txt"), Request("GET", "/s//a.txt"), Request("GET", "/a/one/x_y/a.txt"),
    Request("GET", "/s/one/%2e%2e"), Request("GET", "/s/one//a.txt"), Request("GET", "/s/one/a.txt#x"),
    Request("GET", "/s/one/%ff"), Request("DELETE", "/api/v1/sites/one/files/"), Request("GET", "/S/one/a.txt"),
    Request("GET", "/s/one"), Request("POST", "/api/v1/sites/one/deploys/"), Request("DELETE", "/s/one/a.txt"),
    Request("PATCH", "/api/v1/deploys/1"), Request("GET", "/api/v1/sites/one/aliases/next"),
    Request("POST", "/api/v1/sites/one/deploys", body=b"[]"), Request("POST", "/api/v1/sites/one/rename", body=b"{"),
    Request("POST", "/api/v1/sites/one/deploys", body=b'{"files":{"/a":"12"}}'),
    Request("POST", "/api/v1/sites/one/deploys", body=b'{"files":{"/a":null}}'),
    Request("POST", "/api/v1/sites/one/deploys", body=b'{"files":{"/a/../b":null}}'),
    Request("POST", "/api/v1/sites/one/rename", body=b'{"from":"/a.txt","to":"/"}'),
    Request("POST", "/api/v1/sites/one/rename-folder", body=b'{"from":"/d/","to":"/f"}'),
    Request("POST", "/api/v1/sites/one/rename-folder", body=b'{"from":"/d"}'),
    Request("POST", "/api/v1/sites/one/undo", body=b'{"change":null}'),
    Request("PUT", "/api/v1/sites/one/aliases/next"),
)


def in_json(**members):
    return json.dumps(members, ensure_ascii=False).encode()


class Generator:
    """Draws requests for what a model of the host has, so that all kinds of answers are frequent."""

    sites, paths, folders, names = SITES, PATHS, FOLDERS, NAMES
    # of how many files a deploy is, each so often
    sizes = (0, 1, 1, 2, 2, 3, 3, 4)

    def __init__(self, seed, model):
        self.random = random.Random(seed)
        self.model = model

    def one_of(self, choices):
        return choices[int(self.random.random() * len(choices))]

    def happens(self, chance):
        return self.random.random() < chance

    def mostly(self, likely, others, chance=0.8):
        """One of the likely ones, mostly and if there are any; else one of the others."""
        return self.one_of(list(likely if likely and self.happens(chance) else others))

    def keys(self, kind, site=None):
        """The paths, names or numbers of the cells of a kind in the state."""
        return [cell[2] for cell in self.model.state() if cell[1] == kind and site in (None, cell[0])]

    def any_number(self):
        return range(len(self.model.entries) + 3)

    def deploy(self, *kinds):
        """The number of a deploy, mostly of one that is there."""
        there = [number for kind in kinds for number in self.keys(kind)]
        opened = self.model.opened()
        return self.mostly(there, opened if opened and self.happens(0.7) else self.any_number(), 0.85)

    def site_of(self, number):
        """Mostly the site of the entry of this number."""
        entry = self.model.entry(number)
        return entry.site if entry and self.happens(0.9) else self.one_of(self.sites)

    def written(self, number):
        """A number as a body may have it."""
        return str(number) if self.happens(0.1) else number

    def target(self, path):
        return urllib.parse.quote(path) + self.one_of(("", "", "", "?a=b"))

    def content(self):
        """What a file of a deploy shall have. The last one is never uploaded."""
        return self.one_of(CONTENTS[:self.one_of((2, 4, 6, 8))])

    def content_of(self, digest):
        return CONTENT_OF[digest]

    def open(self):
        is_patch = self.happens(0.4)
        files = {}
        for path in self.random.sample(self.paths, self.one_of(self.sizes)):
            content = self.content()
            files[path[self.happens(0.1):]] = None if is_patch and self.happens(0.35) else digest_of(content)
        body = {"files": files}
        if is_patch or self.happens(0.1):
            body["patch"] = is_patch
        if self.happens(0.3):
            body["draft"] = True
        return Request("POST", f"/api/v1/sites/{self.one_of(self.sites)}/deploys", body=in_json(**body))

    def upload(self):
        """Mostly what an open deploy lacks, or something else that it lists."""
        number = self.deploy(DRAFT) if self.happens(0.85) else self.deploy(DRAFT, KEPT)
        entry = self.model.entry(number)
        files = entry.parts[0].files if entry and entry.kind == "open" else {}
        lacking = [path for path, digest in files.items() if digest and digest not in self.model.uploads]
        path = self.mostly(lacking if lacking and self.happens(0.7) else files, self.paths, 0.9)
        content = self.content_of(files.get(path) or digest_of(b""))
        if self.happens(0.12) or content == CONTENTS[-1]:
            content = self.one_of(CONTENTS[:-1])
        target = f"/api/v1/deploys/{number}/files{self.one_of(('', '/'))}{self.target(path)}"
        return Request("PUT", target, body=content)

    def restore(self):
        number = self.deploy(DRAFT, KEPT)
        return Request("POST", f"/api/v1/sites/{self.site_of(number)}/deploys/{number}/restore")

    def cancel(self):
        return Request("POST", f"/api/v1/deploys/{self.deploy(DRAFT)}/cancel")

    def remove_deploy(self):
        return Request("DELETE", f"/api/v1/deploys/{self.deploy(KEPT)}")

    def move_alias(self):
        number = self.deploy(KEPT)
        body = in_json(deploy=self.written(number))
        return Request("PUT", f"/api/v1/sites/{self.site_of(number)}/aliases/{self.one_of(self.names)}", body=body)

    def remove_alias(self):
        site = self.one_of(self.sites)
        return Request("DELETE", f"/api/v1/sites/{site}/aliases/{self.mostly(self.keys(ALIAS, site), self.names)}")

    def rename(self):
        site = self.one_of(self.sites)
        served = self.keys(LIVE, site)
        source = self.mostly(served, self.paths)
        target = self.one_of([path for path in self.paths if path != source]) if self.happens(0.9) else source
        body = {"from": source[self.happens(0.1):], "to": target}
        return Request("POST", f"/api/v1/sites/{site}/rename", body=in_json(**body))

    def rename_folder(self):
        site = self.one_of(self.sites)
        served = sorted({folder for path in self.keys(LIVE, site) for folder in folders_of(path)})
        source = self.mostly(served, self.folders)
        target = self.one_of([folder for folder in self.folders if folder != source]) if self.happens(0.95) else source
        body = {"from": source[self.happens(0.1):], "to": target}
        return Request("POST", f"/api/v1/sites/{site}/rename-folder", body=in_json(**body))

    def remove(self):
        site = self.one_of(self.sites)
        path = self.mostly(self.keys(LIVE, site), self.paths)
        return Request("DELETE", f"/api/v1/sites/{site}/files{self.one_of(('', '/'))}{self.target(path)}")

    def undo(self):
        """The undo of a late change or of any, mostly of one that is not undone."""
        live, count = self.model.live_changes(), len(self.model.entries)
        change = self.mostly(live[-4:] if self.happens(0.5) else live, range(count + 2), 0.85)
        return Request("POST", f"/api/v1/sites/{self.site_of(change)}/undo", body=in_json(change=self.written(change)))

    def show_changes(self):
        return Request(self.one_of(READING), f"/api/v1/sites/{self.one_of(self.sites)}/changes")

    def show_deploy(self):
        return Request(self.one_of(READING), f"/api/v1/deploys/{self.deploy(DRAFT, KEPT)}")

    def read(self):
        """A file of some version, perhaps some ranges of it, and perhaps on a condition."""
        version, files = self.one_of(self.versions())
        path, fields = self.mostly(files, self.paths), ()
        if self.happens(0.7):
            fields = (f"Range: bytes={','.join(self.positions() for _ in range(self.one_of((1, 1, 1, 2, 2, 3))))}",)
        if self.happens(0.05):
            fields += (self.one_of(("Range: bytes=1-2", "If-Range: x", "range: bytes=0-")),)
        if self.happens(0.3):
            fields += (f'If-Range: "{digest_of(self.one_of(CONTENTS[1:3]))}"',)
        target = "/" if path == "/index.html" and self.happens(0.3) else self.target(path)
        return Request(self.one_of(READING), f"/{version}{target}", fields)

    def positions(self):
        """Some bytes near the front of a file, or at its end."""
        first = self.random.randrange(8)
        last = self.one_of(("", first + self.random.randrange(-1, 8), first + self.random.randrange(2)))
        return f"{self.one_of(('', first, first))}-{last}"

    def versions(self):
        """Versions of sites, each with the paths of its files. Some are not there."""
        state, number, site = self.model.state(), self.one_of(self.any_number()), self.one_of(self.sites)
        found = [(f"s/{site}", self.keys(LIVE, site)) for site in self.sites]
        found += [(f"d/{site}/{key}", list(value)) for (site, kind, key), value in state.items() if kind == KEPT]
        found += [(f"a/{site}/{key}", list(state[site, KEPT, value])) for (site, kind, key), value in state.items()
                  if kind == ALIAS]
        return found + [(f"d/{site}/{number}", []), (f"a/{site}/{self.one_of(self.names)}", [])]

    def mistake(self):
        return self.one_of(MISTAKES)

    # What is drawn, each so often: the changes, the requests after which a few deploys are there, and all others.
    changes = {open: 14, restore: 8, cancel: 3, remove_deploy: 5, move_alias: 9, remove_alias: 4, rename: 9, rename_folder: 9, remove: 5}
    beginnings = {open: 3, upload: 7, move_alias: 1}
    others = {upload: 15, undo: 18, show_changes: 2, show_deploy: 3, read: 17, mistake: 2}

    def draw(self, weights):
        kind, = self.random.choices(list(weights), list(weights.values()))
        return kind(self)

    def requests(self, count):
        """Mostly a few deploys first, and then whatever comes."""
        first = self.one_of((0, 6, 12, 18))
        for place in range(count):
            yield self.draw(self.beginnings if place < first else self.changes | self.others)


class FolderGenerator(Generator):
    """Draws mostly renamings of folders, among files whose paths stand around theirs in the order of bytes: the folder itself, names that begin as
    it does, with a byte below or above that of a slash behind, and folders in folders. Some new paths are too long.
    """

    sites = ("one", "one", "one", "two")
    paths = (
        "/a", "/a/a", "/a/a/a", "/a/b", "/a-", "/a-/a", "/a-/b/c", "/a./a", "/a0", "/a0/a", "/aa/a", "/b", "/b/a", "/b/b/c", "/é/a", "/é/é",
        "/" + "é" * 250 + "/a", "/" + "é" * 250 + "/" + "x" * 300,
    )
    folders = ("/a", "/a/a", "/a/b", "/a-", "/a-/b", "/a.", "/a0", "/aa", "/b", "/b/b", "/é", "/c", "/c/c", "/" + "é" * 250, "/" + "y" * 720, "/" + "y" * 1_021)
    sizes = (1, 2, 3, 5, 8, 12)

    def rename_folder(self):
        """Mostly one that has files to a path that has none; some undo a renaming by another one."""
        site = self.one_of(self.sites)
        served = self.keys(LIVE, site)
        having = sorted({folder for path in served for folder in folders_of(path)})
        source = self.mostly(having, self.folders, 0.9)
        free = [folder for folder in self.folders if folder != source and folder not in having]
        target = self.mostly(free, (*self.folders, source + "/in", source + "-", source), 0.85)
        return Request("POST", f"/api/v1/sites/{site}/rename-folder", body=in_json(**{"from": source, "to": target}))

    changes = {
        Generator.open: 14, Generator.restore: 3, Generator.cancel: 1, Generator.move_alias: 1, Generator.rename: 9, rename_folder: 34, Generator.remove: 8,
    }
    others = {Generator.upload: 10, Generator.undo: 30, Generator.show_changes: 2, Generator.read: 5}


def views(*models, of=Generator):
    """Requests that read all that is visible in any of these models, of the sites, paths and names that this generator draws: each file of
    each version, and each deploy."""
    cells = sorted({cell for model in models for cell in model.state()})
    numbers = {number for model in models for number in model.opened()}
    versions = [f"s/{site}" for site in of.sites]
    versions += [f"d/{site}/{number}" for site, kind, number in cells if kind == KEPT]
    versions += [f"a/{site}/{name}" for site, kind, name in cells if kind == ALIAS]
    paths = sorted({*of.paths, *(key for _, kind, key in cells if kind == LIVE)})
    reads = [f"/{version}{urllib.parse.quote(path)}" for version in versions for path in paths]
    reads += [f"/a/{site}/{name}/a.txt" for site in of.sites for name in of.names if (site, ALIAS, name) not in cells]
    return [Request("GET", target) for target in reads + [f"/api/v1/deploys/{number}" for number in sorted(numbers)]]


class Run:
    """Requests to one program, and the replies that the model gives to them."""

    def __init__(self):
        self.model = Model()
        self.requests = []
        self.wanted = []

    def ask(self, requests):
        for asked in requests:
            self.requests.append(asked)
            self.wanted.append(self.model.answer(asked))

    def replies(self):
        """The replies of the program, which are those of the model."""
        parts = [request(asked.method, asked.target, *asked.fields, body=asked.body) for asked in self.requests]
        status, rest, errors = run("solo", given=b"".join(parts))
        for place, wanted in enumerate(self.wanted):
            if not rest.startswith(wanted):
                raise AssertionError(f"{self.told(place)}\nwanted:\n{wanted}\ngot:\n{rest[:2_000]}")
            rest = rest[len(wanted):]
        if (status, rest, errors) != (0, b"", b""):
            raise AssertionError(f"{self.told(place)}\nand at its end {status}, {rest[:2_000]}, {errors}")
        return self.wanted

    def told(self, last):
        """The history up to this place: a line for each request, with the model's reply."""
        lines = []
        for number, (asked, reply) in enumerate(zip(self.requests[:last + 1], self.wanted), 1):
            sent = [] if asked.body is None else [repr(asked.body.decode())]
            head, _, body = reply.decode(errors="replace").partition("\r\n\r\n")
            parts = [f"{number:3}", asked.method, asked.target, *asked.fields, *sent, "->", head[9:12], body]
            lines.append(" ".join(parts))
        return "\n".join(lines)

    def tally(self):
        """How often each kind of entry was made, each refusal told, and each other status given."""
        tally = collections.Counter(entry.kind for entry in self.model.entries)
        for asked, reply in zip(self.requests, self.wanted):
            name = re.search(rb'"error":"(\w+)"', reply)
            tally[name[1].decode() if name else f"{asked.method}-{reply[9:12].decode()}"] += 1
            tally["parts"] += b"\r\nContent-Type: multipart/byteranges;" in reply
            tally["conditions"] += b" 206 " in reply[:20] and any(field.startswith("If-Range") for field in asked.fields)
        tally["requests"] = len(self.requests)
        tally["closed"] = b"\r\nConnection: close\r\n" in self.wanted[-1]
        return tally
