"""A plain model of the host, written from docs/HTTP.md and docs/WIRE.md alone, over that of histories.

`Model.answer` is the reply that the program has to send. What no test asks of it is left out: running out of memory,
heads that are refused, and bodies that are too large.
"""

import json
import re
import urllib.parse
from typing import NamedTuple

from lib.client import REQUESTS, digest_of, reply
from lib.plain_history import ALIAS, DRAFT, KEPT, LIVE, Deploy, History, Refused, refuse_where

TYPES = {
    "html": "text/html; charset=utf-8", "css": "text/css; charset=utf-8", "js": "text/javascript; charset=utf-8",
    "txt": "text/plain; charset=utf-8", "json": "application/json", "svg": "image/svg+xml", "png": "image/png",
    "jpg": "image/jpeg", "jpeg": "image/jpeg", "gif": "image/gif", "woff2": "font/woff2",
}


# Requests and their parts, as docs/HTTP.md reads them.


class Request(NamedTuple):
    method: str
    target: str
    fields: tuple = ()
    body: bytes = None

    def values_of(self, name):
        fields = [field.partition(":") for field in self.fields]
        return [value.strip(" \t") for key, _, value in fields if key.lower() == name]


def is_name(text):
    return re.fullmatch("[a-z0-9-]{1,63}", text) is not None


def number_of(text):
    return int(text) if re.fullmatch("[1-9][0-9]{0,6}", text) and int(text) <= 1_000_000 else 0


def path_of(text):
    """The path that this text is; a leading slash is added if it lacks one."""
    path = text if text.startswith("/") else "/" + text
    is_long = not 2 <= len(path.encode()) <= 1024
    refuse_where(is_long or {"", ".", ".."} & set(path.split("/")[1:]) or set("#?\\\0") & set(path), "BadPath")
    return path


def decoded(text):
    try:
        return urllib.parse.unquote_to_bytes(text).decode()
    except UnicodeDecodeError:
        raise Refused("BadPath") from None


def read_path(text):
    return path_of(decoded(text) + "index.html" * decoded(text).endswith("/"))


def written_path(text):
    return path_of(decoded(text)[1:])


GREATEST = 2**64 - 1


def specs_of(value):
    """What a value of Range asks for: for each element the numbers before and after its dash, or None in place of a number that is absent.

    It is None for a value that is ignored.
    """
    unit, equals, elements = value.partition("=")
    texts = [text for element in elements.split(",") if (text := element.strip(" \t"))]
    found = [re.fullmatch("([0-9]*)-([0-9]*)", text) for text in texts]
    if (unit.lower(), equals) != ("bytes", "=") or None in found or "-" in texts:
        return None
    specs = [tuple(min(int(number), GREATEST) if number else None for number in parts.groups()) for parts in found]
    is_in_order = all(None in spec or spec[0] <= spec[1] for spec in specs)
    return specs if 1 <= len(specs) <= 16 and is_in_order else None


def chosen(specs, size):
    """The first and the last position of each spec that has a byte of a file of `size` bytes."""
    ends = [(max(size - last, 0), None) if first is None else (first, last) for first, last in specs]
    return [(first, size - 1 if last is None else min(last, size - 1)) for first, last in ends if first < size]


def asked_specs(request, content):
    """What the request asks of this file by its Range, if that counts and is understood."""
    values, conditions = request.values_of("range"), request.values_of("if-range")
    if request.method == "GET" and len(values) == 1 and conditions in ([], [f'"{digest_of(content)}"']):
        return specs_of(values[0])
    return None


def object_of(body):
    try:
        value = json.loads(body or b"")
    except ValueError:
        value = None
    refuse_where(not isinstance(value, dict), "BadBody")
    return value


def member_of(value, name, *types):
    refuse_where(type(value.get(name)) not in types, "BadBody")
    return value[name]


def number_at(body, name):
    return number_of(str(member_of(object_of(body), name, int, float, str)))


def paths_at(body):
    """The two paths of a renaming."""
    value = object_of(body)
    texts = [member_of(value, name, str) for name in ("from", "to")]
    return [path_of(text) for text in texts]


def deploy_of(body):
    """What the body of a deploy lists."""
    value = {"draft": False, "patch": False} | object_of(body)
    listed, is_draft, is_patch = (member_of(value, name, kind) for name, kind in
                                  (("files", dict), ("draft", bool), ("patch", bool)))
    files = {}
    for name, digest in sorted(listed.items()):
        path = path_of(name)
        refuse_where(path in files, "BadBody")
        if not (digest is None and is_patch):
            refuse_where(not isinstance(digest, str), "BadBody")
            refuse_where(not re.fullmatch("[0-9a-fA-F]{40}", digest), "BadDigest")
            digest = digest.lower()
        files[path] = digest
    return Deploy(files, is_draft, is_patch)


# Replies: a status, a type, a body, and further fields.


def telling(value, status="200 OK", fields=()):
    text = json.dumps(value, separators=(",", ":"), sort_keys=True, ensure_ascii=False)
    return status, "application/json", text.encode(), fields


def range_of(interval, content):
    """The field that says which bytes of the file these positions are."""
    return f"Content-Range: bytes {interval[0]}-{interval[1]}/{len(content)}"


def multipart(kind, content, intervals):
    """The type and the body of a reply with several parts of a file (RFC 9110, sections 14.6 and 15.3.7.2). If the first boundary occurs in a part,
    the next one is taken; but no test has a file that holds its own digest."""
    boundary = f"fh0-{digest_of(content)}"
    parts = []
    for first, last in intervals:
        head = [f"--{boundary}", f"Content-Type: {kind}", range_of((first, last), content), "", ""]
        parts += ["\r\n".join(head).encode(), content[first:last + 1], b"\r\n"]
    return f"multipart/byteranges; boundary={boundary}", b"".join(parts) + f"--{boundary}--\r\n".encode()


def sending(request, path, content):
    """The file, or what is asked for of it: one range alone, or several in parts if they have no more bytes than the file."""
    _, dot, ending = path.rpartition("/")[2].rpartition(".")
    kind = TYPES.get(dot and ending.lower(), "application/octet-stream")
    fields = (f'ETag: "{digest_of(content)}"', "Accept-Ranges: bytes")
    specs = asked_specs(request, content)
    intervals = chosen(specs or [], len(content))
    if specs is None or sum(last - first + 1 for first, last in intervals) > len(content) or not content:
        return "200 OK", kind, content, fields
    if not intervals:
        raise Refused("NotSatisfiable", f"Content-Range: bytes */{len(content)}")
    if len(intervals) > 1:
        return "206 Partial Content", *multipart(kind, content, intervals), fields
    (first, last), = intervals
    return "206 Partial Content", kind, content[first:last + 1], (*fields, range_of((first, last), content))


class Model(History):
    """The host of one connection: what it answers to each request."""

    requests = 0

    def answer(self, request):
        """The reply to the next request, as bytes."""
        self.requests += 1
        try:
            status, kind, body, fields = self.outcome(request)
        except Refused as refused:
            status, kind, body, fields = telling(refused.told, refused.status, refused.fields)
        if self.requests == REQUESTS:
            fields = (*fields, "Connection: close")
        whole = reply(status, kind, body, *fields)
        return whole[:len(whole) - len(body)] if request.method == "HEAD" else whole

    def outcome(self, request):
        """Finds the route of the request, and what it asks for on it."""
        target = request.target.partition("?")[0]
        found = [(asked, methods) for pattern, methods in ROUTES if (asked := pattern.fullmatch(target))]
        refuse_where(not found, "NoRoute")
        asked, methods = found[0]
        method = "GET" if request.method == "HEAD" else request.method
        if method not in methods:
            raise Refused("BadMethod", "Allow: " + ", ".join(methods).replace("GET", "GET, HEAD"))
        parts = asked.groupdict()
        refuse_where(not all(is_name(parts[part]) for part in ("site", "name") if part in parts), "BadName")
        refuse_where("#" in target, "BadPath")
        reading = {"number": number_of, "path": read_path if method == "GET" else written_path}
        return methods[method](self, request, *(reading.get(part, str)(text) for part, text in parts.items()))

    def change(self, kind, site, *parts):
        return telling({"entry": self.commit(kind, site, *parts)})

    def read_site(self, request, site, path):
        refuse_where((site, LIVE, path) not in self.state(), "NoSuchFile")
        return sending(request, path, self.state()[site, LIVE, path])

    def read_alias(self, request, site, name, path):
        refuse_where((site, ALIAS, name) not in self.state(), "NoSuchAlias")
        return self.read_deploy(request, site, self.state()[site, ALIAS, name], path)

    def read_deploy(self, request, site, number, path):
        refuse_where((site, KEPT, number) not in self.state(), "NoSuchDeploy")
        files = self.state()[site, KEPT, number]
        refuse_where(path not in files, "NoSuchFile")
        return sending(request, path, files[path])

    def site_of(self, number):
        """The site of the entry that opened the deploy."""
        entry = self.entry(number)
        refuse_where(entry is None or entry.kind != "open", "NoSuchDeploy")
        return entry.site

    def stands(self, number):
        """The site of a deploy that is open or kept, what it lists, and whether it is open."""
        site = self.site_of(number)
        is_open = (site, DRAFT, number) in self.state()
        refuse_where(not is_open and (site, KEPT, number) not in self.state(), "NoSuchDeploy")
        return site, self.entry(number).parts[0], is_open

    def published_if_ready(self, number):
        site, deploy, is_open = self.stands(number)
        is_ready = is_open and not deploy.is_draft and not deploy.missing(self.uploads)
        return self.commit("publish", site, number) if is_ready else None

    def open(self, request, site):
        deploy = deploy_of(request.body)
        number, required = self.commit("open", site, deploy), deploy.missing(self.uploads)
        return telling({"id": str(number), "published": self.published_if_ready(number), "required": required})

    def upload(self, request, number, path):
        _, deploy, _ = self.stands(number)
        content = request.body or b""
        refuse_where(deploy.files.get(path) is None, "NotListed")
        refuse_where(deploy.files[path] != digest_of(content), "WrongDigest")
        self.uploads[digest_of(content)] = content
        return telling({"published": self.published_if_ready(number), "sha": digest_of(content)})

    def show_deploy(self, request, number):
        site, deploy, is_open = self.stands(number)
        required, state = (deploy.missing(self.uploads), "open") if is_open else ([], "kept")
        return telling({"id": str(number), "required": required, "site": site, "state": state})

    def show_changes(self, request, site):
        live = set(self.live_changes())
        lines = [
            {"entry": number, "kind": kind} | ({"of": parts[0]} if kind == "undo" else {"live": number in live})
            for number, (kind, where, parts) in enumerate(self.entries, 1) if where == site
        ]
        return telling({"changes": lines[-1_000:]})

    def rename(self, request, site):
        return self.change("rename", site, *paths_at(request.body))

    def rename_folder(self, request, site):
        return self.change("rename-folder", site, *paths_at(request.body))

    def take_back(self, request, site):
        return telling({"entry": self.undo(site, number_at(request.body, "change"))})

    def move_alias(self, request, site, name):
        return self.change("alias", site, name, number_at(request.body, "deploy"))

    def remove_alias(self, request, site, name):
        return self.change("unalias", site, name)

    def remove(self, request, site, path):
        return self.change("remove", site, path)

    def restore(self, request, site, number):
        return self.change("restore", site, number)

    def cancel(self, request, number):
        return self.change("cancel", self.site_of(number), number)

    def remove_deploy(self, request, number):
        return self.change("delete", self.site_of(number), number)


def pattern_of(target):
    """The regular expression of a route, whose groups are its parts."""
    for part in ("SITE", "NAME", "NUMBER"):
        target = target.replace(part, f"(?P<{part.lower()}>[^/]*)")
    return re.compile(target.replace("/PATH", "(?P<path>/.*)"))


ROUTES = [(pattern_of(target), methods) for target, methods in {
    "/s/SITE/PATH": {"GET": Model.read_site},
    "/a/SITE/NAME/PATH": {"GET": Model.read_alias},
    "/d/SITE/NUMBER/PATH": {"GET": Model.read_deploy},
    "/api/v1/sites/SITE/deploys": {"POST": Model.open},
    "/api/v1/sites/SITE/deploys/NUMBER/restore": {"POST": Model.restore},
    "/api/v1/sites/SITE/aliases/NAME": {"PUT": Model.move_alias, "DELETE": Model.remove_alias},
    "/api/v1/sites/SITE/rename": {"POST": Model.rename},
    "/api/v1/sites/SITE/rename-folder": {"POST": Model.rename_folder},
    "/api/v1/sites/SITE/files/PATH": {"DELETE": Model.remove},
    "/api/v1/sites/SITE/undo": {"POST": Model.take_back},
    "/api/v1/sites/SITE/changes": {"GET": Model.show_changes},
    "/api/v1/deploys/NUMBER": {"GET": Model.show_deploy, "DELETE": Model.remove_deploy},
    "/api/v1/deploys/NUMBER/cancel": {"POST": Model.cancel},
    "/api/v1/deploys/NUMBER/files/PATH": {"PUT": Model.upload},
}.items()]
