"""The rows in which tables of requests are written: a request, and the reply to it as docs/HTTP.md says it is."""

import json
import urllib.parse

from lib.client import REQUESTS, STATUS_OF, Program, digest_of, done, opened, refused, request, sent, to_head

DEPLOYS = "/api/v1/sites/one/deploys"
UNDO = "/api/v1/sites/one/undo"
CHANGES = "/api/v1/sites/one/changes"

# The types of the files that the tables read; test_types.py has those of all endings.
TYPES = {"txt": "text/plain; charset=utf-8", "html": "text/html; charset=utf-8"}
OTHER = "application/octet-stream"


def served(path, content):
    """The reply that sends the file at a path whole."""
    return sent(content, kind=TYPES.get(path.rpartition(".")[2], OTHER))


def row(method, target, body, wanted, *fields):
    """A request and the reply to it.

    The body is bytes, text, or a value to be written as JSON. The reply is bytes, the name of a refusal, or what a
    success tells in JSON. To HEAD its body is left out.
    """
    if isinstance(body, str):
        body = body.encode()
    elif not isinstance(body, (bytes, type(None))):
        body = json.dumps(body).encode()
    if isinstance(wanted, str):
        wanted = refused(wanted)
    elif not isinstance(wanted, bytes):
        wanted = done(**wanted)
    return request(method, target, *fields, body=body), to_head(wanted) if method == "HEAD" else wanted


def get(target, wanted, *fields):
    return row("GET", target, None, wanted, *fields)


def post(target, body, wanted):
    return row("POST", target, body, wanted)


def put(target, body, wanted):
    return row("PUT", target, body, wanted)


def delete(target, wanted):
    return row("DELETE", target, None, wanted)


def undo(number, wanted):
    return post(UNDO, {"change": number}, wanted)


def read(path, content=None):
    """The row that reads a file of the site `one`, or finds none there."""
    return get(f"/s/one{urllib.parse.quote(path)}", "NoSuchFile" if content is None else served(path, content))


def uploading(number, path, content, published=None):
    """The row that uploads a file of a deploy."""
    target = f"/api/v1/deploys/{number}/files{urllib.parse.quote(path)}"
    return put(target, content, {"published": published, "sha": digest_of(content)})


def publishing(site, number, files):
    """The rows that open a deploy and upload its files: contents that differ, and are new to the host."""
    digests = {path: digest_of(content) for path, content in files.items()}
    rows = [post(f"/api/v1/sites/{site}/deploys", {"files": digests}, opened(number, *sorted(digests.values())))]
    last = list(files)[-1]
    return rows + [uploading(number, path, content, number + 1 if path == last else None)
                   for path, content in files.items()]


def change(entry, kind, live=True):
    """A line of a list of changes."""
    return {"entry": entry, "kind": kind, "live": live}


class Interface(Program):
    """A program whose replies to rows are compared byte for byte."""

    def assert_rows(self, rows, before=()):
        """It answers each of these rows, in as many connections as they take. Each begins with the rows before."""
        rows, before = list(rows), list(before)
        room = REQUESTS - 1 - len(before)
        for start in range(0, len(rows), room):
            self.assert_converses(before + rows[start:start + room])


# Texts that are no number of an entry, though some would be the number 1 if they were read more freely.
NO_NUMBERS = ["", "0", "00", "01", "001", "+1", "-1", "1.0", "1e0", "%31", "0x1", "One", "1000001", "4294967297",
              "18446744073709551617", "340282366920938463463374607431768211457"]


def written(version, paths):
    """Files whose contents are the version and the path."""
    return {path: f"{version} {path}".encode() for path in paths}


def table(text):
    """The rows of a table, each in its two parts."""
    return [line.split(": ", 1) for line in text.splitlines() if line]


class Tables(Interface):
    """Tables are gone through whole. Each body that is accepted has another connection."""

    def assert_table(self, text, target, rows_of, before=(), body_of=str, method="POST"):
        """A body that asks for something is answered as these rows say, and each other by its refusal."""
        wrong = []
        for wanted, given in table(text):
            if wanted in STATUS_OF:
                wrong.append(row(method, target, body_of(given), wanted))
                continue
            with self.subTest(given):
                self.assert_rows(rows_of(wanted, body_of(given)), before)
        self.assert_rows([*wrong, row(method, target, b"", "BadBody")], before)
