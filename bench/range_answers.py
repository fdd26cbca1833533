"""What servers answer to ranges and to some other requests, for bench/compare."""

import collections
import contextlib
import http.client
import re

from servers import HOST, PATIENCE, Filehost, Refusal
from tables import LARGEST, check, random_bytes, say_table

CONTENT = random_bytes("ranges", 10_000)
MAY = ((206, 200), "14.2")
NONE = ((416, 200), "14.2")
INVALID = ((200, 416), "14.2")
IGNORED = ((200,), "14.2")
IGNORED_CONDITION = ((200,), "13.1.5")
CONDITION = ((206, 200), "13.1.5")
LARGE = ((206, 200), "14.1.2")
LISTED = ((206, 200), "5.6.1.2")
EMPTY = ((200, 416), "14.2")
OPEN = ((200, 206, 400, 416), "not said")
SMALL = [f"{place}-{place}" for place in range(0, 34, 2)]

RANGES = [
    ("Range: bytes=0-499", MAY),
    ("Range: bytes=500-999", MAY),
    ("Range: bytes=9999-9999", MAY),
    ("Range: bytes=9500-", MAY),
    ("Range: bytes=-500", MAY),
    ("Range: bytes=-1", MAY),
    ("Range: bytes=9990-20000", MAY),
    ("Range: bytes=-20000", MAY),
    ("Range: bytes=007-0010", MAY),
    ("Range: BYTES=0-4", ((206, 200), "14.1")),
    ("Range: bytes=0-0,-1", MAY),
    ("Range: bytes= 0-999, 4500-5499, -1000", ((206, 200), "14.1.2")),
    ("Range: bytes=0-4 , 6-9", MAY),
    ("Range: bytes=0-4,,6-9,", LISTED),
    ("Range: bytes=500-600,601-999", ((206, 200), "14.1.2")),
    ("Range: bytes=500-700,601-999", ((206, 200), "14.1.2")),
    ("Range: bytes=0-9,0-9", MAY),
    ("Range: bytes=0-99,50-149,100-199", MAY),
    ("Range: bytes=9000-9009,500-509,0-9", MAY),
    ("Range: bytes=0-0,10000-10001", MAY),
    ("Range: bytes=0-9999,0-9999", MAY),
    ("Range: bytes=" + ",".join(SMALL[:16]), MAY),
    ("Range: bytes=" + ",".join(SMALL), MAY),
    ("Range: bytes=10000-", NONE),
    ("Range: bytes=10000-10001,20000-", NONE),
    ("Range: bytes=-0", NONE),
    ("Range: bytes=4-2", INVALID),
    ("Range: bytes=0-4,4-2", INVALID),
    ("Range: bytes=", INVALID),
    ("Range: bytes=-", INVALID),
    ("Range: bytes=x", INVALID),
    ("Range: bytes=0 - 4", INVALID),
    ("Range: bytes=+0-4", INVALID),
    ("Range: bytes=0-4;6-9", INVALID),
    ("Range: bytes", INVALID),
    ("Range: lines=0-1", IGNORED),
    ("Range: bytes=0-18446744073709551616", LARGE),
    ("Range: bytes=-18446744073709551616", LARGE),
    ("Range: bytes=18446744073709551616-", NONE),
    ("Range: bytes=0-4,18446744073709551616-", LARGE),
    ("EMPTY Range: bytes=0-0", EMPTY),
    ("EMPTY Range: bytes=0-", EMPTY),
    ("EMPTY Range: bytes=-5", ((200, 206), "14.1.2")),
    ("Range: bytes=0-4; If-Range: TAG", CONDITION),
    ("Range: bytes=0-4,6-9; If-Range: TAG", CONDITION),
    ('Range: bytes=0-4; If-Range: "other"', IGNORED_CONDITION),
    ("Range: bytes=0-4; If-Range: W/TAG", IGNORED_CONDITION),
    ("Range: bytes=0-4; If-Range: DATE", CONDITION),
    ("Range: bytes=0-4; If-Range: Sun, 06 Nov 1994 08:49:37 GMT", IGNORED_CONDITION),
    ("Range: bytes=0-4; If-Range: Tue, 01 Jan 2030 00:00:00 GMT", IGNORED_CONDITION),
    ("Range: bytes=10000-; If-Range: TAG", NONE),
    ("HEAD Range: bytes=0-4", IGNORED),
    ("HEAD Range: bytes=10000-", IGNORED),
    ("Range: bytes=0-4; Range: bytes=6-9", OPEN),
    ("Range: bytes=0-4; Range: bytes=0-4", OPEN),
]


def wanted_of(value, size):
    """The first and last positions that a value asks for, if the file has some of them (RFC 9110, section 14.1.2); None for a value that isn't valid."""
    wanted = []
    for element in filter(None, (part.strip(" \t") for part in value.partition("=")[2].split(","))):
        if not re.fullmatch(r"\d+-\d*|-\d+", element):
            return None
        first, _, last = element.partition("-")
        start = int(first) if first else max(size - int(last), 0)
        end = min(int(last), size - 1) if first and last else size - 1
        if start <= end:
            wanted.append((start, end))
    return wanted


def positions(text):
    """The positions that a Content-Range tells, or None."""
    found = re.fullmatch(r"bytes (\d+)-(\d+)/(\d+)", text or "")
    return tuple(map(int, found.groups())) if found else None


def parts_of(fields, body):
    """The positions that each part of a 206 tells, and its bytes."""
    kind = fields["Content-Type"] or ""
    if not kind.startswith("multipart/byteranges"):
        return [(positions(fields["Content-Range"]), body)]
    boundary = fields.get_param("boundary").encode()
    parts = body.removeprefix(b"\r\n").removeprefix(b"--" + boundary + b"\r\n").removesuffix(b"\r\n--" + boundary + b"--\r\n")
    found = (part.partition(b"\r\n\r\n") for part in parts.split(b"\r\n--" + boundary + b"\r\n"))
    return [(positions(re.search(r"(?im)^content-range: *(.*?)\r?$", head.decode())[1]), content) for head, _, content in found]


def fault_of(parts, content, value):
    """What is wrong with the parts of a 206: each must have the bytes that it tells, and all together those that are asked for and no others."""
    places, wanted = set(), wanted_of(value, len(content))
    for told, sent in parts:
        if told is None or not told[0] <= told[1] < told[2] == len(content):
            return "bad Content-Range"
        if content[told[0]:told[1] + 1] != sent:
            return "wrong bytes"
        places.update(range(told[0], told[1] + 1))
    return None if wanted is None or places == {place for first, last in wanted for place in range(first, last + 1)} else "other ranges"


def say_reply(reply, method, content, value, allowed):
    """A reply in short: its status, Content-Range and length; and whether the bytes are not those of the file, or the status is not allowed."""
    status, fields, body = reply
    told, marks = fields["Content-Range"], []
    if status == 206 and method == "GET":
        parts = parts_of(fields, body)
        if len(parts) > 1 or "multipart" in (fields["Content-Type"] or ""):
            told = f"{len(parts)} parts " + " ".join(f"{part[0][0]}-{part[0][1]}" for part in parts[:4]) + " .." * (len(parts) > 4)
        marks.append(fault_of(parts, content, value))
    elif status == 200 and method == "GET" and body != content:
        marks.append("wrong bytes")
    if status not in allowed:
        marks.append("(!)")
    shown = [str(status), *([told.removeprefix("bytes ")] if told else []), f"{len(body):,}"]
    return ", ".join(shown) + "".join(f" **{mark}**" for mark in filter(None, marks))


def compare_ranges(servers):
    said_by = {server: server.get("/file")[1] for server in servers}
    rows, marked = [], collections.Counter()
    for asked, (allowed, section) in RANGES:
        method, path, content = "GET", "/file", CONTENT
        shown = asked
        if asked.startswith("HEAD "):
            method, asked = "HEAD", asked.removeprefix("HEAD ")
        if asked.startswith("EMPTY "):
            path, content, asked = "/empty", b"", asked.removeprefix("EMPTY ")
        row = []
        for server in servers:
            tag, date = said_by[server]["ETag"], said_by[server]["Last-Modified"]
            given = [line.replace("TAG", tag).replace("DATE", date or "Thu, 01 Jan 1970 00:00:00 GMT").split(": ", 1) for line in asked.split("; ")]
            reply = server.get(path, *given, method=method)
            row.append(say_reply(reply, method, content, given[0][1], allowed))
            marked[server] += "**" in row[-1]
        shown = re.sub(r"(?<==)\S{70,}", lambda value: f"0-0,2-2,.. ({value[0].count(',') + 1} of one byte)", shown)
        rows.append([f"`{shown}`", " or ".join(map(str, allowed)) + f" ({section})", *row])
    say_table("Ranges of a file of 10,000 bytes", ["Request", "RFC 9110 allows", *(server.title for server in servers)], rows)
    print("\n" + "; ".join(f"{server.title}: {marked[server]} of {len(rows)} marked" for server in servers))


def requests_of_connection(server, most=1_200):
    """How many requests one connection takes, or that it takes more than this."""
    if isinstance(server, Filehost):
        server.front.rest_of_programs()
    connection = http.client.HTTPConnection(HOST, server.port, timeout=PATIENCE)
    with contextlib.closing(connection):
        connection.connect()
        for count in range(1, most + 1):
            connection.request("GET", server.target("/file"))
            reply = connection.getresponse()
            reply.read()
            if reply.will_close:
                return f"{count:,}"
    return f"over {most:,}"


def put_larger(server):
    """What comes of a file that is one byte larger than filehost takes."""
    content = random_bytes("larger", LARGEST + 1)
    try:
        server.put("/larger", content)
    except Refusal as refusal:
        return str(refusal).partition(": ")[2]
    status, _, body = server.get("/larger")
    return f"{status}, {len(body):,}"


def compare_others(servers):
    rows = collections.defaultdict(list)
    for server in servers:
        _, fields, _ = server.get("/file")
        names = ("ETag", "Last-Modified", "Accept-Ranges", "Date")
        rows["GET: which of ETag, Last-Modified, Accept-Ranges, Date it has"].append(", ".join(name for name in names if fields[name]))
        for title, name, value in (("If-None-Match", "If-None-Match", fields["ETag"]), ("If-Modified-Since", "If-Modified-Since", fields["Last-Modified"])):
            status, _, body = server.get("/file", (name, value or "Tue, 14 Nov 2023 22:13:20 GMT"))
            rows[f"GET with {title} and what it said itself"].append(f"{status}, {len(body):,}")
        for method in ("POST", "PUT", "DELETE"):
            rows[f"{method} to a file"].append(server.get("/file", method=method)[0])
        check(server.get("/file")[2] == CONTENT, f"{server.title} after these methods")
        rows["GET of a file that isn't there"].append(server.get("/nothing")[0])
        rows["A file of 16 MiB and one byte"].append(put_larger(server))
        rows["Requests that one connection takes"].append(requests_of_connection(server))
    say_table("Other requests", ["Request", *(server.title for server in servers)], [[title, *row] for title, row in rows.items()])
