"""What a client has at the end if its download was cut, for bench/compare."""

import contextlib
import http.client
import subprocess

from servers import HOST, PATIENCE
from tables import LARGEST, random_bytes, say_table

CUT = 5_000_000
SOME_TIME = 1_700_000_000


def resume_by_hand(server, path, file, tag):
    """Asks for what is missing of the file under its tag, and returns the status and how many bytes came."""
    begun = file.read_bytes()
    status, _, body = server.get(path, ("Range", f"bytes={len(begun)}-"), ("If-Range", tag))
    if status in (200, 206):
        file.write_bytes(begun + body if status == 206 else body)
    return status, len(body)


def run_client(words, file):
    """The status that a client ends with, and by how many bytes the file has grown."""
    before = file.stat().st_size
    ran = subprocess.run(words, stdin=subprocess.DEVNULL, stdout=subprocess.DEVNULL, stderr=subprocess.DEVNULL, timeout=60)
    return f"exit {ran.returncode}", file.stat().st_size - before


def resume_by_curl(server, path, file, tag, *more):
    words = ["curl", "--disable", "--silent", "--noproxy", "*", "--max-time", "30", "--continue-at", "-", "--output", file]
    return run_client([*words, *more, f"http://{HOST}:{server.port}{server.target(path)}"], file)


def resume_by_curl_with_tag(server, path, file, tag):
    return resume_by_curl(server, path, file, tag, "--header", f"If-Range: {tag}")


def resume_by_wget(server, path, file, tag):
    words = ["wget", "--no-config", "--no-proxy", "--quiet", "--timeout", "30", "--tries", "1", "--continue", "--output-document", file]
    return run_client([*words, f"http://{HOST}:{server.port}{server.target(path)}"], file)


RESUMES = {
    "`curl -C -`": resume_by_curl,
    "`wget -c`": resume_by_wget,
    "`curl -C -` with `If-Range` and the tag": resume_by_curl_with_tag,
    "by hand, `Range` and `If-Range` with the tag": resume_by_hand,
}
# What happens between: what is put there, and whether it has the time of modification of what was there.
BETWEEN = {
    "nothing": None,
    "other bytes of the same length": ("new", 60),
    "other bytes of the same length and time": ("new", 0),
    "the same bytes again, later": ("old", 60),
}


def told_of(got, old, new):
    if got == old:
        return "old file, whole"
    if got == new:
        return "new file, whole"
    if got == old[:CUT]:
        return "nothing more"
    if got == old[:CUT] + new[CUT:]:
        return "**MIXED**"
    return f"**{len(got):,} other bytes**"


def resume(server, way, between, path, folder):
    """What a client has at the end, after its download was cut and resumed, and what came to it after the cut."""
    old, new = random_bytes(f"old {path}", LARGEST), random_bytes(f"new {path}", LARGEST)
    server.put(path, old, SOME_TIME)
    file = folder / "download"
    connection = http.client.HTTPConnection(HOST, server.port, timeout=PATIENCE)
    with contextlib.closing(connection):
        connection.request("GET", server.target(path))
        reply = connection.getresponse()
        tag = reply.headers["ETag"]
        file.write_bytes(reply.read(CUT))
    if BETWEEN[between]:
        which, seconds = BETWEEN[between]
        server.put(path, {"old": old, "new": new}[which], SOME_TIME + seconds)
    status, came = RESUMES[way](server, path, file, tag)
    return f"{told_of(file.read_bytes(), old, new)} ({status}, {came:,})"


def compare_resumes(servers, folder):
    rows = []
    for place, (between, way) in enumerate((between, way) for between in BETWEEN for way in RESUMES):
        rows.append([between, way, *(resume(server, way, between, f"/large-{place}", folder) for server in servers)])
    say_table(f"A download of 16 MiB, cut after {CUT:,} bytes and resumed", ["Put there meanwhile", "Resumed", *(server.title for server in servers)], rows)
