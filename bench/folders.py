"""What bench/run measures of renamings of folders: requests over one connection to a store, and openings of stores."""

import contextlib
import hashlib
import json
import subprocess

from processes import answer, answer_all, list_changes
from streams import request, write_store

SITE = "/api/v1/sites/one"
# All files of these stores are this one.
CONTENT = b"hello"
DIGEST = hashlib.sha1(CONTENT).hexdigest()
FILES = 10_000
DEPTH = 500
# How many small changes are undone at once, of paths that are so many folders deep, and how many renamings come after them.
UNDOS, SMALL_DEPTH, RENAMINGS = 45, 20, 1_000
# A connection takes 100 requests, and a turn makes up to three of them.
MOST_TURNS = 32


def opening(paths):
    """The opening of a patch that lists the file at these paths."""
    return "open", "one", ("patch",), tuple((path, DIGEST) for path in sorted(paths))


def patch(number, paths):
    """The same under its number, with its publishing."""
    return [opening(paths), ("publish", "one", number)]


def renaming(source, target):
    return "rename-folder", "one", source, target


def write_files(folder, name, entries):
    """Writes a store that has these entries and the file, and the request that lists the last of them."""
    store, stream = write_store(folder, name, entries)
    (store / f"c-{DIGEST}").write_bytes(CONTENT)
    (store / f"t-{DIGEST}").write_bytes(len(CONTENT).to_bytes(8, "big") + bytes.fromhex(DIGEST))
    return store, stream


@contextlib.contextmanager
def opened(program, store):
    """A program that has opened the store."""
    with subprocess.Popen([program, "solo", "--store", store], stdin=subprocess.PIPE, stdout=subprocess.PIPE) as running:
        list_changes(running, "none")
        yield running
        running.stdin.close()


def enter(running, target, **members):
    """The number of the entry that a request makes, and the seconds that it takes."""
    body, took = answer(running, "POST", f"{SITE}/{target}", json.dumps(members).encode() if members else None)
    return json.loads(body)["entry"], took


def rename(running, source, target):
    return enter(running, "rename-folder", **{"from": source, "to": target})


def measure_renamings(program, folder, times):
    """The seconds of each renaming of a folder of 10,000 files, and of each undo of it."""
    store, _ = write_files(folder, "renamed", patch(1, [f"/docs/{number}" for number in range(FILES)]))
    renamed, undone = [], []
    with opened(program, store) as running:
        for _ in range(min(times, MOST_TURNS)):
            number, took = rename(running, "/docs", "/guide")
            renamed.append(took)
            undone.append(enter(running, "undo", change=number)[1])
    return renamed, undone


def measure_deep_undos(program, folder, name, paths, times):
    """The seconds of each undo of a patch of these paths, after which another folder was renamed."""
    store, _ = write_files(folder, name, [opening(paths), *patch(2, ["/k/x"])])
    seconds, source, target = [], "/k", "/l"
    with opened(program, store) as running:
        for _ in range(min(times, MOST_TURNS)):
            number, _ = enter(running, "deploys/1/restore")
            rename(running, source, target)
            source, target = target, source
            seconds.append(enter(running, "undo", change=number)[1])
    return seconds


def deep_paths(is_in_one_folder):
    """10,000 paths that are 500 folders deep: in one folder, or each in a first folder of its own."""
    if is_in_one_folder:
        return [f"{'/a' * DEPTH}/{number:05}" for number in range(FILES)]
    return [f"/{number:05}{'/a' * (DEPTH - 1)}/x" for number in range(FILES)]


def measure_small_undos(program, folder, later, times):
    """The seconds of an undo of the renaming of a file, after which a thousand other renamings of its site came: of a folder, or of a file."""
    deep = "/a" * SMALL_DEPTH
    first = patch(1, ["/k/x", *(f"{deep}/{number}" for number in range(UNDOS))])
    small = [("rename", "one", f"{deep}/{number}", f"{deep}/to-{number}") for number in range(UNDOS)]
    there_and_back = ("/k", "/l") if later == "rename-folder" else ("/k/x", "/l/x")
    others = [(later, "one", *there_and_back[::1 if number % 2 else -1]) for number in range(1, RENAMINGS + 1)]
    entries = [*first, *small, *others]
    undos = [request("POST", f"{SITE}/undo", b'{"change":%d}' % number) for number in range(len(first) + 1, len(first) + UNDOS + 1)]
    last = b'{"entry":%d}' % (len(entries) + UNDOS)
    seconds = []
    for turn in range(times):
        store, _ = write_files(folder, f"small-{later}-{turn}", entries)
        with opened(program, store) as running:
            seconds.append(answer_all(running, undos, last) / UNDOS)
    return seconds


def renamings_and_undos(count):
    """`count` entries: deploys of a file in each of many folders, renamings of all these, and then their undos, the earliest first."""
    first = [entry for start in (1, 3) for entry in patch(start, [f"/f{number}/x" for number in range(start * FILES, (start + 1) * FILES)])]
    folders = [path.removesuffix("/x") for entry in first[::2] for path, _ in entry[3]][:(count - len(first)) // 2]
    renamings = [renaming(name, f"/to{name}") for name in folders]
    numbers = range(len(first) + 1, len(first) + len(renamings) + 1)
    return [*first, *renamings, *(("undo", "one", number) for number in numbers)]


def aliases(count):
    """`count` entries: a deploy without files is published, and all others move an alias to it, each another one."""
    return [("open", "one", (), ()), ("publish", "one", 1), *(("alias", "one", f"n{number}", 1) for number in range(3, count + 1))]
