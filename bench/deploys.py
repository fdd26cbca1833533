"""What a deploy costs, each way, and what a reader sees of it meanwhile, for bench/compare."""

import collections
import contextlib
import http.client
import json
import os
import pathlib
import re
import statistics
import subprocess
import tempfile
import threading
import time

from servers import PATIENCE, Filehost, Reader, StoredHost, find
from tables import check, random_bytes, say_table, timed

FILES = 1_000
FILE = 4_096
CHANGED = 10
# How many clients send the files of a deploy at once.
CLIENTS = 8


def content_of(version, number):
    return f"{version} {number}\n".encode() + random_bytes(f"{version} {number}", FILE)[:FILE - len(f"{version} {number}\n")]


def version_of_site(version, numbers=range(FILES)):
    return {f"/f{number:04}.txt": content_of(version, number) for number in numbers}


def write_over(folder, files):
    """Writes over each file in its place, as cp does."""
    for path, content in files.items():
        (folder / path[1:]).write_bytes(content)


def rename_each(folder, files):
    """Writes each file under another name, and renames it."""
    for path, content in files.items():
        temporary = folder / "temporary"
        temporary.write_bytes(content)
        os.replace(temporary, folder / path[1:])


def sync(path):
    at = os.open(path, os.O_RDONLY)
    os.fsync(at)
    os.close(at)


class Releases:
    """A folder with a folder for each version, and the link `current` to one of them. Such deploys are made with nginx and caddy."""

    def __init__(self, folder):
        self.folder, self.count = folder, 0

    def new(self):
        self.count += 1
        made = self.folder / f"release-{self.count}"
        made.mkdir(parents=True)
        return made

    def switch(self, release):
        """Lets `current` be this release, by one renaming."""
        (self.folder / "next").symlink_to(release.name)
        os.replace(self.folder / "next", self.folder / "current")

    def deploy(self, files, is_synced=False):
        release = self.new()
        write_over(release, files)
        if is_synced:
            for path in files:
                sync(release / path[1:])
            sync(release)
        self.switch(release)
        if is_synced:
            sync(self.folder)
        return release

    def take_back(self, old, changed, newest):
        """Makes a release that is the newest one, except that what `changed` changed is as in `old`. Tells how many files were read for that."""
        release = self.new()
        count = 0
        for file in newest.iterdir():
            is_changed = (old / file.name).read_bytes() != (changed / file.name).read_bytes()
            count += 2
            os.link((old if is_changed else newest) / file.name, release / file.name)
        self.switch(release)
        return count


def rsync(source, releases, previous):
    """Sends a version by rsync, which links what the previous one has; the bytes that went each way."""
    release = releases.new()
    words = ["rsync", "--recursive", "--checksum", "--stats", f"--link-dest={previous.resolve()}", f"{source}/", f"{release}/"]
    said = subprocess.run(words, check=True, capture_output=True, text=True, timeout=60).stdout
    releases.switch(release)
    sent, received = (int(re.search(rf"Total bytes {way}: ([\d,]+)", said)[1].replace(",", "")) for way in ("sent", "received"))
    return release, sent + received


def new_filehost(stack, program, folder):
    return Filehost(stack, program, pathlib.Path(tempfile.mkdtemp(dir=folder)))


def bytes_of(filehost, work, *given):
    """What a deploy answers, the bytes of its requests and replies, and the seconds that it takes."""
    before = filehost.front.taken + filehost.front.given
    begun = time.perf_counter()
    answered = work(*given)
    return answered, filehost.front.taken + filehost.front.given - before, time.perf_counter() - begun


class Costs:
    """The seconds and the bytes of a first deploy, of a second one, and of taking a change back, each way."""

    def __init__(self, program, before):
        # The program, and an earlier build of it, if there is one to compare it with.
        self.program, self.before = program, before
        self.took, self.went = collections.defaultdict(list), {}
        self.first, self.changes, self.others = version_of_site(1), version_of_site(2, range(CHANGED)), version_of_site(3, range(CHANGED, 2 * CHANGED))
        self.second, self.third = self.first | self.changes, self.first | self.changes | self.others
        self.back = self.first | self.others
        # How many programs a deploy of all took, and what is answered to an undo of the first deploy.
        self.programs = self.clash = None

    def add(self, name, seconds, count):
        self.took[name].append(seconds)
        self.went[name] = count

    def list_before(self, room):
        """The first deploy by the earlier build."""
        if self.before:
            with contextlib.ExitStack() as stack:
                filehost = new_filehost(stack, self.before, room)
                _, count, seconds = bytes_of(filehost, filehost.deploy, self.first)
                self.add("first, filehost before", seconds, count)

    def list_whole(self, room):
        """Two deploys by filehost that list the whole site."""
        with contextlib.ExitStack() as stack:
            filehost = new_filehost(stack, self.program, room)
            _, count, seconds = bytes_of(filehost, filehost.deploy, self.first)
            self.add("first, filehost", seconds, count)
            self.programs = filehost.front.programs
            _, count, seconds = bytes_of(filehost, filehost.deploy, self.second)
            self.add("second, filehost, whole listing", seconds, count)

    def list_served(self, room):
        """The first deploy by `serve`, which takes files from several clients at once."""
        with contextlib.ExitStack() as stack:
            filehost = StoredHost(stack, self.program, pathlib.Path(tempfile.mkdtemp(dir=room)))
            begun = time.perf_counter()
            _, change = filehost.deploy_at_once(self.first, CLIENTS)
            self.add("first, filehost serve", time.perf_counter() - begun, None)
            check(change and all(filehost.get(path)[2] == content for path, content in self.first.items()), "a deploy by several clients")

    def patch_and_undo(self, room):
        """Two patches after the first deploy; the earlier one is undone."""
        with contextlib.ExitStack() as stack:
            filehost = new_filehost(stack, self.program, room)
            _, whole_change = filehost.deploy(self.first)
            (_, change), count, seconds = bytes_of(filehost, filehost.deploy, self.changes, True)
            self.add("second, filehost, patch", seconds, count)
            filehost.deploy(self.others, True)
            (status, told), count, seconds = bytes_of(filehost, filehost.tell, "sites/one/undo", {"change": change})
            self.add("back, filehost", seconds, count)
            check(status == 200 and all(filehost.get(path)[2] == content for path, content in self.back.items()), f"filehost's undo: {told}")
            self.clash = filehost.tell("sites/one/undo", {"change": whole_change})

    def copy_and_link(self, room):
        """The same by copies of files, and by links to those of the versions before."""
        releases = Releases(room / "plain")
        self.add("first, copied", timed(releases.deploy, self.first), sum(map(len, self.first.values())))
        synced = Releases(room / "synced")
        self.add("first, copied and synced", timed(synced.deploy, self.first, True), self.went["first, copied"])
        old = releases.folder / "release-1"
        self.add("second, copied whole", timed(releases.deploy, self.second), self.went["first, copied"])
        changed = releases.folder / "release-2"
        newest = releases.deploy(self.third)
        self.add("back, by links", timed(releases.take_back, old, changed, newest), 0)
        current = releases.folder / "current"
        check(all((current / path[1:]).read_bytes() == content for path, content in self.back.items()), "the release taken back")
        if find("rsync"):
            source = room / "source"
            source.mkdir()
            write_over(source, self.second)
            begun = time.perf_counter()
            _, count = rsync(source, releases, old)
            self.add("second, rsync", time.perf_counter() - begun, count)

    def rows(self):
        median = {name: statistics.median(seconds) for name, seconds in self.took.items()}
        base = "first, copied and synced"
        for title, name in (
            ("first: filehost", "first, filehost"),
            ("first: the earlier build of filehost", "first, filehost before"),
            (f"first: filehost serve, files sent over {CLIENTS} connections at once", "first, filehost serve"),
            ("first: copied to a new folder, link switched", "first, copied"),
            ("first: the same, each file synced", base),
            ("10 changed: filehost, listing of all 1,000", "second, filehost, whole listing"),
            ("10 changed: filehost, a patch that lists the 10", "second, filehost, patch"),
            ("10 changed: all copied to a new folder, link switched", "second, copied whole"),
            ("10 changed: rsync with `--checksum --link-dest`, link switched", "second, rsync"),
            ("taking back the change before the last: filehost, one undo", "back, filehost"),
            ("taking it back: a new folder of links, made by comparing the versions", "back, by links"),
        ):
            if name in self.took:
                yield [title, f"{median[name] * 1000:,.1f} ms", f"{median[name] / median[base]:.2f}", "-" if self.went[name] is None else f"{self.went[name]:,}"]


def compare_costs(program, before, folder, times):
    """Prints the medians of `times` runs. The ways take turns."""
    costs = Costs(program, before)
    for _ in range(times):
        room = pathlib.Path(tempfile.mkdtemp(dir=folder))
        for way in (costs.list_before, costs.list_whole, costs.list_served, costs.patch_and_undo, costs.copy_and_link):
            way(room)
    title = f"A deploy of {FILES:,} files of {FILE:,} bytes"
    say_table(title, ["What", "Time", "Against the synced copy", "Bytes sent and received"], costs.rows())
    print(f"\nA deploy of all took {costs.programs} programs, since a connection takes 100 requests. "
          f"Taking back the first deploy: {costs.clash[0]}, {json.dumps(costs.clash[1])}")


class Poller(threading.Thread):
    """Reads the first file of a site, the last, and the first again, over and over; both change in each version."""

    def __init__(self, server, prefix):
        super().__init__(daemon=True)
        self.server, self.prefix = server, prefix
        self.seen, self.ends, self.fault = collections.Counter(), threading.Event(), None

    def read(self, reader, path):
        """The version that the file has, or None if it is no version's file."""
        status, _, body = reader.ask("GET", self.server.target(self.prefix + path))
        version, _, rest = body.partition(b" ")
        number = int(path[2:6])
        return int(version) if status == 200 and version.isdigit() and content_of(int(version), number) == body else None

    def run(self):
        try:
            with contextlib.ExitStack() as stack:
                reader = Reader(stack, self.server.port)
                while not self.ends.is_set():
                    first, last, again = (self.read(reader, path) for path in ("/f0000.txt", f"/f{FILES - 1:04}.txt", "/f0000.txt"))
                    self.seen["reads"] += 1
                    if None in (first, last, again):
                        self.seen["torn"] += 1
                    elif first == again != last:
                        self.seen["mix"] += 1
                    elif first != again:
                        self.seen["switch"] += 1
        except (OSError, http.client.HTTPException) as fault:
            self.fault = fault

    def __enter__(self):
        self.start()
        return self.seen

    def __exit__(self, *_):
        self.ends.set()
        self.join(PATIENCE)
        check(self.fault is None and not self.is_alive(), f"a reader of {self.server.title}: {self.fault}")


def compare_views(filehost, folder_servers, times):
    """What a reader sees while versions of a site go online, one after another."""
    rows = []

    def see(server, title, prefix, deploy):
        deploy(version_of_site(1))
        versions = [version_of_site(version) for version in range(2, times + 2)]
        with Poller(server, prefix) as seen:
            for files in versions:
                deploy(files)
        rows.append([server.title, title, f"{seen['reads']:,}", *(f"{seen[what]:,}" for what in ("mix", "torn", "switch"))])

    see(filehost, "deploy by digest", "", filehost.deploy)
    for server in folder_servers:
        for way, title in ((write_over, "each file written over, as by `cp`"), (rename_each, "each file renamed into its place")):
            folder = server.root / way.__name__
            folder.mkdir()
            see(server, title, f"/{way.__name__}", lambda files: way(folder, files))
        releases = Releases(server.root / "site")
        see(server, "new folder, link switched", "/site/current", releases.deploy)
    say_table(f"A reader during {times} deploys of {FILES:,} files, all changed",
              ["Server", "Deploy", "Reads", "Old and new together", "No version's file", "Switch during the read"], rows)
