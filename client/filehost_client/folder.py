"""The files of a folder that a site consists of."""

import os
import stat
from collections import namedtuple

from .errors import Unfit, WrongWords
from .names import LARGEST_FILE, LARGEST_LISTING, MOST_FILES, fault_of_path, listing_size, number_of, shown
from .settings_file import NAME as SETTINGS_FILE

IGNORE_FILE = ".siteignore"
# Files of this client, which aren't counted as left out.
OWN_FILES = (IGNORE_FILE, SETTINGS_FILE)
# How long a digest is.
DIGITS = 40


class LocalFile(namedtuple("LocalFile", "path place size modified changed inode")):
    """A file: its path on the site, its place, and what the system says of it."""

    __slots__ = ()

    @classmethod
    def of(cls, path, place, told):
        return cls(path, place, told.st_size, told.st_mtime_ns, told.st_ctime_ns, told.st_ino)


class Folder:
    """What was found in a folder.

    root      its real place
    files     the files by their paths on the site, in the order of these
    left_out  how many names were left out for what they are, and `ignored`, how many by a `.siteignore`
    problems  a line for each name that can't be read
    """

    def __init__(self, root):
        self.root = root
        self.files = {}
        self.left_out = self.ignored = 0
        self.problems = []


def is_hidden(name):
    return name.startswith(".") and name != ".well-known"


def read_folder(place):
    """Finds the files in a folder and the folders below it. Raises WrongWords if it isn't a folder that can be read.

    Left out are names that begin with a dot, except .well-known; links that lead out of the folder, to such a name or to a folder; anything that isn't a
    file; and what a `.siteignore` says.
    """
    root = os.path.realpath(place)
    if not os.path.isdir(root):
        raise WrongWords(f"there is no folder {shown(os.fspath(place))}")
    folder = Folder(root)
    waiting = [("", [])]
    while waiting:
        below, rules = waiting.pop()
        try:
            with os.scandir(os.path.join(root, below)) as found:
                entries = list(found)
            rules = rules + own_rules(root, below, entries)
        except OSError as error:
            folder.problems.append(f"/{shown(below)} can't be read: {error.strerror}")
            continue
        for entry in entries:
            if entry.name not in OWN_FILES:
                look_at(folder, entry, below, rules, waiting)
    folder.files = dict(sorted(folder.files.items()))
    return folder


def own_rules(root, below, entries):
    """The rules of the `.siteignore` that is in a folder itself."""
    if not any(entry.name == IGNORE_FILE and entry.is_file() for entry in entries):
        return []
    from .ignore import rules_of  # Most folders have no such file.
    with open(os.path.join(root, below, IGNORE_FILE), encoding="utf-8", errors="surrogateescape") as file:
        return rules_of(file.read(), below)


def is_ignored(rules, path, is_folder):
    """Whether the last rule that matches a path, without a slash at its front, leaves it out."""
    return next((not rule.is_kept for rule in reversed(rules) if rule.matches(path, is_folder)), False)


def look_at(folder, entry, below, rules, waiting):
    """Takes one name of a folder as a file, as a folder to be looked into, or leaves it out."""
    path = below + entry.name
    try:
        is_folder = entry.is_dir(follow_symlinks=False)
        if is_hidden(entry.name):
            folder.left_out += 1
        elif rules and is_ignored(rules, path, is_folder):
            folder.ignored += 1
        elif is_folder:
            waiting.append((path + "/", rules))
        elif (is_link_inside(folder.root, entry.path) if entry.is_symlink() else entry.is_file()):
            folder.files["/" + path] = LocalFile.of("/" + path, entry.path, entry.stat())
        else:
            folder.left_out += 1
    except OSError as error:
        folder.problems.append(f"/{shown(path)} can't be read: {error.strerror}")


def is_link_inside(root, place):
    """Whether a link leads to a file in the folder that isn't hidden."""
    real = os.path.realpath(place)
    if not real.startswith(os.path.join(root, "")) or any(map(is_hidden, os.path.relpath(real, root).split(os.sep))):
        return False
    try:
        return stat.S_ISREG(os.stat(real).st_mode)
    except OSError:
        return False


def check_folder(folder, place, is_whole):
    """Raises Unfit with all that keeps the files of a folder from being deployed: of a whole site also their number and their list."""
    problems = list(folder.problems)
    for path, file in folder.files.items():
        if fault := fault_of_path(path):
            problems.append(f"{shown(path)}: {fault}")
        if file.size > LARGEST_FILE:
            problems.append(f"{shown(path)} has {file.size:,} bytes, and a file has at most {LARGEST_FILE:,}: leave it out by a line in {IGNORE_FILE}")
    if is_whole and len(folder.files) > MOST_FILES:
        problems.append(f"there are {number_of(len(folder.files), 'file')}, and a deploy has at most {MOST_FILES:,}: leave some out by {IGNORE_FILE}")
    size = listing_size(dict.fromkeys(folder.files, "0" * DIGITS), patch=True, draft=True)
    if is_whole and size > LARGEST_LISTING:
        problems.append(f"the list of the files has {size:,} bytes, and a host takes at most {LARGEST_LISTING:,}: shorten their paths, or leave some out")
    if not folder.files and not problems:
        problems.append(f"there is no file to deploy in {shown(os.fspath(place))}")
    if problems:
        raise Unfit(problems)
