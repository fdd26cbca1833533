"""Names, paths and numbers as a host takes them (docs/HTTP.md, "Targets"), and how they are shown in a line."""

import json
import re

from .errors import WrongWords

LARGEST_FILE = 16_777_216
LARGEST_LISTING = 4_194_304
MOST_FILES = 10_000
LONGEST_PATH = 1_024
LAST_NUMBER = 1_000_000
PREVIEW = "-preview"
NO_SEGMENTS = frozenset(("", ".", ".."))

SITE = re.compile(r"[a-z0-9-]{1,63}", re.ASCII)
PLAIN = re.compile(r"[A-Za-z0-9_.~/-]+", re.ASCII)
DIGEST = re.compile(r"[0-9a-f]{40}", re.ASCII)
# Compiled for the first text that needs it: this takes longer than to compile all the others.
UNSAFE = r"[\x00-\x1f\x7f-\x9f\u2028\u2029\ud800-\udfff]"


def shown(text):
    """The text in one line: without characters that a terminal obeys or can't print."""
    return text if text.isprintable() else re.sub(UNSAFE, lambda found: repr(found[0])[1:-1], text)


def number_of(count, word, words=None):
    """A count with its word, such as `1 file` and `1,200 files`."""
    return f"{count:,} {word if count == 1 else words or word + 's'}"


def check_site(name, what="a site"):
    """Returns the name of a site or an alias. Raises WrongWords if it isn't one."""
    if not SITE.fullmatch(name):
        raise WrongWords(f"{shown(name)!r} is not the name of {what}, which has 1 to 63 of a-z, 0-9 and -")
    return name


def check_number(text, what):
    """Returns the number that a text says. Raises WrongWords if it isn't from 1 to 1,000,000."""
    if not re.fullmatch(r"[1-9][0-9]{0,6}", text, re.ASCII) or int(text) > LAST_NUMBER:
        raise WrongWords(f"{shown(text)!r} is not the number of {what}, which is from 1 to {LAST_NUMBER:,}")
    return int(text)


def fault_of_path(path):
    """Why a host doesn't take a path with its leading slash, or None if it does."""
    try:
        length = len(path.encode())
    except UnicodeEncodeError:
        return "its name isn't UTF-8: rename it"
    if length > LONGEST_PATH:
        return f"its path has {length:,} bytes, and a path has at most {LONGEST_PATH:,}: shorten its name or move it up"
    if wrong := re.search(r"[#?\\]", path):
        return f"its name has a {wrong[0]}, which no path on a site has: rename it"
    if "\0" in path or not NO_SEGMENTS.isdisjoint(path[1:].split("/")):
        return "it isn't a path: no part of one is empty, . or .."
    return None


def check_path(text):
    """Returns a path with its leading slash. Raises WrongWords if no site has such a path."""
    path = "/" + text[1:] if text.startswith("/") else "/" + text
    if fault := fault_of_path(path):
        raise WrongWords(f"{shown(text)!r} can't be on a site: {fault}")
    return path


def listing_size(files, **members):
    """How many bytes the body has that lists these files, each path with its digest."""
    return len(json.dumps({"files": files, **members}, ensure_ascii=False, separators=(",", ":")).encode("utf-8", "surrogatepass"))


def in_target(path):
    """A path as the end of a target: all but slashes and the unreserved characters of RFC 3986, section 2.3, is percent-encoded."""
    if PLAIN.fullmatch(path):
        return path
    return "".join(chr(byte) if PLAIN.fullmatch(chr(byte)) else f"%{byte:02X}" for byte in path.encode())
