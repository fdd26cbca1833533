"""What a host, or a proxy in front of it, says when it doesn't do what it is asked, in words that say what to do."""

import re

from .errors import BadReply, Refused, WrongWords
from .names import shown

# A proxy answers these if it can't reach the host, or if too many requests come.
OF_PROXIES = (429, 502, 503, 504)
# The reads that these refuse are refused again, so they aren't sent again.
LOST_FILES = ("Missing", "Damaged")

TEXTS = {
    "NoSuchFile": "there is no such file",
    "NoSuchDeploy": "there is no such deploy: it was never opened, or was cancelled, removed or undone, or is a patch that is published",
    "NoSuchAlias": "the site has no such alias",
    "NoSuchChange": "the site has no change of this number",
    "NotAChange": "this is itself an undo, which can't be undone: restore or deploy again instead",
    "AlreadyUndone": "this change is undone already",
    "PathTaken": "there is a file at the new path already: remove it first",
    "SamePath": "the two paths are the same",
    "NestedFolder": "one of the two folders is in the other",
    "PathTooLong": "a file would get a path of over 1,024 bytes: choose a shorter name",
    "TooManyFiles": "a deploy lists at most 10,000 files",
    "HistoryFull": "the host's history is full: it takes no more changes",
    "NotListed": "the deploy doesn't list this path",
    "WrongDigest": "the file has other bytes than the deploy lists",
    "BadName": "the host doesn't take this name",
    "BadPath": "the host doesn't take this path",
    "BodyTooLarge": "the host doesn't take as many bytes",
    "Missing": "the host has lost a part of this file: restore its store from a copy",
    "Damaged": "a part of this file is damaged on the host: restore its store from a copy",
    "Device": "the host's disk failed, or is full",
    "Broken": "the host's disk failed earlier, or was full, so it takes no changes until it is started again",
    "OutOfMemory": "the host ran out of memory",
}


def reason_of(reply):
    """The name of a refusal by a filehost, or None if the reply isn't one."""
    told = reply.members()
    reason = told and told.get("error")
    return reason if isinstance(reason, str) and re.fullmatch(r"[A-Za-z]{2,40}", reason) else None


def is_passing(reply):
    """Whether the same request may be answered later: the host is busy, down or broken for now."""
    return reply.status in OF_PROXIES and reason_of(reply) not in LOST_FILES


def words_of(reply):
    """What a reply that isn't one of success says, in a few words."""
    reason = reason_of(reply)
    if reason:
        return f"{TEXTS[reason]} ({reason})" if reason in TEXTS else reason
    return f"it answers with the status {reply.status}"


def raise_for(reply, place):
    """Raises what a reply says that isn't one of success: Refused, WrongWords or BadReply."""
    told = reply.members() or {}
    reason = reason_of(reply)
    if reason:
        raise Refused(words_of(reply), reason, {name: value for name, value in told.items() if name != "error"})
    if reply.status in (401, 407):
        raise Refused(f"{place} asks for a login: --user NAME, or an entry in ~/.netrc", f"HTTP{reply.status}")
    if 300 <= reply.status < 400:
        where = shown(reply.fields.get("location", "elsewhere"))[:200]
        raise WrongWords(f"{place} sends its clients on to {where}: give that name to --host", "Redirect")
    if reply.status == 413:
        raise Refused(f"a proxy in front of {place} takes no file so large: raise its limit to 16 MiB (nginx: client_max_body_size 16m)", "HTTP413")
    if 400 <= reply.status < 500 and reply.status != 404:
        raise Refused(f"{place}, or a proxy in front of it, refuses this with the status {reply.status}", f"HTTP{reply.status}")
    raise BadReply(f"{place} answers with the status {reply.status}, and not as a filehost does: look at --host and its prefix")


def clash_in_words(details, undone, kind=None):
    """A Clash, as told by the host: which later change is in the way of undoing `undone`, at what, and what to do first."""
    cell, later = str(details.get("cell", "")), details.get("change")
    who = f"change {later} ({kind})" if kind else f"change {later}"
    what, _, name = cell.partition(" ")
    meets = {
        "live": f"touches {shown(name)}, which change {undone} wrote",
        "kept": f"uses deploy {name}, which change {undone} published or removed",
        "alias": f"sets or reads the alias {shown(name)}, which change {undone} set",
        "draft": f"published or cancelled deploy {name}, which change {undone} opened",
    }
    return f"{who} {meets.get(what, f'touches {shown(cell)}')}; undo {later} first"
