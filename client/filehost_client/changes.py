"""The list of a site's changes, and what it shows of a request whose reply was lost."""

from collections import namedtuple

from .errors import BadReply, UnknownOutcome

# The list has the last changes, at most this many.
LISTED = 1_000


class Change(namedtuple("Change", "number kind is_live undone", defaults=(True, None))):
    """A line of the list: its number, its kind, whether it is in effect (an undo always is), and which change an undo undid, else None."""

    __slots__ = ()


def parse_changes(members):
    """The changes in a reply, the oldest first. Raises BadReply if it has none of the form that docs/HTTP.md gives."""
    try:
        return [Change(int(told["entry"]), str(told["kind"]), told.get("live") is not False, told.get("of")) for told in members["changes"]]
    except (KeyError, TypeError, ValueError):
        raise BadReply("the list of changes isn't one of a filehost") from None


def last_number(changes):
    return changes[-1].number if changes else 0


def made_since(changes, before, kind):
    """The number of the one change of this kind after the number `before`, or None if there is none.

    Raises UnknownOutcome if there are several, since another client may have made one of them, or if the list doesn't go back as far.
    """
    if len(changes) >= LISTED and changes[0].number > before + 1:
        raise UnknownOutcome("the reply was lost, and there were too many changes since. Look: site log")
    found = [change.number for change in changes if change.number > before and change.kind == kind]
    if len(found) > 1:
        numbers = ", ".join(map(str, found))
        raise UnknownOutcome(f"the reply was lost, and several such changes were made since: {numbers}. Look: site log")
    return found[0] if found else None


def undo_of(changes, number):
    """The number of the undo of a change, or None if it isn't undone."""
    return next((change.number for change in reversed(changes) if change.undone == number), None)


def publishing_of(changes, deploy):
    """The number of the change that published a deploy, which is known to be published; None if several may have."""
    found = [change.number for change in changes if change.number > deploy and change.kind in ("publish", "restore") and change.is_live]
    return found[0] if len(found) == 1 else None
