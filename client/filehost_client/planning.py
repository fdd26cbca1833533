"""What a push or a deploy of a folder would send: the folder's files compared with what the site serves."""

from collections import namedtuple

from .errors import Unfit, WrongWords
from .names import LARGEST_LISTING, MOST_FILES, check_path, listing_size, number_of, shown


class Comparison(namedtuple("Comparison", "new changed unchanged gone replaced lost served")):
    """A folder compared with what a site serves.

    new, changed, unchanged  paths of the folder
    gone                     paths that the folder no longer has and the site serves as this client put them there from it
    replaced                 paths that the folder no longer has, where the site serves another file than this client put there
    lost                     paths that this client put there, and that neither the folder nor the site has
    served                   the digest of each path that was asked for and is served
    """

    __slots__ = ()


def compare(served, digests, put):
    """Compares the digests of a folder's files with those of what a site serves. `put` are those that this client put there from the folder earlier."""
    found = Comparison([], [], [], [], [], [], served)
    for path, digest in digests.items():
        (found.new if path not in served else found.unchanged if served[path] == digest else found.changed).append(path)
    for path, digest in put.items():
        if path not in digests:
            (found.lost if path not in served else found.gone if served[path] == digest else found.replaced).append(path)
    return found


class Plan(namedtuple("Plan", "listing is_patch new changed removed unchanged stays replaced")):
    """What is to be opened.

    listing                the digest of each path, None for one that is removed
    is_patch               whether other paths stay as they are
    new, changed, removed  the paths of the listing, by what comes of them
    unchanged              how many files are served already
    stays, replaced        paths that stay though the folder doesn't have them: files that this client put there, and those of others
    """

    __slots__ = ()

    def listed(self):
        """A line for each path that differs."""
        kinds = (("new", self.new), ("changed", self.changed), ("removed", self.removed))
        return [f"{kind:8} {path}" for kind, paths in kinds for path in paths]

    @property
    def put(self):
        """The digest of each path that the plan puts to the site."""
        return {path: digest for path, digest in self.listing.items() if digest}


def check_removals(paths, digests):
    """The paths that --remove names. Raises WrongWords if one isn't a path, or is that of a file of the folder."""
    checked = [check_path(path) for path in paths]
    if both := [path for path in checked if path in digests]:
        raise WrongWords(f"--remove {shown(both[0])}: the folder has this file, so it would be sent and removed at once")
    return checked


def plan_push(found, digests, named, removes_gone):
    """The patch that sends what differs, and removes the named paths and, if it may, what the folder no longer has. Raises Unfit if it is too large."""
    removed = sorted({*(path for path in named if path in found.served), *(found.gone if removes_gone else ())})
    listing = {path: digests[path] for path in sorted(found.new + found.changed)}
    listing.update(dict.fromkeys(removed))
    stays = [path for path in found.gone if path not in listing]
    replaced = [path for path in found.replaced if path not in listing]
    plan = Plan(listing, True, found.new, found.changed, removed, len(found.unchanged), stays, replaced)
    check_listing(plan)
    return plan


def plan_deploy(found, digests):
    """The deploy of all files, after which the site serves no others. Raises Unfit if it is too large."""
    plan = Plan(digests, False, found.new, found.changed, [*found.gone, *found.replaced], len(found.unchanged), [], [])
    check_listing(plan)
    return plan


def check_listing(plan):
    """Raises Unfit if a host doesn't take a listing."""
    problems = []
    if len(plan.listing) > MOST_FILES:
        problems.append(f"{number_of(len(plan.listing), 'path')} would be listed, and a deploy lists at most {MOST_FILES:,}: push a part of them first")
    size = listing_size(plan.listing, patch=True, draft=True)
    if size > LARGEST_LISTING:
        problems.append(f"the list of the files has {size:,} bytes, and a host takes at most {LARGEST_LISTING:,}: shorten their paths, or leave some out")
    if problems:
        raise Unfit(problems)
