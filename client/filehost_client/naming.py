"""The two numbers of a publishing, that of the deploy and that of the change, and a hint where one was given for the other."""

from .changes import parse_changes
from .errors import Refused, SiteError
from .records import consistent
from .refusals import clash_in_words


class Numbers:
    """What is known of a site's numbers, from the list of its changes and from this client's record."""

    def __init__(self, changes, record):
        self.changes = changes
        self.kinds = {change.number: change.kind for change in changes}
        self.change_of, self.deploy_of = consistent(record.pairs(), changes)

    def both(self, number):
        """`deploy 4, change 5` for either of the two, if both are known; `deploy 4` for one that was opened; else nothing."""
        if number in self.deploy_of:
            return f"deploy {self.deploy_of[number]}, change {number}"
        if number in self.change_of:
            return f"deploy {number}, change {self.change_of[number]}"
        return f"deploy {number}" if self.kinds.get(number) == "open" else ""


def numbers_of(site, record):
    return Numbers(site.changes(), record)


def explained_undo(error, number, site, record):
    """The refusal of an undo, in words that say what to do."""
    numbers = numbers_of_safe(site, record)
    if error.reason == "Clash":
        later = error.details.get("change")
        if error.details.get("cell") == f"draft {number}" and numbers.kinds.get(later) in ("publish", "restore", None):
            return Refused(f"{number} is the number of a deploy, and change {later} published it: site undo {later}", "Clash", error.details)
        return Refused(clash_in_words(error.details, number, numbers.kinds.get(later)), "Clash", error.details)
    if error.reason == "AlreadyUndone":
        undo = next((change.number for change in numbers.changes if change.undone == number), None)
        by = f", by change {undo}" if undo else ""
        return Refused(f"change {number} is undone already{by} (AlreadyUndone)", error.reason, error.details)
    if error.reason == "NoSuchChange":
        return Refused(f"{site.name} has no change {number}: site log lists them (NoSuchChange)", error.reason, error.details)
    return error


def explained_restore(error, number, site, record):
    """The refusal of a restore or another request with the number of a deploy, in words that say what to do."""
    numbers = numbers_of_safe(site, record)
    if error.reason == "NoSuchDeploy" and numbers.kinds.get(number) in ("publish", "restore"):
        if number in numbers.deploy_of:
            deploy = numbers.deploy_of[number]
            hint = f"{number} is the number of the change that published deploy {deploy}: give {deploy}"
        else:
            hint = f"{number} is the number of a change, and this takes that of a deploy: site log lists both"
        return Refused(f"{hint} (NoSuchDeploy)", error.reason, error.details)
    if error.reason == "NoSuchDeploy":
        return Refused(f"{site.name} keeps no deploy {number}: it was never opened, was cancelled, removed or undone, or is a push, which isn't kept "
                       "(NoSuchDeploy)", error.reason, error.details)
    if error.reason == "NoSuchDraft":
        return Refused(f"deploy {number} isn't open: it is published, cancelled or undone (NoSuchDraft)", error.reason, error.details)
    if error.reason == "NotComplete":
        return Refused(f"deploy {number} lacks a file, of the digest {error.details.get('digest')}: deploy the folder again (NotComplete)", error.reason,
                       error.details)
    if error.reason == "DeployInUse":
        alias = error.details.get("alias")
        return Refused(f"the alias {alias} names deploy {number}: move it first, or site alias {alias} --remove (DeployInUse)", error.reason, error.details)
    return error


def numbers_of_safe(site, record):
    """The numbers; none if the host can't be asked, since an error is told already."""
    try:
        return numbers_of(site, record)
    except SiteError:
        return Numbers(parse_changes({"changes": []}), record)
