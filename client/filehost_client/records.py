"""What this client knows of a site and of a folder that it deploys there, from its own runs. The host is asked before anything here is relied on."""

import os

from .kept_files import KeptFile, key_of, state_folder

# How many deploys of a site are remembered; the list of changes has no more either.
REMEMBERED = 1_000


def members_of(value, kind):
    """The value of a record, if it is of this type, else an empty one: records are files that a user can edit."""
    return value if isinstance(value, kind) else kind()


class SiteRecord:
    """Which change published which deploy of a site, and which deploy each alias names, as this client was told."""

    def __init__(self, host, site, tell):
        self.file = KeptFile(os.path.join(state_folder(), "sites", f"{site}-{key_of(host, site)}.json"), tell)
        self.about = {"host": host, "site": site}

    def pairs(self):
        """The (deploy, change) that are known, the oldest first."""
        listed = members_of(self.file.read().get("deploys"), list)
        return [(pair[0], pair[1]) for pair in listed if isinstance(pair, list) and len(pair) == 2 and all(isinstance(one, int) for one in pair)]

    def note_deploy(self, deploy, change):
        with self.file.changed() as members:
            pairs = members_of(members.get("deploys"), list)
            members.update(self.about, deploys=[*pairs, [deploy, change]][-REMEMBERED:])

    def aliases(self):
        """The deploy that each alias names, as far as is known."""
        aliases = members_of(self.file.read().get("aliases"), dict)
        return {name: deploy for name, deploy in aliases.items() if isinstance(deploy, int)}

    def note_alias(self, name, deploy):
        """Notes that an alias names a deploy, or, with None, that it is gone."""
        with self.file.changed() as members:
            aliases = members_of(members.get("aliases"), dict)
            aliases.pop(name, None)
            members.update(self.about, aliases={**aliases, **({name: deploy} if deploy else {})})


def consistent(pairs, changes):
    """Of the pairs those that a site's changes bear out, by the number of the deploy and by that of the change: a host may have been emptied since."""
    kinds = {change.number: change.kind for change in changes}
    good = [(deploy, change) for deploy, change in pairs if kinds.get(deploy, "open") == "open" and kinds.get(change) in ("publish", "restore")]
    return dict(good), {change: deploy for deploy, change in good}


class FolderRecord:
    """What this client put to a site from one folder: the files with their digests, drafts that aren't published yet, and the deploy that is open."""

    def __init__(self, host, site, root, tell):
        self.file = KeptFile(os.path.join(state_folder(), "folders", f"{site}-{key_of(host, site, root)}.json"), tell)
        # In a file of its own, since it is written while the host waits.
        self.open_file = KeptFile(f"{self.file.place}.open", tell)
        self.about = {"host": host, "site": site, "folder": root}

    def running(self):
        """Holds the lock of a run over this folder. Raises WrongWords if another run has it."""
        return KeptFile(f"{self.file.place}.run", self.file.tell).locked(f"another `site` is deploying {self.about['folder']} to {self.about['site']}")

    def files(self):
        """The digest of each file that this client put to the site from this folder, by its path."""
        return {path: digest for path, digest in members_of(self.file.read().get("files"), dict).items() if isinstance(digest, str)}

    def note_files(self, put, removed, is_whole=False):
        """Notes files that were put, by their paths, and paths of files that were removed. A whole deploy leaves no other files."""
        with self.file.changed() as members:
            files = {} if is_whole else members_of(members.get("files"), dict)
            files.update(put)
            for path in removed:
                files.pop(path, None)
            members.update(self.about, files=files)

    def left_open(self):
        """The number of the deploy that a run opened and didn't end, and the number of the last change before it opened that; None for what isn't known."""
        told = self.open_file.read()
        return tuple(told[name] if isinstance(told.get(name), int) else None for name in ("open", "before"))

    def note_open(self, number, before=None):
        """Notes the deploy that is open, or, with its number None, that one is being opened after the change `before`, or that none is."""
        self.open_file.write({"open": number, "before": before})

    def note_draft(self, number, put, removed, is_whole):
        """Notes what a draft will put and remove once it is restored."""
        with self.file.changed() as members:
            drafts = members_of(members.get("drafts"), dict)
            members.update(self.about, drafts={**drafts, str(number): {"put": put, "removed": sorted(removed), "whole": is_whole}})

    def end_draft(self, number, is_published):
        """Notes that a draft was published or cancelled. Returns whether it is one of this folder."""
        draft = members_of(self.file.read().get("drafts"), dict).get(str(number))
        if not isinstance(draft, dict):
            return False
        if is_published:
            self.note_files(members_of(draft.get("put"), dict), members_of(draft.get("removed"), list), bool(draft.get("whole")))
        with self.file.changed() as members:
            members_of(members.get("drafts"), dict).pop(str(number), None)
        return True


def end_drafts(host, site, number, is_published, tell):
    """Notes that a draft was published or cancelled, in the record of the folder that it is of. Returns whether there is one."""
    folder = os.path.join(state_folder(), "folders")
    for name in sorted(os.listdir(folder)) if os.path.isdir(folder) else ():
        if not name.startswith(f"{site}-") or not name.endswith(".json"):
            continue
        place = os.path.join(folder, name)
        told = KeptFile(place, tell).read()
        if told.get("host") == host and told.get("site") == site and isinstance(told.get("folder"), str):
            record = FolderRecord(host, site, told["folder"], tell)
            if record.file.place == place and record.end_draft(number, is_published):
                return True
    return False
