"""A push, a deploy or a preview of a folder, from its first look at the files to the line that says what happened."""

import os
import time
from collections import namedtuple

from .changes import made_since
from .deploy import Deploy
from .digests import Contents, DigestCache, hash_files
from .errors import SiteError, UnknownOutcome, Unreachable
from .folder import check_folder, read_folder
from .kept_files import KeptFile, cache_folder, key_of
from .names import number_of, shown
from .planning import check_removals, compare, plan_deploy, plan_push
from .progress import size_of
from .records import FolderRecord, SiteRecord
from .uploads import sources_of, upload_all

# How long an interrupted command tries to cancel its deploy.
CANCEL_SECONDS = 10
# How many paths are named in a line.
NAMED = 10


class Asked(namedtuple("Asked", "place is_push is_draft is_dry_run deletes removes alias uses_cache jobs again",
                       defaults=(False, False, False, (), None, True, 8, None))):
    """What a command asks for: the folder, whether it is a push, its options, and a function that tells the command by which it can go on."""

    __slots__ = ()


class Publishing:
    """One such command. `run` raises what its parts raise; the deploy that it opened is cancelled then, if the host can be reached."""

    def __init__(self, settings, asked, output):
        self.settings = settings
        self.asked = asked
        self.output = output
        self.host = settings.make_host(self.tell_waiting)
        self.site = self.host.site(settings.site)
        # What `read` finds: the folder, the paths of --remove, the digest and the size of each file, and the records.
        self.folder = self.named = self.digests = self.sizes = self.record = self.site_record = None
        # The bytes of small files that are to be uploaded.
        self.contents = Contents()
        self.deploy = None
        # The number of the last change before the deploy was opened, as soon as it is being opened.
        self.before = None
        self.sent_files = self.sent_bytes = 0

    def tell_waiting(self, why):
        self.output.note(f"{self.host.address} doesn't answer ({why}): trying again for {self.host.waiting.seconds:g} s")

    def run(self):
        """Does it, and prints what came out."""
        self.read()
        if self.asked.is_dry_run:
            return self.report(self.plan(), is_done=False)
        with self.record.running():
            self.cancel_left_over()
            plan = self.plan()
            if not (plan.is_patch and not plan.listing):
                self.publish(plan)
        return self.report(plan, is_done=self.deploy is not None)

    def look(self):
        """The plan of what would be sent."""
        self.read()
        return self.plan()

    def read(self):
        """Reads and hashes the files of the folder, and opens the records that belong to it."""
        asked = self.asked
        self.folder = read_folder(asked.place)
        check_folder(self.folder, asked.place, is_whole=not asked.is_push)
        self.named = check_removals(asked.removes, self.folder.files)
        self.record = FolderRecord(str(self.host.address), self.site.name, self.folder.root, self.output.note)
        self.site_record = SiteRecord(str(self.host.address), self.site.name, self.output.note)
        hashed = self.hash(self.folder)
        self.digests = {path: hashed[path][0] for path in self.folder.files}
        self.sizes = {path: hashed[path][1] for path in self.folder.files}

    def hash(self, folder):
        """The digest and the size of each file."""
        store = None
        if self.asked.uses_cache:
            store = KeptFile(os.path.join(cache_folder(), f"digests-{key_of(folder.root)}.json"), self.output.note)
        progress = self.output.progress
        progress.begin("hashing", len(folder.files), sum(file.size for file in folder.files.values()))
        try:
            contents = None if self.asked.is_dry_run else self.contents
            return hash_files(folder.files, DigestCache(store), self.host.waiting.ended, progress.file_done, contents)
        finally:
            progress.end()

    def plan(self):
        """What is to be sent. If the folder lacks files that it put to the site, somebody is asked whether these are to be removed."""
        put = self.record.files()
        # A site without changes serves nothing. For any other the host is asked path by path.
        served = self.served({**self.digests, **put, **dict.fromkeys(self.named)}) if self.site.changes() else {}
        found = compare(served, self.digests, put)
        if not self.asked.is_push:
            return plan_deploy(found, self.digests)
        missing = [path for path in self.named if path not in found.served]
        if missing:
            self.output.note(f"the site doesn't serve {names(missing)}, so nothing is removed there")
        removes = self.asked.deletes
        if found.gone and not removes and not self.asked.is_dry_run and self.output.can_ask():
            removes = self.output.ask(f"remove from the site {number_of(len(found.gone), 'file')} that the folder no longer has? {names(found.gone)}")
        if found.lost and not self.asked.is_dry_run:
            self.record.note_files({}, found.lost)
        return plan_push(found, self.digests, self.named, removes)

    def served(self, paths):
        """The digests that the site serves at these paths."""
        progress = self.output.progress
        progress.begin("comparing", len(paths))
        try:
            return self.site.digests(paths, jobs=self.asked.jobs, told=progress.file_done)
        finally:
            progress.end()

    def cancel_left_over(self):
        """Cancels the deploy that the last run from this folder left open, if it can be that one."""
        noted, before = self.record.left_open()
        # A run that was stopped while it opened a deploy didn't note its number. Then this may be one of another client.
        number = noted if noted or before is None else opened_since(self.site, before)
        if number is None:
            return
        state = self.site.state(number)
        if state and state.get("state") == "open" and state.get("site") == self.site.name:
            known = {*self.digests.values(), *self.record.files().values()}
            required = set(state.get("required", []))
            if not noted or not required or not required <= known:
                self.output.note(f"deploy {number} is open, perhaps by an earlier run: `site cancel {number}` ends it")
            elif self.site.cancel(number):
                self.output.note(f"cancelled deploy {number}, which the last run left open")
        self.record.note_open(None)

    def publish(self, plan):
        """Opens the deploy, uploads what the host lacks, and notes what the site has then."""
        asked = self.asked
        began = time.monotonic()
        try:
            self.before = self.site.last()
            self.record.note_open(None, self.before)
            self.deploy = self.site.open(plan.listing, plan.is_patch, asked.is_draft, self.before)
            self.record.note_open(self.deploy.number)
            sources = sources_of(self.deploy, self.folder.files, self.sizes)
            upload_all(self.deploy, sources, self.contents, asked.jobs, self.output.progress)
            self.deploy.finish()
        except BaseException as error:
            self.end(error)
            raise
        self.sent_files, self.sent_bytes = len(sources), sum(size for _, _, size in sources)
        self.seconds = time.monotonic() - began
        self.note(plan)
        if asked.alias:
            self.set_alias(asked.alias)

    def set_alias(self, name):
        """Lets an alias name the deploy, which remains whatever comes of that."""
        try:
            self.site.set_alias(name, self.deploy.number)
        except SiteError:
            self.output.say(f"deploy {self.deploy.number}, change {self.deploy.published} is published, and the alias {name} isn't set")
            raise
        self.site_record.note_alias(name, self.deploy.number)

    def note(self, plan):
        """Notes in the records what was published, or what a draft would publish."""
        deploy = self.deploy
        if self.asked.is_draft:
            self.record.note_draft(deploy.number, plan.put, plan.removed, not plan.is_patch)
        else:
            self.record.note_files(plan.put, plan.removed, not plan.is_patch)
            if deploy.published:
                self.site_record.note_deploy(deploy.number, deploy.published)
        self.record.note_open(None)

    def end(self, error):
        """Cancels the deploy after an error or an interrupt, and says so. If the host is away, the next run does it."""
        if isinstance(error, (Unreachable, UnknownOutcome)):
            if self.deploy:
                self.output.note(f"deploy {self.deploy.number} is open; what was uploaded isn't sent again. Go on: {self.asked.again()}")
            return
        self.host.cut()
        try:
            if self.deploy or isinstance(error, KeyboardInterrupt):
                self.cancel()
            else:
                self.record.note_open(None)
        except SiteError as fault:
            number = self.deploy.number if self.deploy else "that was being opened"
            self.output.say(f"deploy {number} may still be open ({fault}): `site log` shows it, and `site cancel N` ends it")

    def cancel(self):
        """Cancels the deploy by a connection of its own, since an interrupt ends those that are in use."""
        site = self.settings.make_host(retry=CANCEL_SECONDS).site(self.site.name)
        if self.deploy:
            number = self.deploy.number
        elif self.before is None or (number := opened_since(site, self.before)) is None:
            return
        elif not set(Deploy.required_now(site.host, number) or ()) <= set(self.digests.values()):
            self.output.say(f"deploy {number} may be the one that was being opened: `site cancel {number}` ends it")
            return
        deploy = Deploy(site, number, {}, [], None, self.asked.is_push, self.asked.is_draft)
        if deploy.cancel():
            self.output.say(f"cancelled deploy {number}: the site is as before")
        elif deploy.settle():
            change = f", as change {deploy.published}: `site undo {deploy.published}` takes it back" if deploy.published else ""
            self.output.say(f"deploy {number} is published already{change}")
        self.record.note_open(None)

    def report(self, plan, is_done):
        """Prints what happened, or what would."""
        asked, deploy = self.asked, self.deploy
        members = {
            "site": self.site.name, "address": self.site.address(), "deploy": deploy and deploy.number, "change": deploy and deploy.published,
            "draft": asked.is_draft, "dry_run": asked.is_dry_run, "alias": asked.alias, "new": len(plan.new), "changed": len(plan.changed),
            "removed": len(plan.removed), "unchanged": plan.unchanged, "sent_files": self.sent_files, "sent_bytes": self.sent_bytes,
            "left_out": self.folder.left_out + self.folder.ignored, "stays": plan.stays,
            "paths": {"new": plan.new, "changed": plan.changed, "removed": plan.removed},
        }
        self.tell_what_stays(plan)
        self.output.result(members, self.lines(plan, is_done))

    def tell_what_stays(self, plan):
        """Notices about what was left out of the folder, and what stays on the site."""
        if self.folder.left_out:
            self.output.note(f"left out {self.folder.left_out:,}: hidden names, links that lead elsewhere, and anything that is not a file")
        if plan.stays:
            self.output.note(f"{number_of(len(plan.stays), 'file stays', 'files stay')} on the site that the folder no longer has: {names(plan.stays)}; "
                             f"--delete removes {'it' if len(plan.stays) == 1 else 'them'}")
        if plan.replaced:
            self.output.note(f"{number_of(len(plan.replaced), 'file')} of the site that the folder no longer has were changed by others, and stay: "
                             f"{names(plan.replaced)}; --remove PATH removes one")

    def lines(self, plan, is_done):
        count = len(plan.new) + len(plan.changed) + len(plan.removed)
        counts = f"{len(plan.new):,} new, {len(plan.changed):,} changed, {len(plan.removed):,} removed, {plan.unchanged:,} unchanged"
        if plan.is_patch and not plan.listing:
            return [f"nothing differs: {number_of(plan.unchanged, 'file')} at {self.site.address()}"]
        if not is_done:
            return [*plan.listed(), f"{counts}; nothing was sent (--dry-run)"]
        sent = f"{number_of(self.sent_files, 'file')} sent, {size_of(self.sent_bytes)} in {self.seconds:.1f} s"
        return [*(plan.listed() if count <= NAMED else ()), f"{counts}; {sent}", *self.last_lines()]

    def last_lines(self):
        """The number to take it back by, and the address."""
        deploy, change = self.deploy, self.deploy.published
        if self.asked.is_draft:
            return [f"deploy {deploy.number} is a draft: `site restore {deploy.number}` publishes it, `site cancel {deploy.number}` drops it"]
        lines = [f"deploy {deploy.number}" + (f", change {change}: `site undo {change}` takes it back" if change else ": see `site log` for its change")]
        if not deploy.is_patch:
            lines[0] += f", `site restore {deploy.number}` serves it again"
        if self.asked.alias:
            lines.append(f"{self.asked.alias} names deploy {deploy.number}: {self.host.read_address.url(self.site.target('/', alias=self.asked.alias))}")
        return [*lines, self.site.address()]


def opened_since(site, before):
    """The number of the one deploy that was opened since a change, or None."""
    try:
        return made_since(site.changes(), before, "open")
    except UnknownOutcome:
        return None


def names(paths):
    """Paths in a line: the first ones, and how many more there are."""
    more = f" and {len(paths) - NAMED:,} more" if len(paths) > NAMED else ""
    return ", ".join(map(shown, paths[:NAMED])) + more
