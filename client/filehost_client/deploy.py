"""A deploy that was opened: what the host lacks of it, the uploads, and how it ends."""

from .connection import FileBody
from .errors import BadReply, ChangedMeanwhile, Refused, UnknownOutcome
from .names import in_target, shown

BYTES = (("Content-Type", "application/octet-stream"),)


class Deploy:
    """A deploy of a site, as `site.open` returns it.

    number     its number, by which it is restored
    files      for each path its digest, or None where a patch removes the file
    required   the digests that the host lacked when it was opened
    published  the number of the change that published it, by which that is undone; None as long as it isn't published
    """

    def __init__(self, site, number, files, required, published, is_patch, is_draft):
        self.site = site
        self.host = site.host
        self.number = number
        self.files = files
        self.required = required
        self.published = published
        self.is_patch = is_patch
        self.is_draft = is_draft

    def upload(self, path, content, open_file=None):
        """Uploads the file at a path: its bytes, or their number and a function that opens the file.

        Raises ChangedMeanwhile if it isn't the listed file any more, and what the calls of Host raise.
        """
        body = content if open_file is None else FileBody(content, open_file, lambda: changed(path))
        try:
            reply = self.host.ask("PUT", f"/api/v1/deploys/{self.number}/files{in_target(path)}", body, BYTES)
        except Refused as error:
            if error.reason == "WrongDigest":
                raise changed(path) from None
            # A patch that an earlier attempt published is gone.
            if error.reason == "NoSuchDeploy" and self.is_patch and self.settle():
                return
            raise
        members = reply.members()
        if members is None or members.get("sha") != self.files[path]:
            raise BadReply(f"{self.host.address} answers otherwise than a filehost to an upload")
        self.published = members.get("published") or self.published

    def settle(self):
        """Looks whether the deploy is published, and notes by which change, if that can be told. Returns whether it is."""
        if self.published:
            return True
        state = self.state_of(self.host, self.number)
        if state and state.get("state") == "open":
            return False
        changes = [change for change in self.site.changes() if change.number > self.number]
        published = [change.number for change in changes if change.kind in ("publish", "restore")]
        ended = [change.number for change in changes if change.kind in ("cancel", "delete") or change.undone == self.number]
        if not state and ended:
            if published:
                raise UnknownOutcome(f"deploy {self.number} was published, or cancelled by another client. Look: site log")
            return False
        if len(published) == 1:
            self.published = published[0]
        return bool(state or published)

    def finish(self):
        """Publishes the deploy if all is uploaded and no reply has told that it is published. Returns whether it is now.

        The host publishes it with the last upload. If it ran out of memory or was stopped just then, the deploy stays open.
        """
        if self.is_draft or self.settle():
            return not self.is_draft
        self.published = self.site.restore(self.number)
        return True

    def cancel(self):
        """Cancels the deploy, if it is still open. Returns the number of that change, or None if it was published or gone already."""
        try:
            return self.site.cancel(self.number)
        except Refused as error:
            if error.reason in ("NoSuchDraft", "NoSuchDeploy"):
                return None
            raise

    @staticmethod
    def state_of(host, number):
        """The members that the host tells of a deploy, or None if it is neither open nor kept."""
        try:
            return host.get(f"/api/v1/deploys/{number}")
        except Refused as error:
            if error.reason == "NoSuchDeploy":
                return None
            raise

    @classmethod
    def required_now(cls, host, number):
        """The digests that an open deploy lacks now, or None if it isn't open."""
        state = cls.state_of(host, number)
        return list(state.get("required", [])) if state and state.get("state") == "open" else None


def changed(path):
    return ChangedMeanwhile(path, f"{shown(path)} was changed while it was being deployed (WrongDigest)")
