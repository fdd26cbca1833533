"""A site of a host: what it serves, and each change of it."""

from .changes import last_number, made_since, parse_changes, publishing_of, undo_of
from .deploy import Deploy
from .errors import BadReply, Refused, UnknownOutcome, WrongWords
from .names import DIGEST, check_path, check_site, fault_of_path, in_target
from .refusals import raise_for
from .workers import each

# How many files at least are asked for over one connection: as many requests as a host takes over it.
FEW = 100
PAGE = "/index.html"


class Site:
    """A site by its name. `host.site("one")` makes it; it needn't be there yet.

    Paths may lack their leading slash. The calls that make a change return the number of that change, by which it can be undone. All raise what the
    calls of Host raise: Refused with the host's reason, Unreachable, and UnknownOutcome if the reply to a change was lost for good.
    """

    def __init__(self, host, name):
        self.host = host
        self.name = name

    def address(self, path="/"):
        """The URL at which a file is read."""
        return self.host.read_address.url(self.target(path))

    def target(self, path, deploy=None, alias=None):
        """The target of a read: of what the site serves, or of a deploy or an alias."""
        place = f"/d/{self.name}/{deploy}" if deploy else f"/a/{self.name}/{alias}" if alias else f"/s/{self.name}"
        return place + in_target(path)

    def interface(self, rest):
        return f"/api/v1/sites/{self.name}/{rest}"

    # What there is.

    def digests(self, paths, deploy=None, alias=None, jobs=1, told=lambda: None):
        """The SHA-1 digest of the file at each of these paths, in 40 digits; a path without a file isn't in the result. They are asked for over `jobs`
        connections at most, and `told` is called after each."""
        paths = list(paths)
        found = {}

        def ask(part):
            asked = iter(part)

            def answered(reply):
                path = next(asked)
                if digest := self.digest_in(reply, path):
                    found[path] = digest
                told()

            self.host.ask_heads([self.target(path, deploy, alias) for path in part], answered)

        size = max(FEW, -(-len(paths) // jobs))
        each([paths[start:start + size] for start in range(0, len(paths), size)], ask, jobs, self.host.waiting.ended)
        return found

    def digest_in(self, reply, path):
        """The digest that the reply to a HEAD tells, or None if there is no file. Raises what else the reply says."""
        if reply.status == 404:
            return None
        if reply.status == 200 and DIGEST.fullmatch(reply.tag or ""):
            return reply.tag
        if reply.status == 200:
            raise BadReply(f"{self.address(path)} is answered without a digest as its tag: look at --host and --read")
        raise_for(reply, self.host.read_address)

    def digest(self, path, deploy=None, alias=None):
        """The digest of the file at this path, or None if there is none."""
        path = check_path(path)
        return self.digests([path], deploy, alias).get(path)

    def changes(self):
        """The last changes, at most 1,000, the oldest first: a list of Change."""
        return parse_changes(self.host.get(self.interface("changes")))

    def has_alias(self, name):
        """Whether the site has an alias of this name."""
        check_site(name, "an alias")
        try:
            self.host.ask("GET", self.target("/.no-such-file", alias=name), at_read=True)
        except Refused as error:
            return error.reason != "NoSuchAlias"
        return True

    # Changes.

    def open(self, files, patch=False, draft=False, before=None):
        """Opens a deploy of these files, and returns the Deploy, whose `required` says which contents the host lacks.

        files   for each path its digest; in a patch None if the file there is to be removed
        patch   whether the paths that aren't listed stay as they are
        draft   whether only a restore publishes the deploy
        before  the number of the last change before, if that is known; else it is asked for
        """
        before = self.last() if before is None else before

        def find():
            changes = self.changes()
            number = made_since(changes, before, "open")
            if number is None:
                return None
            if (required := Deploy.required_now(self.host, number)) is None:
                # Nothing was lacking, so it is published.
                return {"id": str(number), "published": publishing_of(changes, number), "required": []}
            if not set(required) <= set(files.values()):
                raise UnknownOutcome(f"the reply was lost, and deploy {number} was opened by another client since. Look: site log")
            return {"id": str(number), "published": None, "required": required}

        body = {"files": files}
        if patch:
            body["patch"] = True
        if draft:
            body["draft"] = True
        told = self.host.change("POST", self.interface("deploys"), body, find)
        try:
            number, published, required = int(told["id"]), told["published"], [str(digest) for digest in told["required"]]
        except (KeyError, TypeError, ValueError):
            raise BadReply(f"{self.host.address} answers otherwise than a filehost to the opening of a deploy") from None
        return Deploy(self, number, files, required, published, patch, draft)

    def undo(self, number):
        """Takes a change back. If it was undone meanwhile by a request whose reply was lost, that counts. Refused as Clash: `details` has what is in the
        way, as `change` and `cell`."""

        def find():
            undo = undo_of(self.changes(), number)
            return undo and {"entry": undo}

        return self.entry(self.host.change("POST", self.interface("undo"), {"change": number}, find))

    def restore(self, deploy):
        """Serves a deploy of this number again, or publishes an open one."""
        def agrees(_):
            return not self.is_kept(deploy) or self.digest("/index.html", deploy=deploy) == self.digest("/index.html")

        return self.make("restore", "POST", f"deploys/{deploy}/restore", None, agrees)

    def set_alias(self, name, deploy):
        """Lets an alias name a deploy that was published whole."""
        def agrees(_):
            return self.digest("/index.html", deploy=deploy) == self.digest("/index.html", alias=name)

        return self.make("alias", "PUT", f"aliases/{check_site(name, 'an alias')}", {"deploy": deploy}, agrees)

    def remove_alias(self, name):
        """Removes an alias."""
        return self.make("unalias", "DELETE", f"aliases/{check_site(name, 'an alias')}", None, lambda _: not self.has_alias(name))

    def rename(self, old, new):
        """Renames a file."""
        old, new = check_path(old), check_path(new)
        found = self.digest(old)
        body = {"from": old, "to": new}
        return self.make("rename", "POST", "rename", body, lambda _: self.digests([old, new]) == {new: found})

    def rename_folder(self, old, new):
        """Renames a folder: all files below it. Neither path has a slash at its end."""
        old, new = check_path(old), check_path(new)
        # Whether a renaming whose reply was lost was this one is told by the page of the folder. If it has none, nothing tells.
        pages = [page for page in (old + PAGE, new + PAGE) if not fault_of_path(page)]
        moved = {new + PAGE: digest for page, digest in self.digests(pages).items() if page == old + PAGE}
        return self.make("rename-folder", "POST", "rename-folder", {"from": old, "to": new}, lambda _: moved and self.digests(pages) == moved)

    def remove(self, path):
        """Removes a file."""
        path = check_path(path)
        return self.make("remove", "DELETE", "files" + in_target(path), None, lambda _: self.digest(path) is None)

    def cancel(self, deploy):
        """Cancels an open deploy. Raises WrongWords if it is one of another site."""
        self.check_owner(deploy)
        return self.make("cancel", "POST", f"/api/v1/deploys/{deploy}/cancel", None, lambda _: Deploy.required_now(self.host, deploy) is None)

    def delete(self, deploy):
        """Removes a deploy that was published whole. Raises WrongWords if it is one of another site."""
        self.check_owner(deploy)
        return self.make("delete", "DELETE", f"/api/v1/deploys/{deploy}", None, lambda _: not self.is_kept(deploy))

    def make(self, kind, method, rest, body, agrees):
        """Sends a change, and returns its number. `agrees` says of the only change of this kind since whether the site is as this request leaves it."""
        before = self.last()

        def find():
            number = made_since(self.changes(), before, kind)
            if number is not None and not agrees(number):
                raise UnknownOutcome(f"the reply was lost, and change {number} may be another client's. Look: site log")
            return number and {"entry": number}

        target = rest if rest.startswith("/") else self.interface(rest)
        return self.entry(self.host.change(method, target, body, find))

    def last(self):
        """The number of the last change, from which a lost one is looked for."""
        return last_number(self.changes())

    def entry(self, members):
        try:
            return int(members["entry"])
        except (KeyError, TypeError, ValueError):
            raise BadReply(f"{self.host.address} answers otherwise than a filehost to a change") from None

    def state(self, deploy):
        """The state of a deploy as the host tells it, with `site`, `state` and `required`; None if it is neither open nor kept."""
        return Deploy.state_of(self.host, deploy)

    def is_kept(self, deploy):
        state = self.state(deploy)
        return state is not None and state.get("state") == "kept"

    def check_owner(self, deploy):
        state = self.state(deploy)
        if state and state.get("site") not in (None, self.name):
            raise WrongWords(f"deploy {deploy} is one of the site {state['site']}: --site {state['site']}")
