"""What each command of `site` does, but for those that send a folder: it asks the host, and prints what came out."""

import sys

from .errors import Refused, WrongWords
from .names import check_path, check_site, shown
from .naming import explained_restore, explained_undo, numbers_of
from .progress import size_of
from .records import SiteRecord, end_drafts
from .settings import settings_of


class Call:
    """A command's site, its record and its output."""

    def __init__(self, options, output, folder="."):
        self.options = options
        self.output = output
        settings = settings_of(options, folder)
        self.host = settings.make_host(self.tell_waiting)
        self.site = self.host.site(settings.site)
        self.place = str(self.host.address)
        self.record = SiteRecord(self.place, self.site.name, output.note)

    def tell_waiting(self, why):
        if self.host.waiting.seconds:
            self.output.note(f"{self.host.address} doesn't answer ({why}): trying again for {self.host.waiting.seconds:g} s")


def log(options, output):
    call = Call(options, output)
    numbers = numbers_of(call.site, call.record)
    listed = numbers.changes[::-1][:options.n]
    width = len(str(listed[0].number)) if listed else 1
    lines, members = [], []
    for change in listed:
        state = f"of change {change.undone}" if change.undone else "live" if change.is_live else "undone"
        lines.append(f"{change.number:{width}}  {change.kind:8} {state:14} {numbers.both(change.number)}".rstrip())
        members.append({
            "change": change.number, "kind": change.kind, "live": change.is_live, "undoes": change.undone,
            "deploy": numbers.deploy_of.get(change.number, change.number if change.kind == "open" else None),
        })
    output.result({"site": call.site.name, "changes": members}, lines or [f"{call.site.name} has no changes"], is_wanted=True)


def undo(options, output):
    call, number = Call(options, output), options.word_N
    try:
        made = call.site.undo(number)
    except Refused as error:
        raise explained_undo(error, number, call.site, call.record) from None
    both = numbers_of(call.site, call.record).both(number) or f"change {number}"
    output.result({"site": call.site.name, "undone": number, "change": made}, [f"{both} is undone, by change {made}", call.site.address()])


def restore(options, output):
    call, number = Call(options, output), options.word_N
    try:
        made = call.site.restore(number)
    except Refused as error:
        raise explained_restore(error, number, call.site, call.record) from None
    # If it was a draft, this published it.
    if end_drafts(call.place, call.site.name, number, True, output.note):
        call.record.note_deploy(number, made)
    members = {"site": call.site.name, "deploy": number, "change": made, "address": call.site.address()}
    output.result(members, [f"deploy {number} is served, by change {made}: `site undo {made}` takes that back", call.site.address()])


def alias(options, output):
    name, number = options.word_NAME, options.word_N
    if options.remove and (not name or number):
        raise WrongWords("--remove takes the name of one alias: site alias NAME --remove")
    call = Call(options, output)
    if name:
        check_site(name, "an alias")
    if options.remove:
        made = call.site.remove_alias(name)
        call.record.note_alias(name, None)
        return output.result({"site": call.site.name, "alias": name, "deploy": None, "change": made}, [f"the alias {name} is removed, by change {made}"])
    if number is None:
        return show_aliases(call, name)
    try:
        made = call.site.set_alias(name, number)
    except Refused as error:
        raise explained_restore(error, number, call.site, call.record) from None
    call.record.note_alias(name, number)
    address = call.host.read_address.url(call.site.target("/", alias=name))
    members = {"site": call.site.name, "alias": name, "deploy": number, "change": made, "address": address}
    return output.result(members, [f"{name} names deploy {number}, by change {made}: `site undo {made}` takes that back", address])


def show_aliases(call, name):
    """Shows one alias, or all that this client has set and that are there."""
    known = call.record.aliases()
    found = []
    for one in [name] if name else sorted(known):
        if call.site.has_alias(one):
            found.append((one, known.get(one), call.host.read_address.url(call.site.target("/", alias=one))))
    if name and not found:
        raise Refused(f"{call.site.name} has no alias {name} (NoSuchAlias)", "NoSuchAlias")
    lines = [f"{one}  " + (f"deploy {deploy}, as this client set it" if deploy else "a deploy that this client doesn't know") + f"  {address}"
             for one, deploy, address in found]
    members = {"site": call.site.name, "aliases": [{"alias": one, "deploy": deploy, "address": address} for one, deploy, address in found]}
    call.output.result(members, lines or ["this client has set no alias that is still there; the host doesn't list others"], is_wanted=True)


def mv(options, output):
    is_folder = options.word_FROM.endswith("/")
    old, new = (check_path(word.removesuffix("/") if is_folder else word) for word in (options.word_FROM, options.word_TO))
    call = Call(options, output)
    made = call.site.rename_folder(old, new) if is_folder else call.site.rename(old, new)
    end = "/" if is_folder else ""
    told = {"from": old + end, "to": new + end, "change": made}
    done(call, told, f"{told['from']} is now {told['to']}, by change {made}: `site undo {made}` takes that back")


def rm(options, output):
    path = check_path(options.word_PATH)
    call = Call(options, output)
    made = call.site.remove(path)
    done(call, {"path": path, "change": made}, f"{path} is removed, by change {made}: `site undo {made}` brings it back")


def cancel(options, output):
    call, number = Call(options, output), options.word_N
    try:
        made = call.site.cancel(number)
    except Refused as error:
        raise explained_restore(error, number, call.site, call.record) from None
    end_drafts(call.place, call.site.name, number, False, output.note)
    done(call, {"deploy": number, "change": made}, f"deploy {number} is cancelled, by change {made}")


def delete(options, output):
    call, number = Call(options, output), options.word_N
    try:
        made = call.site.delete(number)
    except Refused as error:
        raise explained_restore(error, number, call.site, call.record) from None
    done(call, {"deploy": number, "change": made}, f"deploy {number} is removed, by change {made}: `site undo {made}` brings it back")


def done(call, members, line):
    call.output.result({"site": call.site.name, **members}, [line])


def get(options, output):
    from .download import download
    path, place = check_path(options.word_PATH), options.output
    to_stream = place in (None, "-")
    if to_stream and (options.resume or options.json):
        raise WrongWords(f"{'--resume' if options.resume else '--json'} needs a file: -o FILE")
    if to_stream and sys.stdout.isatty():
        # The file is shown there.
        output.progress.is_quiet = True
    call = Call(options, output)
    try:
        digest, size = download(call.site, path, place, output.progress, options.deploy, options.resume, sys.stdout.buffer if to_stream else None)
    except Refused as error:
        where = f"deploy {options.deploy}" if options.deploy else call.site.name
        if error.reason == "NoSuchFile":
            raise Refused(f"{where} has no file {shown(path)} (NoSuchFile)", error.reason, error.details) from None
        raise explained_restore(error, options.deploy, call.site, call.record) if options.deploy else error from None
    if not to_stream:
        done(call, {"path": path, "file": place, "digest": digest, "bytes": size}, f"{place}: {size_of(size)}, {digest}")
