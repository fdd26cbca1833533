"""`site status`: whether the host answers, the last change, and what differs from a folder."""

from .commands import Call
from .naming import numbers_of
from .publishing import Asked, Publishing
from .settings import settings_of


def status(options, output):
    folder = options.word_DIR
    if options.retry is None:
        # It is to say whether the host answers now.
        options.retry = 0
    call = Call(options, output, folder or ".")
    numbers = numbers_of(call.site, call.record)
    last = numbers.changes[-1] if numbers.changes else None
    members = {
        "site": call.site.name, "address": call.site.address(), "answers": True,
        "last": last and {"change": last.number, "kind": last.kind, "live": last.is_live},
    }
    if last is None:
        lines = [f"{call.place} answers; {call.site.name} has no changes"]
    else:
        both = numbers.both(last.number)
        lines = [f"{call.place} answers; the last change of {call.site.name} is {last.number} ({last.kind}{'; ' + both if both else ''})"]
    if folder is not None:
        more, differences = differences_of(options, output, folder)
        members.update(more)
        lines += differences
    output.result(members, lines, is_wanted=True)


def differences_of(options, output, folder):
    """The members and the lines that say what differs between a folder and the site."""
    asked = Asked(folder, True, is_dry_run=True, uses_cache=not options.no_cache, jobs=options.jobs)
    plan = Publishing(settings_of(options, folder), asked, output).look()
    lines = [*plan.listed(), *(f"{'gone':8} {path}" for path in plan.stays), *(f"{'others':8} {path}" for path in plan.replaced)]
    counts = f"{len(plan.new):,} new, {len(plan.changed):,} changed, {len(plan.stays):,} gone from the folder, {plan.unchanged:,} unchanged"
    members = {
        "new": len(plan.new), "changed": len(plan.changed), "gone": len(plan.stays), "unchanged": plan.unchanged,
        "paths": {"new": plan.new, "changed": plan.changed, "gone": plan.stays},
    }
    return members, [*lines, counts]
